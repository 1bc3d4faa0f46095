"""Writes a log of the lock operations of a program that isn't changed. In gdb:

    gdb -q -batch -x tools/record.py --args PROGRAM WORDS..

The log goes to the file that the environment names in DIM_LOG (`log` where it names none), with at most as many lines as DIM_LINES says
(1,000,000 where it says nothing); behind the last of them the program goes on unwatched. docs/services.md has the log's format, and
tools/README.md what is seen and what isn't."""
import os
import re

import gdb

# The deepest frames that are told of a stack, and the functions with which a stack ends or that only pass a call on.
MOST_FRAMES = 64
OUTERMOST = {"start_thread", "__libc_start_call_main", "__libc_start_main", "__libc_start_main_impl", "clone", "clone3", "_start"}
PASSED_ON = re.compile(r"^_*(mtx|thrd|pthread)_")


def register(name):
    return int(gdb.parse_and_eval("$" + name).cast(gdb.lookup_type("unsigned long")))


def caller():
    """The number of the thread at work."""
    return gdb.selected_thread().num


def spot(frame):
    """A frame as FUNCTION:LINE, without spaces. Where no source is known, the line is the offset in the function."""
    line = frame.find_sal().line
    name = frame.name()
    if name is None:
        name, line = "at", frame.pc()
    elif line == 0:
        line = frame.pc() - (frame.function().value().address if frame.function() else frame.pc())
    return "%s:%d" % (re.sub(r"\s+", "_", name), int(line))


def stack():
    """The frames behind the call at which the program stands, innermost first."""
    spots, frame = [], gdb.newest_frame().older()
    while frame is not None and frame.is_valid() and len(spots) < MOST_FRAMES:
        name = frame.name() or ""
        if name in OUTERMOST:
            break
        if not (PASSED_ON.match(name) and not spots):
            spots.append(spot(frame))
        frame = frame.older()
    return " ".join(spots) or "unknown:0"


class Log:
    """The log, and what is to be known between two of its lines."""

    def __init__(self, name, most):
        self.file, self.left = open(name, "w"), most
        self.breakpoints = []
        # The thread that each handle of pthreads names, and for each thread that is just starting another where its handle will stand.
        self.threads, self.starting = {}, {}
        self.joined = set()

    def say(self, *words):
        if self.left > 0:
            self.file.write(" ".join(str(it) for it in words) + "\n")
            self.left -= 1
            if self.left == 0:
                self.file.flush()
                for it in self.breakpoints:
                    it.enabled = False

    def began(self, event):
        """A new thread: its starter is the one thread that is just starting one. Where there are more, nobody is told."""
        waiting = [it for it, call in self.starting.items() if call["child"] is None]
        if len(waiting) == 1:
            child = event.inferior_thread.num
            self.starting[waiting[0]]["child"] = child
            self.say(waiting[0], "start", child)


class Returned(gdb.FinishBreakpoint):
    """Tells what a call answered."""

    def __init__(self, then):
        super().__init__(gdb.newest_frame(), internal=True)
        self.silent, self.then = True, then

    def stop(self):
        self.then(register("rax"))
        return False


class At(gdb.Breakpoint):
    """Stands at a function, and tells of each call."""

    def __init__(self, function, call):
        super().__init__(function, internal=True)
        self.silent, self.call = True, call
        log.breakpoints.append(self)

    def stop(self):
        self.call()
        return False


def lock():
    log.say(caller(), "lock", "%x" % register("rdi"), stack())


def unlock():
    log.say(caller(), "unlock", "%x" % register("rdi"), stack())


def try_lock():
    thread, name, spots = caller(), "%x" % register("rdi"), stack()
    Returned(lambda answer: log.say(thread, "trylock", name, int(answer & 0xFFFFFFFF == 0), spots))


def wait():
    """A wait for a condition frees its lock, and takes it again."""
    thread, name, spots = caller(), "%x" % register("rsi"), stack()
    log.say(thread, "unlock", name, spots)
    Returned(lambda answer: log.say(thread, "lock", name, spots))


def start():
    thread, handle = caller(), register("rdi")
    log.starting[thread] = {"child": None}

    def started(answer):
        child = log.starting.pop(thread, {"child": None})["child"]
        if answer & 0xFFFFFFFF == 0 and child is not None:
            log.threads[int(gdb.parse_and_eval("*(unsigned long *)%d" % handle))] = child

    Returned(started)


def join():
    thread, other = caller(), log.threads.get(register("rdi"))

    # One call may go through both functions.
    def joined(answer):
        if answer & 0xFFFFFFFF == 0 and other not in log.joined:
            log.joined.add(other)
            log.say(thread, "join", other)

    if other is not None:
        Returned(joined)


for setting in ("pagination off", "breakpoint pending on", "print thread-events off", "debuginfod enabled off", "print inferior-events off"):
    try:
        gdb.execute("set " + setting, to_string=True)
    except gdb.error:
        pass
log = Log(os.environ.get("DIM_LOG", "log"), int(os.environ.get("DIM_LINES", "1000000")))
gdb.execute("start", to_string=True)
gdb.events.new_thread.connect(log.began)
for functions, call in (
    (("pthread_mutex_lock",), lock),
    (("pthread_mutex_unlock",), unlock),
    (("pthread_mutex_trylock", "pthread_mutex_timedlock", "pthread_mutex_clocklock"), try_lock),
    (("pthread_cond_wait", "pthread_cond_timedwait", "pthread_cond_clockwait"), wait),
    (("pthread_create",), start),
    (("pthread_join", "thrd_join"), join),
):
    for function in functions:
        At(function, call)
gdb.execute("continue", to_string=True)
log.file.close()
