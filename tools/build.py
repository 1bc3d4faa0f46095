#!/usr/bin/env python3
"""build.py [PROGRAM]: proves and builds a program of this repository, dim where none is named. Crates that don't stand on each other are
proved side by side.

Each crate that the program stands on is made into a library by `rt lib`, once those below it are there, and the program at last by `rt run`
(both by way of rt_once.py). One crate at a time is proved in the repository itself, first those with the longest chain of others behind
them, with a job for each processor. The others are proved in copies of its sources, with half as many and at a lower priority, so that they
take the time that the first leaves. The copies lie in a folder for what passes and are gone at the end: rt lets one command work in a
folder at a time. What a crate stands on is put there before, as it was made, and what was proved in a copy is put back. How many there are
at once goes by the processors and the memory.

What is at work is told on standard error, and all that rt says stands in out/build.log of the program's crate."""
import os
import pathlib
import shutil
import signal
import subprocess
import sys
import tempfile
import time

ROOT = pathlib.Path(__file__).resolve().parent.parent
PROGRAM = sys.argv[1] if len(sys.argv) > 1 else "dim"
OUT = ROOT / "crates" / PROGRAM / "out"
LOG = OUT / "build.log"
# By how much the priority of what is proved in a copy is lower: a third of the time, so that the chain isn't held up by what it needs next.
LOWER = 5
# What a proof takes with one job, and for each further one.
BYTES, BYTES_MORE = 2_500_000_000, 1_500_000_000


def rt_words():
    """The words that start rt: its own, where it is the kit's, by way of rt_once.py, which saves it minutes."""
    rt = os.path.realpath(shutil.which("rt") or "rt")
    if os.path.isfile(os.path.join(os.path.dirname(rt), "rtlib.py")):
        return [sys.executable, str(ROOT / "tools" / "rt_once.py"), rt]
    return ["rt"]


def listed():
    """The crates that crates.txt lists, each with its line."""
    lines = (line.split("#")[0] + "\n" for line in (ROOT / "crates.txt").read_text().splitlines())
    return [(line.split(":")[0].split()[0], line) for line in lines if ":" in line]


def crates_below(program):
    """The crates that the program stands on and itself, each with those that it names."""
    named = {name: line.partition(":")[2].split() for name, line in listed()}
    found, left = {}, [program]
    while left:
        name = left.pop()
        if name not in found:
            found[name] = [it for it in named[name] if it in named]
            left += found[name]
    return found


def sources(name):
    """The files of a crate that a proof reads."""
    return [it for part in ("src", "specs", "proofs") for it in sorted((ROOT / "crates" / name / part).rglob("*")) if it.is_file()]


def chains(crates):
    """How much is to be proved from each crate on, along the longest chain of crates that stand on one another, in bytes of text."""
    own = {it: sum(file.stat().st_size for file in sources(it)) for it in crates}
    above = {it: [other for other in crates if it in crates[other]] for it in crates}
    found = {}

    def chain(name):
        if name not in found:
            found[name] = own[name] + max([chain(it) for it in above[name]], default=0)
        return found[name]

    return {it: chain(it) for it in crates}


def free_memory():
    """The bytes of memory that are free, where the system tells."""
    try:
        for line in open("/proc/meminfo"):
            if line.startswith("MemAvailable:"):
                return int(line.split()[1]) * 1024
    except OSError:
        pass
    return 0


def copied(crates, folder):
    """A copy of the sources, in which one more crate can be proved."""
    folder.mkdir()
    for name in crates:
        (folder / "crates" / name).mkdir(parents=True)
        for file in sources(name):
            copy = folder / file.relative_to(ROOT)
            copy.parent.mkdir(parents=True, exist_ok=True)
            shutil.copyfile(file, copy)
    shutil.copyfile(ROOT / "HANDLES", folder / "HANDLES")
    (folder / "crates.txt").write_text("".join(line for name, line in listed() if name in crates))
    return folder


def put(file, copy):
    """Puts a file in a second place, where it can without a copy of its bytes. (A stamp is written anew where it lies.)"""
    try:
        if os.path.basename(file) == "stamp":
            raise OSError
        os.link(file, copy)
    except OSError:
        shutil.copy2(file, copy)


def hand_on(name, part, here, there):
    """Puts what was made of a crate in one copy of the sources into another, where it doesn't stand already."""
    made, place = (pathlib.Path(it, "crates", name, "out", part) for it in (here, there))
    if made.is_dir() and not place.exists():
        shutil.copytree(made, place, copy_function=put)


class Build:
    def __init__(self, beside):
        self.crates = crates_below(PROGRAM)
        self.chains = chains(self.crates)
        self.done, self.running, self.began, self.rt = set(), {}, time.time(), rt_words()
        self.processors = len(os.sched_getaffinity(0))
        copies = min(2, max(0, self.processors - 2))
        self.folders = [ROOT, *(copied(self.crates, pathlib.Path(beside, str(it))) for it in range(copies))]

    def ready(self):
        """The crates whose libraries are all there, first those with the longest chain behind them."""
        busy = {name for name, _ in self.running.values()}
        found = [it for it in self.crates if it not in self.done | busy and all(below in self.done for below in self.crates[it])]
        return sorted(found, key=lambda it: -self.chains[it])

    def start(self, name, folder, jobs):
        words = [*self.rt, *(["run", "--", "--build"] if name == PROGRAM else ["lib", "--jobs", str(jobs)])]
        if folder != ROOT:
            words = ["nice", "-n", str(LOWER), *words]
            for below in crates_below(name):
                hand_on(below, "rlib", ROOT, folder)
            hand_on(name, "incremental", ROOT, folder)
        with open(LOG, "a") as log:
            at = folder / "crates" / name
            child = subprocess.Popen(words, cwd=at, stdin=subprocess.DEVNULL, stdout=log, stderr=log, preexec_fn=os.setpgrp)
        self.running[child] = name, folder

    def start_more(self):
        """Starts what can be, while there are processors, folders and memory."""
        for name in self.ready():
            busy = [folder for _, folder in self.running.values()]
            free = [it for it in self.folders if it not in busy]
            if not free:
                return
            jobs = self.processors if free[0] == ROOT else max(1, self.processors // 2)
            if self.running and BYTES + BYTES_MORE * (jobs - 1) > free_memory():
                return
            self.start(name, free[0], jobs)

    def put_back(self, name, folder):
        """Puts what a copy made of a crate into the repository, in place of what stands there."""
        if folder != ROOT:
            for part in ("rlib", "incremental"):
                shutil.rmtree(ROOT / "crates" / name / "out" / part, ignore_errors=True)
                hand_on(name, part, folder, ROOT)

    def tell(self):
        names = " and ".join(name for name, _ in self.running.values())
        seconds = int(time.time() - self.began)
        text = f"dim: proving {names}: {len(self.done) + 1} of {len(self.crates)}, {seconds} seconds"
        print(f"\r{text:<100}", end="", file=sys.stderr, flush=True)

    def wait(self):
        """Waits until a crate is done, and returns whether its library is there. (Of the program itself the starter tells.)"""
        while True:
            for child in list(self.running):
                if child.poll() is not None:
                    name, folder = self.running.pop(child)
                    self.done.add(name)
                    self.put_back(name, folder)
                    return child.returncode == 0 or name == PROGRAM
            self.tell()
            time.sleep(0.2)

    def end(self, status):
        """Ends all that is at work, and then this."""
        for child in self.running:
            os.killpg(child.pid, signal.SIGTERM)
        for child in self.running:
            child.wait()
        print(file=sys.stderr)
        sys.exit(status)

    def whole(self):
        for it in (signal.SIGINT, signal.SIGTERM, signal.SIGHUP):
            signal.signal(it, lambda *_: self.end(130))
        while PROGRAM not in self.done:
            self.start_more()
            if not self.wait():
                self.end(1)
        self.end(0)


if __name__ == "__main__":
    OUT.mkdir(parents=True, exist_ok=True)
    LOG.write_text("")
    with tempfile.TemporaryDirectory(prefix="dim-build-") as beside:
        Build(beside).whole()
