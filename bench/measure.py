"""How the benches run the program and what they measure: processor time, which other work on the machine changes little, and the most memory.

The memory is told by the command `time`; where there is none it is 0. (What the system tells of a child is never less than what its parent has used.)
"""
import atexit
import os
import shutil
import subprocess
import sys
import tempfile
import time

TIME = shutil.which("time")
ROOT = os.path.dirname(os.path.dirname(os.path.abspath(__file__)))


def program(words):
    """The program to measure: the first word, or that of this repository."""
    path = os.path.abspath(words[0]) if words else os.path.join(ROOT, "crates/dim/out/dim")
    if not os.access(path, os.X_OK):
        sys.exit(f"{os.path.basename(sys.argv[0])}: no program at {path}: build it first (./dim)")
    return path


class Bench:
    """A folder in which a program is run, which goes when the bench ends, and the faults found so far."""

    def __init__(self, path):
        self.path = path
        self.folder = tempfile.mkdtemp()
        atexit.register(shutil.rmtree, self.folder, ignore_errors=True)
        self.faults = []
        self.write("smallest", "dim program 1\nfunc main 0\nRET\nend\nthread main 0\nend program\n")
        self.start = self.least(["run", "smallest", "-", "h0", "t0"], 20)[0]

    def write(self, name, text):
        with open(os.path.join(self.folder, name), "w") as file:
            file.write(text)

    def read(self, name):
        with open(os.path.join(self.folder, name)) as file:
            return file.read()

    def once(self, words, wall=False):
        """Runs the program with these words. Answers the seconds of the processor that it took, or those by the clock, and its most memory in bytes."""
        gauge = [TIME, "-f", "%M", "-o", "used"] if TIME else []
        began = time.monotonic()
        with open(os.path.join(self.folder, "put"), "wb") as out:
            child = subprocess.Popen([*gauge, self.path, *words], cwd=self.folder, stdout=out)
            _, status, used = os.wait4(child.pid, 0)
        child.returncode = os.waitstatus_to_exitcode(status)
        if child.returncode not in (0, 3, 4):
            sys.exit(f"failed with status {child.returncode}: dim {' '.join(words)}")
        took = time.monotonic() - began if wall else used.ru_utime + used.ru_stime
        return took, 1024 * int(self.read("used").split()[-1]) if gauge else 0

    def least(self, words, runs=5, wall=False):
        """The least time of some runs, and the least of their most memory."""
        times, sizes = zip(*(self.once(words, wall) for _ in range(runs)))
        return min(times), min(sizes)

    def time(self, words, runs=5):
        """The least time of some runs, that of starting taken off; never less than a microsecond."""
        return max(1e-6, self.least(words, runs)[0] - self.start)

    def entries(self, trace="t"):
        """The number that the last line of a trace tells."""
        with open(os.path.join(self.folder, trace), "rb") as file:
            file.seek(-20, os.SEEK_END)
            return int(file.read().split()[-1])

    def fault(self, text):
        self.faults.append(text)
        return "  FAULT"

    def growths(self, title, times, most=2.4):
        """Prints times at one, two and four times a size, and their growth. More than `most` is a fault."""
        rest = [f"{b / a:.2f}" for a, b in zip(times, times[1:])]
        flag = self.fault(title) if any(b / a > most for a, b in zip(times, times[1:])) else ""
        print(f"{title}: {' '.join(f'{1000 * it:.1f}' for it in times)} ms, growth {' '.join(rest)}{flag}", flush=True)

    def end(self):
        if self.faults:
            sys.exit(f"{len(self.faults)} faults: {'; '.join(self.faults)}")
