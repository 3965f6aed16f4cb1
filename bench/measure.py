"""What the measurements share: a folder of its own, a timed run, and a line of figures."""

import contextlib
import os
import pathlib
import shutil
import signal
import subprocess
import sys
import tempfile
import threading
import time
from typing import NamedTuple

HERE = pathlib.Path(__file__).resolve().parent
PROGRAM = HERE.parent / "build" / "schemasql"

# A program in C++ that writes the files of some views, and where it is built.
YARDSTICK = HERE / "yardstick.cc"
YARDSTICK_MADE = HERE.parent / "build" / "yardstick"


def program():
    """The program that is measured: the first argument, or the one that `make` builds."""
    return str(pathlib.Path(sys.argv[1] if len(sys.argv) > 1 else PROGRAM).resolve())


def yardstick():
    """The yardstick, which is built where it is older than its source, or nothing without a compiler for it."""
    if not YARDSTICK_MADE.exists() or YARDSTICK_MADE.stat().st_mtime < YARDSTICK.stat().st_mtime:
        compiler = next(filter(shutil.which, ["c++", "g++", "clang++"]), None)
        if not compiler:
            return None
        YARDSTICK_MADE.parent.mkdir(exist_ok=True)
        subprocess.run([compiler, "-std=c++17", "-O3", "-o", YARDSTICK_MADE, YARDSTICK], check=True)
    return str(YARDSTICK_MADE)


def folder():
    """A new folder, which is gone at the end of a `with`."""
    return tempfile.TemporaryDirectory()


def write(root, path, lines):
    """Writes a file below a folder, and makes the folders above it.

    The lines are not kept, since what this process holds counts in what a run is said to need.
    """
    target = pathlib.Path(root) / path
    target.parent.mkdir(parents=True, exist_ok=True)
    with open(target, "w") as file:
        file.writelines(lines)
    return target


# So many bytes at most are read of a program that is talked to, at once.
CHUNK = 65_536

# So many bytes and lines at the end of an output are kept: what this process holds counts in what a run is said to need.
LAST_BYTES, LAST_LINES = 4_000_000, 100


class Run(NamedTuple):
    """A run that ended: its seconds, those of all processors together, the megabytes at their most, the status, and the output's last lines."""

    seconds: float
    processors: float
    megabytes: float
    status: int
    lines: list


def run(words, root, given=None):
    """Runs these words in a folder."""
    with tempfile.TemporaryFile() as output:
        begun = time.perf_counter()
        child = subprocess.Popen(
            words,
            cwd=root,
            stdin=open(given, "rb") if given else subprocess.DEVNULL,
            stdout=output,
        )
        _, status, usage = os.wait4(child.pid, 0)
        seconds = time.perf_counter() - begun
        child.returncode = os.waitstatus_to_exitcode(status)
        output.seek(0, os.SEEK_END)
        output.seek(max(output.tell() - LAST_BYTES, 0))
        lines = output.read().decode(errors="replace").splitlines()[-LAST_LINES:]
    return Run(seconds, usage.ru_utime + usage.ru_stime, usage.ru_maxrss / 1024, child.returncode, lines)


class Talk:
    """A run of the program that is given its input in parts, and what each part takes. For a `with`."""

    def __init__(self, words, root):
        self.child = subprocess.Popen(words, cwd=root, stdin=subprocess.PIPE, stdout=subprocess.PIPE)
        # What Linux calls the clock of the processors of another process. It goes on where that process begins to wait.
        self.clock = ~self.child.pid << 3 | 2
        self.parts = 0
        self.take("")

    def __enter__(self):
        return self

    def __exit__(self, *_):
        self.child.kill()
        self.child.wait()
        self.child.stdout.close()
        with contextlib.suppress(BrokenPipeError):
            self.child.stdin.close()

    def take(self, text):
        """The seconds of processors for these lines, and those that answer them. A last line, which is none of the program's
        words, tells the end by its answer."""
        self.parts += 1
        mark = f"mark-{self.parts}"
        begun = time.clock_gettime(self.clock)
        writer = threading.Thread(target=self._write, args=(f"{text}{mark}\n".encode(),))
        writer.start()
        lines = self._lines_before(f"refused\tunknown-verb\t{mark}\n".encode())
        writer.join()
        while not self._waits():
            time.sleep(0.0002)
        return time.clock_gettime(self.clock) - begun, lines

    def end(self, mark):
        """The seconds of processors from the end of the input to a line that begins so, and the lines before it. What behind
        the line ends the run may count in part."""
        begun = time.clock_gettime(self.clock)
        self.child.stdin.close()
        lines = self._lines_before(mark)
        os.kill(self.child.pid, signal.SIGSTOP)
        os.waitid(os.P_PID, self.child.pid, os.WSTOPPED | os.WEXITED | os.WNOWAIT)
        seconds = time.clock_gettime(self.clock) - begun
        os.kill(self.child.pid, signal.SIGCONT)
        return seconds, lines

    def _waits(self):
        """Whether the program waits for more input."""
        with open(f"/proc/{self.child.pid}/stat") as stat:
            return stat.read().rpartition(")")[2].split()[0] == "S"

    def _lines_before(self, mark):
        """The lines that the program prints before one that begins so."""
        said = bytearray()
        seen = 0
        while said.find(mark, seen) < 0:
            seen = max(len(said) - len(mark), 0)
            more = self.child.stdout.read1(CHUNK)
            if not more:
                sys.exit(f"ended behind {bytes(said[-200:])}")
            said += more
        return said[: said.find(mark, seen)].splitlines()

    def _write(self, given):
        self.child.stdin.write(given)
        self.child.stdin.flush()


def report(name, ended, more=""):
    print(f"{name}: {ended.seconds:.2f} s, {ended.processors:.2f} s of processors, {ended.megabytes:.0f} MB{more}", flush=True)


def in_turn(runs, rounds):
    """Makes each of these runs so many times, in turn with the others. Answers by the same names what each came to, in the
    order of the rounds."""
    made = {name: [] for name in runs}
    for _ in range(rounds):
        for name, make in runs.items():
            made[name].append(make())
    return made


def least(runs):
    """The least of each figure of several runs: other work on the machine makes a run longer, and none shorter."""
    return runs[0]._replace(
        seconds=min(ended.seconds for ended in runs),
        processors=min(ended.processors for ended in runs),
        megabytes=min(ended.megabytes for ended in runs),
    )


def wanted(ended, status, last):
    """Stops where a run did not end as it should, since its time then says nothing."""
    if ended.status != status or ended.lines[-1:] != [last]:
        sys.exit(f"ended with status {ended.status} and {ended.lines[-1:]}")
    return ended
