"""A view beside what else makes its files: `show`, `verify`, the opening of `maintain`, the yardstick in C++ and Miller, in
turn over one source."""

import filecmp
import math
import os
import pathlib
import shutil
import sys
from typing import Callable, NamedTuple

from measure import folder, in_turn, least, program, report, run, wanted, write, yardstick

# So many times each run is made, in turn with the others.
ROUNDS = 5

# So many times what the yardstick takes is wanted at most of `show`, and what `show` takes of the others.
YARDSTICK_TIMES, VERIFY_TIMES, OPENING_TIMES = 1.2, 1.2, 1.5

# The shares of Miller's time and memory that are wanted of `show` at most, by the yardstick's forms.
MILLER_SHARES = {"columns": (math.inf, 0.3), "tables": (math.inf, 0.45), "values": (0.4, 0.35)}

VERIFY, OPENING, BY_HAND, MILLER = "verify", "opening of maintain", "by hand in C++", "mlr"


class Case(NamedTuple):
    """A view V of the relation r of g: its name, its definition, the lines of the source, how many files it has, the
    yardstick's form for it, and Miller's words for the like."""

    name: str
    view: str
    lines: Callable
    files: int = 1
    form: str = ""
    miller: str = ""


def shown(case, root):
    """A run of `show`, which writes all files."""
    shutil.rmtree(f"{root}/views", ignore_errors=True)
    return wanted(run([program(), "show", "V"], root), 0, f"synced\t{case.files}")


def other(words, root):
    """A run of another program, in a folder for its files."""
    ended = run(words, root)
    if ended.status != 0:
        sys.exit(f"{words[0]} ended with status {ended.status}")
    return ended


def runs_of(case, root, source):
    """The runs of a case over a source, by the names of what is measured."""
    runs = {
        "show": lambda: shown(case, root),
        VERIFY: lambda: wanted(run([program(), "verify", "V"], root), 0, f"same\t{case.files}"),
        OPENING: lambda: wanted(run([program(), "maintain", "V"], root), 0, "synced\t0"),
    }
    if case.form and yardstick():
        (root / "by-hand").mkdir()
        target = "by-hand" if case.form == "tables" else "by-hand/t.csv"
        runs[BY_HAND] = lambda: other([yardstick(), case.form, source, target], root)
    if case.miller and shutil.which("mlr"):
        (root / "miller").mkdir()
        runs[MILLER] = lambda: other(["mlr", "--icsv", "--ocsv", *case.miller.split(), source], root / "miller")
    return runs


def check_files(root):
    """Stops where the yardstick's files are not those of `show`, byte by byte."""
    ours, theirs = root / "views/V", root / "by-hand"
    names = sorted(os.listdir(theirs))
    same, _, _ = filecmp.cmpfiles(ours, theirs, names, shallow=False)
    if same != names or sorted(path.name for path in ours.glob("*.csv")) != names:
        sys.exit(f"of {len(names)} files of the yardstick {len(same)} are those of show")


def beside_show(name, ended, show):
    """What a command takes beside `show`: in words, and the shares that are bounded."""
    time, memory = ended.processors / show.processors, ended.megabytes / show.megabytes
    words = f"{time:.2f} of the processors of show, {memory:.2f} of its memory"
    if name == VERIFY:
        return words, [("verify beside show", time, VERIFY_TIMES)]
    return words, [("opening beside show", time, OPENING_TIMES), ("opening beside show, memory", memory, OPENING_TIMES)]


def beside_yardstick(ended, show):
    """What `show` takes beside the yardstick."""
    time, memory = show.processors / ended.processors, show.megabytes / ended.megabytes
    words = f"show takes {time:.2f} of its processors, {memory:.2f} of its memory; the files are the same"
    return words, [("show beside C++", time, YARDSTICK_TIMES)]


def beside_miller(case, made, ended, show):
    """What `show` takes beside Miller, which works on several processors: so the clock is compared too, round by round."""
    processors, memory = show.processors / ended.processors, show.megabytes / ended.megabytes
    times = [ours.seconds / theirs.seconds for ours, theirs in zip(made["show"], made[MILLER])]
    words = f"show takes {processors:.2f} of its processors, {min(times):.2f} to {max(times):.2f} of its time, {memory:.2f} of its memory"
    most_time, most_memory = MILLER_SHARES.get(case.form, (math.inf, math.inf))
    return words, [("show beside Miller, time", max(times), most_time), ("show beside Miller, memory", memory, most_memory)]


def compared(case, made):
    """Prints what each program took of a case. Answers the shares that are bounded: what each is of, how much it is, and how
    much is wanted at most."""
    show = least(made["show"])
    report(f"{case.name}: show", show)
    bounded = []
    for name in list(made)[1:]:
        ended = least(made[name])
        if name == MILLER:
            words, shares = beside_miller(case, made, ended, show)
        elif name == BY_HAND:
            words, shares = beside_yardstick(ended, show)
        else:
            words, shares = beside_show(name, ended, show)
        report(f"- {name} {case.miller}" if name == MILLER else f"- {name}", ended, f"; {words}")
        bounded += shares
    return bounded


def measured(case):
    """Makes the runs of a case in turn and prints what they took. Answers what is more than is wanted, a line for each."""
    with folder() as top:
        root = pathlib.Path(top)
        source = write(root, "sources/g/r.csv", case.lines())
        write(root, "defs/V.ssql", case.view)
        made = in_turn(runs_of(case, root, source), ROUNDS)
        if BY_HAND in made:
            check_files(root)
    shares = compared(case, made)
    return [f"{case.name}: {what} {share:.2f}, at most {most} is wanted" for what, share, most in shares if share > most]


def measure_all(cases):
    """Measures cases one after another, and then says what is more than is wanted."""
    for what, there in (("a C++ compiler", yardstick()), ("mlr", shutil.which("mlr"))):
        if not there:
            print(f"{what} is not installed")
    for line in [line for case in cases for line in measured(case)]:
        print("more than is wanted: " + line)
