#!/usr/bin/env python3
"""Parts of the engine over few and over many kept rows: the time of one change, and how many times as long it is over
many. At most 1.5 times is wanted.

usage: bench/engine.py [PROGRAM [CHANGES]]

There are 1,000,000 changes, or 400,000 of a join, where no other number is given: what a change takes is the difference
of two runs, of which the longer part is the same.
"""

import pathlib
import sys

from measure import HERE, folder, least, report, run, wanted

PROGRAM = HERE.parent / "build" / "part_bench"
FEW = 1_000
MANY = 999_000

# So many changes come first, by which a relation is linked: its first delete links it.
FIRST = 10

# So many times each run is made, in turn with the others.
ROUNDS = 5


def program():
    """The program that is measured: the first argument, or the one that the kit builds."""
    return str(pathlib.Path(sys.argv[1] if len(sys.argv) > 1 else PROGRAM).resolve())


def count_of(default):
    """How many changes are made: the second argument, or this number."""
    return int(sys.argv[2]) if len(sys.argv) > 2 else default


def ended(root, word, kept, changes, count):
    """A run, which comes to a count that is told from those of the kept rows and of the changes."""
    return wanted(run([program(), word, str(kept), str(changes)], root), 0, str(count(kept, changes)))


def compare(word, changes, count):
    """The seconds of processors of one change over few rows and over many, behind the first ones: those of a run with all
    changes less those of a run with the first, by the number of the others, each the least of several runs."""
    cases = [(kept, made) for kept in (FEW, MANY) for made in (FIRST, changes)]
    runs = {case: [] for case in cases}
    with folder() as root:
        for _ in range(ROUNDS):
            for kept, made in cases:
                runs[kept, made].append(ended(root, word, kept, made, count))
    each = {}
    for kept in (FEW, MANY):
        all_made = least(runs[kept, changes])
        each[kept] = (all_made.processors - least(runs[kept, FIRST]).processors) / (changes - FIRST)
        report(f"{word}, {kept} rows, {changes} changes", all_made, f"; one change {each[kept] * 1e6:.2f} us")
    print(f"{word}: a change over {MANY // FEW} times as many rows takes {each[MANY] / each[FEW]:.2f} times as long", flush=True)


def main():
    compare("links", count_of(1_000_000), lambda kept, changes: kept)
    compare("sources", count_of(1_000_000), lambda kept, changes: kept)
    compare("join", count_of(400_000), lambda kept, changes: 3 * changes)


main()
