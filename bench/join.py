#!/usr/bin/env python3
"""`show` of joins: of two relations of 100,000 rows on a key that each has twice, written in three ways, against Miller
and SQLite where they are there; and of 1,000 by 1,000 rows without a key.

usage: bench/join.py [PROGRAM]
"""

import shutil
import sys

from measure import folder, program, report, run, wanted, write

ROWS = 100_000
FEW = 1_000

VIEWS = {
    "two cells": "create view J::t(x, y) as select T.v, U.w from g::r T, g::s U where T.k = U.k",
    "two aliases": "create view J::t(x, y) as select T.v, U.w from g::r T, g::s U, T.k X, U.k Y where X = Y",
    "a relation that a variable names": "create view J::t(x, y) as select T.v, U.w from g::r T, g -> R, g::R U where R = 's' and T.k = U.k",
}


def rows(value, factor):
    """A header, and rows of a key that comes twice and a number of their own, in no order."""
    yield f"k,{value}\n"
    for step in range(ROWS):
        place = step * factor % ROWS
        yield f"k{place // 2},{value}{place}\n"


def few(value):
    """A header, and a thousand numbers."""
    yield f"{value}\n"
    for place in range(FEW):
        yield f"{place}\n"


def compare(what, words, shown, root, given=None):
    """A run of another program for the same."""
    if not shutil.which(words[0]):
        print(f"{words[0]} is not installed")
        return
    other = run(words, root, given)
    if other.status != 0:
        sys.exit(f"{words[0]} ended with status {other.status}")
    report(what, other, f"; show takes {shown.processors / other.processors:.2f} of the processors, {shown.seconds / other.seconds:.2f} of the time")


def main():
    with folder() as root:
        left = write(root, "sources/g/r.csv", rows("v", 61_193))
        right = write(root, "sources/g/s.csv", rows("w", 61_211))
        for name, view in VIEWS.items():
            write(root, "defs/J.ssql", view)
            shown = wanted(run([program(), "show", "J"], root), 0, "synced\t1")
            report(f"show, a join of {ROWS} by {ROWS} rows, {name}", shown)
        compare("mlr join", ["mlr", "--icsv", "--ocsv", "join", "-j", "k", "-f", str(left), "then", "cut", "-f", "v,w", "then", "sort", "-f", "v", "-f", "w", str(right)], shown, root)
        script = write(
            root,
            "join.sql",
            [
                ".mode csv\n",
                f".import {left} r\n",
                f".import {right} s\n",
                "create index i on s(k);\n",
                "select distinct v, w from r join s using (k) order by v, w;\n",
            ],
        )
        compare("sqlite3, with an index", ["sqlite3", ":memory:"], shown, root, script)
    with folder() as root:
        write(root, "sources/g/r.csv", few("a"))
        write(root, "sources/g/s.csv", few("b"))
        write(root, "defs/J.ssql", "create view J::t(x, y) as select T.a, U.b from g::r T, g::s U where T.a < U.b and U.b < 3")
        report(f"show, {FEW} by {FEW} rows without a key", wanted(run([program(), "show", "J"], root), 0, "synced\t1"))


main()
