#!/usr/bin/env python3
"""`show` of a view with many tables, twice: the second run finds the files of all of them.

usage: bench/tables.py [PROGRAM]
"""

from measure import folder, program, report, run, wanted, write

TABLES = 50_000


def source():
    """A header, and a row for each table."""
    yield "k,d,v\n"
    for place in range(TABLES):
        yield f"k,d{place},{place}\n"


def main():
    with folder() as root:
        write(root, "sources/g/r.csv", source())
        write(root, "defs/T.ssql", "create view T::D(k, v) as select R.k, R.v from g::r R, R.d D")
        first, second = (
            wanted(run([program(), "show", "T"], root), 0, f"synced\t{TABLES}") for _ in range(2)
        )
    report(f"show, {TABLES} tables", first)
    report("the same again", second, f"; {second.processors / first.processors:.1f} times as long")


main()
