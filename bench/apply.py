#!/usr/bin/env python3
"""`apply` of 100,000 `cell` lines on a table of 100,000 rows, and of one line, which reads and writes the same file.

usage: bench/apply.py [PROGRAM]
"""

from measure import folder, program, report, run, wanted, write

ROWS = 100_000


def table():
    """A header, and rows whose keys ascend."""
    yield "k,a,b\n"
    for place in range(ROWS):
        yield f"k{place:06},{place},\n"


def cells():
    """A value for each row, not in the order of the rows."""
    for place in range(ROWS):
        row = place * 7919 % ROWS
        yield f"cell\tt\tb\t{place}\tk{row:06}\n"


def main():
    with folder() as root:
        write(root, "defs/C.ssql", "create view C::t(k, D) as select T.k, T.v from g::r T, T.d D")
        write(root, "views/C/t.csv", table())
        one = write(root, "one", ["cell\tt\tb\t0\tk000000\n"])
        all_lines = write(root, "lines", cells())
        words = [program(), "apply", "C"]
        read = wanted(run(words, root, one), 0, "synced\t1")
        applied = wanted(run(words, root, all_lines), 0, "synced\t1")
    report(f"apply, {ROWS} rows, one line", read)
    report(f"the same, {ROWS} lines", applied, f"; {applied.processors / read.processors:.1f} times as long")


main()
