#!/usr/bin/env python3
"""`show` of 1,000,000 rows, `verify` and the opening of `maintain`, beside a yardstick in C++ and Miller where they are there:
values to columns and to tables with keys of three lengths, columns to values, and two columns.

usage: bench/show.py [PROGRAM [ROWS]]

Each figure is the least of five runs, which all programs take in turn. The yardstick writes the files of `show` byte by byte.
What is more than is wanted is named at the end.
"""

import sys
from functools import partial

from beside import Case, measure_all

ROWS = int(sys.argv[2]) if len(sys.argv) > 2 else 1_000_000
COLUMNS = 8
WIDE_COLUMNS = 5
WIDE_ROWS = ROWS // WIDE_COLUMNS

# What stands before the number of a key: keys of at most 7 bytes, of at most 10, and of more than 15 that begin alike.
SHORT, MIDDLE, LONG = "", "key-", "department-of-"


def rows(front):
    """A header, and rows of a key, one of eight values and a number, in no order."""
    yield "k,d,v\n"
    for step in range(ROWS):
        place = step * 611_953 % ROWS
        yield f"{front}{place // COLUMNS:06},d{place % COLUMNS},{place}\n"


def wide_rows():
    """A header, and rows of a key and five numbers, in no order."""
    yield "k," + ",".join(f"c{column}" for column in range(WIDE_COLUMNS)) + "\n"
    for step in range(WIDE_ROWS):
        place = step * 61_193 % WIDE_ROWS
        yield f"{place:06}," + ",".join(str(place * WIDE_COLUMNS + column) for column in range(WIDE_COLUMNS)) + "\n"


def cases():
    for front in [SHORT, MIDDLE, LONG]:
        keys = f"keys of {len(front) + 6} bytes"
        yield Case(
            f"values to columns, {keys}",
            "create view V::t(k, D) as select T.k, T.v from g::r T, T.d D",
            partial(rows, front),
            form="columns",
            miller="reshape -s d,v",
        )
        yield Case(
            f"values to tables, {keys}",
            "create view V::D(k, v) as select T.k, T.v from g::r T, T.d D",
            partial(rows, front),
            files=COLUMNS,
            form="tables",
            miller="split -g d then nothing",
        )
    yield Case(
        f"columns to values, {WIDE_ROWS} rows of {WIDE_COLUMNS}",
        "create view V::t(k, d, v) as select T.k, A, T.A from g::r -> A, g::r T where A <> 'k'",
        wide_rows,
        form="values",
        miller="reshape -i " + ",".join(f"c{column}" for column in range(WIDE_COLUMNS)) + " -o d,v",
    )
    yield Case(
        "two columns, keys of 10 bytes",
        "create view V::t(k, d) as select T.k, T.d from g::r T",
        partial(rows, MIDDLE),
        miller="cut -o -f k,d then uniq -a then sort -f k -f d",
    )


measure_all(cases())
