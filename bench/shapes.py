#!/usr/bin/env python3
"""`show`, `verify` and the opening of `maintain` for wide and odd shapes, beside a yardstick in C++ and Miller where they are
there: tables of 4,000 columns, 20,000 tables, keys of five columns, texts of 200 bytes, and one value of 100 MB.

usage: bench/shapes.py [PROGRAM [ROWS]]

A relation has 1,000,000 rows, or facts of so many cells, where no other number is given, and one of long texts a quarter of
that. Each figure is the least of five runs, which all programs take in turn.
"""

import sys
from functools import partial

from beside import Case, measure_all

ROWS = int(sys.argv[2]) if len(sys.argv) > 2 else 1_000_000

# The most attributes that a relation may have, and as many columns of a table.
COLUMNS = 4_000
TABLES = min(20_000, ROWS)
FEW_COLUMNS = 8

LONG = 200
LARGE, PIECE = 100_000_000, 1_000_000

TO_COLUMNS = "create view V::t(k, D) as select T.k, T.v from g::r T, T.d D"
TO_TABLES = "create view V::D(k, v) as select T.k, T.v from g::r T, T.d D"
TO_VALUES = "create view V::t(k, d, v) as select T.k, A, T.A from g::r -> A, g::r T where A <> 'k'"
FIVE_KEYS = "create view V::t(a, b, c, d, e, D) as select T.a, T.b, T.c, T.d, T.e, T.v from g::r T, T.l D"


def mixed(count):
    """The places below this number, in no order."""
    return (step * 611_953 % count for step in range(count))


def tall(count, labels, key="{:06}".format, value=str):
    """A header, and so many rows of a key, one of so many labels and a value: each key has each label."""
    yield "k,d,v\n"
    for place in mixed(count):
        yield f"{key(place // labels)},d{place % labels:05},{value(place)}\n"


def wide(count, columns):
    """A header, and rows of a key and so many columns, so many cells in all."""
    yield "k," + ",".join(f"c{column:05}" for column in range(columns)) + "\n"
    for row in mixed(count // columns):
        yield f"{row:06}," + ",".join(str(row * columns + column) for column in range(columns)) + "\n"


def five_keys(count):
    """A header, and so many rows of a key of five texts, a label and a value."""
    yield "a,b,c,d,e,l,v\n"
    for place in mixed(count):
        key = place // FEW_COLUMNS
        yield f"{key % 3},area{key % 10},{key % 100:02},office-{key % 1000:03},{key:06},d{place % FEW_COLUMNS},{place}\n"


def one_large(count):
    """The same as `tall` with few labels, and one row more with a large value, which is written in pieces."""
    yield from tall(count, FEW_COLUMNS)
    yield "large,d00000,"
    yield from ["x" * PIECE] * (LARGE // PIECE)
    yield "\n"


def long_value(place):
    return f"{place:07}".ljust(LONG, "x")


def told_at_the_end(key):
    """A key that has its beginning in common with a hundredth of the others, and is told from them by its last bytes."""
    return f"department {key % 100:02} ".ljust(LONG - 6, "x") + f"{key:06}"


def cases():
    yield Case(
        f"{COLUMNS} columns by {ROWS // COLUMNS} rows, values to columns",
        TO_COLUMNS,
        partial(tall, ROWS, COLUMNS),
        form="columns",
        miller="reshape -s d,v",
    )
    yield Case(
        f"{COLUMNS} columns by {ROWS // COLUMNS} rows, columns to values",
        TO_VALUES,
        partial(wide, ROWS, COLUMNS - 1),
        form="values",
        miller="reshape -r ^c -o d,v",
    )
    yield Case(
        f"{TABLES} tables of {ROWS // TABLES} rows",
        TO_TABLES,
        partial(tall, ROWS, TABLES),
        files=TABLES,
        form="tables",
        miller="split -g d then nothing",
    )
    yield Case("keys of five columns", FIVE_KEYS, partial(five_keys, ROWS), form="columns", miller="reshape -s l,v")
    yield Case(
        f"values of {LONG} bytes",
        TO_COLUMNS,
        partial(tall, ROWS // 4, FEW_COLUMNS, value=long_value),
        form="columns",
        miller="reshape -s d,v",
    )
    yield Case(
        f"keys of {LONG} bytes, told at their ends",
        TO_COLUMNS,
        partial(tall, ROWS // 4, FEW_COLUMNS, key=told_at_the_end),
        form="columns",
        miller="reshape -s d,v",
    )
    yield Case(f"one value of {LARGE} bytes", TO_COLUMNS, partial(one_large, 1_000), form="columns", miller="reshape -s d,v")


measure_all(cases())
