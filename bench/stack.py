#!/usr/bin/env python3
"""What a change takes through one, two and three levels of views over views, among few and among many rows, beside
`maintain` of each level's view over files like those of the level below: a row that comes and goes, and a cell that changes.

usage: bench/stack.py [PROGRAM [CHANGES [MANY]]]

There are 20,000 changes and 999,960 rows where no other numbers are given. Each program stands over its rows and is given
the changes again and again, in turn with the others. A figure is the least time of its processors for them. So neither what
it takes to open and to save nor other work on the machine counts in it.

A change through two levels is to take at most 1.2 times as long as `maintain` of both views together, and one through three
levels as that of all three; and at most 1.5 times as long among many rows as among few. Those that take longer are named at
the end.
"""

import collections
import contextlib
import sys

from measure import Talk, folder, program, write

FEW, MANY = 1_000, 999_960
COLUMNS = 8
ROUNDS = 5

# So many times as long at most is wanted of a stack beside its views alone, and among many rows.
STACK_TIMES, TIMES = 1.2, 1.5

# The views of the levels, the lowest first: values to columns, the way back, and columns again.
VIEWS = {
    "V": "create view V::t(k, D) as select T.k, T.v from g::r T, T.d D",
    "W": "create view W::u(k, d, v) as select T.k, A, T.A from V::t -> A, V::t T where A <> 'k' and T.A <> ''",
    "X": "create view X::t(k, D) as select T.k, T.v from W::u T, T.d D",
}

# The runs: their words, and the level whose rows they are given.
RUNS = [("maintain V", 1), ("maintain W", 2), ("maintain X", 3), ("stack V W", 1), ("stack V W X", 1)]

# What each level goes through: a relation of values, or one of columns.
READ = {1: "g\tr", 2: "V\tt", 3: "W\tu"}


def key(place):
    return f"{place // COLUMNS:06}"


def cells(place):
    """The values of the key at a place."""
    first = place // COLUMNS * COLUMNS
    return [str(first + column) for column in range(COLUMNS)]


def tall(rows):
    """A header, and so many rows of a key, one of eight values and a number, in no order."""
    yield "k,d,v\n"
    for step in range(rows):
        place = step * 611_953 % rows
        yield f"{key(place)},d{place % COLUMNS},{place}\n"


def wide(rows):
    """The same, with a column for each value."""
    yield "k," + ",".join(f"d{column}" for column in range(COLUMNS)) + "\n"
    for place in range(0, rows, COLUMNS):
        yield f"{key(place)}," + ",".join(cells(place)) + "\n"


def record(level, name, values, column):
    """The row that has the value of this column among what a level goes through."""
    row = values if level == 2 else [f"d{column}", values[column]]
    return "\t".join([READ[level], name, *row])


def row_in_turn(level, rows, step):
    """A row with a new key, which comes and then goes."""
    place = step // 2 * 7_919 % rows
    values = [""] * COLUMNS
    values[place % COLUMNS] = "1"
    verb = "insert" if step % 2 == 0 else "delete"
    return f"{verb}\t{record(level, key(place) + 'x', values, place % COLUMNS)}\n"


def cell_in_turn(level, rows, step):
    """A cell that becomes another and then what it was."""
    place = step // 2 * 7_919 % rows
    old, new = cells(place), cells(place)
    new[place % COLUMNS] = "new"
    gone, come = (old, new) if step % 2 == 0 else (new, old)
    rows_of = [record(level, key(place), values, place % COLUMNS) for values in (gone, come)]
    return f"begin\ndelete\t{rows_of[0]}\ninsert\t{rows_of[1]}\ncommit\n"


KINDS = {"a row that comes or goes": row_in_turn, "a cell that changes": cell_in_turn}


def prepared(root, level, rows):
    """Writes the definitions, and what a level goes through, into a folder."""
    for name, view in VIEWS.items():
        write(root, f"defs/{name}.ssql", view)
    lines = wide(rows) if level == 2 else tall(rows)
    write(root, "sources/" + READ[level].replace("\t", "/") + ".csv", lines)
    return root


def taken(talk, change, level, rows, count):
    """The seconds of processors for one of these changes."""
    seconds, lines = talk.take("".join(change(level, rows, step) for step in range(count)))
    for line in lines:
        if line.startswith(b"refused"):
            sys.exit(f"answered by {line}")
    return seconds / count


def measured(count, all_rows):
    """The seconds of processors of a change, by its kind, the words and the number of rows, each the least of several
    runs."""
    made = collections.defaultdict(list)
    with folder() as top, contextlib.ExitStack() as talks:
        over = {}
        for rows in all_rows:
            for words, level in RUNS:
                root = prepared(f"{top}/{rows}/{words.replace(' ', '-')}", level, rows)
                over[words, level, rows] = talks.enter_context(Talk([program(), *words.split()], root))
        for _ in range(ROUNDS):
            for kind, change in KINDS.items():
                for (words, level, rows), talk in over.items():
                    made[kind, words, rows].append(taken(talk, change, level, rows, count))
    return {case: min(seconds) for case, seconds in made.items()}


def main():
    count = int(sys.argv[2]) // 2 * 2 if len(sys.argv) > 2 else 20_000
    many = int(sys.argv[3]) // COLUMNS * COLUMNS if len(sys.argv) > 3 else MANY
    made = measured(count, (FEW, many))
    longer = []
    for kind in KINDS:
        print(f"{kind + ', in µs':34} {FEW:>10} {many:>10}  times, rows", flush=True)
        for words, _ in RUNS:
            few_many = [made[kind, words, rows] for rows in (FEW, many)]
            times = few_many[1] / few_many[0]
            print(f"{words:34} {few_many[0] * 1e6:10.2f} {few_many[1] * 1e6:10.2f} {times:6.2f}", flush=True)
            if times > TIMES:
                longer.append(f"{kind}, {words}: {times:.2f} times as long among {many} rows")
        for names in ("V W", "V W X"):
            for rows in (FEW, many):
                alone = sum(made[kind, f"maintain {name}", rows] for name in names.split())
                times = made[kind, f"stack {names}", rows] / alone
                print(f"stack {names}, {rows} rows: {times:.2f} times as long as `maintain` of its views together", flush=True)
                if times > STACK_TIMES:
                    longer.append(f"{kind}, stack {names}, {rows} rows: {times:.2f} times as long as its views")
    for line in longer:
        print("longer than is wanted: " + line)


main()
