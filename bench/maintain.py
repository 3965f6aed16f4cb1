#!/usr/bin/env python3
"""`maintain` with inserts and deletes in turn, over few and over many rows: the time of one change, for values to columns,
values to tables, columns to values and a join, the first in groups of ten too, and beside SQLite with triggers that keep
the wide table; what it takes to open, beside `show`; and `load` of few and of many changes.

usage: bench/maintain.py [PROGRAM [CHANGES]]

There are 400,000 changes where no other number is given.
"""

import shutil
import sys

from measure import folder, least, program, report, run, write

# Fewer than the most rows that sources may have, since rows come.
FEW, MANY = 1_000, 999_960
COLUMNS = 8
JOINED_FEW, JOINED_MANY = 1_000, 100_000

# So many changes come first, by which the relation is linked: its first delete links it.
FIRST = 10


def tall(rows):
    """A header, and so many rows of a key, one of eight values and a number, in no order."""
    yield "k,d,v\n"
    for step in range(rows):
        place = step * 611_953 % rows
        yield f"{place // COLUMNS:06},d{place % COLUMNS},{place}\n"


def wide(rows):
    """A header, and a fifth of so many rows, of a key and five numbers, in no order."""
    yield "k,c0,c1,c2,c3,c4\n"
    for step in range(rows // 5):
        place = step * 61_193 % (rows // 5)
        yield f"{place:06}," + ",".join(str(place * 5 + column) for column in range(5)) + "\n"


def pairs(rows, value, factor):
    """A header, and rows of a key that comes twice and a number of their own, in no order."""
    yield f"k,{value}\n"
    for step in range(rows):
        place = step * factor % rows
        yield f"k{place // 2},{value}{place}\n"


def in_turn(rows, count, row):
    """Inserts of a row and its deletes, one after the other, at keys all over the table."""
    for place in range(count):
        number = place // 2 * 7_919 % rows
        yield ("insert" if place % 2 == 0 else "delete") + "\tg\t" + row(number) + "\n"


def in_groups(rows, count, row):
    """Groups of ten inserts and of their ten deletes, one after the other, at keys all over the table."""
    for place in range(count // 10):
        yield "begin\n"
        for step in range(10):
            number = (place // 2 * 10 + step) * 7_919 % rows
            yield ("insert" if place % 2 == 0 else "delete") + "\tg\t" + row(number) + "\n"
        yield "commit\n"


# Each view with its sources, by the number of rows, a row that comes and goes, and how many files the last sync counts.
VIEWS = {
    "values to columns": (
        "create view V::t(k, D) as select T.k, T.v from g::r T, T.d D",
        lambda rows: {"r": tall(rows)},
        lambda number: f"r\t{number // COLUMNS:06}x\td{number % COLUMNS}\t1",
        (FEW, MANY),
    ),
    "values to tables": (
        "create view V::D(k, v) as select T.k, T.v from g::r T, T.d D",
        lambda rows: {"r": tall(rows)},
        lambda number: f"r\t{number // COLUMNS:06}x\td{number % COLUMNS}\t1",
        (FEW, MANY),
    ),
    "columns to values": (
        "create view V::t(k, d, v) as select T.k, A, T.A from g::w -> A, g::w T where A <> 'k'",
        lambda rows: {"w": wide(rows)},
        lambda number: f"w\t{number:06}x\t1\t2\t3\t4\t5",
        (FEW, MANY),
    ),
    "a join": (
        "create view V::t(x, y) as select T.v, U.w from g::r T, g::s U where T.k = U.k",
        lambda rows: {"r": pairs(rows, "v", 61_193), "s": pairs(rows, "w", 61_211)},
        lambda number: f"r\tk{number // 2}\tnew",
        (JOINED_FEW, JOINED_MANY),
    ),
}


# So many times each run is made, in turn with the others. Those of `load` are short, and there are more of them.
ROUNDS = 3
LOAD_ROUNDS = 7


def ended(words, root, given=None):
    """A run of the program, which ended with a sync."""
    done = run(words, root, given)
    if done.status != 0 or not done.lines[-1:] or not done.lines[-1].startswith("synced\t"):
        sys.exit(f"ended with status {done.status} and {done.lines[-1:]}")
    return done


def prepared(root, name, rows, count):
    """Writes the sources and the definition of a view and its changes into a folder, and gives the runs over them: each by
    what it measures, with its words and its input."""
    view, sources, row, _ = VIEWS[name]
    for relation, lines in sources(rows).items():
        write(root, f"sources/g/{relation}.csv", lines)
    write(root, "defs/V.ssql", view)
    words = [program(), "maintain", "V"]
    runs = {
        "shown": ([program(), "show", "V"], None),
        "opened": (words, None),
        "begun": (words, write(root, "first", in_turn(rows, FIRST, row))),
        "changed": (words, write(root, "changes", in_turn(rows, count, row))),
    }
    if name == "values to columns":
        runs["grouped"] = (words, write(root, "groups", in_groups(rows, count, row)))
    return runs


def times_of_change(name, count):
    """The least of several runs over few and over many rows, by the number of these and by what they measure."""
    few, many = VIEWS[name][3]
    with folder() as small, folder() as large:
        cases = {}
        for rows, root in ((few, small), (many, large)):
            for what, (words, given) in prepared(root, name, rows, count).items():
                cases[rows, what] = (words, root, given)
        made = {case: [] for case in cases}
        for _ in range(ROUNDS):
            for case, (words, root, given) in cases.items():
                made[case].append(ended(words, root, given))
    return {case: least(runs) for case, runs in made.items()}


def each_change(name, rows, count, runs):
    """The seconds of processors of one change behind the first ones, which are those of a run with all changes less those of
    a run with the first, by the number of the others: both link the rows of the relation once, and save it and the view at
    the end."""
    opened, begun, changed = (runs[rows, what] for what in ("opened", "begun", "changed"))
    if (rows, "grouped") in runs:
        grouped = runs[rows, "grouped"]
        each = (grouped.processors - begun.processors) / (count - FIRST)
        report(f"maintain, {name}, {rows} rows, {count} changes in groups of ten", grouped, f"; one change {each * 1e6:.2f} us")
    each = (changed.processors - begun.processors) / (count - FIRST)
    once = begun.processors - opened.processors
    report(f"maintain, {name}, {rows} rows, {count} changes", changed, f"; one change {each * 1e6:.2f} us, the first {FIRST} and the last sync {once:.2f} s")
    return each


def least_of_sqlite(words, root, given):
    """The least of three runs of SQLite."""
    runs = [run(words, root, given) for _ in range(3)]
    for done in runs:
        if done.status != 0:
            sys.exit(f"sqlite3 ended with status {done.status}")
    return least(runs)


def time_in_sqlite(rows, count):
    """The seconds of processors of one change in SQLite, whose triggers keep the wide table, in one transaction and in memory."""
    if not shutil.which("sqlite3"):
        print("sqlite3 is not installed")
        return None
    names = [f"d{column}" for column in range(COLUMNS)]
    sets = ", ".join(f"{name} = case when new.d = '{name}' then new.v else {name} end" for name in names)
    clears = ", ".join(f"{name} = case when old.d = '{name}' then null else {name} end" for name in names)
    empty = " and ".join(f"{name} is null" for name in names)
    with folder() as root:
        source = write(root, "r.csv", tall(rows))
        head = [
            ".mode csv\n",
            f".import {source} r\n",
            "create index i on r(k, d, v);\n",
            f"create table t(k text primary key, {', '.join(names)}) without rowid;\n",
            "insert into t select k, " + ", ".join(f"max(case when d = '{name}' then v end)" for name in names) + " from r group by k;\n",
            f"create trigger comes after insert on r begin insert or ignore into t(k) values (new.k); update t set {sets} where k = new.k; end;\n",
            f"create trigger goes after delete on r begin update t set {clears} where k = old.k; delete from t where k = old.k and {empty}; end;\n",
            "begin;\n",
        ]

        def statements(count):
            for place in range(count):
                number = place // 2 * 7_919 % rows
                key, column = f"{number // COLUMNS:06}x", f"d{number % COLUMNS}"
                if place % 2 == 0:
                    yield f"insert into r values ('{key}', '{column}', '1');\n"
                else:
                    yield f"delete from r where k = '{key}' and d = '{column}' and v = '1';\n"

        words = ["sqlite3", ":memory:"]
        begun = least_of_sqlite(words, root, write(root, "begun.sql", [*head, *statements(FIRST), "commit;\n"]))
        changed = least_of_sqlite(words, root, write(root, "changed.sql", [*head, *statements(count), "commit;\n"]))
    each = (changed.processors - begun.processors) / (count - FIRST)
    report(f"sqlite3, triggers, {rows} rows, {count} changes", changed, f"; one change {each * 1e6:.2f} us")
    return each


def loads(counts):
    """The least of several runs of `load` for each of these numbers of changes, in turn."""
    made = {count: [] for count in counts}
    for _ in range(LOAD_ROUNDS):
        for count, runs in made.items():
            done = run([program(), "load", str(count), "1"], ".")
            if done.status != 0:
                sys.exit(f"load ended with status {done.status}")
            runs.append(done)
    for count, runs in made.items():
        report(f"load {count} 1", least(runs))
    return [least(runs).processors for runs in made.values()]


def main():
    count = int(sys.argv[2]) if len(sys.argv) > 2 else 400_000
    for name, (_, _, _, (fewer, more)) in VIEWS.items():
        runs = times_of_change(name, count)
        few, many = (each_change(name, rows, count, runs) for rows in (fewer, more))
        opened, shown = runs[more, "opened"], runs[more, "shown"]
        print(f"{name}: a change over {more // fewer} times as many rows takes {many / few:.2f} times as long")
        print(f"{name}: opening takes {opened.processors / shown.processors:.2f} of the processors of show, {opened.megabytes / shown.megabytes:.2f} of its memory", flush=True)
        if name == "values to columns":
            other = time_in_sqlite(more, count)
            if other:
                print(f"{name}: a change takes {many / other:.2f} of the time of SQLite's")
    few, many = loads((40_000, 200_000))
    print(f"load 200000 takes {many / few:.2f} times as long as load 40000")


main()
