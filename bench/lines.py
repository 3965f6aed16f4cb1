#!/usr/bin/env python3
"""What a line of `maintain` takes, by its kind, among few and among many rows of one relation: accepted, refused, held and
aborted, held and committed; schema changes of a small relation beside the large one, also where a view has its columns as
values; columns that come and go; tables that come and go.

usage: bench/lines.py [PROGRAM [LINES [MANY]]]

There are 20,000 lines of a kind and 999,960 rows where no other numbers are given. One program stands over few rows and one
over many. Each is given the kinds in turn, over and over, and a figure is the least time of its processors for the lines of
a kind. So neither what it takes to open and to save nor other work on the machine counts in it. The last column has how many
times as long a line takes among many rows.

Where a kind moves no row of the large relation, at most 1.5 times is wanted, and for a group of one change at most 1.3 times
what the change takes alone. Those that take longer are named at the end.
"""

import collections
import contextlib
import sys
from typing import Callable, NamedTuple

from measure import Talk, folder, program, write

FEW, MANY = 1_000, 999_960
FEW_TABLES, MANY_TABLES = 1_000, 20_000
COLUMNS = 8
ROUNDS = 5

# The most attributes that a relation may have.
ATTRIBUTES = 4_000

# So many times as long at most is wanted among many rows, and of a group of one beside its change.
TIMES, GROUP_TIMES = 1.5, 1.3

# A view of a large relation; the small ones beside it are in none.
VIEW = "create view V::t(k, D) as select T.k, T.v from g::r T, T.d D"
# A view with a table of each relation, the large one and a small one.
EACH = "create view V::R(k, D) as select T.k, T.v from g -> R, g::R T, T.d D"
# A view of the columns of a small relation as values, beside the large one.
COLUMNS_AS_VALUES = "create view V::t(k, n, v) as select T.k, D, T.D from g::one -> D, g::one T where D <> 'k'"
# A view with a table for each text of `d`, of which the small relation brings one that comes and goes.
TABLES = "create view V::D(k, v) as select T.k, T.v from g -> R, g::R T, T.d D"


def tall(rows, tables=COLUMNS):
    """A header, and so many rows of a key, one of so many values and a number, in no order."""
    yield "k,d,v\n"
    for step in range(rows):
        place = step * 611_953 % rows
        yield f"{place // tables:06},d{place % tables},{place}\n"


def old(rows, step):
    """A row that is there."""
    place = step * 7_919 % rows
    return f"g\tr\t{place // COLUMNS:06}\td{place % COLUMNS}\t{place}"


def new(rows, step):
    """A row that is not there, whose key is at a place among those of others."""
    place = step * 7_919 % rows
    return f"g\tr\t{place // COLUMNS:06}x\td{place % COLUMNS}\t1"


class Kind(NamedTuple):
    """Lines of a kind: its name; the lines of a step among so many rows; by which refusals they are answered, all steps
    alike; whether no row of the large relation moves; the kind that it is a group of one of; one in how many steps is made
    where a step takes long; and the lines before the steps, which are not counted."""

    name: str
    line: Callable
    refused: tuple = ()
    still: bool = True
    alone: str = ""
    one_in: int = 1
    before: str = ""


def plain(*lines):
    """These lines, over and over."""
    return lambda rows, step: lines[step % len(lines)]


def in_turn(first, second):
    """One of two lines and then the other, each with the row of the same step."""
    return lambda rows, step: (first, second)[step % 2](rows, step // 2)


def grouped(end, line):
    """A group of each of these lines alone, which ends so."""
    return lambda rows, step: f"begin\n{line(rows, step)}\n{end}"


def insert(rows, step):
    return "insert\t" + new(rows, step)


def delete(rows, step):
    return "delete\t" + new(rows, step)


def delete_old(rows, step):
    return "delete\t" + old(rows, step)


def moved(*kinds):
    """The same kinds, which move rows of the large relation."""
    return [kind._replace(still=False) for kind in kinds]


def refused(number, name, line, *others):
    """Lines that are refused, by a refusal of this number and name behind the others."""
    return Kind(f"refused, {number}: {name}", line, (*others, name))


def pairs(name, first, second):
    """Two lines in turn, the second of which takes back what the first does, and groups of them: of one, and held and
    aborted, and of both."""
    both = plain(first, second)
    return [
        Kind(name, both),
        Kind(f"{name}, in groups of one", grouped("commit", both), alone=name),
        Kind(f"{name}, in groups of both", plain(f"begin\n{first}\n{second}\ncommit")),
        Kind(f"{name}, held and aborted", grouped("abort", plain(first))),
    ]


REFUSED = [
    refused(35, "bad-escape", plain("insert\tg\tr\t\\x\tb\tc")),
    refused(1, "unknown-verb", plain("inset\tg\tr\ta\tb\tc")),
    refused(2, "field-count", plain("drop-relation\tg")),
    refused(3, "no-database", plain("insert\th\tr\ta\tb\tc")),
    refused(4, "illegal-name", plain("create-database\ta/b")),
    refused(40, "database-there", plain("create-database\tg")),
    refused(5, "no-relation", plain("delete\tg\tq\ta\tb\tc")),
    refused(6, "relation-there", plain("create-relation\tg\tr\tk")),
    refused(7, "no-attribute", plain("drop-attribute\tg\tr\tz")),
    refused(8, "attribute-there", plain("add-attribute\tg\tr\tk\t")),
    refused(9, "last-attribute", plain("drop-attribute\tg\tone\tk")),
    refused(10, "arity-differs", plain("insert\tg\tr\ta\tb")),
    refused(11, "no-row", plain("delete\tg\tr\ta\tb\tc")),
    refused("11, many rows", "no-row", delete),
    refused(30, "illegal-label", plain("insert\tg\tr\ta\t\tc")),
    refused(31, "conflict", lambda rows, step: "insert\t" + old(rows, step) + "x"),
    refused(43, "no-group", plain("abort")),
    refused(42, "in-group", plain("begin\nbegin\nabort")),
    refused("11, in a group that is aborted", "no-row", plain("begin\ndelete\tg\tr\ta\tb\tc\nabort")),
    refused("11, then 41", "group-broken", plain("begin\ndelete\tg\tr\ta\tb\tc\ncommit"), "no-row"),
    refused("30, at a commit", "illegal-label", plain("begin\ninsert\tg\tr\ta\t\tc\ncommit")),
    refused("31, at a commit", "conflict", lambda rows, step: f"begin\ninsert\t{old(rows, step)}x\ncommit"),
]

IN_TURN = "insert and delete in turn"

# The kinds of lines over the view of one relation.
LINES = [
    *moved(
        Kind(IN_TURN, in_turn(insert, delete)),
        Kind(f"{IN_TURN}, in groups of one", grouped("commit", in_turn(insert, delete)), alone=IN_TURN),
    ),
    Kind("insert, held and aborted", grouped("abort", insert)),
    Kind("delete, held and aborted", grouped("abort", delete_old)),
    *REFUSED,
    *pairs("relation of one row, renamed", "rename-relation\tg\tone\ttwo", "rename-relation\tg\ttwo\tone"),
    *pairs("its attribute, added and dropped", "add-attribute\tg\tone\tz\t", "drop-attribute\tg\tone\tz"),
    *pairs("its attribute, renamed", "rename-attribute\tg\tone\tk\tz", "rename-attribute\tg\tone\tz\tk"),
    *pairs("relation, created and dropped", "create-relation\tg\tnew\tk", "drop-relation\tg\tnew"),
    *pairs("database, created and dropped", "create-database\tnew", "drop-database\tnew"),
    *pairs("database of one row, renamed", "rename-database\th1\th2", "rename-database\th2\th1"),
    Kind("sync with nothing named", plain("sync"), before="sync\n"),
    *moved(
        Kind("column of the large table, come and gone", plain("insert\tg\tr\t000000x\tnew\t1", "delete\tg\tr\t000000x\tnew\t1"), one_in=200),
    ),
]

# A change of a group that is open where the input ends, and its part of the end.
HELD = Kind(f"{IN_TURN}, held", in_turn(insert, delete))
LEFT = Kind("- refused, 44: open-group, for each that is held", HELD.line, still=False)

# Those over a view with a table of each relation.
EACH_LINES = [
    *pairs("row of a small table, come and gone", "insert\tg\tone\tb\td0\t1", "delete\tg\tone\tb\td0\t1"),
    *pairs("column of a small table, come and gone", "insert\tg\tone\tb\tnew\t1", "delete\tg\tone\tb\tnew\t1"),
    *pairs("small table, renamed", "rename-relation\tg\tone\ttwo", "rename-relation\tg\ttwo\tone"),
    *pairs("its attribute, added and dropped", "add-attribute\tg\tone\tz\t", "drop-attribute\tg\tone\tz"),
    *pairs("its attribute of values, renamed", "rename-attribute\tg\tone\tv\tz", "rename-attribute\tg\tone\tz\tv"),
    *pairs("relation, created and dropped", "create-relation\tg\tnew\tk\td\tv", "drop-relation\tg\tnew"),
]

# Those beside a relation with as many attributes as it may have, which others would meet too.
LIMIT_LINES = [
    refused(12, "limit", plain("add-attribute\tg\tfull\tz\t")),
]

# Those over a view of the columns of the small relation.
COLUMN_LINES = [
    *pairs("row of a small relation, come and gone", "insert\tg\tone\tb\t1\t2", "delete\tg\tone\tb\t1\t2"),
    *pairs("its attribute of values, renamed", "rename-attribute\tg\tone\ta\tz", "rename-attribute\tg\tone\tz\ta"),
    *pairs("its attribute, added and dropped", "add-attribute\tg\tone\tz\t", "drop-attribute\tg\tone\tz"),
    *pairs("small relation, renamed", "rename-relation\tg\tone\ttwo", "rename-relation\tg\ttwo\tone"),
]

# Those among few and among many tables.
TABLE_LINES = [
    *pairs("table, come and gone", "insert\tg\tone\tzz\tnew\t1", "delete\tg\tone\tzz\tnew\t1"),
    *pairs("row of a table, come and gone", "insert\tg\tone\tzz\td1\t1", "delete\tg\tone\tzz\td1\t1"),
]


def answered(kind, steps, lines):
    """Stops where the lines were not answered as those of their kind are, since their time then says nothing."""
    words = collections.Counter(line.split(b"\t")[1].decode() for line in lines if line.startswith(b"refused\t"))
    wanted = {word: steps * count for word, count in collections.Counter(kind.refused).items()}
    if words != wanted:
        sys.exit(f"{kind.name}: refused by {dict(words)}")


def taken(talk, kind, rows, count):
    """The seconds of processors for a step of a kind."""
    if kind.before:
        talk.take(kind.before)
    steps = max(count // kind.one_in // 2, 1) * 2
    seconds, lines = talk.take("".join(kind.line(rows, step) + "\n" for step in range(steps)))
    answered(kind, steps, lines)
    return seconds / steps


def left_open(talk, rows, count):
    """The seconds of processors for a change that is held in an open group; and for one that is given up where the input ends
    in the group, which may count some of what ends the run. The large relation is linked before, by its first delete."""
    talk.take("delete\tg\tr\ta\tb\tc\n")
    held, lines = talk.take("begin\n" + "".join(HELD.line(rows, step) + "\n" for step in range(count)))
    answered(HELD, count, lines)
    ended, _ = talk.end(b"refused\topen-group")
    return held / count, ended / count


def measured(view, kinds, sources, count):
    """The seconds of processors of a step of each kind, by the number of rows and the kind's place, each the least of several
    runs."""
    made = collections.defaultdict(list)
    with folder() as top, contextlib.ExitStack() as talks:
        over = {}
        for rows, files in sources.items():
            for path, lines in files.items():
                write(f"{top}/{rows}", f"sources/{path}.csv", lines)
            write(f"{top}/{rows}", "defs/V.ssql", view)
            over[rows] = talks.enter_context(Talk([program(), "maintain", "V"], f"{top}/{rows}"))
        for _ in range(ROUNDS):
            for place, kind in enumerate(kinds):
                for rows, talk in over.items():
                    made[rows, place].append(taken(talk, kind, rows, count))
        for rows, talk in over.items():
            held, ended = left_open(talk, rows, count)
            made[rows, len(kinds)].append(held)
            made[rows, len(kinds) + 1].append(ended)
    return {case: min(seconds) for case, seconds in made.items()}


def table(view, kinds, sources, count, what):
    """Prints a line for each kind: what a step takes among few and among many, and how many times as long. It answers what
    takes longer than is wanted."""
    few, many = sources
    made = measured(view, kinds, sources, count)
    places = {kind.name: place for place, kind in enumerate(kinds)}
    longer = []
    print(f"{'one step, in µs':56} {few:>10} {many:>10}  times, {what}", flush=True)
    for place, kind in enumerate([*kinds, HELD, LEFT]):
        each = [made[rows, place] * 1e6 for rows in sources]
        times = each[1] / each[0]
        print(f"{kind.name:56} {each[0]:10.2f} {each[1]:10.2f} {times:6.2f}", flush=True)
        if kind.still and times > TIMES:
            longer.append(f"{kind.name}: {times:.2f} times as long among {many} {what}")
        for rows in sources if kind.alone else ():
            times = made[rows, place] / made[rows, places[kind.alone]]
            if times > GROUP_TIMES:
                longer.append(f"{kind.name}: {times:.2f} times as long as the change alone, among {rows} {what}")
    return longer


def main():
    count = int(sys.argv[2]) if len(sys.argv) > 2 else 20_000
    many = int(sys.argv[3]) if len(sys.argv) > 3 else MANY
    one = ["k,d,v\n", "a,d0,1\n"]
    wide = ["k,a,b\n", "a,1,2\n"]
    full = [",".join(f"a{place}" for place in range(ATTRIBUTES)) + "\n"]
    small = {"g/one": ["k\n", "a\n"], "h1/one": ["k\n", "a\n"]}
    tables = min(MANY_TABLES, many)
    longer = [
        *table(VIEW, LINES, {rows: {"g/r": tall(rows), **small} for rows in (FEW, many)}, count, "rows"),
        *table(VIEW, LIMIT_LINES, {rows: {"g/r": tall(rows), "g/full": full} for rows in (FEW, many)}, count, "rows"),
        *table(EACH, EACH_LINES, {rows: {"g/r": tall(rows), "g/one": one} for rows in (FEW, many)}, count, "rows"),
        *table(COLUMNS_AS_VALUES, COLUMN_LINES, {rows: {"g/r": tall(rows), "g/one": wide} for rows in (FEW, many)}, count, "rows"),
        *table(TABLES, TABLE_LINES, {rows: {"g/r": tall(rows, rows), "g/one": one} for rows in (FEW_TABLES, tables)}, count, "tables"),
    ]
    for line in longer:
        print("longer than is wanted: " + line)


main()
