#!/usr/bin/env python3
"""What a change of `journal` takes, alone and in groups of ten, beside one of `maintain`, and beside the least that a program
does that writes the same journal: for each change, or each group, two writes and two calls of `fdatasync`.

usage: bench/kept.py [PROGRAM [CHANGES [INSERTS]]]

There are 2,000 changes where no other number is given, over 1,000 rows. A sync is waited for, so the clock counts, without
what it takes to open. Each figure is the least of five runs, which are made in turn. The disk is that of the folder of
temporary files, which TMPDIR names: one that is kept in memory syncs nothing.

A change of `journal` is to take at most 1.2 times what the writes and one of `maintain` take together.

Then a journal of 900,000 inserts, or as many as the third argument says, is opened, beside the opening of `maintain` with the
same inserts as its input: made again they are to take at most as long.
"""

import os
import pathlib
import sys
import time

from measure import folder, in_turn, program, run, write

ROWS, COLUMNS, ROUNDS, IN_GROUP, TIMES = 1_000, 8, 5, 10, 1.2


def rows():
    """A header, and rows of a key, one of eight values and a number."""
    yield "k,d,v\n"
    for place in range(ROWS):
        yield f"{place // COLUMNS:06},d{place % COLUMNS},{place}\n"


def changes(count):
    """So many inserts of a row and its deletes, one after the other."""
    for place in range(count):
        number = place // 2 * 7_919 % ROWS
        yield f"{'delete' if place % 2 else 'insert'}\tg\tr\t{number // COLUMNS:06}x\td{number % COLUMNS}\t1"


def grouped(count):
    """The same, as groups: what each holds, in lines."""
    every = list(changes(count))
    return ["\n".join(every[place : place + IN_GROUP]) for place in range(0, count, IN_GROUP)]


def seconds(root, word, given=None):
    """How long a run of a word takes, over a new journal."""
    (root / "schemasql.journal").unlink(missing_ok=True)
    ended = run([program(), word, "V"], root, given)
    if ended.status != 0 or not ended.lines[-1].startswith("synced\t"):
        sys.exit(f"{word} ended with status {ended.status} and {ended.lines[-1:]}")
    return ended.seconds


def writes(root, entries):
    """How long the writes and syncs take by which these entries are kept, one after another."""
    file = os.open(root / "by-hand", os.O_RDWR | os.O_CREAT | os.O_TRUNC)
    os.write(file, b"\0")
    os.fsync(file)
    begun, end = time.perf_counter(), 0
    for text in entries:
        held = len(text).to_bytes(4, "big") + text.encode() + b"\0"
        os.pwrite(file, held, end + 1)
        os.fdatasync(file)
        os.pwrite(file, b"\1", end)
        os.fdatasync(file)
        end += len(held)
    ended = time.perf_counter() - begun
    os.close(file)
    return ended


def again(inserts):
    """Says how long the inserts of a journal take that are made again, and as the input of `maintain`."""
    lines = [f"insert\tg\tr\t{place // COLUMNS:06}\td{place % COLUMNS}\t{place}".encode() for place in range(inserts)]
    with folder() as top:
        root = pathlib.Path(top)
        write(root, "defs/V.ssql", "create view V::t(k, D) as select T.k, T.v from g::r T, T.d D")
        write(root, "sources/g/r.csv", "k,d,v\n")
        (root / "schemasql.journal").write_bytes(b"".join(b"\1" + len(line).to_bytes(4, "big") + line for line in lines) + b"\0")
        kept = run([program(), "journal", "V"], root)
        (root / "lines").write_bytes(b"".join(line + b"\n" for line in lines))
        maintained = run([program(), "maintain", "V"], root, root / "lines")
    if kept.status or maintained.status:
        sys.exit(f"journal ended with status {kept.status}, maintain with {maintained.status}")
    print(f"{inserts} inserts: made again by journal {kept.seconds:.2f} s, by maintain {maintained.seconds:.2f} s", flush=True)
    if kept.seconds > maintained.seconds:
        print("more than is wanted: at most as long is wanted")


def main():
    count = int(sys.argv[2]) if len(sys.argv) > 2 else 2_000
    with folder() as top:
        root = pathlib.Path(top)
        write(root, "sources/g/r.csv", rows())
        write(root, "defs/V.ssql", "create view V::t(k, D) as select T.k, T.v from g::r T, T.d D")
        alone = write(root, "alone", (f"{line}\n" for line in changes(count)))
        groups = write(root, "groups", (f"begin\n{lines}\ncommit\n" for lines in grouped(count)))
        made = in_turn(
            {
                "opened by maintain": lambda: seconds(root, "maintain"),
                "maintain": lambda: seconds(root, "maintain", alone),
                "maintain, groups": lambda: seconds(root, "maintain", groups),
                "opened by journal": lambda: seconds(root, "journal"),
                "journal": lambda: seconds(root, "journal", alone),
                "journal, groups": lambda: seconds(root, "journal", groups),
                "writes": lambda: writes(root, changes(count)),
                "writes, groups": lambda: writes(root, grouped(count)),
            },
            ROUNDS,
        )
    least = {name: min(runs) for name, runs in made.items()}
    for form in ("", ", groups"):
        maintained = max(least["maintain" + form] - least["opened by maintain"], 0)
        kept, written = least["journal" + form] - least["opened by journal"], least["writes" + form]
        each = [f"{what} {took / count * 1e6:.1f} us" for what, took in (("journal", kept), ("maintain", maintained), ("writes and syncs", written))]
        share = kept / (maintained + written)
        print(f"a change{form.replace(', groups', f' in groups of {IN_GROUP}')}: {', '.join(each)}; journal takes {share:.2f} times both", flush=True)
        if share > TIMES:
            print(f"more than is wanted: {share:.2f}, at most {TIMES} is wanted")
    again(int(sys.argv[3]) if len(sys.argv) > 3 else 900_000)


if __name__ == "__main__":
    main()
