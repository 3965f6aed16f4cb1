#!/usr/bin/env python3
"""Input that no honest tool writes, and that is large: how soon it is answered, and with how much memory.

usage: bench/hostile.py [PROGRAM]
"""

import itertools
import random

from measure import folder, least, program, report, run, wanted, write

MILLION = 1_000_000
KEY = 100_000
QUOTED = 100_000_000
LARGE = 2**31
MOST_MEGABYTES = 1000
MOST_TIMES = 2

# So many keys are chosen, of letters, and the opening over them is run so often, in turn with others. They meet in one
# place of a map that hashes with the fixed seed: a run has a seed of its own, and is not to take longer for them.
CHOSEN = 18_432
LETTERS, LENGTH = b"abcdefghijklmnopqrstuvwxyz", 8
ROUNDS = 5


def view(root, source):
    """A view of the first column of a relation with these lines."""
    write(root, "sources/d/r.csv", source)
    write(root, "defs/V.ssql", "create view V::t(x) as select T.a from d::r T")


def line(name, given, first):
    """An input of one line, whose first field is no verb."""
    with folder() as root:
        view(root, "a\n1\n")
        write(root, "lines", [given, "\n"])
        ended = run([program(), "maintain", "V"], root, f"{root}/lines")
    if f"refused\tunknown-verb\t{first}" not in ended.lines:
        raise SystemExit(f"{name}: {[shown[:80] for shown in ended.lines]}")
    report(name, wanted(ended, 1, "synced\t0"))


def source(name, lines, status, last):
    """`show` over a source of these lines."""
    with folder() as root:
        view(root, lines)
        ended = wanted(run([program(), "show", "V"], root), status, last)
    report(name, ended)
    return ended


def mixed(state, number, length):
    """The state of the kit's hash with the fixed seed behind a piece of at most eight bytes, read as a number."""
    product = (state ^ number) * (0x9E3779B97F4A7C15 ^ 2 * length)
    return (product ^ product >> 64) & 2**64 - 1


def thrice(byte):
    """What that hash reads of one byte."""
    return byte * 0x010101


def chosen_keys():
    """Keys that all begin their search in one place of a map whose hash has the fixed seed."""
    begun = mixed(mixed(0x243F6A8885A308D3, 1, 8), LENGTH, 8)
    last = [(thrice(byte), bytes([byte])) for byte in LETTERS]
    mask = CHOSEN // 9 - 1
    keys = []
    for front in itertools.product(LETTERS, repeat=LENGTH - 1):
        state = begun
        for byte in front:
            state = mixed(state, thrice(byte), 1)
        for number, byte in last:
            state_then = mixed(state, number, 1)
            if not (state_then ^ state_then >> 32) & mask:
                keys.append((bytes(front) + byte).decode())
        if len(keys) >= CHOSEN:
            return keys[:CHOSEN]


def other_keys():
    """As many other keys."""
    chance = random.Random(1)
    keys = set()
    while len(keys) < CHOSEN:
        keys.add("".join(chance.choices(LETTERS.decode(), k=LENGTH)))
    return sorted(keys)


def chosen():
    """The opening of a view over chosen keys, beside one over others."""
    with folder() as these, folder() as others:
        view(these, ["a\n", *(key + "\n" for key in chosen_keys())])
        view(others, ["a\n", *(key + "\n" for key in other_keys())])
        runs = {these: [], others: []}
        for _ in range(ROUNDS):
            for root, all_runs in runs.items():
                all_runs.append(wanted(run([program(), "maintain", "V"], root), 0, "synced\t0"))
    times = []
    for name, all_runs in zip(("chosen", "other"), runs.values()):
        report(f"{CHOSEN} {name} keys", least(all_runs))
        times.append(min(ended.processors for ended in all_runs))
    ratio = times[0] / times[1]
    print(f"chosen keys take {ratio:.1f} times as long", flush=True)
    if ratio >= MOST_TIMES:
        raise SystemExit("they meet in one place")


def main():
    line(f"a line of {MILLION} letters", "a" * MILLION, "a" * MILLION)
    line(f"a line of {MILLION} TABs", "\t" * MILLION, "")
    source(f"a key of {KEY} bytes", ["a\n", "k" * KEY, "\n"], 0, "synced\t1")
    source(
        f"an open quote and {QUOTED} bytes behind it",
        ['a,b\n"', *("x" * MILLION for _ in range(QUOTED // MILLION))],
        4,
        "refused\tragged\td\tr.csv\t2\t2\t1",
    )
    source("a record of a million empty fields", ["a\n", "," * MILLION, "\n"], 4, f"refused\tragged\td\tr.csv\t2\t1\t{MILLION + 1}")
    source("a header of a million empty names", ["," * MILLION, "\n"], 4, "refused\tlimit\tattributes")
    rows = "1\n" * MILLION
    ended = source(
        f"{LARGE} bytes of records of two",
        [*(rows for _ in range(LARGE // len(rows))), rows[: LARGE % len(rows)]],
        4,
        "refused\tlimit\trows",
    )
    if ended.megabytes >= MOST_MEGABYTES:
        raise SystemExit(f"{ended.megabytes:.0f} MB")
    chosen()


main()
