#!/usr/bin/env python3
"""A journal that is read to its end, beside a file of as many change lines that is read by lines: each entry is one insert.

usage: bench/journal.py [PROGRAM [ENTRIES]]

There are 1,000,000 entries where no other number is given.
"""

import pathlib
import sys

from measure import HERE, folder, least, report, run, wanted

PROGRAM = HERE.parent / "build" / "part_bench"

# So many times each run is made, in turn with the other.
ROUNDS = 5


def program():
    """The program that is measured: the first argument, or the one that `make bench-journal` builds."""
    return str(pathlib.Path(sys.argv[1] if len(sys.argv) > 1 else PROGRAM).resolve())


def lines(count):
    """So many change lines, each an insert of a row of three cells."""
    return (f"insert\tsales\torders\t{number:07}\tbranch-{number % 97}\t{number % 1000}.50".encode() for number in range(count))


def entry(text):
    """A group as an entry: a byte 1, the length of its text in four bytes, and the text."""
    return b"\1" + len(text).to_bytes(4, "big") + text


def main():
    count = int(sys.argv[2]) if len(sys.argv) > 2 else 1_000_000
    with folder() as root:
        with open(pathlib.Path(root) / "schemasql.journal", "wb") as file:
            file.writelines(map(entry, lines(count)))
            file.write(b"\0")
        with open(pathlib.Path(root) / "changes", "wb") as file:
            file.writelines(line + b"\n" for line in lines(count))
        runs = {word: [] for word in ("entries", "lines")}
        for _ in range(ROUNDS):
            for word, all_runs in runs.items():
                all_runs.append(wanted(run([program(), word], root), 0, str(count)))
    for word, all_runs in runs.items():
        report(f"{count} {word}", least(all_runs))
    entry_s, line_s = (min(ended.processors for ended in runs[word]) for word in runs)
    print(f"an entry takes {entry_s / line_s:.2f} times as long as a line", flush=True)


if __name__ == "__main__":
    main()
