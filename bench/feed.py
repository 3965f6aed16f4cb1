#!/usr/bin/env python3
"""`feed` of many changes of a hundred sources: once in order; twice, window by window, each time in another order; and once
in order and then all of them again. What the files hold is the same each time.

usage: bench/feed.py [PROGRAM [CHANGES]]

There are 1,000,000 changes where no other number is given.
"""

import pathlib
import random
import sys

from measure import folder, least, program, report, run, wanted, write

SOURCES = 100

# So many changes of each source are in a window. Of two the second may come first, too early, and is then the next when
# the window comes again.
IN_WINDOW = 2

# So many times each run is made that is timed, in turn with the others.
ROUNDS = 3

# A reply is to take at most so many bytes beside the line that it replies to.
MOST_BYTES = 200


def change(source, number):
    """A change of a source by its number: of eight, one deletes the row before it, one a row that is not there, and the
    others insert one each."""
    verb, row = {4: ("delete", number - 1), 0: ("delete", -number)}.get(number % 8, ("insert", number))
    return f"{verb}\tg\tr\toffice-{source:02}\t{row}\n"


def line(source, number):
    """The line by which a source sends it."""
    return f"feed\toffice-{source:02}\t{number}\t{change(source, number)}"


def in_order(count, spelled):
    """The changes of all sources in turn, so that those of each are in the order of their numbers."""
    for number in range(1, count // SOURCES + 1):
        for source in range(SOURCES):
            yield spelled(source, number)


def by_windows(count):
    """All lines twice, window by window: each time in another order."""
    order = random.Random(1)
    for first in range(1, count // SOURCES + 1, IN_WINDOW):
        window = [line(source, number) for number in range(first, first + IN_WINDOW) for source in range(SOURCES)]
        for _ in range(2):
            order.shuffle(window)
            yield from window


def again(count):
    """All lines in order, and then all of them again."""
    yield from in_order(count, line)
    yield from in_order(count, line)


def prepared(root):
    """Writes the source and the definition of a view into a folder."""
    write(root, "sources/g/r.csv", "k,v\noffice,0\n")
    write(root, "defs/V.ssql", "create view V::t(k, v) as select T.k, T.v from g::r T")
    return root


def files(root):
    """What the view's folder holds, and the lines of the sources in order: their rows stand in the order in which they came."""
    top = pathlib.Path(root)
    held = {str(path.relative_to(top)): path.read_bytes() for path in top.glob("views/**/*.csv")}
    held |= {str(path.relative_to(top)): sorted(path.read_bytes().splitlines()) for path in top.glob("sources/**/*.csv")}
    return held


def ended(word, given):
    """A run over these lines in a folder of its own, and what the files hold then."""
    with folder() as root:
        done = wanted(run([program(), word, "V"], prepared(root), given), 1, "synced\t1")
        return done, files(root)


def main():
    count = int(sys.argv[2]) if len(sys.argv) > 2 else 1_000_000
    with folder() as given:
        inputs = {
            "maintain": ("maintain", write(given, "changes", in_order(count, change))),
            "once": ("feed", write(given, "once", in_order(count, line))),
            "again": ("feed", write(given, "again", again(count))),
        }
        made = {name: [] for name in inputs}
        for _ in range(ROUNDS):
            for name, (word, lines) in inputs.items():
                made[name].append(ended(word, lines))
        mixed, mixed_files = ended("feed", write(given, "windows", by_windows(count)))
        bytes_of_line = inputs["once"][1].stat().st_size / count
    runs = {name: least([done for done, _ in all_runs]) for name, all_runs in made.items()}
    for name, all_runs in made.items():
        if any(held != mixed_files for _, held in all_runs):
            sys.exit(f"the files of `{name}` differ from those of lines that came by windows")
    maintained, once, twice = runs["maintain"], runs["once"], runs["again"]
    fresh, repeat = once.processors / count, (twice.processors - once.processors) / count
    kept = (once.megabytes - maintained.megabytes) * 1024 * 1024 / count
    report(f"maintain, {count} changes", maintained)
    report(f"feed, the same of {SOURCES} sources", once, f"; one {fresh * 1e6:.2f} us")
    report("feed, all of them again", twice, f"; one again {repeat * 1e6:.2f} us, {repeat / fresh:.2f} of its first time; at most 1 is wanted")
    report("feed, twice by windows in any order", mixed, "; the files are the same")
    print(f"a change that was handled takes {kept - bytes_of_line:.0f} bytes beside the {bytes_of_line:.0f} of its line; at most {MOST_BYTES} are wanted", flush=True)


if __name__ == "__main__":
    main()
