#!/usr/bin/env python3
"""`check` of a definition of 1 MB: one long condition, flat, and nested as deep as the language allows.

usage: bench/check.py [PROGRAM]
"""

from measure import folder, program, report, run, wanted, write

BYTES = 1_000_000
VIEW = "create view V::t(a) as select T.a from d::r T where "
CANONICAL = "CREATE VIEW V::t(a) AS SELECT T.a FROM d::r T WHERE "


def flat(size):
    """Comparisons joined by OR, of about so many bytes."""
    return " OR ".join(f"T.a = '{place:06}'" for place in range(size // 18))


def nested(size):
    """Groups of comparisons, each inside 63 NOTs, of about so many bytes."""
    group = "NOT " * 63 + "(T.a = 'x' OR T.b < '5')"
    return " AND ".join([group] * (size // (len(group) + 5)))


def main():
    with folder() as root:
        for what, condition in [("flat", flat(BYTES)), ("nested", nested(BYTES))]:
            write(root, "defs/V.ssql", VIEW + condition)
            checked = wanted(run([program(), "check", "V"], root), 0, CANONICAL + condition)
            size = len(VIEW) + len(condition)
            report(f"check, {size} bytes, {what}", checked)


main()
