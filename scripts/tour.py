#!/usr/bin/env python3
"""Holds docs/TOUR.md to the tree: each file of its tables is there, and has each function of its row.
usage: scripts/tour.py. Tells what is gone, with status 1."""
import os
import re
import sys

TOP = os.path.dirname(os.path.dirname(os.path.realpath(__file__)))
ROW = re.compile(r"^\| `([\w/]+\.rt)` \| (`.*`) \|$")


def functions(path):
    """The names of a file's functions."""
    with open(path, encoding="utf-8") as it:
        return set(re.findall(r"\bfn (\w+)", it.read()))


def gone(line):
    """What a row of the page names and the tree hasn't got; nothing of another line."""
    row = ROW.match(line)
    if not row:
        return []
    path = os.path.join(TOP, "crates", row.group(1))
    if not os.path.isfile(path):
        return [f"there is no crates/{row.group(1)}"]
    there = functions(path)
    return [f"crates/{row.group(1)} has no function {name}" for name in re.findall(r"`(\w+)`", row.group(2)) if name not in there]


def main():
    rows = wrong = 0
    with open(os.path.join(TOP, "docs", "TOUR.md"), encoding="utf-8") as it:
        for number, line in enumerate(it, 1):
            rows += bool(ROW.match(line.rstrip("\n")))
            for told in gone(line.rstrip("\n")):
                print(f"docs/TOUR.md:{number}: {told}", file=sys.stderr)
                wrong += 1
    if not rows:
        print("docs/TOUR.md: it has no row", file=sys.stderr)
    return 0 if rows and not wrong else 1


if __name__ == "__main__":
    sys.exit(main())
