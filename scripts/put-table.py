#!/usr/bin/env python3
"""Puts standard input into a page, between the line `<!-- NAME -->` and the line `<!-- end of NAME -->`, in place of what stands there.
usage: scripts/put-table.py PAGE NAME. Ends with status 1 where the page has no such lines."""
import sys


def main(words):
    if len(words) != 2:
        print(__doc__, file=sys.stderr)
        return 2
    page, name = words
    with open(page, encoding="utf-8") as it:
        before, begin, rest = it.read().partition(f"<!-- {name} -->\n")
    _, end, behind = rest.partition(f"<!-- end of {name} -->\n")
    if not end:
        print(f"put-table: {page} has no lines for {name}", file=sys.stderr)
        return 1
    table = sys.stdin.read().strip("\n")
    with open(page, "w", encoding="utf-8") as it:
        it.write(f"{before}{begin}\n{table}\n\n{end}{behind}")
    return 0


if __name__ == "__main__":
    sys.exit(main(sys.argv[1:]))
