#!/usr/bin/env python3
"""Runs the texts of crates/dpl_hints/rows.txt: at a terminal each shows the line of its row of the table. Each row has a text there, and each text
of docs/CHAPEL.md that is refused shows some hint. usage: scripts/hints.py EXECUTABLE. Tells what is wrong, with status 1."""
import os
import pty
import re
import subprocess
import sys

TOP = os.path.dirname(os.path.dirname(os.path.realpath(__file__)))
CRATE = os.path.join(TOP, "crates", "dpl_hints")
LONGEST = 100
TABLE = re.compile(r'^const (\w+): &str = "\\\n(.*?)^";$', re.MULTILINE | re.DOTALL)
ESCAPE = re.compile(r"\\(?:u\{(\w+)\}|(.))")
CHARACTER = re.compile(r"\\u\{(\w+)\}")
REFUSED = re.compile(r"^(.*\S)\s{2,}! [LPC]\d+ at \d+:\d+$")


def plain(literal):
    """What a string literal stands for."""
    return ESCAPE.sub(lambda found: chr(int(found.group(1), 16)) if found.group(1) else found.group(2), literal)


def table():
    """The line of each row, by what the row says, as it stands in the source: `P1: break @`."""
    rows = {}
    with open(os.path.join(CRATE, "src", "table.rt"), encoding="utf-8") as it:
        for code, lines in TABLE.findall(it.read()):
            for line in lines.splitlines():
                seen, _, help_line = line.partition(" => ")
                rows[f"{code}: {seen}"] = plain(help_line)
    return rows


def texts():
    """The rows that have texts, each with its texts, which stand below it, four blanks in."""
    row = None
    with open(os.path.join(CRATE, "rows.txt"), encoding="utf-8") as it:
        for number, line in enumerate(it.read().splitlines(), 1):
            if line.startswith("    "):
                text = CHARACTER.sub(lambda found: chr(int(found.group(1), 16)), line[4:])
                yield number, row, text.replace(" ⏎ ", "\n")
            elif line and not line.startswith("//"):
                row = line


def shown(executable, text):
    """What a person at a terminal sees of a text on standard error."""
    master, slave = pty.openpty()
    done = subprocess.Popen([executable, "-"], stdin=subprocess.PIPE, stdout=subprocess.DEVNULL, stderr=slave)
    os.close(slave)
    done.stdin.write(text.encode())
    done.stdin.close()
    seen = b""
    try:
        while piece := os.read(master, 65536):
            seen += piece
    except OSError:
        pass
    os.close(master)
    done.wait()
    return seen.decode(errors="replace").replace("\r\n", "\n")


def hint(executable, text):
    """The hint that is shown of a text, or nothing."""
    last = shown(executable, text).rstrip("\n").rpartition("\n")[2]
    return last.removeprefix("help: ") if last.startswith("help: ") else None


def wrong_lines(rows):
    """Lines that a terminal may not show, or that are too long."""
    for row, line in rows.items():
        if not line.isascii() or not line.isprintable() or len("help: " + line) > LONGEST:
            yield f"table.rt: {row}: the line is not of at most {LONGEST} plain characters"


def wrong_texts(executable, rows):
    """Texts that show another line than their row's, and rows without a text."""
    left = set(rows)
    for number, row, text in texts():
        left.discard(row)
        told = hint(executable, text)
        if row not in rows:
            yield f"rows.txt:{number}: the table has no row {row}"
        elif told != rows[row]:
            yield f"rows.txt:{number}: this shows {told}"
    yield from (f"rows.txt: no text shows {row}" for row in sorted(left))


def wrong_page(executable):
    """Texts of the page that are refused and show no hint."""
    with open(os.path.join(TOP, "docs", "CHAPEL.md"), encoding="utf-8") as it:
        for number, line in enumerate(it.read().splitlines(), 1):
            found = REFUSED.match(line)
            if found and hint(executable, found.group(1)) is None:
                yield f"docs/CHAPEL.md:{number}: this shows no hint"


def main(words):
    if len(words) != 1:
        print(__doc__, file=sys.stderr)
        return 2
    executable, rows = os.path.abspath(words[0]), table()
    wrong = [*wrong_lines(rows), *wrong_texts(executable, rows), *wrong_page(executable)]
    for told in wrong:
        print(told, file=sys.stderr)
    return 1 if wrong else 0


if __name__ == "__main__":
    sys.exit(main(sys.argv[1:]))
