#!/usr/bin/env python3
"""Runs the rows of crates/dpl_rows/stdin by an executable, each on one locale and on some others by other maps, and compares what
it writes with crates/dpl_rows/stdout. usage: scripts/rows.py EXECUTABLE. Tells each row that writes something else, with status 1."""
import concurrent.futures
import os
import subprocess
import sys

ROWS = os.path.join(os.path.dirname(os.path.dirname(os.path.realpath(__file__))), "crates", "dpl_rows")
# Locales, the two grids of theirs, and maps.
SETTINGS = ((1, "1x1", "1x1x1", "asis"), (4, "2x2", "1x2x2", "block"), (6, "2x3", "1x2x3", "cyclic"))
BUDGET = "1000"


class Row:
    """A text, the options with which it is run, and what it writes. Of one that asks for its number of locales the first answer alone is looked at."""

    def __init__(self, lines, answer):
        self.options, self.sets, self.fixed = ["--budget", BUDGET], [], False
        while lines and lines[0].startswith(("# ", "@ ")):
            word, _, value = lines.pop(0)[2:].partition(" ")
            if word == "budget":
                self.options[1] = value
            elif word == "set":
                self.sets.append(value)
            elif word == "locales":
                self.fixed = True
        self.text, self.answer = "\n".join(lines).encode(), answer

    def wrong_by(self, executable):
        """Returns what the row writes where that is something else, with the setting."""
        for locales, plane, space, maps in SETTINGS[:1] if self.fixed else SETTINGS:
            words = ["-", *self.sets, *self.options, "--locales", str(locales), "--grid2", plane, "--grid3", space, "--maps", maps]
            done = subprocess.run([executable, *words], input=self.text, capture_output=True, timeout=60)
            if done.stdout != self.answer:
                return f"{self.text.decode()}\nwith {' '.join(words[1:])} writes\n{done.stdout.decode(errors='replace')}"
        return None


def parts(name):
    with open(os.path.join(ROWS, name), encoding="utf-8") as it:
        return it.read().split("==\n")[:-1]


def rows():
    answers = [answer.partition("layout ")[0].encode() for answer in parts("stdout")]
    texts = [text.removesuffix("\n").split("\n") for text in parts("stdin")]
    if len(texts) != len(answers):
        sys.exit(f"rows.py: there are {len(texts)} rows and {len(answers)} answers")
    return [Row(lines, answer) for lines, answer in zip(texts, answers)]


def main(words):
    if len(words) != 1:
        print(__doc__, file=sys.stderr)
        return 2
    executable = os.path.abspath(words[0])
    with concurrent.futures.ThreadPoolExecutor(os.cpu_count()) as pool:
        wrong = [it for it in pool.map(lambda row: row.wrong_by(executable), rows()) if it]
    for told in wrong:
        print(f"rows: {told}", file=sys.stderr)
    return 1 if wrong else 0


if __name__ == "__main__":
    sys.exit(main(sys.argv[1:]))
