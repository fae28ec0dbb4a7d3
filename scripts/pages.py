#!/usr/bin/env python3
"""Holds README.md and docs/ true: each block is checked by the word behind its fence, as docs/README.md says, and so are
links and the width of prose. usage: scripts/pages.py EXECUTABLE [PAGE ..]. Tells what is wrong, with status 1."""
import os
import pty
import re
import subprocess
import sys
import tempfile

TOP = os.path.dirname(os.path.dirname(os.path.realpath(__file__)))
WIDTH = 100
KINDS = ("chapel", "rows", "text", "console", "rust", "antt", "sh")
FENCE = re.compile(r"^```(.*)$")
LINK = re.compile(r"\]\(([^)\s]+)\)")
OPTION = re.compile(r"^((?:--dump|--\w+ \S+|\w+=\S*)(?: (?:--\w+ \S+|\w+=\S+))*): ?(.*)$")


class Block:
    """A fenced block: the words behind its fence, its lines, and the number of the line that the fence is on."""

    def __init__(self, words, line):
        self.kind, self.words, self.line, self.lines = words[0] if words else "", words[1:], line, []

    def text(self):
        return "".join(line + "\n" for line in self.lines)


class Page:
    """A page, with its blocks and its lines of prose; and what is wrong on it."""

    def __init__(self, path):
        self.path, self.blocks, self.prose, self.wrong = path, [], [], []
        block = None
        with open(path, encoding="utf-8") as it:
            for number, line in enumerate(it.read().split("\n"), 1):
                fence = FENCE.match(line)
                if fence and block is None:
                    block = Block(fence.group(1).split(), number)
                    self.blocks.append(block)
                elif fence:
                    block = None
                elif block is not None:
                    block.lines.append(line)
                else:
                    self.prose.append((number, line))

    def tell(self, line, what):
        self.wrong.append(f"{os.path.relpath(self.path, TOP)}:{line}: {what}")


class Programs:
    """The executable, run in a room of its own, in which the repository's files stand too."""

    def __init__(self, executable, room):
        self.executable, self.room = executable, room
        for name in os.listdir(TOP):
            if name not in (".git", "dpl", "out"):
                os.symlink(os.path.join(TOP, name), os.path.join(room, name))
        os.symlink(executable, os.path.join(room, "dpl"))

    def save(self, name, text):
        with open(os.path.join(self.room, name), "w", encoding="utf-8") as it:
            it.write(text)

    def run(self, text, words):
        """Returns what a text writes, and the status."""
        done = subprocess.run([self.executable, "-", *words], input=text.encode(), capture_output=True, cwd=self.room, timeout=60)
        return done.stdout.decode(errors="replace") + done.stderr.decode(errors="replace"), done.returncode

    def at_terminal(self, command):
        """Returns what a person sees of a command whose outputs are a terminal."""
        master, slave = pty.openpty()
        done = subprocess.Popen(["sh", "-c", command], stdin=subprocess.DEVNULL, stdout=slave, stderr=slave, cwd=self.room)
        os.close(slave)
        shown = b""
        try:
            while piece := os.read(master, 65536):
                shown += piece
        except OSError:
            pass
        os.close(master)
        done.wait()
        return shown.decode(errors="replace").replace("\r\n", "\n")


def status_of(said):
    """The status that goes with what is written: 2 of a refusal, 1 of a fault, and else 0."""
    last = said.rstrip("\n").rpartition("\n")[2]
    return 2 if re.match(r"! [LPC]\d", last) else 1 if re.match(r"! F\d", last) else 0


def bare(text):
    """A text without blanks at the ends of its lines, and without empty lines at its end."""
    return "\n".join(line.rstrip() for line in text.split("\n")).rstrip("\n")


def check_program(page, programs, block, output):
    """A program ends with status 0, or writes the text that stands behind it."""
    words = list(block.words)
    if words and words[0].endswith(".chpl"):
        programs.save(words.pop(0), block.text())
    said, status = programs.run(block.text(), words)
    wanted = output.text() if output else None
    if output and bare(said) != bare(wanted):
        page.tell(output.line, f"the program above writes\n{said}")
    elif status != (status_of(wanted) if output else 0):
        page.tell(block.line, f"the program ends with status {status}, and writes\n{said}")


def rows_of(block):
    """The rows of a block: a program, and what stands behind the last two blanks or more."""
    for number, line in enumerate(block.lines, block.line + 1):
        found = re.match(r"^(.*\S)\s{2,}(\S.*)$", line)
        if found:
            yield number, found.group(1), found.group(2)
        elif line.strip():
            yield number, line.strip(), "sound"


def check_rows(page, programs, block):
    """Each row is a program, and what it writes. A file that the fence names stands before it, as line 1."""
    before = ""
    if block.words:
        with open(os.path.join(programs.room, block.words[0]), encoding="utf-8") as it:
            before = it.read().replace("\n", " ").rstrip() + "\n"
    for number, program, answer in rows_of(block):
        words = []
        asked = OPTION.match(answer)
        if asked:
            words, answer = asked.group(1).split(), asked.group(2)
        said, status = programs.run(before + program, words)
        wanted = re.sub(r" ?⏎ ?", "\n", re.sub(r"^([LPCF]\d+ at)", r"! \1", answer))
        if wanted == "sound" and status == 0 or wanted.startswith("not run: ") and status == 2:
            continue
        if bare(said) != bare(wanted) or status != status_of(wanted):
            page.tell(number, f"this writes\n{said}")


def check_console(page, programs, block):
    """Behind `$` stands a command, and below it what a person at a terminal sees of it."""
    commands = []
    for number, line in enumerate(block.lines, block.line + 1):
        if line.startswith("$ "):
            commands.append((number, line[2:], []))
        elif commands:
            commands[-1][2].append(line)
        else:
            page.tell(number, "no command stands before this")
    for number, command, wanted in commands:
        shown = programs.at_terminal(command)
        if bare(shown) != bare("\n".join(wanted)):
            page.tell(number, f"this shows\n{shown}")


def check_quote(page, block):
    """The lines of the block stand in the file that its fence names, in this order; `..` stands for some that are left out."""
    path = os.path.join(TOP, block.words[0])
    if not os.path.isfile(path):
        page.tell(block.line, f"there is no file {block.words[0]}")
        return
    with open(path, encoding="utf-8") as it:
        lines = [line.strip() for line in it]
    at, may_skip = 0, True
    for number, line in enumerate(block.lines, block.line + 1):
        line = line.strip()
        if line == "..":
            may_skip = True
            continue
        if not line:
            may_skip = True
            continue
        if line not in lines[at:] or not may_skip and lines[at] != line:
            page.tell(number, f"{block.words[0]} has no such line here")
            return
        at, may_skip = lines.index(line, at) + 1, False


def check_blocks(page, programs):
    for block, follower in zip(page.blocks, [*page.blocks[1:], None]):
        end = block.line + len(block.lines) + 1
        between = follower and any(line.strip() for number, line in page.prose if end < number < follower.line)
        output = follower if follower and follower.kind == "text" and not follower.words and not between else None
        if block.kind not in KINDS:
            page.tell(block.line, f"the fence is of none of the kinds {', '.join(KINDS)}")
        elif block.kind == "chapel":
            check_program(page, programs, block, output)
        elif block.kind == "rows":
            check_rows(page, programs, block)
        elif block.kind == "console":
            check_console(page, programs, block)
        elif block.kind == "rust" and not block.words:
            page.tell(block.line, "the fence names no file that these lines stand in")
        elif block.kind in ("rust", "antt", "text") and block.words:
            check_quote(page, block)


def check_prose(page):
    """No block is without its fence, and a line of prose isn't too wide; those of tables are as wide as they have to be."""
    in_list, before = False, ""
    for number, line in page.prose:
        if line.strip():
            if line.startswith("    ") and not before.strip() and not in_list:
                page.tell(number, "a block has no fence")
            if not line.startswith((" ", "|")) or line.lstrip().startswith(("- ", "* ")):
                in_list = bool(re.match(r"\s*([-*]|\d+\.) ", line))
            if len(line) > WIDTH and not line.startswith("|") and " " in line.strip(" -"):
                page.tell(number, f"the line has {len(line)} characters, and {WIDTH} are the most")
        before = line


def anchors(path):
    """The anchors of a page's headings."""
    with open(path, encoding="utf-8") as it:
        heads = re.findall(r"^#+ (.*)$", it.read(), re.MULTILINE)
    return {re.sub(r"[^\w\- ]", "", head.lower()).replace(" ", "-") for head in heads}


def check_links(page):
    for number, line in page.prose:
        for link in LINK.findall(line):
            if re.match(r"[a-z]+:", link):
                continue
            name, _, anchor = link.partition("#")
            path = os.path.join(os.path.dirname(page.path), name) if name else page.path
            if not os.path.exists(path):
                page.tell(number, f"there is no {link}")
            elif anchor and anchor not in anchors(path):
                page.tell(number, f"{name} has no heading #{anchor}")


def pages():
    docs = os.path.join(TOP, "docs")
    return [os.path.join(TOP, "README.md"), *(os.path.join(docs, it) for it in sorted(os.listdir(docs)) if it.endswith(".md"))]


def main(words):
    if not words:
        print(__doc__, file=sys.stderr)
        return 2
    wrong = 0
    for path in map(os.path.abspath, words[1:]) if words[1:] else pages():
        page = Page(path)
        with tempfile.TemporaryDirectory() as room:
            check_blocks(page, Programs(os.path.abspath(words[0]), room))
        check_prose(page)
        check_links(page)
        for told in page.wrong:
            print(told, file=sys.stderr)
        wrong += len(page.wrong)
    return 1 if wrong else 0


if __name__ == "__main__":
    sys.exit(main(sys.argv[1:]))
