#!/usr/bin/env python3
"""Counts the lines of definitions that have to be believed for the public promises of dpl_run, and prints them by crate and file.
A definition counts whole, without imports, comments and blank lines; with it each that it names, from the contracts of ROOTS on.
usage: scripts/believed.py [--at-most LINES]: ends with 1 where there are more."""
import os
import re
import sys

HOUSE = os.path.dirname(os.path.dirname(os.path.realpath(__file__)))
# What the contracts of run_text, check, run_checked, Left, dump and Config::new name, by file; but for the clause `allowed` of check, which follows from
# its clause `unrefused` by a law of the rules (`sound_admitted`), and from what it requires by one of places (`stmts-rising`).
ROOTS = {
    "dpl_run/Headline": ["IsRead", "Says"],
    "dpl_outcome/Settings": ["Settings", "limits_of", "layout_of", "AreLocales", "IsCount", "IsGrid2", "IsGrid3"],
    "dpl_outcome/Writers": ["fails", "Partly"],
    "dpl_outcome/Leaving": ["variable_view"],
    "dpl_run/Programs": ["CheckedProgram", "AreSpelled", "Runs"],
    "dpl_loop/Entries": ["MayRefuseSome"],
    "dpl_says/Dump": ["dumped"],
}
# What a law speaks of, or a test looks at, and no promise: the numbers of the kinds of tokens (`numbers_told` of dpl_grammar says that two
# kinds with one number are alike), and what a reader of a grammar is told (it computes that this is right, and no language looks at it).
SHOWN = {"dpl_grammar/Numbers": None, "dpl_spelling/Nested": "hints"}
HEAD = re.compile(r"^(abbrev |unfoldable )?(pub )?(data |record )?(\S+)( :|.* : |.* where$)")
WORD = re.compile(r"[^\s(){}\[\],;.]+")


class File:
    """The definitions of a file: of each its lines, and which words stand in them."""

    def __init__(self, name):
        self.name, self.lines, self.home, self.imports, self.wholes, self.declared = name, {}, {}, {}, {}, set()
        with open(path_of(name), encoding="utf-8") as it:
            text = [line.rstrip("\n") for line in it]
        current, within, kept = None, 0, []
        for line in text:
            bare = line.strip()
            if not bare or bare.startswith("--"):
                continue
            if bare.startswith("use "):
                self.take_import(bare)
                continue
            if bare.startswith("pub use "):
                self.pass_on(bare)
                continue
            depth = len(line) - len(line.lstrip())
            if re.match(r"(module _|abbrev mutual$|mutual$|infix[lr]? [0-9]|pub mod [A-Z]|mod [A-Z])", bare):
                current = None
                continue
            found = HEAD.match(bare)
            is_new = found and found.group(4) not in self.lines and (current is None or depth <= within)
            if is_new:
                current, within = found.group(4), depth
                self.lines[current] = []
                self.home[current] = found.group(3) == "data "
            if current is None:
                continue
            self.lines[current].append(bare)
        # Constructors stand for their type; a record's type is named wherever its fields are.
        self.members = {}
        for name, lines in self.lines.items():
            self.members[name] = name
            if self.home[name]:
                for line in lines[1:]:
                    head = re.match(r"(?:pub )?(\S+) :", line)
                    if head:
                        self.members.setdefault(head.group(1), name)

    def take_import(self, line):
        found = re.match(r"use Rattle\.(\w+)\.specs\.([\w.]+?)(?:\.\{(.*)\}| as (\S+))?$", line)
        if not found or not found.group(1).startswith("dpl_"):
            return
        file = f"{found.group(1)}/{found.group(2).replace('.', '/')}"
        if not os.path.isfile(path_of(file)):
            return
        if found.group(4):
            self.wholes[found.group(4)] = file
        for item in filter(None, (found.group(3) or "").split(", ")):
            name, _, short = item.partition(" as ")
            self.imports[short or name] = file, name

    def pass_on(self, line):
        """Takes note of what a file passes on: types and variants that Rust declares, of which no definition says more."""
        found = re.match(r"pub use Rattle\.dpl_\w+\.specs\.declared\.[\w.]+\.\{(.*)\}$", line)
        if not found:
            sys.exit(f"believed.py: {self.name} passes on what Rust doesn't declare: {line}")
        self.declared |= {item.split(" as ")[-1] for item in found.group(1).split(", ")}

    def named_in(self, definition):
        """Returns the definitions, each with its file, that the lines of one name."""
        words = set()
        for line in self.lines[definition]:
            words |= set(WORD.findall(line))
            for whole, file in self.wholes.items():
                for name in re.findall(rf"\b{re.escape(whole)}\.([^\s(){{}}\[\],;]+)", line):
                    yield file, name
        # `a ⟶ b` is a call of `◌⟶◌`
        for short, (file, name) in self.imports.items():
            if is_called(short, words):
                yield file, name
        for name, home in self.members.items():
            if home != definition and is_called(name, words):
                yield self.name, home


def is_called(name, words):
    parts = [it for it in name.split("◌") if it]
    return all(it in words for it in parts)


def path_of(name):
    crate, _, inside = name.partition("/")
    return f"{HOUSE}/crates/{crate}/specs/{inside}.antt"


def believed():
    files, seen = {}, set()
    left = [(file, name) for file, names in ROOTS.items() for name in names]
    while left:
        file, name = left.pop()
        if file not in files:
            files[file] = File(file)
        if name in files[file].declared:
            continue
        home = files[file].members.get(name)
        if home is None:
            operator = [it for it in files[file].members if it.replace("◌", "") == name]
            if not operator:
                sys.exit(f"believed.py: {file} has no {name}")
            home = files[file].members[operator[0]]
        if (file, home) in seen or file in SHOWN and SHOWN[file] in (None, home):
            continue
        seen.add((file, home))
        left += files[file].named_in(home)
    counts = {}
    for file, name in seen:
        counts[file] = counts.get(file, 0) + len(files[file].lines[name])
    return counts


def main(words):
    counts = believed()
    crates = {}
    for file, lines in counts.items():
        crates.setdefault(file.partition("/")[0], []).append((lines, file.partition("/")[2]))
    print("| Crate | Lines | Files |\n|---|---|---|")
    for crate, of in sorted(crates.items(), key=lambda it: (-sum(lines for lines, _ in it[1]), it[0])):
        print(f"| `{crate}` | {sum(lines for lines, _ in of)} | {', '.join(f'{name} {lines}' for lines, name in sorted(of, reverse=True))} |")
    total = sum(counts.values())
    print(f"| all | {total} | |")
    if words[:1] == ["--at-most"] and total > int(words[1]):
        sys.exit(f"believed.py: {total} lines are to be believed, and at most {words[1]} may be")


if __name__ == "__main__":
    main(sys.argv[1:])
