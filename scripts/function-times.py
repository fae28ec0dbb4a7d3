#!/usr/bin/env python3
"""Prints the seconds that a check took for each function of a crate, the dearest first, and for each kind of a function's modules.
usage: scripts/function-times.py [FOLDER]. FOLDER is what the check kept, by default out/incremental of the crate in the current folder.
The check has to be one from nothing, by `rt check --jobs 1`, with nothing else running: a module's time is read off as the time between the
file that the prover wrote before it and its own. `Lts` is what is made of a body before any goal, `Proof` are the goals."""
import os
import re
import sys

# A capital letter begins a kind, or a type where a method's name follows, as in `pieces.Pieces.put.Lts.decls`.
KIND = r"(?P<kind>[A-Z][a-z]\w*\b)(?!\.(?!decls\b|oantt\b)[a-z])"
FUNCTION = re.compile(rf"Rattle-\w+?-proofs\.(?P<function>[a-z_+]\w*(?:\.[\w+]+)*?)\.{KIND}(?P<rest>[-.].*)?\.oantt$")


def written(folder):
    """Returns the modules that the prover wrote, in the order of their times, each with the seconds since the one before it."""
    found = [(os.path.getmtime(f"{at}/{name}"), name) for at, _, names in os.walk(folder) for name in names if name.endswith(".oantt")]
    found.sort()
    return [(name, then - before) for (before, _), (then, name) in zip(found, found[1:])]


def main(words):
    folder = words[0] if words else "out/incremental"
    functions, kinds, others = {}, {}, 0.0
    for name, seconds in written(folder):
        found = FUNCTION.match(name)
        if not found:
            others += seconds
            continue
        for key, sums in ((found["function"], functions), (found["kind"], kinds)):
            sums[key] = sums.get(key, 0.0) + seconds
    if not functions:
        print(f"no function was checked in {folder}", file=sys.stderr)
        return 2
    for name, seconds in sorted(functions.items(), key=lambda it: -it[1]):
        if seconds >= 0.5:
            print(f"{seconds:7.1f} {name}")
    print("by kind: " + ", ".join(f"{kind} {seconds:.0f}" for kind, seconds in sorted(kinds.items(), key=lambda it: -it[1]) if seconds >= 0.5))
    print(f"functions {sum(functions.values()):.0f} s, definitions and lemmas {others:.0f} s")
    return 0


if __name__ == "__main__":
    sys.exit(main(sys.argv[1:]))
