#!/usr/bin/env python3
# What the front end and the borrow check say of a crate, with nothing built or proved below it: all its libraries are read as source.
# usage: scripts/front-end.py CRATE [flags of rattle check]. Errors come within seconds. What follows states each contract, which takes
# minutes: lines "not stated" and "ahead of the check" at its end tell of functions that the borrow check doesn't cover.
import os
import subprocess
import sys

if len(sys.argv) < 2:
    sys.exit("usage: scripts/front-end.py CRATE [flags of rattle check]")
top = os.path.dirname(os.path.dirname(os.path.abspath(__file__)))
kit = os.path.dirname(subprocess.check_output(["rt", "doc"], text=True).strip())
uses = {}
for line in open(top + "/crates.txt"):
    name, colon, libraries = line.partition(":")
    if colon and not name.startswith("#"):
        uses[name.split()[0]] = libraries.split()


def below(crate, found):
    """The libraries of a crate, each behind those that it uses."""
    for library in uses.get(crate, []):
        if library not in found:
            below(library, found)
            if library not in found:
                found.append(library)
    return found


crate = sys.argv[1]
words = ["--extern", f"std={kit}/rlibs/std.rlib"]
for library in below(crate, []):
    if library in uses:
        words += ["--lib", f"{library}:{','.join(uses[library] + ['std'])}={top}/crates/{library}/src/lib.rt"]
    else:
        words += ["--extern", f"{library}={kit}/rlibs/{library}.rlib"]
os.chdir(f"{top}/crates/{crate}")
root = "src/main.rt" if os.path.exists("src/main.rt") else "src/lib.rt"
project = f"{kit}/rattle/logic/antt-project.json"
logic = ["--antt-project", project, "--logic-built", f"{kit}/logic_built", "--links", f"{crate}=", "--jobs", "1", "--only", ""]
os.execv(f"{kit}/bin/rattle", ["rattle", "check", "--crate-name", crate, root, "-L", f"dependency={kit}/rlibs"] + words + logic + sys.argv[2:])
