#!/usr/bin/env python3
"""Measures how much of its stack the program's thread uses, for texts nested as deep as the language lets them, in each stage of a run.
usage: scripts/stack.py EXECUTABLE. A text ends with more output than a pipe holds, so that the program waits with its stack mapped; how much of it
was ever used stands in the system's table of its memory (/proc/PID/smaps). Prints a row a text, in KB, and the most."""
import subprocess
import sys
import time

# Behind each text: more than the 64 KiB that a pipe holds.
OUTPUT = ' for line in 1..2000 do writeln("this line of output fills up the pipe so that the program waits");'
ARRAY = "const D = blockDist.createDomain({1..40000}); var A: [D] int; "
DEPTH = 62


def nested(opening, middle, closing, depth=DEPTH):
    return opening * depth + middle + closing * depth


TEXTS = {
    "brackets": f"writeln({nested('(', '1', ')')});",
    "right sides of sums": f"var s = 0; for i in 1..3 do s += {nested('i+(', 'i', ')')};",
    "right sides of quotients": f"var s = 0; for i in 1..3 do s += {nested('i/(', 'i', ')')};",
    "prefixes": f"var x = true; writeln({nested('!', 'x', '')});",
    "indices": f"var B: [1..9] int = 1; writeln({nested('B[', '1', ']')});",
    "truth values": f"var x = true; writeln({nested('x==(', 'x', ')')});",
    "domains": f"writeln({nested('{1..', '1', '}.size')});",
    "ranges": f"writeln({nested('(1..#', '1', ').size')});",
    "slices": f"const r = 1..1; writeln({nested('r[1..', '1', '].size')});",
    "expansions": f"const E = {{1..1}}; writeln({nested('E.expand(0*', '1', ').size')});",
    "whole arrays": f"var B: [1..3] int = 1; B = {nested('B+(', 'B', ')')};",
    "reductions": f"var B: [1..3] int = 1; writeln(+ reduce ({nested('B+(', 'B', ')', 60)}));",
    "blocks": nested("{", ";", "}", 63),
    "conditions": "var x = true; " + nested("if x then ", ";", "", 63),
    "loops": "var s = 0; " + nested("for i in 1..1 do ", "s += 1;", "", 63),
    "loops over domains": "const E = {1..1}; var s = 0; " + nested("for i in E do ", "s += 1;", "", 63),
    "loops by a condition": "var s = 0; " + nested("while s < 1 do ", "s += 1;", "", 63),
    "a forall's sums": ARRAY + f"forall i in D do A[i] = {nested('i+(', 'i', ')', 61)};",
    "a forall's domains": ARRAY + f"forall i in D do A[i] = {nested('{1..', 'i', '}.size', 60)};",
    "a forall's conditions": ARRAY + "forall i in D do " + nested("if i > 0 then ", "A[i] = i;", "", 61),
    "loops and indices": "var B: [1..3] int = 1; var s = 0; " + nested("for i in 1..1 do ", f"s += {nested('B[', '1', ']', 31)};", "", 31),
}


def mapped_stacks(pid):
    """The used KB of each mapping that is large enough for a thread's stack, and is one: of 2 MiB."""
    used, size = [], 0
    with open(f"/proc/{pid}/smaps", encoding="ascii") as table:
        for line in table:
            word, *rest = line.split()
            if word == "Size:":
                size = int(rest[0])
            elif word == "Rss:" and size == 1 << 11:
                used.append(int(rest[0]))
    return used


def waits(pid):
    with open(f"/proc/{pid}/stat", encoding="ascii") as status:
        return status.read().rsplit(")", 1)[1].split()[0] == "S"


def measured(executable, text):
    program = subprocess.Popen([executable, "-"], stdin=subprocess.PIPE, stdout=subprocess.PIPE)
    program.stdin.write((text + OUTPUT).encode())
    program.stdin.close()
    used = []
    for _ in range(200):
        time.sleep(0.05)
        if program.poll() is not None:
            break
        found = mapped_stacks(program.pid)
        if found and found == used and waits(program.pid):
            break
        used = found
    program.stdout.read()
    return max(used, default=0) if program.wait() == 0 else 0


def main(executable):
    most = 0
    for name, text in TEXTS.items():
        used = measured(executable, text)
        if used == 0:
            sys.exit(f"{name}: the program didn't wait with a stack, or ended otherwise than with 0")
        most = max(most, used)
        print(f"{used:6} KB  {name}")
    print(f"{most:6} KB at the most")


if __name__ == "__main__":
    main(sys.argv[1])
