#!/usr/bin/env python3
"""Counts by valgrind the instructions that forms of loops take for a turn, and tells each that takes a tenth more than benches/instructions.txt has.
usage: scripts/instructions.py [--write] EXECUTABLE. With --write it writes the file anew. A form that is made slowly shows in no output: a body
whose turns were made many at once, and then one by one, writes the same."""
import re
import subprocess
import sys
import tempfile
from concurrent.futures import ThreadPoolExecutor
from pathlib import Path

COUNTS = Path(__file__).resolve().parent.parent / "benches" / "instructions.txt"
OVER = "const D = {1..N}; var A: [D] int; var B: [D] int; "
FORALL = OVER + "for k in 1..20 do forall i in D "
EACH = "var s = 0; var t = true; for i in 1..N "
SHOWN = " writeln(+ reduce A, ' ', + reduce B);"

# Each form: its text for N turns, or some times as many where it says so.
FORMS = {
    "a sum": (EACH + "do s += i; writeln(s);", 1),
    "two operators": (EACH + "do s = s + i * 3; writeln(s);", 1),
    "ten operators": (EACH + "do s += i+i+i-i+i*2+i*3+i%5; writeln(s);", 1),
    "a division": (EACH + "do s += 1000000 / i; writeln(s);", 1),
    "two conditions": (EACH + "{ if i > 5 && i < 900 then s += 1; } writeln(s);", 1),
    "three conditions": (EACH + "{ if i > 5 && i < 900 && i % 3 == 1 then s += 1; } writeln(s);", 1),
    "both branches": (EACH + "{ if i % 2 == 0 then s += i; else s -= 1; } writeln(s);", 1),
    "a truth value": (EACH + "do t = t == (i > 7) || i < 3; writeln(t);", 1),
    "a body's variable": (EACH + "{ var x = i * i; var y = x - i; s += y; } writeln(s);", 1),
    "an inner loop": ("var s = 0; for i in 1..N / 10 do for j in 1..10 do s += i * j; writeln(s);", 1),
    "a while": ("var s = 0; var i = 0; while i < N { i += 1; s += i; } writeln(s);", 1),
    "an element": (OVER + "var s = 0; for i in 1..N { A[i] = i; s += A[i] + B[i]; } writeln(s);", 1),
    "a range's method": (EACH + "do s += (1..i by 2).size; writeln(s);", 1),
    "slices of a range": ("const r = 1..9; var s = 0; for i in 1..N do s += r[2..8][3..7].size; writeln(s);", 1),
    "posts of a domain": ("const E = {1..9, 1..9}; var s = 0; for i in 1..N do s += E[2..8, 2..8].expand(1).size; writeln(s);", 1),
    "over a domain": (OVER + "var s = 0; for i in D do s += i; writeln(s);", 1),
    "a forall": (FORALL + "do A[i] = i;" + SHOWN, 20),
    "a forall's operators": (FORALL + "do A[i] = 2 * i + B[i] - 1;" + SHOWN, 20),
    "two statements": (FORALL + "{ A[i] = B[i] + 1; B[i] = A[i] * 2; }" + SHOWN, 20),
    "a forall's condition": (FORALL + "{ if i > 5 && i < 900 then A[i] = i; }" + SHOWN, 20),
    "a forall's branches": (FORALL + "{ if i > 5 then A[i] = i; else A[i] = 2 * i + 1; }" + SHOWN, 20),
    "a forall's variable": (FORALL + "{ var x = i * i; A[i] = x; }" + SHOWN, 20),
    "a forall's inner loop": (FORALL + "{ var x = 0; for j in 1..4 do x += j; A[i] = x; }" + SHOWN, 20),
    "a forall's sum": (OVER + "var s = 0; for k in 1..20 do forall i in D with (+ reduce s) do s += i * i; writeln(s);", 20),
    "a stencil": (
        "const n = N; var A: [0..n + 1] int; var B: [0..n + 1] int; forall i in 1..n do A[i] = i; "
        "for k in 1..20 do forall i in 1..n do B[i] = A[i-1] + A[i] + A[i+1]; writeln(B[n]);", 20),
    "a whole array": (OVER + "for k in 1..20 do A = 7;" + SHOWN, 20),
    "whole arrays": (OVER + "for k in 1..20 do A = A * 3 + B - 1;" + SHOWN, 20),
    "whole truth values": (OVER + "var T: [D] bool; for k in 1..20 do T = A > B; writeln(&& reduce T);", 20),
    "a reduction": (OVER + "var s = 0; for k in 1..20 do s += + reduce (A * B + 1); writeln(s);", 20),
    "truth values reduced": (OVER + "var n = 0; for k in 1..20 do if && reduce (A == B) then n += 1; writeln(n);", 20),
    "a line of output": ("for i in 1..N do writeln(i, ' ', i * i);", 1),
}


def counted(executable, text):
    with tempfile.NamedTemporaryFile("w", suffix=".chpl") as program:
        program.write(text)
        program.flush()
        words = ["valgrind", "--tool=callgrind", "--callgrind-out-file=/dev/null", executable, program.name]
        ended = subprocess.run(words, capture_output=True, text=True)
    found = re.search(r"Collected : (\d+)", ended.stderr)
    if ended.returncode != 0 or not found:
        sys.exit(f"{text}: status {ended.returncode}, told {ended.stderr[-300:]}")
    return int(found.group(1))


def for_a_turn(executable, form):
    text, times = form
    few, many = 2048, 4096
    took = [counted(executable, text.replace("N", str(turns))) for turns in (few, many)]
    return (took[1] - took[0]) / ((many - few) * times)


def main(words):
    executable = [word for word in words if word != "--write"][0]
    with ThreadPoolExecutor() as pool:
        took = dict(zip(FORMS, pool.map(lambda form: for_a_turn(executable, form), FORMS.values())))
    if "--write" in words:
        COUNTS.write_text("".join(f"{count:8.1f} {name}\n" for name, count in took.items()), encoding="ascii")
        return
    known = dict(reversed(line.split(maxsplit=1)) for line in COUNTS.read_text(encoding="ascii").splitlines())
    slower = [f"{name}: {count:.1f} instructions a turn, and {known[name]} were enough" for name, count in took.items() if count > 1.1 * float(known[name]) + 0.5]
    print("\n".join(slower) or f"instructions: {len(took)} forms, each as fast as it was")
    sys.exit(1 if slower else 0)


if __name__ == "__main__":
    main(sys.argv[1:])
