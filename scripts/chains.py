#!/usr/bin/env python3
"""Runs texts with long chains of operators, of posts behind a base, and of written arrays, and compares what they write with what is reckoned here.
usage: scripts/chains.py [--few] EXECUTABLE. With --few the shorter ones on 1 and 4 locales alone. Tells each run that writes something else or
ends by a signal, with status 1; or how many runs there were."""
import subprocess
import sys

LONGEST = 1048576
LENGTHS = [10, 1000, 5800, 100000, LONGEST]
LOCALES = [1, 4, 64]
OVER = "const D = blockDist.createDomain({1..30000}); "


def wrapped(n):
    """An int of 64 bits that wraps around."""
    return (n + 2**63) % 2**64 - 2**63


def chained(first, link, links):
    return first + link * links


# Each form: the text for so many links, what it writes, and the bytes of a link; and whether its turns are made by workers, so that a long
# chain takes long.
FORMS = {
    "sum in a loop": (
        lambda k: "var s = 0; for i in 1..200 do s += " + chained("i", "+i", k) + "; writeln(s);",
        lambda k: str(wrapped(20100 * (k + 1))), 2, False),
    "product in a loop": (
        lambda k: "var s = 0; for i in 2..3 do s += " + chained("i", "*i", k) + "; writeln(s);",
        lambda k: str(wrapped(pow(2, k + 1, 2**64) + pow(3, k + 1, 2**64))), 2, False),
    "sum in a forall": (
        lambda k: OVER + "var A: [D] int; forall i in D do A[i] = " + chained("i", "+i", k) + "; writeln(A[30000]);",
        lambda k: str(30000 * (k + 1)), 2, True),
    "elements in a forall": (
        lambda k: OVER + "var A: [D] int; var B: [D] int = 3; forall i in D do A[i] = " + chained("B[i]", "+B[i]", k) + "; writeln(A[7]);",
        lambda k: str(3 * (k + 1)), 5, True),
    "conditions in a forall": (
        lambda k: OVER + "var A: [D] int; forall i in D { if " + chained("i>0", "&&i>0", k) + " then A[i] = i; } writeln(A[9]);",
        lambda k: "9", 5, True),
    "sum of names": (
        lambda k: "const x = 3; var y = " + chained("x", "+x", k) + "; writeln(y, ' ', " + chained("x", "-x", k // 8) + ");",
        lambda k: f"{3 * (k + 1)} {3 - 3 * (k // 8)}", 3, False),
    "truth values": (
        lambda k: "const x = false; var y = " + chained("x", "||x", k) + "; writeln(y);",
        lambda k: "false", 3, False),
    "whole arrays": (
        lambda k: "const D = {1..3}; var A: [D] int = 2; var B: [D] int; B = " + chained("A*3", "+A*3", k) + "; writeln(B);",
        lambda k: " ".join([str(6 * (k + 1))] * 3), 4, False),
    "whole truth values": (
        lambda k: "const D = {1..3}; var A: [D] bool = true; var B: [D] bool; B = " + chained("A", "!=A", k) + "; writeln(B);",
        lambda k: " ".join([["true", "false"][k % 2]] * 3), 3, False),
    "comparisons": (
        lambda k: "var n = 0; for i in 1..3 do if " + chained("(i==1)", "!=(i==2)", k) + " then n += i; writeln(n);",
        lambda k: "3" if k % 2 else "1", 8, False),
    "reduction": (
        lambda k: "const D = {1..3}; var A: [D] int = 2; writeln(+ reduce (" + chained("A", "+A", k) + "));",
        lambda k: str(6 * (k + 1)), 2, False),
    "expansions": (
        lambda k: "const D = {1..3}; writeln(" + chained("D", ".expand(0)", k) + ".size);",
        lambda k: "3", 10, False),
    "slices of a domain": (
        lambda k: "const D = {1..3, 1..4}; writeln(" + chained("D", "[1..2,1..4]", k) + ".size);",
        lambda k: "8" if k else "12", 11, False),
    "slices": (
        lambda k: "const r = 1..3; writeln(" + chained("r", "[1..2]", k) + ".size);",
        lambda k: "2" if k else "3", 6, False),
}


def arrays(count):
    """A forall that writes so many arrays."""
    declared = "".join(f"var A{j}: [D] int; " for j in range(count))
    written = "".join(f"A{j}[i] = i; " for j in range(count))
    return OVER + declared + "forall i in D { " + written + "} writeln(A0[7], ' ', A" + str(count - 1) + "[30000]);"


def texts(few):
    """Name, text, what it writes, and the locales that it is run on."""
    for name, (text, said, size, heavy) in FORMS.items():
        for length in LENGTHS:
            links = min(length, (LONGEST - 400) // (size + (1 if name == "sum of names" else 0)))
            if few and (length == LONGEST or (heavy and length > 5800)):
                continue
            yield f"{name}, {links} links", text(links), said(links), LOCALES[:2] if few else LOCALES
    for count in [10, 300] if few else [10, 300, 2300, 4000]:
        yield f"{count} written arrays", arrays(count), "7 30000", LOCALES[:2] if few else LOCALES


def main(words):
    few = "--few" in words
    executable = [word for word in words if word != "--few"][0]
    runs, bad = 0, 0
    for name, text, said, locales in texts(few):
        for count in locales:
            command = [executable, "--locales", str(count), "--maps", "block", "-"]
            ended = subprocess.run(command, input=text.encode(), capture_output=True)
            runs += 1
            if ended.returncode != 0 or ended.stdout.decode() != said + "\n":
                bad += 1
                print(f"{name}, {count} locales: status {ended.returncode}, wrote {ended.stdout[:60]!r}, told {ended.stderr[:60]!r}", flush=True)
    if bad:
        sys.exit(1)
    print(f"chains: {runs} runs, each right")


if __name__ == "__main__":
    main(sys.argv[1:])
