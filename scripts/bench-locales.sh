#!/bin/sh
# Times foralls on one locale, and on four by block, by cyclic and by block-cyclic maps, all in one run: a stencil over a plane, a mean that is copied back, fills of arrays, sums by a reduce
# intent and by a reduction, and many small loops. Each program is run with and without its loops' repetitions, so that what is told is the time of the loops alone.
# Blocks that go round are slow: their column is of one round with one repetition, and takes a minute. Last come the fills in C, by one thread and by four.
# Prints a table in Markdown, which scripts/put-table.py puts into docs/BENCH.md, the fills in C among its rows.
# usage: scripts/bench-locales.sh [ROUNDS [EXECUTABLE]]. Needs python3 and a C compiler.
set -eu
top=$(cd "$(dirname "$0")/.." && pwd)
work=$(mktemp -d)
trap 'rm -rf "$work"' EXIT
cc -O2 -pthread -o "$work/fills" "$top/benches/programs/fills.c"
python3 - "${1:-5}" "${2:-$top/dpl}" <<'PYTHON'
import subprocess, sys, time

rounds, dpl = int(sys.argv[1]), sys.argv[2]
PLANE = "const D = {1..2000, 1..2000}%s; const I = D[2..1999, 2..1999]; var A: [D] int; var B: [D] int; forall (i, j) in D do A[i, j] = i * j; "
LINE = "const D = {1..4000000}%s; var A: [D] int; "
PROGRAMS = [
    ("stencil of four points over 2,000 x 2,000", PLANE, "forall (i, j) in I do B[i, j] = A[i-1, j] + A[i+1, j] + A[i, j-1] + A[i, j+1];", 5, "writeln(B[777, 888]);"),
    ("mean of four points and a forall that copies", PLANE,
     "{ forall (i, j) in I do B[i, j] = (A[i-1, j] + A[i+1, j] + A[i, j-1] + A[i, j+1]) / 4; forall (i, j) in I do A[i, j] = B[i, j]; }", 3, "writeln(A[777, 888]);"),
    ("fill of 4,000,000 by A[i] = i * 3", LINE, "forall i in D do A[i] = i * 3;", 10, "writeln(A[77]);"),
    ("fill by A[i] = i % 1000 under an if", LINE, "forall i in D { if i % 3 != 0 then A[i] = i % 1000; }", 3, "writeln(A[77]);"),
    ("A = A * 2 + 1", LINE, "A = A * 2 + 1;", 10, "writeln(A[77]);"),
    ("A = 7", LINE, "A = 7;", 20, "writeln(A[77]);"),
    ("+ reduce s of i * i over 4,000,000", LINE + "var s = 0; ", "forall i in D with (+ reduce s) do s += i * i;", 10, "writeln(s);"),
    ("+ reduce A of 4,000,000", LINE + "var s = 0; ", "s += + reduce A;", 10, "writeln(s);"),
    ("20 foralls of 100 turns, 1,000 times", "const D = {1..100}%s; var A: [D] int; ", "for q in 1..20 do forall i in D do A[i] = A[i] + i;", 1000, "writeln(A[77]);"),
    ("20 foralls of 2,000 turns, 100 times", "const D = {1..2000}%s; var A: [D] int; ", "for q in 1..20 do forall i in D do A[i] = A[i] + i;", 100, "writeln(A[77]);"),
]
FOUR = ["--locales", "4"]
SETTINGS = [("one locale", [], False), ("4, block", FOUR + ["--maps", "block"], False), ("4, cyclic", FOUR + ["--maps", "cyclic"], False),
            ("4, blocks of 64 that go round", FOUR, True)]


# The map that a head names: blocks over its domain, or blocks of 64 in each dimension that go round.
def dealt(head, goes_round):
    inside = head.split("{", 1)[1].split("}", 1)[0]
    if not goes_round:
        return " dmapped new blockDist(boundingBox={%s})" % inside
    rank = inside.count("..")
    return " dmapped new blockCycDist(startIdx=(%s), blocksize=(%s))" % (", ".join(["1"] * rank), ", ".join(["64"] * rank))


def run(text, setting):
    begin = time.perf_counter()
    done = subprocess.run([dpl, "-"] + setting, input=text.encode(), capture_output=True)
    seconds = time.perf_counter() - begin
    assert done.returncode == 0, (text, done.stdout, done.stderr)
    return seconds, done.stdout


print("| milliseconds of one repetition | " + " | ".join(name for name, _, _ in SETTINGS) + " | block / one | cyclic / one | blocks / one |")
print("|---|" + "---|" * (len(SETTINGS) + 3))
for name, head, body, times, tail in PROGRAMS:
    best = {}
    told = set()
    for turn in range(rounds):
        for key, setting, goes_round in SETTINGS:
            if goes_round and turn > 0:
                continue
            begun = head % dealt(head, goes_round)
            whole = begun + "for n in 1..%d do %s " % (1 if goes_round else times, body) + tail
            bare = begun + tail
            for part, text in (("whole", whole), ("bare", bare)):
                seconds, out = run(text, setting)
                if part == "whole" and not goes_round:
                    told.add(out)
                best[key, part] = min(seconds, best.get((key, part), 1e9))
    assert len(told) == 1, (name, told)
    each = [(best[key, "whole"] - best[key, "bare"]) / (1 if goes_round else times) for key, _, goes_round in SETTINGS]
    print("| %s | " % name + " | ".join("%.3f" % (s * 1000) for s in each) + " |" + "".join(" %.2f |" % (s / each[0]) for s in each[1:]))
PYTHON
"$work/fills" | awk -F ' *[|] *' '/^[|]/ { printf "| %s, by four threads | %.3f | %.3f | | | %s | | |\n", $2, $3 * 1000, $4 * 1000, $5 }'
