#!/bin/sh
# Times dpl on a forall of ten million turns, on Collatz sequences up to a number, on the programs of benches/programs (a sieve, stencils over a
# line and a plane, sums over arrays, an assignment to a whole array, bodies of several statements, and the print of an array), on 50,000
# statements and on a mebibyte of spaces, each beside lua5.4, luajit, python3, numpy and C doing the same where they have it, all in one run;
# python3, which is slow, in the first round alone. Prints a table in Markdown, which scripts/put-table.py puts into docs/BENCH.md, and behind it how much
# memory the stencil over a plane takes.
# usage: scripts/bench-programs.sh [ROUNDS [LAST]]. Needs rt, python3 and cc, and beside them lua5.4, luajit, and numpy for /usr/bin/python3 (a cell is empty
# without it); LAST, 1000000 without it, is where Collatz ends.
set -eu

rounds=${1:-5}
last=${2:-1000000}
top=$(cd "$(dirname "$0")/.." && pwd)
work=$(mktemp -d)
trap 'rm -rf "$work"' EXIT

printf 'var s: int; forall i in 1..10000000 with (+ reduce s) do s += i * i; writeln(s);' > "$work/turns.chpl"
printf 'local s = 0 for i = 1, 10000000 do s = s + i * i end print(s)' > "$work/turns.lua"
printf 's = 0\nfor i in range(1, 10000001):\n    s += i * i\nprint(s)\n' > "$work/turns.py"
printf '#include <stdio.h>\nint main(void) { volatile long s = 0; for (long i = 1; i <= 10000000; i++) s += i * i; printf("%%ld\\n", s); }\n' > "$work/turns.c"

cat > "$work/collatz.chpl" <<PROGRAM
var best = 0; var at = 0;
for i in 1..$last {
  var n = i; var steps = 0;
  while n != 1 { if n % 2 == 0 then n /= 2; else n = 3 * n + 1; steps += 1; }
  if steps > best { best = steps; at = i; }
}
writeln(at, ' ', best);
PROGRAM
cat > "$work/collatz.lua" <<PROGRAM
local best, at = 0, 0
for i = 1, $last do
  local n, steps = i, 0
  while n ~= 1 do
    if n % 2 == 0 then n = n // 2 else n = 3 * n + 1 end
    steps = steps + 1
  end
  if steps > best then best = steps; at = i end
end
print(at .. ' ' .. best)
PROGRAM
cat > "$work/collatz.py" <<PROGRAM
best = at = 0
for i in range(1, $last + 1):
    n = i
    steps = 0
    while n != 1:
        if n % 2 == 0:
            n //= 2
        else:
            n = 3 * n + 1
        steps += 1
    if steps > best:
        best = steps
        at = i
print(at, best)
PROGRAM
cat > "$work/collatz.c" <<PROGRAM
#include <stdio.h>
int main(void) {
    long best = 0, at = 0;
    for (long i = 1; i <= $last; i++) {
        long n = i, steps = 0;
        while (n != 1) { n = n % 2 == 0 ? n / 2 : 3 * n + 1; steps++; }
        if (steps > best) { best = steps; at = i; }
    }
    printf("%ld %ld\n", at, best);
}
PROGRAM

{ echo 'var s = 0;'; yes 's = s + 1;' | head -n 50000; echo 'writeln(s);'; } > "$work/statements.chpl"
{ echo 'local s = 0'; yes 's = s + 1' | head -n 50000; echo 'print(s)'; } > "$work/statements.lua"
{ echo 's = 0'; yes 's = s + 1' | head -n 50000; echo 'print(s)'; } > "$work/statements.py"
head -c 1048576 /dev/zero | tr '\0' ' ' > "$work/spaces.chpl"

. "$top/scripts/executable.sh"
find_executable
dpl=$executable
cp "$top"/benches/programs/* "$work"
for program in turns collatz sieve line plane plate jacobi sums promoted assigned several printed; do cc -O2 -o "$work/$program" "$work/$program.c"; done
# luajit has no `//`, and its numbers are doubles: so the sum of squares is another one there.
for program in turns collatz sieve line plane plate jacobi sums promoted assigned several printed statements; do
    sed 's|\(([^()]*)\) // \([0-9]*\)|math.floor(\1 / \2)|g; s|\([a-z]*\) // \([0-9]*\)|math.floor(\1 / \2)|g' "$work/$program.lua" > "$work/$program.jit.lua"
done

# The seconds that a command takes on a file of the benchmark.
seconds() {
    file=$work/$1
    shift
    begun=$(date +%s%N)
    "$@" < "$file" > /dev/null
    echo "$begun $(date +%s%N)" | awk '{ printf "%.3f", ($2 - $1) / 1000000000 }'
}

# A line of times on the same program in a round: its name, and those of dpl, lua5.4, luajit, python3, numpy and C, 0 where there is none.
beside() {
    printf '%s %s ' "$1" "$(seconds "$1.chpl" "$dpl" --budget 4294967296)"
    if command -v lua5.4 > /dev/null; then seconds "$1.lua" lua5.4 -; else printf 0; fi
    printf ' '
    if command -v luajit > /dev/null; then seconds "$1.jit.lua" luajit -; else printf 0; fi
    printf ' '
    if [ "$2" = 1 ]; then seconds "$1.py" python3 -; else printf 999999; fi
    printf ' '
    if [ -f "$work/$1.np.py" ] && /usr/bin/python3 -c 'import numpy' 2> /dev/null; then seconds "$1.np.py" /usr/bin/python3 -; else printf 0; fi
    printf ' '
    if [ -x "$work/$1" ]; then seconds "$1.chpl" "$work/$1"; else printf 0; fi
    echo
}

for round in $(seq "$rounds"); do
    for program in turns collatz sieve line plane plate jacobi sums promoted assigned several printed statements; do beside "$program" "$round"; done
    echo "spaces $(seconds spaces.chpl "$dpl") 0 0 0 0 0"
done | awk -v last="$last" '
    BEGIN {
        label["turns"] = "`s += i * i` for 10,000,000 turns"
        label["collatz"] = "Collatz to " last
        label["sums"] = "`+ reduce A`"
        label["promoted"] = "`+ reduce (A * 2 + 1)`"
        label["assigned"] = "`B = A * 2 + 1`"
        label["several"] = "several statements, two arrays and a sum"
        label["printed"] = "`writeln(A)` of 1,000,000 ints"
        label["statements"] = "50,000 statements `s = s + 1;`"
        label["spaces"] = "a text of 1 MiB of spaces"
    }
    !($1 in order) { order[$1] = ++rows; name[rows] = $1; for (k = 2; k <= 7; k++) best[$1, k] = $k }
    { for (k = 2; k <= 7; k++) if ($k < best[$1, k]) best[$1, k] = $k }
    function ratio(a, b) { return b > 0 ? sprintf("%.2f", a / b) : "" }
    function seconds(a) { return a > 0 ? sprintf("%.3f", a) : "" }
    END {
        print "| seconds | dpl | lua5.4 | luajit | python3 | numpy | C | / lua5.4 | / luajit | / numpy | / C |"
        print "|---|---|---|---|---|---|---|---|---|---|---|"
        for (r = 1; r <= rows; r++) {
            p = name[r]
            line = "| " (p in label ? label[p] : p)
            for (k = 2; k <= 7; k++) line = line " | " seconds(best[p, k])
            print line " | " ratio(best[p, 2], best[p, 3]) " | " ratio(best[p, 2], best[p, 4]) " | " ratio(best[p, 2], best[p, 6]) " | " ratio(best[p, 2], best[p, 7]) " |"
        }
    }'

# The most memory that the stencil over a plane had, and that its two arrays of 1002 by 1002 ints take.
"$dpl" --budget 4294967296 "$work/plane.chpl" > /dev/null &
wait_for=$!
most=0
while [ -r "/proc/$wait_for/status" ]; do
    now=$(awk '/^VmHWM/ { print $2 }' "/proc/$wait_for/status" 2> /dev/null || true)
    [ "${now:-0}" -gt "$most" ] && most=$now
    sleep 0.01
done
printf '\nThe stencil over a plane has %d KiB at the most, of which its arrays take %d.\n' "$most" $((2 * 1002 * 1002 * 8 / 1024))
