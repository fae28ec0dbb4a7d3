#!/bin/sh
# Runs loops by workers over and over on two cores: each example on 64 locales by each choice of maps, and the rows of dpl_rows on 64 locales by each choice of maps, by an open
# gate and by one that isn't, at which workers make every loop that they may. However the threads are scheduled, there is one answer.
# usage: scripts/stress.sh [TIMES [DPL [ROWS]]]. ROWS is the executable of dpl_rows as `rt ci` leaves it.
set -eu
top=$(cd "$(dirname "$0")/.." && pwd)
times=${1:-100}
dpl=${2:-$top/dpl}
rows=${3:-$top/crates/dpl_rows/out/dpl_rows}
work=$(mktemp -d)
trap 'rm -rf "$work"' EXIT

for text in "$top"/examples/*.chpl; do
    "$dpl" "$text" > "$work/one"
    for maps in asis block cyclic; do
        k=0
        while [ "$k" -lt "$times" ]; do
            taskset -c 0,1 "$dpl" "$text" --locales 64 --maps "$maps" > "$work/many"
            cmp "$work/one" "$work/many"
            k=$((k + 1))
        done
    done
    echo "$(basename "$text"): $times times by each of three maps"
done

# The rows that say themselves on how many locales they run are left out. Behind each answer stands the layout of 64 locales.
python3 - "$top/crates/dpl_rows" "$work" <<'ROWS'
import sys
rows, work = sys.argv[1:]
texts = open(f"{rows}/stdin").read().split("\n==\n")[:-1]
told = open(f"{rows}/stdout").read().split("==\n")[:-1]
assert len(told) == len(texts)
kept = [k for k, text in enumerate(texts) if not any(line.startswith("@ locales ") for line in text.split("\n"))]
open(f"{work}/stdin", "w").write("".join(f"@ locales 64\n{texts[k]}\n==\n" for k in kept))
open(f"{work}/rows", "w").write("".join(f"{told[k]}layout 6\n==\n" for k in kept) + f"{len(kept)} rows\n")
ROWS
k=0
while [ "$k" -lt "$times" ]; do
    taskset -c 0,1 "$rows" < "$work/stdin" > "$work/many"
    cmp "$work/rows" "$work/many"
    k=$((k + 1))
done
echo "rows: $times times"
