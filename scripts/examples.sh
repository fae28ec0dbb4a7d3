#!/bin/sh
# Runs each program of examples/ on several numbers of locales and by each choice of maps, and compares what it writes with the file
# of its name that ends in .out. usage: scripts/examples.sh [EXECUTABLE], ./dpl without one. Where one writes something else it
# says so, and ends with status 1.
set -eu

top=$(cd "$(dirname "$0")/.." && pwd)
dpl=${1:-$top/dpl}
written=$(mktemp)
trap 'rm -f "$written"' EXIT
status=0

for program in "$top"/examples/*.chpl; do
    name=$(basename "$program" .chpl)
    for locales in 1 3 4 64; do
        for maps in asis block cyclic; do
            "$dpl" "$program" --locales "$locales" --maps "$maps" > "$written"
            if ! cmp -s "$written" "${program%.chpl}.out"; then
                echo "$name: other bytes with --locales $locales --maps $maps" >&2
                status=1
            fi
        done
    done
done
exit "$status"
