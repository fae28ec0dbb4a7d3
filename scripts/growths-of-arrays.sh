#!/bin/sh
# Refuses each growth of memory of `new`, `collect` and `redomain`, of arrays, halos and loans by two maps, one after another: each such
# run ends with status 1. It ends at the first run of which no growth is left to refuse, which makes all of them.
# usage: scripts/growths-of-arrays.sh [FIRST]. Needs rt. A run takes half a minute, since the program is built anew for each growth.
set -eu

growth=${1:-1}
first=$growth
. "$(dirname "$0")/bench-crate.sh"

bench_crate array_growths "$top/benches/arrays/growths.rt.txt" 'dpl_array dpl_halo dpl_map dpl_domain dpl_range' dpl_range dpl_domain dpl_map dpl_array dpl_halo
cd "$work/crates/array_growths"

while :; do
    status=0
    written=$(rt try --fail-alloc "$growth" 2> "$work/log") || status=$?
    [ "$status" = 1 ] && grep -q '^run=ended' "$work/log" || break
    growth=$((growth + 1))
done

# Of each map: 8 fives; the one or the four neighbours of place 1's part; 8 lent; and from 4 to 12 five fives and four threes.
if [ "$status" != 0 ] || [ "$written" != '40 1 8 37 40 3 8 37 ' ] || [ "$growth" -lt 10 ]; then
    echo "growth $growth: status $status with '$written'"
    tail -n 5 "$work/log"
    exit 1
fi
echo "growths $first to $((growth - 1)) refused, and then '$written'"
