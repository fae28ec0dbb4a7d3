#!/bin/sh
# Times the owners of indices beside the formulas in C, both in this one run, and prints the best of some rounds.
# usage: scripts/bench-maps.sh [ROUNDS]. Needs rt and gcc. The benchmark's crate is built in a copy of the repository.
set -eu

. "$(dirname "$0")/bench-crate.sh"

bench_crate map_bench "$top/benches/maps/maps.rt.txt" 'dpl_map dpl_domain dpl_range' dpl_range dpl_domain dpl_map
bench_build map_bench
gcc -O2 -o "$work/formulas" "$top/benches/maps/formulas.c"

for _ in $(seq "$rounds"); do
    printf '%s %s\n' "$("$work/crates/map_bench/out/map_bench")" "$("$work/formulas")"
done | awk '
    # both programs print two numbers a map: the time of an owner, and which owners were found
    {
        for (m = 0; m < 9; m++) {
            ours = $(2 * m + 1); formula = $(18 + 2 * m + 1)
            if (NR == 1 || ours < best[m]) best[m] = ours
            if (NR == 1 || formula < plain[m]) plain[m] = formula
            if ($(2 * m + 2) "" != $(18 + 2 * m + 2) "") differ = 1
        }
    }
    END {
        if (differ) { print "the two programs found different owners"; exit 1 }
        split("block,cyclic,block-cyclic", name, ",")
        printf "%-28s %8s %8s %8s\n", "ns, best of " NR " rounds", "owner", "in C", "ratio"
        for (m = 0; m < 9; m++)
            printf "%-28s %8.2f %8.2f %8.2f\n", name[m % 3 + 1] ", rank " int(m / 3) + 1, best[m] / 1000, plain[m] / 1000, best[m] / plain[m]
    }'
