#!/bin/sh
# Times halos of a stencil of five points on 2 x 2 places, by blocks and going round, and prints the best of some rounds.
# usage: scripts/bench-halos.sh [ROUNDS]. Needs rt. The benchmark's crate is built in a copy of the repository.
set -eu

. "$(dirname "$0")/bench-crate.sh"

bench_crate halo_bench "$top/benches/halos/halos.rt.txt" 'dpl_halo dpl_array dpl_map dpl_domain dpl_range' dpl_range dpl_domain dpl_map dpl_array dpl_halo
bench_build halo_bench

for _ in $(seq "$rounds"); do
    "$work/crates/halo_bench/out/halo_bench"
done | awk '
    # three numbers a case: the time of the halos of all places, how many elements they have, and the sum of some values
    {
        for (m = 0; m < 6; m++) {
            time = $(3 * m + 1)
            if (NR == 1 || time < best[m]) best[m] = time
            if (NR > 1 && $(3 * m + 2) " " $(3 * m + 3) != seen[m]) differ = 1
            elements[m] = $(3 * m + 2)
            seen[m] = $(3 * m + 2) " " $(3 * m + 3)
        }
    }
    END {
        if (differ) { print "two rounds gathered different elements"; exit 1 }
        split("250000,1000000,4000000", size, ",")
        split("block,cyclic", name, ",")
        printf "%-24s %10s %12s %14s\n", "best of " NR " rounds", "elements", "us, in all", "ns an element"
        for (m = 0; m < 6; m++)
            printf "%-24s %10d %12.1f %14.1f\n", name[m % 2 + 1] ", plane of " size[int(m / 2) + 1], elements[m], best[m] / 1000, best[m] / elements[m]
    }'
