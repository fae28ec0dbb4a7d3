#!/bin/sh
# Times cells beside a Mutex with Condvars that does the same, both in this one run, and prints the best of some rounds.
# usage: scripts/bench-cells.sh [ROUNDS]. Needs rt, rustc and taskset. The benchmark's crate is built in a copy of the repository.
set -eu

. "$(dirname "$0")/bench-crate.sh"

bench_crate cell_bench "$top/benches/cells/cells.rt.txt" 'dpl_cell dpl_history atomic_table' dpl_history dpl_cell
for function in exchange answer; do
    mkdir -p "$work/crates/cell_bench/proofs/$function"
    sed "s/FUNCTION/$function/" "$top/benches/cells/invariants.antt.txt" > "$work/crates/cell_bench/proofs/$function/Invariants.antt"
done

bench_build cell_bench
rustc -O -o "$work/mutex" "$top/benches/cells/mutex.rs"

# once on all processors and once on one, where a task that waits has to let the other run
for _ in $(seq "$rounds"); do
    for where in '' 'taskset -c 0'; do
        printf '%s %s ' "$($where "$work/crates/cell_bench/out/cell_bench")" "$($where "$work/mutex")"
    done
    echo
done | awk '
    { for (i = 1; i <= 12; i++) if (NR == 1 || $i < best[i]) best[i] = $i }
    END {
        printf "%-34s %10s %10s %12s\n", "ns, best of " NR " rounds", "pair", "round trip", "on one core"
        printf "%-34s %10d %10d %12d\n", "cells", best[1], best[2], best[8]
        printf "%-34s %10d %10d %12d\n", "Mutex and Condvars", best[3], best[4], best[10]
        printf "%-34s %10d %10d %12d\n", "the same, notifying only waiters", best[5], best[6], best[12]
        printf "%-34s %10.2f %10.1f %12.2f\n", "lock / cells", best[3] / best[1], best[4] / best[2], best[10] / best[8]
        printf "%-34s %10.2f %10.1f %12.2f\n", "lock notifying only waiters / cells", best[5] / best[1], best[6] / best[2], best[12] / best[8]
    }'
