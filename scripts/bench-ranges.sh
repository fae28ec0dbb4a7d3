#!/bin/sh
# Times the cursor and the places of domains beside plain nested loops that do the same, both in this one run, and prints
# the best of some rounds.
# usage: scripts/bench-ranges.sh [ROUNDS]. Needs rt and rustc. The benchmark's crate is built in a copy of the repository.
set -eu

. "$(dirname "$0")/bench-crate.sh"

bench_crate range_bench "$top/benches/ranges/ranges.rt.txt" 'dpl_domain dpl_range' dpl_range dpl_domain
mkdir -p "$work/crates/range_bench/proofs/walk"
cp "$top/benches/ranges/invariants.antt.txt" "$work/crates/range_bench/proofs/walk/Invariants.antt"
bench_build range_bench
rustc -O -o "$work/loops" "$top/benches/ranges/loops.rs"

for _ in $(seq "$rounds"); do
    printf '%s %s\n' "$("$work/crates/range_bench/out/range_bench")" "$("$work/loops")"
done | awk '
    # both programs print four numbers a domain: the time of an index, that of a place, and what each went over
    {
        for (d = 0; d < 4; d++) {
            for (part = 1; part <= 2; part++) {
                ours = $(4 * d + part); loops = $(16 + 4 * d + part)
                if (NR == 1 || ours < best[d, part]) best[d, part] = ours
                if (NR == 1 || loops < plain[d, part]) plain[d, part] = loops
                if ($(4 * d + part + 2) "" != $(16 + 4 * d + part + 2) "") differ = 1
            }
        }
    }
    END {
        if (differ) { print "the two programs went over different indices"; exit 1 }
        split("rank 1,rank 2,rank 3,rank 3 by 3", name, ",")
        printf "%-28s %8s %8s %8s\n", "ns, best of " NR " rounds", "domain", "loops", "ratio"
        for (d = 0; d < 4; d++) for (part = 1; part <= 2; part++)
            printf "%-28s %8.2f %8.2f %8.2f\n", (part == 1 ? "next, " : "place, ") name[d + 1],
                best[d, part] / 1000, plain[d, part] / 1000, best[d, part] / plain[d, part]
    }'
