#!/bin/sh
# Times reads of arrays and walks over them beside reads of vectors in Rust, both in this one run, and prints the best of some rounds.
# usage: scripts/bench-arrays.sh [ROUNDS]. Needs rt and rustc. The benchmark's crate is built in a copy of the repository.
set -eu

. "$(dirname "$0")/bench-crate.sh"

bench_crate array_bench "$top/benches/arrays/arrays.rt.txt" 'dpl_array dpl_map dpl_domain dpl_range' dpl_range dpl_domain dpl_map dpl_array
bench_build array_bench
rustc -O -o "$work/slices" "$top/benches/arrays/slices.rs"

for _ in $(seq "$rounds"); do
    printf '%s %s\n' "$("$work/crates/array_bench/out/array_bench")" "$("$work/slices")"
done | awk '
    # both programs print two numbers a case: the time of a read, and which values were read
    {
        for (m = 0; m < 13; m++) {
            ours = $(2 * m + 1); slice = $(26 + 2 * m + 1)
            if (NR == 1 || ours < best[m]) best[m] = ours
            if (NR == 1 || slice < plain[m]) plain[m] = slice
            if ($(2 * m + 2) "" != $(26 + 2 * m + 2) "") differ = 1
        }
    }
    END {
        if (differ) { print "the two programs read different values"; exit 1 }
        names = "get_line, whole;get_line, piece by block;get_line, by block;walk, whole;walk, by block;walk, piece by block"
        names = names ";reader, rank 1, whole;reader, rank 1, by block;get_plane, whole;get_plane, piece by block;get_plane, by block;reader, rank 2, whole;reader, rank 2, by block"
        split(names, name, ";")
        printf "%-28s %8s %8s %8s\n", "ns, best of " NR " rounds", "array", "vector", "more"
        for (m = 0; m < 13; m++)
            printf "%-28s %8.2f %8.2f %8.2f\n", name[m + 1], best[m] / 1000, plain[m] / 1000, (best[m] - plain[m]) / 1000
    }'
