#!/bin/sh
# Times the lexer on a text of 1 MiB, and prints the best of some rounds in MB/s.
# usage: scripts/bench-lexer.sh [ROUNDS]. Needs rt. The benchmark's crate is built in a copy of the repository.
set -eu

. "$(dirname "$0")/bench-crate.sh"

bench_crate lexer_bench "$top/benches/lexer/lexer.rt.txt" 'dpl_syntax' dpl_syntax
bench_build lexer_bench

for _ in $(seq "$rounds"); do
    "$work/crates/lexer_bench/out/lexer_bench"
done | awk '
    # a line is the nanoseconds of the first round and of the best other one, the bytes and the tokens
    {
        if (NR == 1 || $1 < first) first = $1
        if (NR == 1 || $2 < best) best = $2
        length_of = $3; tokens = $4
    }
    END {
        if (tokens == 0) { print "the text was refused"; exit 1 }
        printf "%d bytes, %d tokens, best of %d runs\n", length_of, tokens, NR
        printf "first round %8.2f ms %6.0f MB/s\n", first / 1e6, length_of * 1000 / first
        printf "others      %8.2f ms %6.0f MB/s\n", best / 1e6, length_of * 1000 / best
    }'
