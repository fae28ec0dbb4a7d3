#!/bin/sh
# A million gets and sets of arrays by four maps at random indices, beside a BTreeMap of std; all have to answer alike.
# usage: scripts/random-arrays.sh. Needs rt. The program is built in a copy of the repository.
set -eu

. "$(dirname "$0")/bench-crate.sh"

bench_crate random_arrays "$top/benches/arrays/random.rt.txt" 'dpl_array dpl_map dpl_domain dpl_range' dpl_range dpl_domain dpl_map dpl_array
bench_build random_arrays
written=$("$work/crates/random_arrays/out/random_arrays")
echo "$written"
[ "$written" = '1000000 of 1000000 gets and sets answered alike' ]
