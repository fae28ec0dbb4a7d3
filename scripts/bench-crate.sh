# What the benchmarks of crates share: a copy of some crates in a folder of its own, where one more is built that calls them.
# It is read by the scripts bench-*.sh, and is no program by itself.

rounds=${1:-9}
top=$(cd "$(dirname "$0")/.." && pwd)
work=$(mktemp -d)
trap 'rm -rf "$work"' EXIT

# bench_crate NAME SOURCE 'LIBRARIES' CRATE..: a crate NAME of one source file over these libraries, and the crates of this
# repository among those that they stand on
bench_crate() {
    name=$1
    source=$2
    libraries=$3
    shift 3
    mkdir -p "$work/crates/$name/src"
    cp "$top/HANDLES" "$work"
    cp "$source" "$work/crates/$name/src/main.rt"
    for crate; do
        cp -r "$top/crates/$crate" "$work/crates"
        grep "^$crate:" "$top/crates.txt" >> "$work/crates.txt"
    done
    echo "$name: $libraries" >> "$work/crates.txt"
}

# bench_build NAME: builds it, and runs it once
bench_build() {
    (cd "$work/crates/$1" && rt run --jobs 2) > "$work/log" 2>&1 || { tail -n 20 "$work/log"; exit 1; }
}
