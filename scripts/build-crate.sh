#!/bin/sh
# Proves one crate over those below it and builds it into crates/NAME/out/rlib, a library or the program, unless it stands there of the same text.
# usage: scripts/build-crate.sh NAME, by the rules that build.sh hands to make, with `kit`, `toolchain` and `room` of build.sh in the environment.
set -eu

crate=$1
top=$(cd "$(dirname "$(readlink -f "$0")")/.." && pwd)
built=$top/crates/$crate/out/rlib
log=$top/crates/$crate/out/build.log
cd "$top/crates/$crate"

# The libraries on the crate's line of crates.txt.
libraries() { sed -n "s/#.*//; s/^$crate\>[^:]*://p" "$top/crates.txt" | tr ',' ' '; }

is_ours() { [ -d "$top/crates/$1/src" ]; }

# The sum of all that the crate is made from: the toolchain, the crate's line and files, and the sums of the crates below.
sum_of_crate() {
    {
        echo "$toolchain"
        libraries
        find src specs proofs -type f -print0 2> /dev/null | LC_ALL=C sort -z | xargs -0 sha256sum
        for library in $(libraries); do
            if is_ours "$library"; then cat "$top/crates/$library/out/rlib/sources"; fi
        done
    } | sha256sum
}

# Calls the prover and compiler with the words that rt ci uses.
build() {
    for library in $(libraries); do
        if is_ours "$library"; then rlibs=$top/crates/$library/out/rlib; else rlibs=$kit/rlibs; fi
        set -- --extern "$library=$rlibs/$library.rlib" "$@"
    done
    for rlibs in "$kit/rlibs" "$top"/crates/*/out/rlib; do set -- -L "dependency=$rlibs" "$@"; done
    "$kit/bin/rattle" build --crate-name "$crate" --extern "std=$kit/rlibs/std.rlib" --links "$crate=" --jobs 1 \
        --antt-project "$kit/rattle/logic/antt-project.json" --logic-built "$kit/logic_built" "$@"
}

build_library() { build --statements -o "$built/$crate.rlib" src/lib.rt; }

build_program() {
    build --toolchain "$kit/toolchain" --backend llvm -o "$built/$crate.o" src/main.rt &&
        "$kit/bin/rattle-link" --target x86_64-unknown-linux-gnu --toolchain "$kit/toolchain" -o "$built/$crate" "$built/$crate.o" \
            "$kit/c/libos_c.a" "$kit/c/liblibc_c.a"
}

touch "$room/begun/$crate"
sum=$(sum_of_crate)
if [ "$(cat "$built/sources" 2> /dev/null)" != "$sum" ]; then
    rm -rf "$built"
    mkdir -p "$built"
    kind=library
    if [ -e src/main.rt ]; then kind=program; fi
    status=0
    "build_$kind" > "$log" 2>&1 || status=$?
    if [ "$status" != 0 ]; then
        mv "$room/begun/$crate" "$room/failed"
        printf '%sbuilding dpl: %s failed with status %d; its log is %s\n' "$clears" "$crate" "$status" "$log" >&3
        exit 1
    fi
    echo "$sum" > "$built/sources"
fi
mv "$room/begun/$crate" "$room/done"
