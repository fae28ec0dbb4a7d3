#!/bin/sh
# Writes built/ anew: the executable, stripped and packed, the toolchain's line, and the sum of the sources that it is built from.
# usage: scripts/refresh-built.sh [EXECUTABLE]. With none it takes crates/dpl/out/dpl, as rt ci leaves it; where that is missing or older than
# the sources, it builds the program.
set -eu

top=$(cd "$(dirname "$(readlink -f "$0")")/.." && pwd)
. "$top/scripts/executable.sh"

sum=$(sum_of_sources)
executable=${1:-$top/crates/dpl/out/dpl}
if [ $# = 0 ] && ! is_current "$executable"; then
    "$top/scripts/build.sh"
    executable=$top/out/dpl
fi
room=$(mktemp -d)
trap 'rm -rf "$room"' EXIT
strip_to "$room" "$executable"
# gzip, since each Debian has it, the smallest too; xz, a sixth smaller, is no part of the base system. With -n no time stands in the file.
gzip -9nc "$room/dpl" > "$room/dpl.gz"
rt version > "$room/toolchain"
echo "$sum" > "$room/sources"
mkdir -p "$top/built"
mv "$room/dpl.gz" "$room/toolchain" "$room/sources" "$top/built"
"$top/scripts/compare-built.sh" "$executable"
