#!/bin/sh
# Holds built/ to the sources: its sum is theirs, and it unpacks to the executable given, stripped and stamped, byte for byte.
# usage: scripts/compare-built.sh [EXECUTABLE]. With none it takes crates/dpl/out/dpl; where that is missing or older than the sources, it says so
# and compares the sum alone. It is silent where all is the same. Else it names what differs and how to mend it, with status 1.
set -eu

top=$(cd "$(dirname "$(readlink -f "$0")")/.." && pwd)
. "$top/scripts/executable.sh"

refuse() {
    echo "built/ $1: run scripts/refresh-built.sh, and commit what it writes" >&2
    exit 1
}

executable=${1:-$top/crates/dpl/out/dpl}
is_built_of "$(sum_of_sources)" || refuse "is not of these sources"
if ! command -v rt > /dev/null; then
    echo "compare-built: there is no toolchain, so the sum of the sources alone was compared" >&2
    exit 0
fi
if [ $# = 0 ] && ! is_current "$executable"; then
    echo "compare-built: there is no executable of these sources in crates/dpl/out, so the sum alone was compared" >&2
    exit 0
fi
room=$(mktemp -d)
trap 'rm -rf "$room"' EXIT
strip_to "$room" "$executable"
if gzip -dc "$top/built/dpl.gz" | cmp -s - "$room/dpl"; then exit; fi
by=$(cat "$top/built/toolchain")
if [ "$by" = "$(rt version)" ]; then by=; else by=", and is by another toolchain, $by"; fi
refuse "unpacks to other bytes than $executable has, stripped$by"
