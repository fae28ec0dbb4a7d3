#!/bin/sh
# Builds the program dpl from its sources into out/dpl. Its crates are proved on the way, those side by side that don't stand on one another.
# A crate that an earlier run has built is built again only where its text or that of one below it has changed.
# usage: scripts/build.sh. Tells on standard error what is proved now and, if a crate fails, which one and where its log is.
# Ends with status 69 where the toolchain, make or the right to write is missing, and with 70 where a crate fails.
set -eu

top=$(cd "$(dirname "$(readlink -f "$0")")/.." && pwd)
. "$top/scripts/executable.sh"

stop() {
    echo "dpl: $1" >&2
    exit 69
}

none="built/ gives no program of these sources, and"
command -v rt > /dev/null || stop "$none the toolchain that builds one is missing: there is no command rt on PATH"
command -v make > /dev/null || stop "$none to build one takes make, which is not on PATH"
if ! mkdir -p "$top/out" 2> /dev/null || ! [ -w "$top/out" ]; then stop "$none to build one takes the right to write in $top"; fi

# As many crates at a time as there are processors, each with 3 GB of memory.
crates_at_once() {
    awk -v cores="$(nproc)" '/^MemAvailable:/ { room = int($2 / 3000000) } END { print room < 1 ? 1 : room < cores ? room : cores }' /proc/meminfo
}

# How far the build is: a line that is written over in a terminal; elsewhere a line whenever another crate is begun.
tell() {
    crates=$(find "$room/begun" -type f -printf ' %f')
    built=$(find "$room/done" -type f -printf x | wc -c)
    line=$(printf 'building dpl: %d of %d crates, %d s, now%s' "$built" "$count" $(($(date +%s) - ${began%.*})) "$crates")
    if [ -t 2 ]; then
        printf '%s%.79s' "$clears" "$line" >&2
    elif [ "$crates" != "$told" ]; then
        echo "$line" >&2
    fi
    told=$crates
}

tell_each_second() {
    told=
    while sleep 1 > /dev/null 2>&1; do tell; done
}

exec 9> "$top/out/lock"
if ! flock -n 9; then
    echo "building dpl: waiting for another build to end" >&2
    flock 9
fi

# build-crate.sh takes these, and writes into the room which crates are begun, done and failed.
kit=$(dirname "$(rt doc)")
toolchain=$(rt version)
clears=$(if [ -t 2 ]; then printf '\r\033[K'; fi)
room=$(mktemp -d)
export kit toolchain clears room
trap 'rm -rf "$room"' EXIT
mkdir "$room/begun" "$room/done" "$room/failed"

began=$(date +%s.%N)
"$top/scripts/build-rules.sh" > "$room/rules"
count=$(grep -c '^all: ' "$room/rules")
tell_each_second 9>&- &
teller=$!
trap 'kill "$teller" 2> /dev/null || true; rm -rf "$room"' EXIT
trap 'exit 130' INT TERM
unset MAKEFLAGS MAKELEVEL
status=0
make -C "$top" -f "$room/rules" -j "$(crates_at_once)" 3>&2 < /dev/null > "$room/log" 2>&1 || status=$?
kill "$teller"
if [ "$status" != 0 ]; then
    # make itself can fail too.
    if [ -z "$(ls "$room/failed")" ]; then cat "$room/log" >&2; fi
    exit 70
fi
part=$(mktemp "$top/out/dpl.XXXXXX")
stamped "$top/crates/dpl/out/rlib/dpl" > "$part"
place "$part" "$top/out/dpl" "$began"
printf '%sbuilding dpl: %d of %d crates, %d s\n' "$clears" "$count" "$count" $(($(date +%s) - ${began%.*})) >&2
