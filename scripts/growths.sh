#!/bin/sh
# Refuses the growths of memory of the program's stored run, with its arguments, one after another: each such run ends with M1 and writes nothing.
# It ends at the first run of which no growth is left to refuse, which is whole. usage: scripts/growths.sh [FIRST]
# A run takes half a minute, since the program is built anew for each growth.
set -eu

cd "$(dirname "$0")/../crates/dpl"
first=${1:-1}
growth=$first
messages=$(mktemp)
trap 'rm -f "$messages"' EXIT

while :; do
    status=0
    written=$(rt try --fail-alloc "$growth" -- $(cat args) < stdin 2> "$messages") || status=$?
    [ "$status" = 3 ] || break
    if [ -n "$written" ] || ! grep -q '^dpl: M1$' "$messages"; then
        echo "growth $growth: status 3 with '$written'"
        exit 1
    fi
    growth=$((growth + 1))
done

if [ "$status" != 0 ] || [ "$written" != "$(cat stdout)" ] || [ "$growth" -lt 10 ]; then
    echo "growth $growth: status $status with '$written'"
    exit 1
fi
echo "growths $first to $((growth - 1)) refused, and then '$written'"
