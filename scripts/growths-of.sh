#!/bin/sh
# Refuses the growths of memory in each test of a crate, one after another, and looks at its tests `a_growth_refused` alone, which
# hold whichever growth is refused. usage: scripts/growths-of.sh CRATE [LAST]. Each growth runs the tests once, unproved.
set -eu

cd "$(dirname "$0")/../crates/$1"
last=${2:-40}
messages=$(mktemp)
trap 'rm -f "$messages"' EXIT

for growth in $(seq "$last"); do
    rt try --test --fail-alloc "$growth" > "$messages" 2>&1 || true
    results=$(grep '^test .*a_growth_refused ' "$messages" || true)
    if [ -z "$results" ] || echo "$results" | grep -qv ' ok$'; then
        echo "growth $growth:"
        grep 'a_growth_refused' "$messages" || tail -n 5 "$messages"
        exit 1
    fi
done
echo "growths 1 to $last refused"
