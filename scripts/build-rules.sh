#!/bin/sh
# Prints make's rules for the crates that dpl stands on, by crates.txt: each waits for those of this repository on its line.
# Make starts what is named first, so the crates that the longest chain of others waits for, in lines of code, are. usage: scripts/build-rules.sh
set -eu

cd "$(dirname "$(readlink -f "$0")")/.."

# The lines of code of each crate: LINES crates/NAME/src/FILE.rt.
lines_of_code() { find crates/*/src -name '*.rt' -exec wc -l {} + | grep /src/; }

# Of each crate below dpl, and of dpl: the lines of the longest chain that begins with it, its name, and the crates that it waits for.
chains() {
    awk '
        /^ *[0-9]+ crates\// { split($2, part, "/"); lines[part[2]] += $1; next }
        { sub(/#.*/, ""); gsub(/,/, " ") }
        /[^ \t]/ { name = $1; sub(/:.*/, "", name); uses[name] = index($0, ":") ? substr($0, index($0, ":") + 1) : "" }

        # Puts a crate behind those that it waits for.
        function visit(name,   at, words, count) {
            if (name in waits) return
            waits[name] = ""
            count = split(uses[name], words)
            for (at = 1; at <= count; at++) if (words[at] in uses) { waits[name] = waits[name] " " words[at]; visit(words[at]) }
            order[++last] = name
        }

        END {
            visit("dpl")
            for (; last; last--) {
                name = order[last]
                chain[name] += lines[name]
                count = split(waits[name], words)
                for (at = 1; at <= count; at++) if (chain[words[at]] < chain[name]) chain[words[at]] = chain[name]
                print chain[name], name waits[name]
            }
        }'
}

echo 'all:'
{ lines_of_code; cat crates.txt; } | chains | sort -k1,1nr -k2 | while read -r _ name waits; do
    printf '.PHONY: %s\nall: %s\n%s: %s\n\t@scripts/build-crate.sh %s\n' "$name" "$name" "$name" "$waits" "$name"
done
