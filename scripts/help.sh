#!/bin/sh
# Holds the man page and the completions of the shells to `dpl --help`: each option stands in each of them, and the shells that are
# there read theirs. usage: scripts/help.sh EXECUTABLE. Tells what is wrong, with status 1.
set -eu

top=$(cd "$(dirname "$0")/.." && pwd)
executable=$1
room=$(mktemp -d)
trap 'rm -rf "$room"' EXIT
status=0

wrong() {
    echo "help.sh: $1" >&2
    status=1
}

"$top/scripts/man-page.sh" "$executable" | sed 's/\\-/-/g' > "$room/man"
for shell in bash zsh fish; do
    "$top/scripts/completions.sh" "$executable" "$shell" > "$room/$shell"
    if command -v "$shell" > /dev/null && ! "$shell" -n "$room/$shell"; then wrong "$shell does not read its completions"; fi
done
sed -i 's/ -l / --/' "$room/fish"
for option in $("$executable" --help | grep -o -e '--[a-z0-9]*'); do
    for page in man bash zsh fish; do
        if ! grep -q -e "$option" "$room/$page"; then wrong "$page has no $option"; fi
    done
done
exit "$status"
