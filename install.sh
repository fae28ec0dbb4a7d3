#!/bin/sh
# Puts the executable dpl into PREFIX/bin, its man page into PREFIX/share/man, and what completes its words in bash, zsh and fish into
# PREFIX/share. usage: ./install.sh [PREFIX], by default /usr/local.
set -eu

case ${1:-} in
    -*)
        echo "usage: ./install.sh [PREFIX]" >&2
        exit 5
        ;;
esac
top=$(cd "$(dirname "$(readlink -f "$0")")" && pwd)
prefix=${1:-/usr/local}
. "$top/scripts/executable.sh"
find_executable < /dev/null > /dev/null

# Puts standard input into a file below PREFIX/share.
share() {
    mkdir -p "$(dirname "$prefix/share/$1")"
    cat > "$prefix/share/$1"
}

mkdir -p "$prefix/bin"
install -m 755 "$executable" "$prefix/bin/dpl"
"$top/scripts/man-page.sh" "$executable" | share man/man1/dpl.1
"$top/scripts/completions.sh" "$executable" bash | share bash-completion/completions/dpl
"$top/scripts/completions.sh" "$executable" zsh | share zsh/site-functions/_dpl
"$top/scripts/completions.sh" "$executable" fish | share fish/vendor_completions.d/dpl.fish
echo "$prefix/bin/dpl"
