# Where the executable of the present sources is. ./dpl, install.sh and the scripts around built/ share these functions.
# usage: . scripts/executable.sh, with `top` set to the repository's folder.

# The sum of what the program is built from: crates.txt and each file below crates/*/src, of which rt reads those that end in .rt.
# Specs and proofs don't change the program. It goes by find, so that it is the same where there is no git.
sum_of_sources() {
    (
        cd "$top"
        find crates.txt crates/*/src -type f \( -name '*.rt' -o -name crates.txt \) -print0 |
            LC_ALL=C sort -z | xargs -0 sha256sum | sha256sum | cut -d ' ' -f 1
    )
}

# Whether no source has changed since the time that an executable bears.
is_current() {
    [ -x "$1" ] && [ -z "$(cd "$top" && find crates.txt crates/*/src -type f -cnewer "$1" -print -quit)" ]
}

# Whether built/ has the program of the sources with this sum.
is_built_of() { [ -e "$top/built/dpl.gz" ] && [ "$(cat "$top/built/sources")" = "$1" ]; }

# Prints an executable with its version made whole: the sum of the sources and the number of the logic stand where it has room for them.
stamped() {
    version=$(sum_of_sources | cut -c 1-16)
    logic=$(rt version | sed 's/.*logic \([0-9a-f]\{16\}\).*/\1/')
    LC_ALL=C sed "s/sources 0\{16\}, logic 0\{16\}/sources $version, logic $logic/" "$1"
}

# Strips an executable into a folder, under the name dpl, by the toolchain's own llvm-strip, so that all machines make the same bytes, and stamps it.
strip_to() {
    ln -s "$(dirname "$(rt doc)")/toolchain/bin/clang" "$1/llvm-strip"
    "$1/llvm-strip" -o "$1/bare" "$2"
    stamped "$1/bare" > "$1/dpl"
    chmod 755 "$1/dpl"
}

# The folder to unpack into: out/, or where the repository can't be written one for this sum below a temporary folder of the user's own.
folder_for() {
    if mkdir -p "$top/out" 2> /dev/null && [ -w "$top/out" ]; then
        echo "$top/out"
        return
    fi
    own=${TMPDIR:-/tmp}/dpl-$(id -u)
    mkdir -m 700 "$own" 2> /dev/null || true
    # Anyone can have made a folder of that name.
    if [ "$(stat -c %F:%u:%a "$own" 2> /dev/null)" != "directory:$(id -u):700" ]; then own=$(mktemp -d) || return; fi
    mkdir -p "$own/$1" && echo "$own/$1"
}

# Moves a file to the path of an executable, whole, since another run can do so at the same time. It bears the time given.
place() { chmod 755 "$1" && touch -d "@$3" "$1" && mv -f "$1" "$2"; }

# Unpacks built/ to a path.
unpack() {
    part=$(mktemp "$1.XXXXXX") || return
    if ! { gzip -dc "$top/built/dpl.gz" > "$part" && place "$part" "$1" "$2"; }; then
        rm -f "$part"
        return 1
    fi
}

# Ends with status 69 on a machine for which there is no program: it is one of Linux on x86-64.
check_machine() {
    case $(uname -s)-$(uname -m) in
        Linux-x86_64 | Linux-amd64) ;;
        *)
            echo "dpl: this is $(uname -s) on $(uname -m), and the program runs on Linux on x86-64 alone" >&2
            exit 69
            ;;
    esac
}

# Sets `executable` to the program of the present sources: one that stands there, or built/ unpacked if it is of these sources. Fails where there is none.
find_built() {
    for executable in "$top/out/dpl" "$top/crates/dpl/out/dpl"; do
        if is_current "$executable"; then return; fi
    done
    # A source that changes from here on makes the executable an old one.
    now=$(date +%s.%N)
    sum=$(sum_of_sources)
    is_built_of "$sum" && executable=$(folder_for "$sum")/dpl && { is_current "$executable" || unpack "$executable" "$now"; }
}

# Sets `executable` as find_built does; where there is none the program is built.
find_executable() {
    check_machine
    if find_built; then return; fi
    "$top/scripts/build.sh"
    executable=$top/out/dpl
}
