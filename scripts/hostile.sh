#!/bin/sh
# Looks for a run that a limit or a text ends by a signal. Texts nested as deep as the language lets them, one whose turns workers make, and long
# chains are run under limits of address space (ulimit -v, upwards in steps from where the program can be loaded at all) and of the stack of the
# first thread (ulimit -s). Each run has to write the right bytes and end with 0, or to write nothing, tell M1 or M2 and end with 3.
# usage: scripts/hostile.sh [EXECUTABLE [STEP]]. STEP is in KB, 64 where none is given; by default the executable of these sources is run.
# Tells how many runs there were, with status 0; or each run that ended otherwise, with status 1.
set -eu

top=$(cd "$(dirname "$(readlink -f "$0")")/.." && pwd)
. "$top/scripts/executable.sh"
if [ $# = 0 ]; then find_executable < /dev/null > /dev/null; else executable=$(readlink -f "$1"); fi
step=${2:-64}
room=$(mktemp -d)
trap 'rm -rf "$room"' EXIT

# `open` N times, `middle`, and `close` N times.
nest() { awk -v open="$2" -v middle="$3" -v close_="$4" -v n="$1" 'BEGIN { for (i = 0; i < n; i++) printf "%s", open; printf "%s", middle; for (i = 0; i < n; i++) printf "%s", close_ }'; }

# A text is a line of the program's arguments, its program, and what it writes: NAME ARGUMENTS PROGRAM OUTPUT.
text() {
    printf '%s' "$2" > "$room/$1.args"
    printf '%s\n' "$3" > "$room/$1.chpl"
    printf '%s\n' "$4" > "$room/$1.out"
}

texts() {
    array='const D = blockDist.createDomain({1..40000}); var A: [D] int;'
    text brackets '' "writeln($(nest 62 '(' 1 ')'));" 1
    text domains '' "writeln($(nest 62 '{1..' 1 '}.size'));" 1
    text indices '' "var A: [1..9] int = 1; writeln($(nest 62 'A[' 1 ']'));" 1
    text operands '' "var s = 0; for i in 1..3 do s += $(nest 62 'i+(' i ')'); writeln(s);" 378
    text conditions '' "var x = true; writeln($(nest 62 'x==(' x ')'));" true
    text blocks '' "$(nest 63 '{' 'writeln(1);' '}')" 1
    text loops '' "var s = 0; $(nest 63 'for i in 1..1 do ' 's += 1;' '') writeln(s);" 1
    text workers '--locales 4' "$array forall i in D do A[i] = $(nest 61 '{1..' i '}.size'); writeln(A[7]);" 7
    text turns '--locales 4' "$array forall i in D do $(nest 62 'if i > 0 then ' 'A[i] = i;' '') writeln(A[7]);" 7
    text sum '' "var s = 0; for i in 1..200 do s += i$(nest 100000 '+i' '' ''); writeln(s);" 2010020100
    text sums '--locales 4' "$array forall i in D do A[i] = i$(nest 2000 '+i' '' ''); writeln(A[7]);" 14007
}

# Runs a text by the limits that are set: `right`, `refused`, or what else became of it.
run() {
    status=0
    # shellcheck disable=SC2046
    "$executable" $(cat "$room/$1.args") "$room/$1.chpl" > "$room/written" 2> "$room/told" || status=$?
    if [ "$status" = 0 ] && cmp -s "$room/written" "$room/$1.out"; then
        echo right
    elif [ "$status" = 3 ] && [ ! -s "$room/written" ] && grep -qx 'dpl: M[12]' "$room/told"; then
        echo refused
    else
        echo "status $status, wrote '$(head -c 60 "$room/written")', told '$(head -c 60 "$room/told")'"
    fi
}

# The text NAME by `ulimit FLAG SIZE`. What a shell says of a signal isn't wanted.
by() { (ulimit "$2" "$3" && run "$1") 2> "$room/shell"; }

# Tells a run that ended as none may.
look() {
    runs=$((runs + 1))
    case $4 in
        right | refused) ;;
        *) bad=$((bad + 1)) && echo "$1, ulimit $2 $3: $4" ;;
    esac
}

# The least address space in which the program is loaded: it answers, if only that memory is wanting.
least_space() {
    text empty '' ';' ''
    : > "$room/empty.out"
    space=1024
    while case $(by empty -v "$space") in right | refused) false ;; *) true ;; esac do space=$((space + 16)); done
    echo "$space"
}

runs=0
bad=0
texts
least=$(least_space)
for chpl in "$room"/*.chpl; do
    name=$(basename "$chpl" .chpl)
    look "$name" -s unlimited "$(by "$name" -s unlimited)"
    for stack in 64 256 1024 8192; do look "$name" -s "$stack" "$(by "$name" -s "$stack")"; done
    space=$least
    answer=
    while [ "$answer" != right ] && [ "$space" -lt 2000000 ]; do
        answer=$(by "$name" -v "$space")
        look "$name" -v "$space" "$answer"
        # Behind the windows in which little memory is short the steps grow with the space.
        space=$((space + step + (space - least) / 16))
    done
done
[ "$bad" = 0 ] || exit 1
echo "hostile: $runs runs, each right or refused; the program is loaded from $least KB on"
