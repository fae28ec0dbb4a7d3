#!/bin/sh
# Prints the man page of dpl, in troff, made of what `dpl --help` says. usage: scripts/man-page.sh EXECUTABLE
set -eu

"$1" --help | awk -v version="$("$1" --version)" '
    # A line of text as troff takes it: a backslash and a dash are spelled out, and no line begins with a dot.
    function shown(line) {
        gsub(/\\/, "\\e", line)
        gsub(/-/, "\\-", line)
        return line ~ /^[.'"'"']/ ? "\\\\&" line : line
    }
    function section(name) { print ".SH " name }
    NR == 1 {
        print ".TH DPL 1 \"\" \"" shown(version) "\" \"User Commands\""
        section("NAME")
        about = $0
        sub(/\.$/, "", about)
        print "dpl \\- " tolower(substr(about, 1, 1)) substr(about, 2)
        next
    }
    /^Usage: / { section("SYNOPSIS"); print ".B dpl"; print shown(substr($0, 12)); next }
    /^Arguments:$/ { section("ARGUMENTS"); kind = "list"; next }
    /^Options:$/ { section("OPTIONS"); kind = "list"; next }
    /^Statuses:$/ { section("EXIT STATUS"); kind = "list"; next }
    /^Example:$/ { section("EXAMPLE"); kind = "code"; next }
    /^$/ { if (kind == "list") kind = ""; next }
    kind == "list" {
        sub(/^ +/, "")
        # What stands behind two blanks says what the word before them is for.
        at = match($0, /  +/)
        if (at > 0) { print ".TP"; print ".B " shown(substr($0, 1, at - 1)); print shown(substr($0, at + RLENGTH)) }
        else { print ".PP"; print shown($0) }
        next
    }
    kind == "code" { print ".nf"; sub(/^ +/, ""); print shown($0); print ".fi"; next }
    { if (!told) { section("DESCRIPTION"); told = 1 } print shown($0) }
'
