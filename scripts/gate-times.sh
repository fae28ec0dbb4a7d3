#!/bin/sh
# Runs the merge gate, and prints what it took by crate as a table in Markdown. usage: scripts/gate-times.sh [--over LOG]
# The gate's own output goes to LOG, out/gate.log without it, in place of what is there. Ends with the gate's status.
set -eu

exec python3 "$(dirname "$(readlink -f "$0")")/gate-times.py" "$@"
