#!/bin/sh
# Measures the gate from nothing: `rt ci --anew` at the top of a repository, with a table of its ten slowest crates by proof,
# tests and must-fail edits. Usage: gate.sh [FOLDER], the top of this repository where none is named. The gate's own output
# goes to gate.log in the present folder; the status is the gate's.
here=$(cd "$(dirname "$0")" && pwd)
top=${1:-$here/..}
log=$PWD/gate.log
status=$(mktemp) || exit 70
{
    cd "$top" || exit 70
    rt ci --anew 2>&1
    echo $? >"$status"
} | python3 "$here/gate_times.py" "$$" "$top/crates.txt" "$log"
code=$(cat "$status")
rm -f "$status"
exit "${code:-70}"
