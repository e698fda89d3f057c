#!/bin/sh
# Builds the templates and the test of lib/memory.c, and runs them by a machine: what they report must be
# what it is here.
#
# Usage: test.sh COMMAND.., as test.sh ../zkw run, or the built bench/plain_run.rs
set -eu
here=$(cd "$(dirname "$0")" && pwd)
made=$(mktemp -d)
trap 'rm -rf "$made"' EXIT
status=0

# A program, its input, and the first 16 digits of the output and the exit code that it must report.
expect() {
    program=$1 wanted="exit $3 output $4"
    printf '%s' "$2" >"$made/input"
    shift 4
    said=$("$@" "$made/$program" "$made/input" 100000000 | sed -n 's/^\(exit .*\)/\1/p; s/^\(output .\{16\}\).*/\1/p' | tr '\n' ' ')
    if [ "$said" = "$wanted " ]; then
        echo "$program: as wanted"
    else
        echo "$program: says '$said', wanted '$wanted'"
        status=1
    fi
}

"$here/cc.sh" "$made/memory" "$here/tests/memory.c"
expect memory "" 0 20ac000000000000 "$@"
"$here/cc.sh" "$made/c_template" "$here/template/program.c"
expect c_template abc 0 2601000000000000 "$@"
if "$here/rustc.sh" "$made/rust_template" "$here/template/program.rs"; then
    expect rust_template abc 0 2601000000000000 "$@"
else
    echo "rust_template: not built, so not tested"
fi
if "$here/cc.sh" "$made/none" -x c /dev/null -x none 2>"$made/said" || ! grep -q '^cc.sh: main is missing: ' "$made/said"; then
    echo "cc.sh doesn't say that main is missing"
    status=1
fi
exit $status
