#!/bin/sh
# Builds each guest program again with Debian's gcc-riscv64-unknown-elf and says where its file
# differs from the committed one. With --write it replaces the committed files.
set -eu
cd "$(dirname "$0")"
built=../crates/guest_runs/data
out=$(mktemp -d)
trap 'rm -rf "$out"' EXIT
status=0
for source in *.c; do
    name=${source%.c}
    ./cc.sh "$out/$name.elf" "$source"
    if [ "${1:-}" = --write ]; then
        cp "$out/$name.elf" "$built/$name.elf"
    elif ! cmp "$out/$name.elf" "$built/$name.elf"; then
        status=1
    fi
done
exit $status
