#!/bin/sh
# Builds a C program for the zkw machine.
#
# Usage: cc.sh OUT SOURCE.. [FLAG..], with Debian's gcc-riscv64-unknown-elf, or another gcc that CC names.
# FLAGs are the compiler's. Sources may be assembly and libraries too.
set -eu
lib=$(cd "$(dirname "$0")" && pwd)/lib
compiler=${CC:-riscv64-unknown-elf-gcc}
if [ $# -lt 2 ]; then
    sed -n '2,5s/^# \{0,1\}//p' "$0" >&2
    exit 2
fi
if ! command -v "$compiler" >/dev/null; then
    echo "cc.sh: there is no $compiler: install Debian's gcc-riscv64-unknown-elf, or name another gcc in CC" >&2
    exit 1
fi
out=$1
shift
made=$(mktemp -d)
trap 'rm -rf "$made"' EXIT
machine="-march=rv64im -mabi=lp64 -mcmodel=medany"
flags="$machine -O2 -ffreestanding -Wall -Wextra -Wno-main -I$lib"
# The functions of memory.c come from a library, so that a program has those alone that it calls.
# shellcheck disable=SC2086
"$compiler" $flags -c -o "$made/memory.o" "$lib/memory.c"
"${compiler%gcc}ar" rc "$made/libmemory.a" "$made/memory.o"
# shellcheck disable=SC2086
if LC_ALL=C "$compiler" $flags -nostdlib -static -Wl,--build-id=none -Wl,-T,"$lib/link.ld" -Wl,-s \
    -o "$out" "$lib/start.S" "$@" "$made/libmemory.a" -lgcc 2>"$made/said"; then
    cat "$made/said" >&2
    exit
fi
cat "$made/said" >&2
sed -n "s/.*undefined reference to [\`']\([^']*\)'.*/\1/p" "$made/said" | sort -u | while read -r name; do
    case $name in
        main) what="a program begins with u64 main(void), as in template/program.c" ;;
        __atomic_* | __sync_*) what="the machine has no atomic instructions; it runs one thread, so a plain load or store will do" ;;
        malloc | calloc | realloc | free) what="there is no heap; use arrays of a fixed size, or write an allocator over one" ;;
        printf | puts | putchar | fprintf | sprintf | snprintf) what="there is no console; results go to the output window, by zkw_output_word or zkw_output" ;;
        exit | abort) what="the run ends by zkw_exit(code), or by what main returns" ;;
        *) what="the machine has no C library; write it, or give a library that has it, built for rv64im and lp64" ;;
    esac
    echo "cc.sh: $name is missing: $what" >&2
done
exit 1
