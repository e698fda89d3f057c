#!/bin/sh
# Builds a Rust program for the zkw machine, over Rust's core library.
#
# Usage: rustc.sh OUT SOURCE [FLAG..], with Debian's rustc 1.63, rust-src and gcc-riscv64-unknown-elf, or the
# rustc that RUSTC names, with its sources. FLAGs are rustc's. Debian has no core library for the machine, so
# the first call compiles it into guest/out/, in about 20 seconds.
set -eu
here=$(cd "$(dirname "$0")" && pwd)
lib=$here/lib
rustc=${RUSTC:-rustc}
if [ $# -lt 2 ]; then
    sed -n '2,7s/^# \{0,1\}//p' "$0" >&2
    exit 2
fi
if ! command -v "$rustc" >/dev/null; then
    echo "rustc.sh: there is no $rustc: install Debian's rustc and rust-src" >&2
    exit 1
fi
core=$("$rustc" --print sysroot)/lib/rustlib/src/rust/library/core/src/lib.rs
if [ ! -f "$core" ]; then
    echo "rustc.sh: there is no $core: install Debian's rustc and rust-src" >&2
    exit 1
fi
out=$1
source=$2
shift 2
common="--edition 2021 --target $lib/rv64im.json -O -C panic=abort"
kept=$here/out/$("$rustc" --version | tr ' ()' '___')
if [ ! -f "$kept/libzkw.rlib" ]; then
    mkdir -p "$kept"
    # shellcheck disable=SC2086
    RUSTC_BOOTSTRAP=1 "$rustc" $common --crate-type rlib --crate-name core --cap-lints allow \
        -o "$kept/libcore.rlib" "$core"
    # Each crate wants one of this name. What it would hold comes from lib/memory.c and gcc's library.
    # shellcheck disable=SC2086
    echo '#![no_std] #![feature(compiler_builtins)] #![compiler_builtins]' |
        RUSTC_BOOTSTRAP=1 "$rustc" $common --crate-type rlib --crate-name compiler_builtins -L "$kept" \
            -o "$kept/libcompiler_builtins.rlib" -
    # shellcheck disable=SC2086
    "$rustc" $common --crate-type rlib --crate-name zkw -L "$kept" -o "$kept/libzkw.rlib" "$lib/zkw.rs"
fi
made=$(mktemp -d)
trap 'rm -rf "$made"' EXIT
# shellcheck disable=SC2086
"$rustc" $common --crate-type staticlib -C lto=fat -L "$kept" --extern zkw="$kept/libzkw.rlib" "$@" \
    -o "$made/program.a" "$source"
"$here/cc.sh" "$out" "$made/program.a" -Wl,--gc-sections
