#!/usr/bin/env python3
"""Steps per second of `zkw run` on a loop of a hundred million instructions, beside the plain Rust machine of
plain_run.rs, which like zkw decodes each word once, but keeps no trace, in one run on one machine. Best of five.

Usage: steps.py ZKW [PLAIN_RUN]; with one argument plain_run.rs is built into a temporary folder.
"""
import os
import struct
import subprocess
import sys
import tempfile
import time

HERE = os.path.dirname(os.path.abspath(__file__))
ROUNDS = 10_000_000
# x5 counts down, x6 is an address in free memory; ALU, a load, a store and a branch in each round
LOOP = [
    0x000F4337,  # lui  x6, 0xf4
    0x009892B7,  # lui  x5, 0x989         x5 = 9998336
    0x68028293,  # addi x5, x5, 1664      x5 = 10000000
    0x00033383,  # loop: ld x7, 0(x6)
    0x00538433,  # add  x8, x7, x5
    0x0083C4B3,  # xor  x9, x7, x8
    0x00349513,  # slli x10, x9, 3
    0x40550533,  # sub  x10, x10, x5
    0x00A33023,  # sd   x10, 0(x6)
    0x005535B3,  # sltu x11, x10, x5
    0x00B40633,  # add  x12, x8, x11
    0xFFF28293,  # addi x5, x5, -1
    0xFC029EE3,  # bne  x5, x0, loop
    0x00000513,  # addi x10, x0, 0
    0x05D00893,  # addi x17, x0, 93
    0x00000073,  # ecall
]
STEPS = 3 + 10 * ROUNDS + 3


def elf(words):
    code = struct.pack(f"<{len(words)}I", *words)
    head = b"\x7fELF" + bytes([2, 1, 1]) + bytes(9)
    head += struct.pack("<HHIQQQIHHHHHH", 2, 243, 1, 0x10078, 64, 0, 0, 64, 56, 1, 0, 0, 0)
    return head + struct.pack("<IIQQQQQQ", 1, 5, 120, 0x10078, 0x10078, len(code), len(code), 4) + code


def best(command, folder):
    times = []
    for _ in range(5):
        start = time.perf_counter()
        out = subprocess.run(command, cwd=folder, stdout=subprocess.PIPE, check=True).stdout
        times.append(time.perf_counter() - start)
        assert out.startswith(f"steps {STEPS}\n".encode()), out[:80]
    return min(times)


def main():
    with tempfile.TemporaryDirectory() as folder:
        plain = os.path.abspath(sys.argv[2]) if len(sys.argv) > 2 else os.path.join(folder, "plain_run")
        if len(sys.argv) < 3:
            source = os.path.join(HERE, "plain_run.rs")
            subprocess.run(["rustc", "--edition", "2021", "-O", "-o", plain, source], check=True)
        with open(os.path.join(folder, "loop.elf"), "wb") as file:
            file.write(elf(LOOP))
        open(os.path.join(folder, "empty"), "wb").close()
        words = ["loop.elf", "empty", "4294967295"]
        proved = best([os.path.abspath(sys.argv[1]), "run"] + words, folder)
        yardstick = best([plain] + words, folder)
        print(f"zkw run      {STEPS / proved / 1e6:6.1f} million steps a second")
        print(f"plain Rust   {STEPS / yardstick / 1e6:6.1f} million steps a second")
        print(f"ratio        {yardstick / proved:6.2f} of the plain machine's speed (mark: 0.7)")


main()
