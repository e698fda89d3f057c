#!/usr/bin/env python3
"""`zkw pil` on 2^20 rows of twenty columns with twenty identities, beside the same check in plain Rust
(plain_rows.rs); and the time to read constraint texts of growing length. Best of three.

Usage: rows.py ZKW, the built program.
"""
import array
import os
import random
import struct
import subprocess
import sys
import tempfile
import time

HERE = os.path.dirname(os.path.abspath(__file__))
P = 2**64 - 2**32 + 1
ROWS = 1 << 20


def best(command):
    times = []
    for _ in range(3):
        start = time.perf_counter()
        said = subprocess.run(command, stdout=subprocess.PIPE).stdout
        times.append(time.perf_counter() - start)
    return min(times), said


def tables(path):
    """Random x0 .. x9, and the columns yk that lead from each row to the next."""
    draw = random.Random(1)
    with open(path, "wb") as file:
        file.write(struct.pack("<IIII", 0x54574B5A, 1, 1, 1) + struct.pack("<IIII", 0, 0, 20, ROWS))
        xs = [[draw.randrange(P) for _ in range(ROWS)] for _ in range(10)]
        for x in xs:
            file.write(array.array("Q", x).tobytes())
        for x in xs:
            file.write(array.array("Q", ((x[(r + 1) % ROWS] - x[r]) % P for r in range(ROWS))).tobytes())


def text():
    lines = [f"namespace A({ROWS});"]
    lines += [f"pol commit x{k};" for k in range(10)] + [f"pol commit y{k};" for k in range(10)]
    for k in range(10):
        j = (k + 1) % 10
        lines += [f"x{k}' = x{k} + y{k};", f"(x{k} + y{k}) * x{j} = x{k}' * x{j};"]
    return "\n".join(lines)


def long_text(size):
    """Declarations and identities, each over the polynomial before, of about so many bytes."""
    parts, length, n = ["namespace A(2); pol commit x0;"], 30, 0
    while length < size - 60:
        n += 1
        parts.append(f"pol commit x{n}; x{n} = x{n - 1}' + {n};")
        length += len(parts[-1])
    return "".join(parts)


def main():
    program = os.path.abspath(sys.argv[1])
    with tempfile.TemporaryDirectory() as folder:
        plain, pil, table = (os.path.join(folder, name) for name in ("plain_rows", "a.pil", "a.tables"))
        source = os.path.join(HERE, "plain_rows.rs")
        subprocess.run(["rustc", "--edition", "2021", "-O", "-o", plain, source], check=True)
        tables(table)
        with open(pil, "w") as file:
            file.write(text())
        proved, said = best([program, "pil", pil, table])
        yardstick, same = best([plain, table])
        assert said == same == b"accepted\n", (said, same)
        print(f"zkw pil      {proved:6.2f} s, {ROWS * 20 / proved / 1e6:6.1f} million rows times lines a second")
        print(f"plain Rust   {yardstick:6.2f} s")
        print(f"ratio        {proved / yardstick:6.2f} times the plain check's time")
        for bits in range(17, 21):
            with open(pil, "w") as file:
                file.write(long_text(1 << bits))
            # there are no tables: the command ends once the text is read
            seconds, _ = best([program, "pil", pil, os.path.join(folder, "none")])
            print(f"text of 2^{bits} bytes: {seconds:5.2f} s")


main()
