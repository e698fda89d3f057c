#!/usr/bin/env python3
"""Products in the field: crates/field_chain beside plain Rust with the usual Goldilocks reduction and
with the remainder of 128 bits, in one run on one machine. Best of five.

Usage: products.py FIELD_CHAIN, the built program.
"""
import os
import subprocess
import sys
import tempfile
import time

HERE = os.path.dirname(os.path.abspath(__file__))
TURNS = "100000000"


def best(command):
    times, said = [], None
    for _ in range(5):
        start = time.perf_counter()
        out = subprocess.run(command, stdout=subprocess.PIPE, check=True).stdout
        times.append(time.perf_counter() - start)
        assert said in (None, out)
        said = out
    return min(times), said


def main():
    with tempfile.TemporaryDirectory() as folder:
        plain = os.path.join(folder, "plain_products")
        source = os.path.join(HERE, "plain_products.rs")
        subprocess.run(["rustc", "--edition", "2021", "-O", "-o", plain, source], check=True)
        proved, said = best([os.path.abspath(sys.argv[1]), TURNS])
        reduced, same = best([plain, "reduce", TURNS])
        modulo, again = best([plain, "modulo", TURNS])
        assert said == same == again
    print(f"field_chain     {proved:6.2f} s")
    print(f"plain, reduce   {reduced:6.2f} s, ratio {proved / reduced:5.2f}")
    print(f"plain, modulo   {modulo:6.2f} s, ratio {proved / modulo:5.2f}")


main()
