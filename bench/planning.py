#!/usr/bin/env python3
"""Seconds that the built program run_plan takes for the plan of 2^22 - 1 chunks, as many full ones as the longest run
has, with the made-up counts below for each. Best of three. The number of jobs and the sum over their parts are computed
here too, from the rows alone.

Usage: planning.py RUN_PLAN [CHUNKS]
"""
import subprocess
import sys
import time

CHUNK_ROWS = {"main": 1024, "binary": 424, "shift": 200, "arith": 100, "align": 300}
INSTANCE_ROWS = {"main": 4096, "binary": 4096, "shift": 1024, "arith": 1024, "align": 2048}


def expected(chunks):
    """The jobs, and (instance + chunk) * take + skip summed over their parts modulo 2^64."""
    jobs = total = 0
    for air, per_chunk in CHUNK_ROWS.items():
        per_instance = INSTANCE_ROWS[air]
        rows = chunks * per_chunk
        whole, rest = divmod(rows, per_instance)
        jobs += whole + (rest > 0)
        total += per_chunk * (chunks * (chunks - 1) // 2)
        total += per_instance * (whole * (whole - 1) // 2) + rest * whole
        # an instance that begins within a chunk passes over the chunk's rows before it
        total += sum(row % per_chunk for row in range(0, rows, per_instance))
    return jobs, total % 2**64


def main():
    chunks = int(sys.argv[2]) if len(sys.argv) > 2 else 2**22 - 1
    times = []
    for _ in range(3):
        start = time.perf_counter()
        out = subprocess.run([sys.argv[1], "plan", str(chunks)], stdout=subprocess.PIPE, check=True).stdout
        times.append(time.perf_counter() - start)
    jobs, total = expected(chunks)
    assert out == f"jobs {jobs}\nsum {total}\n".encode(), (out, jobs, total)
    print(f"plan of {chunks} chunks  {min(times):6.2f} seconds, {jobs} jobs")


main()
