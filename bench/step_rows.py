#!/usr/bin/env python3
"""Rows of Main and of Mem a second, by row_bench: emulator, replay and tables together, on about a million mixed steps
(mixed_program.py), beside plain Rust that fills the same tables (plain_step_rows.rs). Both take their own time, from the loaded
file to the last table, and sum up all values of the tables; the sums are compared. Best of the rounds, which alternate.

Usage: step_rows.py ROW_BENCH [ROUNDS], the built program.
"""
import os
import subprocess
import sys
import tempfile

import mixed_program

HERE = os.path.dirname(os.path.abspath(__file__))
MEM_ROWS = 8192
LIMIT = "4294967295"


def measured(program, elf, data):
    """What the program says but its time, and its time in seconds."""
    said = subprocess.run([program, elf, data, LIMIT], stdout=subprocess.PIPE, check=True, text=True).stdout
    told, microseconds = said.split(" microseconds ")
    return told, int(microseconds) / 1e6


def main():
    program = os.path.abspath(sys.argv[1])
    rounds = int(sys.argv[2]) if len(sys.argv) > 2 else 3
    with tempfile.TemporaryDirectory() as folder:
        plain, elf, data = (os.path.join(folder, name) for name in ("plain_step_rows", "a.elf", "a.input"))
        source = os.path.join(HERE, "plain_step_rows.rs")
        subprocess.run(["rustc", "--edition", "2021", "-O", "-o", plain, source], check=True)
        open(data, "wb").close()
        times = {program: [], plain: []}
        # a short run first, whose sums tell of a difference at once
        for size in [2] + [360] * rounds:
            with open(elf, "wb") as file:
                file.write(mixed_program.program(size))
            told = {}
            for each in times:
                told[each], seconds = measured(each, elf, data)
                if size > 2:
                    times[each].append(seconds)
            assert told[program] == told[plain], told
        words = told[plain].split()
        steps, mem = int(words[1]), int(words[5]) * MEM_ROWS
        print(told[plain])
        for name, each in (("row_bench", program), ("plain Rust", plain)):
            best = min(times[each])
            print(f"{name:10} {best:6.2f} s, {steps / best / 1e6:6.2f} million rows of Main and {mem / best / 1e6:6.2f} of Mem a second")
        print(f"ratio      {min(times[program]) / min(times[plain]):6.2f} times the plain program's time")


main()
