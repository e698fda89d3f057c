#!/usr/bin/env python3
"""`zkw witness` and `zkw check` on about a million mixed steps (mixed_program.py), whose tables have 1.2 GB.

`witness`, with each number of workers that the program takes, stands beside a bare copy of the file and beside
`run`; `check` beside plain_check.rs. Both columns of seconds are the least of all rounds: those that passed, and
those of the processor, which tell more where the machine is shared. Memory is the child's peak, or Python's
where that is more (some 50 MB). Before measuring, the answers of `check` and of plain_check.rs are compared on
small tables, true and forged.

Usage: tables.py ZKW [--rounds N] [--times N] [--folder FOLDER] [--without-check]
ZKW is the built program; FOLDER takes 2.5 GB.
"""
import argparse
import os
import shutil
import subprocess
import sys
import tempfile
import time
from dataclasses import dataclass

import mixed_program

HERE = os.path.dirname(os.path.abspath(__file__))
TOOLS = os.path.join(HERE, "..", "tools")
sys.path.insert(0, TOOLS)
import zkwt  # noqa: E402
SAMPLE = os.path.join(HERE, "..", "crates", "zkw", "data", "exit_seven.elf")
LIMIT = "4294967295"
BLOCK = 1 << 20
# of two rounds of the program: air, instance, row, column, value
FORGED = (
    ("Main", 0, 7, 0, 0), ("Main", 0, 7, 0, 2), ("Main", 0, 0, 1, 4), ("Main", 0, 9, 1, 4), ("Main", 1, 0, 1, 4),
    ("Main", 0, 11, 5, 40), ("Main", 0, 11, 7, 1), ("Main", 0, 12, 26, 77), ("Main", 0, 4000, 20, 1),
    ("Main", 1, 4095, 0, 1), ("Mem", 0, 100, 2, 1), ("Mem", 0, 100, 4, 5), ("Mem", 0, 100, 7, 70000),
    ("Mem", 1, 0, 10, 0), ("Mem", 1, 0, 11, 9), ("Mem", 1, 7, 6, 3), ("Mem", 0, 8191, 4, 1), ("Binary", 0, 3, 44, 1),
    ("Binary", 0, 3, 32, 1), ("Binary", 0, 3, 16, 256), ("Binary", 0, 3, 53, 9), ("Binary", 0, 3, 1, 1),
    ("Binary", 0, 5, 55, 65536), ("Shift", 0, 3, 17, 5), ("Shift", 0, 3, 24, 5), ("Shift", 0, 3, 19, 1),
    ("Arith", 0, 2, 42, 5), ("Arith", 0, 2, 63, 1), ("Arith", 0, 2, 66, 65536), ("Arith", 0, 2, 5, 1),
    ("Align", 0, 4, 37, 1), ("Align", 0, 4, 13, 1), ("Align", 0, 4, 20, 300), ("Out", 0, 0, 0, 9), ("Out", 0, 40, 1, 9),
    ("Out", 0, 41, 0, 2**64 - 2**32 + 1),
)


@dataclass
class Cost:
    """Seconds that passed, seconds of the processor, and the greatest memory in MB."""

    seconds: float
    processor: float
    memory: float

    def least(self, other):
        return Cost(*map(min, zip(self.parts(), other.parts()))) if other else self

    def parts(self):
        return self.seconds, self.processor, self.memory


def measured(command):
    """What the command reports, and its cost."""
    start = time.perf_counter()
    process = subprocess.Popen(command, stdout=subprocess.PIPE)
    report = process.stdout.read()
    _, status, usage = os.wait4(process.pid, 0)
    process.returncode = os.waitstatus_to_exitcode(status)
    process.stdout.close()
    seconds = time.perf_counter() - start
    return report, Cost(seconds, usage.ru_utime + usage.ru_stime, usage.ru_maxrss / 1024)


def copied(source, target):
    """The cost of a bare copy by reads and writes."""
    start, spent = time.perf_counter(), time.process_time()
    with open(source, "rb", buffering=0) as a, open(target, "wb", buffering=0) as b:
        while block := a.read(BLOCK):
            b.write(block)
    return Cost(time.perf_counter() - start, time.process_time() - spent, BLOCK / 2**20)


def same_files(one, other):
    with open(one, "rb") as a, open(other, "rb") as b:
        while True:
            x, y = a.read(BLOCK), b.read(BLOCK)
            if x != y:
                return False
            if not x:
                return True


def widen(small, wide):
    """The same tables in profile Wide: four instances of Main make one, the last filled up with zeros."""
    tables = zkwt.read(small)
    parts = [it for it in tables.instances if it.air == 0]
    joined = []
    for number, first in enumerate(range(0, len(parts), 4)):
        four = parts[first : first + 4]
        columns = [[int(v) for it in four for v in it.columns[k]] for k in range(len(four[0].columns))]
        joined.append(zkwt.Instance(0, number, [c + [0] * (16384 - len(c)) for c in columns]))
    zkwt.write(wide, zkwt.Tables(tables.airs, 2, "wide", joined + tables.instances[len(parts) :]))


class Bench:
    def __init__(self, program, folder):
        self.program, self.folder = program, folder
        self.plain, self.empty = self.path("plain_check"), self.path("empty")
        source = os.path.join(HERE, "plain_check.rs")
        subprocess.run(["rustc", "--edition", "2021", "-O", "-o", self.plain, source], check=True)
        open(self.empty, "wb").close()
        self.costs = {}

    def path(self, name):
        return os.path.join(self.folder, name)

    def mixed(self, rounds):
        path = self.path(f"mixed{rounds}.elf")
        with open(path, "wb") as file:
            file.write(mixed_program.program(rounds))
        return path

    def witness(self, elf, tables, workers=0):
        return measured([self.program, "witness", elf, self.empty, tables, LIMIT, str(workers)])

    def take(self, name, cost):
        self.costs[name] = cost.least(self.costs.get(name))

    # ------------------------------------------------------------ answers

    def agree(self, elf, tables, name):
        """Both programs' one answer."""
        words = [elf, self.empty, tables]
        proved, _ = measured([self.program, "check", *words])
        plain, _ = measured([self.plain, *words])
        if proved != plain:
            sys.exit(f"{name}: check says {proved[:200]}, and plain_check {plain[:200]}")
        return proved.decode().split("\n")[0]

    def answers(self):
        tables, forged = self.path("small.tables"), self.path("forged.tables")
        two = self.mixed(2)
        for name, elf in (("exit_seven", SAMPLE), ("two instances", two)):
            self.witness(elf, tables)
            self.accepted(elf, tables, name)
        widen(tables, forged)
        self.accepted(two, forged, "wide")
        found = set()
        for words in FORGED:
            shutil.copyfile(tables, forged)
            air, *rest = map(str, words)
            subprocess.run([sys.executable, os.path.join(TOOLS, "zkwt.py"), "set", forged, air, *rest], check=True)
            found.add(" ".join(self.agree(two, forged, words).split()[:3]))
        print(f"answers      the same on 3 true and {len(FORGED)} forged tables, of {len(found)} kinds")

    def accepted(self, elf, tables, name):
        answer = self.agree(elf, tables, name)
        if answer != "accepted":
            sys.exit(f"{name}: {answer}")

    # ------------------------------------------------------------ time and memory

    def workers(self, elf, wanted):
        """Those numbers of workers that the program takes."""
        tables = self.path("small.tables")
        return [n for n in wanted if self.witness(elf, tables, n)[0].startswith(b"steps")]

    def round(self, elf, workers, with_check):
        tables, second = self.path("tables"), self.path("second")
        report, cost = measured([self.program, "run", elf, self.empty, LIMIT])
        self.take("run", cost)
        for n in workers:
            target = second if n else tables
            said, cost = self.witness(elf, target, n)
            assert said == report, said[:200]
            self.take(f"witness {n}", cost)
            if n:
                assert same_files(tables, second), n
        self.take("bare copy", copied(tables, second))
        os.remove(second)
        said, cost = measured([self.plain, elf, self.empty, tables])
        assert said.startswith(b"accepted"), said[:200]
        self.take("plain check", cost)
        if with_check:
            proved, cost = measured([self.program, "check", elf, self.empty, tables])
            assert proved == said, proved[:200]
            self.take("check", cost)
        size = os.path.getsize(tables)
        os.remove(tables)
        return report, size

    def ratio(self, what, beside, mark):
        a, b = self.costs.get(what), self.costs.get(beside)
        if a and b:
            print(f"{what} beside {beside}: {a.seconds / b.seconds:.2f} times the time, "
                  f"{a.processor / b.processor:.2f} times the processor's (mark: {mark})")


def main():
    parser = argparse.ArgumentParser(usage=__doc__)
    parser.add_argument("zkw")
    parser.add_argument("--rounds", type=int, default=330)
    parser.add_argument("--times", type=int, default=3)
    parser.add_argument("--folder")
    parser.add_argument("--without-check", action="store_true")
    options = parser.parse_args()
    with tempfile.TemporaryDirectory(dir=options.folder) as folder:
        bench = Bench(os.path.abspath(options.zkw), folder)
        if not options.without_check:
            bench.answers()
        workers = bench.workers(bench.mixed(1), (0, 1, 2, 4))
        load = os.getloadavg()[0]
        for _ in range(options.times):
            report, size = bench.round(bench.mixed(options.rounds), workers, not options.without_check)
        print(f"{report.decode().split()[1]} steps, {size / 1e6:.0f} MB of tables; best of {options.times}; "
              f"load {load:.1f} to {os.getloadavg()[0]:.1f} on {os.cpu_count()} processors")
        for name, cost in bench.costs.items():
            print(f"{name:12} {cost.seconds:7.2f} s, processor {cost.processor:7.2f} s, {cost.memory:6.0f} MB")
        bench.ratio("witness 0", "bare copy", "2")
        bench.ratio("witness 4", "witness 0", "0.6")
        bench.ratio("check", "plain check", "2, below 400 MB")


if __name__ == "__main__":
    main()
