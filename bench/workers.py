#!/usr/bin/env python3
"""Runs `zkw witness` with workers, in three parts.

same     With 1, 4 and 64 workers, a hundred runs of each, while twice as many busy processes as processors take
         the time: each file is byte for byte that of 0 workers, and each report and status too.
refused  As a user that may have no thread beside the first, and one that may have two: same file, status 0.
         Needs root, who isn't held to such a limit, and a number of a user who runs nothing.
times    About a million mixed steps (mixed_program.py) with 0, 1, 2 and 4 workers, in turn: the least time of all
         rounds as a ratio to that of 0 workers, the processor's time and the peak memory.

Usage: workers.py ZKW [PART ..] [--runs N] [--rounds N] [--times N] [--user N] [--folder FOLDER]
ZKW is the built program; FOLDER takes 2.5 GB for `times`, and else 50 MB.
"""
import argparse
import os
import resource
import shutil
import subprocess
import sys
import tempfile

import mixed_program
from tables import LIMIT, measured, same_files

PARTS = ("same", "refused", "times")
# of rounds of the mixed program: some ten thousand steps, whose tables come from jobs of five airs
FEW_ROUNDS = 4
# a shell that needs a second process, which the same limit counts
A_PROCESS = ["/bin/sh", "-c", "(exit 0); exit $?"]


class Runs:
    """One program over one input, and where its tables go."""

    def __init__(self, program, folder, rounds):
        self.program, self.folder = program, folder
        self.elf, self.empty = self.path("mixed.elf"), self.path("empty")
        with open(self.elf, "wb") as file:
            file.write(mixed_program.program(rounds))
        open(self.empty, "wb").close()

    def path(self, name):
        return os.path.join(self.folder, name)

    def words(self, workers, tables):
        return [self.program, "witness", self.elf, self.empty, self.path(tables), LIMIT, str(workers)]

    def witness(self, workers, tables, **how):
        """The report and the status."""
        done = subprocess.run(self.words(workers, tables), stdout=subprocess.PIPE, check=False, **how)
        return done.stdout, done.returncode

    def first(self):
        """What 0 workers report; their tables are `first`."""
        report, status = self.witness(0, "first")
        if status:
            sys.exit(f"0 workers end with {status}")
        return report

    def compare(self, workers, report, name, **how):
        said, status = self.witness(workers, "second", **how)
        if status or said != report:
            sys.exit(f"{name}: status {status}, {said[:100]}")
        if not same_files(self.path("first"), self.path("second")):
            sys.exit(f"{name}: the tables differ")
        os.remove(self.path("second"))


# ---------------------------------------------------------------- the same tables


def same(program, folder, options):
    runs = Runs(program, folder, FEW_ROUNDS)
    report = runs.first()
    busy = [subprocess.Popen([sys.executable, "-c", "while True: pass"]) for _ in range(2 * os.cpu_count())]
    try:
        for workers in (1, 4, 64):
            for number in range(options.runs):
                runs.compare(workers, report, f"run {number} with {workers} workers")
    finally:
        for process in busy:
            process.kill()
            process.wait()
    print(f"same         {options.runs} runs each with 1, 4 and 64 workers under load: the tables of 0 workers")


# ---------------------------------------------------------------- threads that can't be started


def limited(user, most):
    """How a child becomes the user, with at most so many threads and processes."""

    def become():
        resource.setrlimit(resource.RLIMIT_NPROC, (most, most))
        os.setgroups([])
        os.setgid(user)
        os.setuid(user)

    return become


def may_start_more(how):
    return subprocess.run(A_PROCESS, stderr=subprocess.DEVNULL, check=False, **how).returncode == 0


def refused(program, folder, options):
    if os.getuid():
        sys.exit("refused: needs root")
    copy = os.path.join(folder, "zkw")
    shutil.copyfile(program, copy)
    runs = Runs(copy, folder, FEW_ROUNDS)
    for path in (folder, copy):
        os.chmod(path, 0o755)
    report = runs.first()
    os.chown(folder, options.user, options.user)
    for more in (0, 2):
        how = {"preexec_fn": limited(options.user, 1 + more), "cwd": folder}
        if may_start_more(how) != (more > 0):
            sys.exit(f"refused: the limit of {more} threads more doesn't hold for user {options.user} here")
        for workers in (1, 4, 64):
            runs.compare(workers, report, f"{workers} workers where {more} threads can be started", **how)
    print("refused      1, 4 and 64 workers where 0 and 2 threads can be started: the tables of 0 workers, status 0")


# ---------------------------------------------------------------- time and memory


def times(program, folder, options):
    runs = Runs(program, folder, options.rounds)
    costs, report = {}, None
    for _ in range(options.times):
        for workers in (0, 1, 2, 4):
            target = "second" if workers else "first"
            said, cost = measured(runs.words(workers, target))
            report = report or said
            if said != report or not said.startswith(b"steps "):
                sys.exit(f"{workers} workers: {said[:100]}")
            costs[workers] = cost.least(costs.get(workers))
            if workers and not same_files(runs.path("first"), runs.path("second")):
                sys.exit(f"{workers} workers: the tables differ")
    print(f"times        {report.decode().split()[1]} steps, {os.path.getsize(runs.path('first')) / 1e6:.0f} MB of tables; "
          f"best of {options.times}; load {os.getloadavg()[0]:.1f} on {os.cpu_count()} processors")
    for workers, cost in costs.items():
        print(f"  {workers} workers  {cost.seconds:7.2f} s, {cost.seconds / costs[0].seconds:.2f} of that of 0; "
              f"processor {cost.processor:7.2f} s; {cost.memory:6.0f} MB")


def main():
    parser = argparse.ArgumentParser(usage=__doc__)
    parser.add_argument("zkw")
    parser.add_argument("parts", nargs="*", metavar="PART")
    parser.add_argument("--runs", type=int, default=100)
    parser.add_argument("--rounds", type=int, default=330)
    parser.add_argument("--times", type=int, default=3)
    parser.add_argument("--user", type=int, default=61234)
    parser.add_argument("--folder")
    options = parser.parse_args()
    if set(options.parts) - set(PARTS):
        parser.error(f"the parts are {', '.join(PARTS)}")
    for part, work in zip(PARTS, (same, refused, times)):
        if part in (options.parts or PARTS):
            with tempfile.TemporaryDirectory(dir=options.folder) as folder:
                work(os.path.abspath(options.zkw), folder, options)


if __name__ == "__main__":
    main()
