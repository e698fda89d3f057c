#!/usr/bin/env python3
"""Reads the output of `rt ci`, keeps it, and prints how long each crate took. For gate.sh.

Waited: from when the last of a crate's libraries was proved until the crate was, by the times at which the lines come; it
holds the wait for a free processor. Processor: the time of the prover's processes, looked at twice a second below the process
ROOT, so what a process does after the last look is missing. Edits are told by their folder, tests by their flag; the lines
of edits come only at the end, and give no times.

Usage: gate_times.py ROOT CRATES_TXT LOG, with the output on standard input. A LOG that gate_times.py kept is read again by
`gate_times.py - CRATES_TXT - < LOG`: its lines begin with their times, and processor times are missing.
"""
import os
import re
import sys
import threading
import time
from collections import defaultdict

TICKS = os.sysconf("SC_CLK_TCK")
KINDS = ("proof", "tests", "edits")
SLOWEST = 10


class Sampler(threading.Thread):
    """The processor time of each process below the root that has a crate's name, by crate and kind."""

    def __init__(self, root):
        super().__init__(daemon=True)
        self.root, self.known, self.last = root, {}, {}

    def run(self):
        while True:
            self.look()
            time.sleep(0.5)

    def look(self):
        parents, ticks = {}, {}
        for pid in filter(str.isdigit, os.listdir("/proc")):
            try:
                with open(f"/proc/{pid}/stat") as file:
                    fields = file.read().rpartition(")")[2].split()
            except OSError:
                continue
            # the start tells processes with one number apart
            parents[int(pid)], ticks[int(pid)] = int(fields[1]), (int(fields[11]) + int(fields[12]), fields[19])
        for pid, (spent, start) in ticks.items():
            task = self.task(pid, parents)
            if task:
                self.last[pid, start] = task, spent

    def task(self, pid, parents):
        """The crate and kind of the process, or of the nearest one above it, if it is below the root."""
        found = None
        while pid > 1 and pid != self.root:
            found = found or self.named(pid)
            pid = parents.get(pid, 0)
        return found if pid == self.root else None

    def named(self, pid):
        try:
            with open(f"/proc/{pid}/cmdline", "rb") as file:
                words = file.read().decode(errors="replace").split("\0")
            folder = os.readlink(f"/proc/{pid}/cwd")
        except OSError:
            return None
        if "--crate-name" not in words:
            return None
        kind = "edits" if "/rt-edit-" in folder else "tests" if "--test" in words else "proof"
        return words[words.index("--crate-name") + 1], kind

    def seconds(self):
        total = defaultdict(float)
        for task, spent in list(self.last.values()):
            total[task] += spent / TICKS
        return total


def libraries(path):
    """The crates below each crate."""
    found = {}
    with open(path) as file:
        for line in file:
            name, colon, below = line.partition("#")[0].partition(":")
            if colon:
                found[name.split()[0]] = below.split()
    return found


def read(lines, log):
    """When each crate's proof and tests ended, in seconds, and when the last line came. A line that begins with a time has its own."""
    begin, ends, now = time.monotonic(), {}, 0.0
    for line in lines:
        kept = re.match(r"\s*(\d+\.\d) (.*)", line)
        now, text = (float(kept[1]), kept[2]) if kept else (time.monotonic() - begin, line.rstrip("\n"))
        if log:
            log.write(f"{now:9.1f} {text}\n")
            log.flush()
        done = re.fullmatch(r"rt: (\w+)(: its tests are)? proved", text)
        if done:
            ends[done[1], "tests" if done[2] else "proof"] = now
        elif text.startswith(("rt: FAILED", "rt: ok")) or re.match(r"\d+ passed, \d+ failed", text):
            print(text)
    return ends, now


def main():
    root, crates, path = sys.argv[1:]
    sampler = None
    if root != "-":
        sampler = Sampler(int(root))
        sampler.start()
    if path == "-":
        ends, whole = read(sys.stdin, None)
    else:
        with open(path, "w") as log:
            ends, whole = read(sys.stdin, log)
    below, spent = libraries(crates), sampler.seconds() if sampler else {}
    waited = {}
    for (name, kind), end in ends.items():
        waited[name, kind] = end - max((ends.get((it, "proof"), 0.0) for it in below.get(name, [])), default=0.0)
    print(f"{whole:.0f} seconds, {sum(spent.values()):.0f} of the processors")
    for kind in KINDS:
        print(f"{kind:24}   waited   processor")
        by = spent if spent else waited
        names = {name for name, it in [*spent, *waited] if it == kind}
        for name in sorted(names, key=lambda name: -by.get((name, kind), 0.0))[:SLOWEST]:
            wait = f"{waited[name, kind]:9.1f}" if (name, kind) in waited else f"{'':9}"
            print(f"  {name:22}{wait} {spent.get((name, kind), 0.0):11.1f}")


main()
