#!/usr/bin/env python3
"""Wrong lines in the machine's constraints, each of which a law refuses.

Each edit of text_edit_table.py weakens a line in the text and in the namespace alike, so that the two still agree:
machine_text is proved with it. Then the law that rests on the line must be refused. Lines keep their numbers: one that
is taken out of force stays as a line that says nothing, as by a factor 0. The law of an air speaks of its own namespaces,
so edits for different crates are tried in one round; an edit that only the whole run refuses is a round by itself.

Usage: text_edits.py FOLDER [NAME..]. FOLDER is one outside the repository, for a copy that is edited, with what checks
kept; without names all edits are tried. Wants `rt` on the path. Ends with 1 where machine_text is refused or a
law isn't.
"""
import os
import re
import shutil
import subprocess
import sys
import time
from typing import NamedTuple

sys.dont_write_bytecode = True
from text_edit_table import EDITS

HERE = os.path.dirname(os.path.abspath(__file__))
ROOT = os.path.dirname(HERE)
TEXT = "crates/machine_text/src/source.rt"


class Outcome(NamedTuple):
    proved: bool
    seconds: float
    output: str


def needed(crates):
    """These crates and all of the repository below them."""
    below = {}
    for line in open(os.path.join(ROOT, "crates.txt")):
        name, colon, rest = line.split("#")[0].partition(":")
        if colon:
            below[name.strip()] = rest.split()
    found, left = set(), list(crates)
    while left:
        name = left.pop()
        if name in below and name not in found:
            found.add(name)
            left += below[name]
    return found


def copy(folder, crates):
    """Copies these crates, where they aren't there yet, with what checks kept."""
    below = needed(crates)
    for name in below:
        there = os.path.join(folder, "crates", name)
        if not os.path.exists(there):
            shutil.copytree(os.path.join(ROOT, "crates", name), there, symlinks=True)
    shutil.copy2(os.path.join(ROOT, "HANDLES"), folder)
    lines = [line for line in open(os.path.join(ROOT, "crates.txt")) if line.split(":")[0].strip() in below]
    open(os.path.join(folder, "crates.txt"), "w").writelines(lines)


def crate_of(edit):
    return edit.law.split("::")[0]


def rounds(edits):
    """One edit of each crate goes together, but for those that the whole run refuses."""
    made = []
    for edit in edits:
        taken = {crate_of(edit), "main_run"}
        free = [it for it in made if not taken & {crate_of(other) for other in it}]
        if free and crate_of(edit) != "main_run":
            free[0].append(edit)
        else:
            made.append([edit])
    return made


def path_of(place):
    if "/" in place:
        return place
    return TEXT if place == "text" else f"crates/machine_text/specs/{place}.antt"


def apply(folder, edit, before):
    """Makes the changes, and notes what the files were."""
    for change in edit.changes:
        path = os.path.join(folder, path_of(change.place))
        text = open(path).read()
        before.setdefault(path, text)
        if text.count(change.old) != change.times:
            raise ValueError(f"{edit.name}: {change.old!r} stands {text.count(change.old)} times in {change.place}")
        open(path, "w").write(text.replace(change.old, change.new))


def check(folder, crate, *words):
    begin = time.time()
    done = subprocess.run(["rt", "check", *words], cwd=os.path.join(folder, "crates", crate), capture_output=True, text=True)
    return Outcome(done.returncode == 0, time.time() - begin, done.stdout + done.stderr)


def refused(edit, outcome):
    """Whether the law's function is told as not proved for want of this clause, and the first lemma that was refused."""
    crate, function, clause = edit.law.split("::")
    told = re.search(rf"^fn {crate}::\w+::{function}: not proved", outcome.output, re.M)
    lemma = re.search(r"^(?:\./)?(\S+\.antt):\d+:\d+: error: `([^`]+)`", outcome.output, re.M)
    by_law = told is not None and f"returns-clause-{clause}" in outcome.output
    return by_law, f"{lemma.group(2)} of {lemma.group(1)}" if lemma else "no lemma"


def tried(folder, edits):
    """Tries a round, says what came of it, and gives how many edits their laws refused."""
    before, count = {}, 0
    try:
        for edit in edits:
            apply(folder, edit, before)
        text = check(folder, "machine_text")
        print(f"machine_text {'proved' if text.proved else 'REFUSED'} in {text.seconds:.0f} s", flush=True)
        if not text.proved:
            print(f"{', '.join(edit.name for edit in edits)}\n{text.output}", flush=True)
            return 0
        for edit in edits:
            crate, function, _ = edit.law.split("::")
            law = check(folder, crate, "--only", f"{crate}::laws::{function}")
            with open(os.path.join(folder, edit.name + ".log"), "w") as log:
                log.write(law.output)
            by_law, where = refused(edit, law)
            count += by_law
            end = f"refused at {where}" if by_law else "STILL PROVED" if law.proved else f"REFUSED, BUT NOT BY THE LAW, at {where}"
            print(f"  {edit.name}: {edit.law} {end}, in {law.seconds:.0f} s", flush=True)
    finally:
        for path, was in before.items():
            open(path, "w").write(was)
    return count


def main():
    folder, names = sys.argv[1], sys.argv[2:]
    edits = [edit for edit in EDITS if not names or edit.name in names]
    copy(folder, {"machine_text"} | {crate_of(edit) for edit in EDITS})
    passed = sum(tried(folder, some) for some in rounds(edits))
    print(f"{passed} refused by their law, {len(edits) - passed} not")
    sys.exit(0 if edits and passed == len(edits) else 1)


main()
