#!/usr/bin/env python3
"""Runs each example of docs/PIL.md and compares its report.

Usage: pil_examples.py ZKW, the built program. Ends with 1 where a report differs.
"""
import os
import re
import struct
import subprocess
import sys
import tempfile

HERE = os.path.dirname(os.path.abspath(__file__))
PAGE = os.path.join(HERE, "..", "docs", "PIL.md")
# one instance of one air whose column is 0, 1, 2
TABLES = struct.pack("<IIII", 0x54574B5A, 1, 1, 1) + struct.pack("<IIII3Q", 0, 0, 1, 3, 0, 1, 2)


def examples():
    """The texts and their reports: those of the table, and those of the last block."""
    page = open(PAGE).read()
    for line in page.splitlines():
        if line.startswith("| ") and "`bad pil" in line:
            text, report = re.findall(r"`([^`]+)`", line.split("|")[4])
            yield text, report + "\n"
    block = page.split("## Reports")[1].split("```")[1]
    texts = []
    for line in block.strip("\n").splitlines():
        text, report = line[:51].rstrip(), line[51:]
        if text:
            texts.append([text, ""])
        texts[-1][1] += report + "\n"
    yield from texts


def main():
    program = sys.argv[1]
    wrong = count = 0
    with tempfile.TemporaryDirectory() as folder:
        pil, tables = os.path.join(folder, "a.pil"), os.path.join(folder, "a.tables")
        open(tables, "wb").write(TABLES)
        for text, report in examples():
            open(pil, "w").write(text)
            said = subprocess.run([program, "pil", pil, tables], capture_output=True, text=True).stdout
            count += 1
            if said != report:
                wrong += 1
                print(f"{text}\n  says  {said!r}\n  wants {report!r}")
    print(f"{count} examples, {wrong} differ")
    sys.exit(1 if wrong or not count else 0)


main()
