#!/usr/bin/env python3
"""Runs the commands of README.md's blocks in a copy of this folder, and compares what they print and how they end.

Usage: run.py [PROGRAM], the program that stands for ../zkw. Ends with 1 where something differs.
Blocks that begin with ```later are passed over: they are of commands to come.
"""
import os
import re
import shutil
import subprocess
import sys
import tempfile

HERE = os.path.dirname(os.path.abspath(__file__))
STATUS = re.compile(r"\s+# status (\d+)$")


def blocks(page):
    """The fenced blocks of a page, without those for later."""
    for head, block in re.findall(r"^```(\w*)\n(.*?)^```$", page, flags=re.DOTALL | re.MULTILINE):
        if head != "later":
            yield block


def examples(page):
    """The commands, the status that each ends with, and the lines that it prints."""
    for block in blocks(page):
        for part in re.split(r"^\$ ", block, flags=re.MULTILINE)[1:]:
            command, *lines = part.splitlines()
            status = STATUS.search(command)
            yield STATUS.sub("", command).split(), int(status[1]) if status else 0, lines


def is_like(said, wanted):
    """Whether a line is as wanted; one that ends in ... goes on with zeros."""
    if wanted.endswith("..."):
        front = wanted[:-3]
        return said.startswith(front) and set(said[len(front) :]) <= {"0"}
    return said == wanted


def runs_as_wanted(words, status, lines, program, folder):
    """Whether a command ends and prints as wanted; says so where it doesn't."""
    tools = {"../zkw": [program], "../tools/zkwt.py": [sys.executable, "-B", os.path.join(HERE, "..", "tools", "zkwt.py")]}
    command = tools.get(words[0], words[:1]) + words[1:]
    ran = subprocess.run(command, cwd=folder, stdout=subprocess.PIPE, stderr=subprocess.PIPE)
    said = ran.stdout.decode(errors="replace").splitlines()
    if ran.returncode == status and len(said) == len(lines) and all(map(is_like, said, lines)):
        return True
    print(f"{' '.join(words)}\n  ends with {ran.returncode}, wanted {status}; says")
    print("".join(f"    {line[:100]}\n" for line in said) + ran.stderr.decode(errors="replace"))
    return False


def main():
    program = os.path.abspath(sys.argv[1] if len(sys.argv) > 1 else os.path.join(HERE, "..", "zkw"))
    with open(os.path.join(HERE, "README.md")) as file:
        commands = list(examples(file.read()))
    with tempfile.TemporaryDirectory() as top:
        folder = shutil.copytree(HERE, os.path.join(top, "examples"))
        wrong = sum(not runs_as_wanted(*it, program, folder) for it in commands)
    print(f"{len(commands)} commands, {wrong} differ")
    sys.exit(1 if wrong or not commands else 0)


main()
