#!/usr/bin/env python3
"""Hostile constraint texts, table files and ELF files: what `zkw pil`, `zkw check` and `zkw run` say of each, in what
time and with how much memory, beside the file's size. Of a run's table file every front below 200 bytes and the last 200 are tried.

Usage: hostile.py ZKW, the built program. Ends with 1 where an answer is another than the one named here.
"""
import os
import resource
import struct
import subprocess
import sys
import tempfile
import time

from forging import Program

SIZE = 1 << 20
HEAD = "namespace A(2); pol commit x; "


def filled(text, part, end=""):
    """The text, the part as often as it fits, and the end: at most 2^20 bytes."""
    return text + part * ((SIZE - len(text) - len(end)) // len(part)) + end


def numbered(text, line):
    """The text and the lines with the numbers from 1 on, as many as fit."""
    parts, length, n = [text], len(text), 0
    while True:
        n += 1
        part = line.format(n=n, m=n - 1)
        length += len(part)
        if length > SIZE:
            return "".join(parts)
        parts.append(part)


def run(program, *words, memory=None):
    """What the program says, in what time, with how much memory, and its status; with at most so much memory."""
    start = time.perf_counter()
    read, write = os.pipe()
    child = os.fork()
    if child == 0:
        os.dup2(write, 1)
        # the sentences for people
        os.dup2(os.open(os.devnull, os.O_WRONLY), 2)
        if memory:
            resource.setrlimit(resource.RLIMIT_AS, (memory, memory))
        os.execv(program, [program, *words])
    os.close(write)
    with os.fdopen(read) as pipe:
        said = pipe.read()
    status, usage = os.wait4(child, 0)[1:]
    return said, time.perf_counter() - start, usage.ru_maxrss * 1024, os.waitstatus_to_exitcode(status)


def header(*counts):
    return struct.pack("<III", 0x54574B5A, 1, len(counts)) + struct.pack(f"<{len(counts)}I", *counts)


TABLES = header(1) + struct.pack("<IIII2Q", 0, 0, 1, 2, 5, 7)
SHORT = "bad tables Short 0\n"

TEXTS = [
    ("2^20 opening parentheses", filled(HEAD, "("), "bad pil TooDeep 62\n"),
    ("2^20 prefix minuses", filled(HEAD, "-"), "bad pil TooDeep 62\n"),
    ("an unfinished comment", filled("/*", " *"), "bad pil BadByte 0\n"),
    ("NUL bytes", "\0" * SIZE, "bad pil BadByte 0\n"),
    ("a byte above 127", HEAD + "x\xe9", f"bad pil BadByte {len(HEAD) + 1}\n"),
    ("a name of 2^20 letters", filled("", "a"), "bad pil Unexpected 0\n"),
    ("an unknown name of 2^20 letters", filled(HEAD, "y", " = 0;"), f"bad pil UnknownName {len(HEAD)}\n"),
    ("constants of one name", filled("", "constant %a=1;"), "bad pil Repeated 24\n"),
    ("arrays of 4,096", numbered("namespace A(2);pol commit a[4096]", ",b{n}[4096]") + ";", SHORT),
    ("arrays of p - 1", numbered("namespace A(2);pol commit a[4096]", ",b{n}[18446744069414584320]") + ";", "bad pil WrongWidth 37\n"),
    ("namespaces", numbered("", "namespace a{n}(2);"), SHORT),
    ("intermediates that nest", numbered(HEAD + "pol s0 = x;", "pol s{n}=s{m};"), SHORT),
    ("a chain of doublings", numbered(HEAD + "pol s0 = x;", "pol s{n}=s{m}+s{m};"), SHORT),
    ("a long cycle", numbered(HEAD + "pol s0 = s1000;", "pol s{n}=s{m};"), "bad pil CyclicPol 34\n"),
    ("a mark at a chain's end", numbered(HEAD + "pol s0 = x';", "pol s{n}=s{m};")[: SIZE - 20].rsplit(";", 1)[0] + ";s9'=0;", None),
]

SMALL = "namespace A(2); pol commit x; x = x;"
FILES = [
    ("2^32 - 1 instances promised", header(0xFFFFFFFF) + bytes(84), "bad tables TooMany 12\n"),
    ("2^20 instances promised", header(1 << 20) + bytes(84), None),
    ("2^32 - 1 columns promised", header(1) + struct.pack("<IIII", 0, 0, 0xFFFFFFFF, 2) + bytes(68), "bad tables BadShape 24\n"),
    ("2^32 - 1 rows promised", header(1) + struct.pack("<IIII", 0, 0, 1, 0xFFFFFFFF) + bytes(68), "bad tables BadShape 28\n"),
    ("2^32 - 1 airs promised", struct.pack("<III", 0x54574B5A, 1, 0xFFFFFFFF) + bytes(88), "bad tables BadAir 8\n"),
    ("a value of p", header(1) + struct.pack("<IIII2Q", 0, 0, 1, 2, 2**64 - 2**32 + 1, 0), "bad tables NotCanonical 32\n"),
]


P = 2**64 - 2**32 + 1


def one_column(values):
    return header(1) + struct.pack("<IIII", 0, 0, 1, len(values)) + struct.pack(f"<{len(values)}Q", *values)


def deep(rows, depth, step, last):
    """A text of so many intermediates over one column, and its tables."""
    text = f"namespace A({rows}); pol commit x; pol s0 = x;"
    text += "".join(f"pol s{n}={step.format(m=n - 1)};" for n in range(1, depth + 1))
    return text + f"s{depth}={last};", one_column([r % P for r in range(rows)])


CHECKS = [
    ("1,000 intermediates, 2^12 rows", *deep(1 << 12, 1000, "s{m}+1", "x+1000")),
    ("1,000 intermediates, 2^14 rows", *deep(1 << 14, 1000, "s{m}+1", "x+1000")),
    ("60 doublings, 2^16 rows", *deep(1 << 16, 60, "s{m}+s{m}", f"x*{2**60 % P}")),
    ("60 doublings, 2^18 rows", *deep(1 << 18, 60, "s{m}+s{m}", f"x*{2**60 % P}")),
]


def lines(count, head="", first="x=x;"):
    """A text of so many lines, of which a tenth are `in`s and a twelfth `is`s, and its tables."""
    parts = [first] + ["{x}in{x};" if n % 10 == 0 else "{x}is{x};" if n % 12 == 5 else "x=x;" for n in range(1, count)]
    return f"namespace A(2);pol commit x;{head}" + "".join(parts), one_column([5, 7])


def right_sides(count):
    """A text of so many `in`s with 400 right sides in turn, and its tables."""
    columns = b"".join(struct.pack("<2Q", n, n) for n in range(400))
    text = "namespace A(2);pol commit a[400];" + "".join(f"{{a[{n % 400}]}}in{{a[{n % 400}]}};" for n in range(count))
    return text, header(1) + struct.pack("<IIII", 0, 0, 400, 2) + columns


def buses(count, rows):
    """A text of so many `is`s over a column of so many rows, and its tables."""
    return f"namespace A({rows});pol commit x;" + "{x}is{x};" * count, one_column(range(rows))


def namespaces(count):
    """A text of so many namespaces with a line each, and its tables."""
    text = "".join(f"namespace a{n}(2);1=1;" for n in range(count))
    return text, header(*[1] * count) + b"".join(struct.pack("<IIII", n, 0, 0, 2) for n in range(count))


# Texts of many lines, in growing numbers: the time is to be linear in them.
MANY_LINES = [
    *((f"{n:,} lines", *lines(n), "accepted\n") for n in (50_000, 100_000, 200_000)),
    *((f"{n:,} lines, a public", *lines(n, "public p=x(0);", "1=1+0*:p;"), "accepted\np 5\n") for n in (50_000, 100_000, 200_000)),
    *((f"{n:,} ins, 400 right sides", *right_sides(n), "accepted\n") for n in (12_500, 25_000, 50_000)),
    *((f"{n:,} ises, 2^12 rows", *buses(n, 1 << 12), "accepted\n") for n in (1_000, 20_000)),
    *((f"{n:,} namespaces", *namespaces(n), "accepted\n") for n in (11_000, 22_000, 44_000)),
]


GB = 10**9
MOST = (1 << 20, 1 << 22, 1 << 20, 1 << 22, 1 << 22, 1 << 21, 1)
MACHINE = struct.pack("<4I7I", 0x54574B5A, 2, 1, 7, *MOST)
ONE_MAIN = MACHINE + struct.pack("<IIII", 0, 0, 37, 4096)
# Each file of `check`: its front, its length with zeros behind that take no room on the disk, the memory that may
# be used, what is said and the status.
MACHINE_FILES = [
    ("all instances promised, none there", MACHINE, len(MACHINE), GB, f"bad tables Short {len(MACHINE)}\n", 6),
    ("all promised, one there", ONE_MAIN, len(ONE_MAIN) + 8 * 37 * 4096, GB, f"bad tables Short {len(ONE_MAIN) + 8 * 37 * 4096}\n", 6),
    ("all promised, 500 MB of zeros", MACHINE, GB // 2, GB, "bad tables BadShape 52\n", 6),
    ("500 MB of zeros", b"", GB // 2, GB, "bad tables BadMagic 0\n", 6),
    ("10 GB of zeros", b"", 10 * GB, GB // 4, "bad tables BadMagic 0\n", 6),
    ("all promised, 10 GB of zeros", MACHINE, 10 * GB, GB, "bad tables BadShape 52\n", 6),
    ("an empty file", b"", 0, GB, "bad tables Short 0\n", 6),
]


MOST_HEADERS = 65535
BASE = 0x10000


def many_segments(ranges):
    """An ELF file with a program header for each address and length, without bytes of their own."""
    ident = b"\x7fELF\x02\x01\x01".ljust(16, b"\0")
    head = ident + struct.pack("<HHIQQQIHHHHHH", 2, 243, 1, BASE, 64, 0, 0, 64, 56, len(ranges), 0, 0, 0)
    return head + b"".join(struct.pack("<IIQQQQQQ", 1, 5, 0, start, start, 0, size, 1) for start, size in ranges)


def apart(count):
    return [(BASE + 16 * i, 16) for i in range(count)]


# Each ELF file of `run`: the addresses and lengths of its segments, and what is said.
PROGRAMS = [
    ("the last two segments overlap", [*apart(MOST_HEADERS - 1), (BASE + 16 * (MOST_HEADERS - 2) + 15, 16)], f"bad elf Overlap {MOST_HEADERS - 2} {MOST_HEADERS - 1}\n"),
    ("the first and the last overlap", [*apart(MOST_HEADERS - 1), (BASE, 1)], f"bad elf Overlap 0 {MOST_HEADERS - 1}\n"),
    ("falling, the last two overlap", [*reversed(apart(MOST_HEADERS)[1:]), (BASE, 17)], f"bad elf Overlap {MOST_HEADERS - 2} {MOST_HEADERS - 1}\n"),
    ("the last covers all others", [*apart(MOST_HEADERS - 1), (BASE, 1 << 24)], f"bad elf Overlap 0 {MOST_HEADERS - 1}\n"),
    ("all at one address", [(BASE, 16)] * MOST_HEADERS, "bad elf Overlap 0 1\n"),
]


def check_programs(program, folder):
    """The ELF files of `run`. Returns the number of wrong answers."""
    elf, data = os.path.join(folder, "a.elf"), os.path.join(folder, "a.input")
    open(data, "wb").close()
    wrong = 0
    for name, ranges, wants in PROGRAMS:
        file = many_segments(ranges)
        with open(elf, "wb") as out:
            out.write(file)
        said, seconds, peak, status = run(program, "run", elf, data, "10")
        ok = (said, status) == (wants, 3)
        wrong += not ok
        print(f"{name:34} {len(file):8} bytes {seconds:6.2f} s {peak / 1e6:7.1f} MB  {said.strip()}{'' if ok else '  WRONG, wants ' + wants}")
    return wrong


def check_files(program, folder):
    """The files of `check`, and cut ones. Returns the number of wrong answers."""
    elf, data, tables = (os.path.join(folder, "a" + end) for end in (".elf", ".input", ".tables"))
    with open(elf, "wb") as file:
        file.write(Program("addi x10, x0, 7; addi x17, x0, 93; ecall").elf)
    open(data, "wb").close()
    wrong = 0
    for name, front, length, memory, wants, ends in MACHINE_FILES:
        with open(tables, "wb") as file:
            file.write(front)
            file.truncate(length)
        said, seconds, peak, status = run(program, "check", elf, data, tables, memory=memory)
        ok = (said, status) == (wants, ends)
        wrong += not ok
        told = said.strip() or f"status {status}"
        print(f"{name:34} {length:11} bytes {seconds:6.2f} s {peak / 1e6:7.1f} MB  {told}{'' if ok else '  WRONG, wants ' + wants}")
    for name, path in (("a folder", folder), ("no file", os.path.join(folder, "nothing"))):
        said, _, _, status = run(program, "check", elf, data, path)
        wrong += (said, status) != ("", 9)
        print(f"{name:34} status {status}{'' if (said, status) == ('', 9) else '  WRONG, wants 9'}")
    return wrong + check_cut(program, elf, data, tables)


def check_cut(program, elf, data, tables):
    """A run's table file cut at each place below 200 and at each of the last 200. Returns the number of wrong answers."""
    subprocess.run([program, "witness", elf, data, tables, "10", "0"], stdout=subprocess.DEVNULL, check=True)
    with open(tables, "rb") as file:
        whole = file.read()
    wrong = 0
    for length in [*range(len(whole) - 1, len(whole) - 201, -1), *range(200)]:
        with open(tables, "wb") as file:
            file.write(whole[:length])
        said, _, _, status = run(program, "check", elf, data, tables)
        if (said, status) != (f"bad tables Short {length}\n", 6):
            wrong += 1
            print(f"a run's tables cut at {length}: {said}")
    return wrong


def main():
    program = os.path.abspath(sys.argv[1])
    wrong = 0
    with tempfile.TemporaryDirectory() as folder:
        pil, tables = os.path.join(folder, "a.pil"), os.path.join(folder, "a.tables")

        def measure(name, text, table, wants):
            nonlocal wrong
            data = text.encode("latin-1")
            with open(pil, "wb") as file:
                file.write(data)
            with open(tables, "wb") as file:
                file.write(table)
            said, seconds, peak, _ = run(program, "pil", pil, tables)
            ok = said == wants if wants else said != ""
            wrong += not ok
            size = len(data) + len(table)
            print(f"{name:34} {size:8} bytes {seconds:6.2f} s {peak / 1e6:7.1f} MB  {said.strip()[:60]}{'' if ok else '  WRONG, wants ' + str(wants)}")

        for name, text, wants in TEXTS:
            measure(name, text, b"", wants)
        for name, table, wants in FILES:
            measure(name, SMALL, table, wants)
        for name, text, table in CHECKS:
            measure(name, text, table, "accepted\n")
        for name, text, table, wants in MANY_LINES:
            measure(name, text, table, wants)
        for length in range(len(TABLES)):
            with open(pil, "w") as file:
                file.write(SMALL)
            with open(tables, "wb") as file:
                file.write(TABLES[:length])
            said = run(program, "pil", pil, tables)[0]
            if said != f"bad tables Short {length}\n":
                wrong += 1
                print(f"tables cut at {length}: {said}")
        for length in range(len(SMALL)):
            with open(pil, "w") as file:
                file.write(SMALL[:length])
            said = run(program, "pil", pil, tables)[0]
            if not said.startswith(("bad pil ", "bad tables ")):
                wrong += 1
                print(f"text cut at {length}: {said}")
        wrong += check_programs(program, folder)
        wrong += check_files(program, folder)
    print(f"{wrong} wrong")
    sys.exit(1 if wrong else 0)


main()
