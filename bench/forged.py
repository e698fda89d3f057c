#!/usr/bin/env python3
"""Forged tables, each of which `check` has to refuse with the report that stands in its case, and tables other
than the sequential ones that it has to accept.

Usage: forged.py [PROGRAM [WORDS]], the built zkw; with WORDS only the cases that have them in their name. Ends
with 1 where an answer is another one. The reports are worked out from the constraints (docs/CONSTRAINTS.md)
and not from what the program says. A case's sentence says what its forger would gain.
"""
import concurrent.futures
import os
import random
import struct
import sys
import tempfile

import forged_steps  # its cases
from forged_runs import LOOP
from forging import BYTES, CASES, EXIT, P, SUM, Access, Forgery, Program, case

HERE = os.path.dirname(os.path.abspath(__file__))


# ---------------------------------------------------------------- files

def file_case(name, report, change):
    """A file whose bytes are changed after all else."""

    def forge(t):
        """Tables that are read in two ways, or that aren't there."""
        t.change = change
        return f"bad tables {report}\n"

    CASES.append((name, Program(SUM + EXIT), None, forge))


def word_at(at, value, size="I"):
    return lambda data: data[:at] + struct.pack("<" + size, value) + data[at + struct.calcsize(size) :]


# The header's 12 bytes, the airs' number, seven counts; then each instance's head of 16 bytes and its values.
VALUES = 44 + 16
file_case("a value of p", f"NotCanonical {VALUES}", word_at(VALUES, P, "Q"))
file_case("a value of 2^64 - 1 for -1", f"NotCanonical {VALUES + 8 * 4095}", word_at(VALUES + 8 * 4095, 2**64 - 1, "Q"))
file_case("one byte more", "Trailing 4064364", lambda data: data + b"\0")
file_case("one byte less", "Short 4064363", lambda data: data[:-1])
file_case("tables of format 1", "BadVersion 4", lambda data: data[:4] + struct.pack("<I", 1) + data[12:])
file_case("profile 3", "BadProfile 8", word_at(8, 3))
file_case("Small's tables told as Wide's", "BadShape 56", word_at(8, 2))
file_case("six airs", "BadAir 12", word_at(12, 6))
file_case("no Main", "NoMain 16", word_at(16, 0))
file_case("two Outs", "NotOneOut 40", word_at(40, 2))
file_case("too many instances of Main", "TooMany 16", word_at(16, 2**20 + 1))
file_case("2^20 instances of Main", "BadOrder {}".format(44 + 16 + 8 * 37 * 4096), word_at(16, 2**20))
file_case("another magic", "BadMagic 0", lambda data: b"ZKWU" + data[4:])


# ---------------------------------------------------------------- tables that are accepted

MIXED = """
    lui x12, 0x40000
    lui x13, 0x50000
    lb x5, x12, 9; lh x6, x12, 10; lw x7, x12, 12; lbu x8, x12, 9; lhu x9, x12, 10; ld x11, x12, 8
    sb x5, x13, 3; sh x6, x13, 6; sw x7, x13, 8; sd x11, x13, 16
    sll x14, x11, x8; srai x15, x11, 5; srli x16, x11, 33; slli x18, x5, 40
    mul x19, x11, x5; mulh x20, x11, x5; mulhu x21, x11, x5; div x22, x11, x5; rem x23, x11, x5; divu x24, x11, x0
    xor x25, x11, x5; addw x26, x11, x5; slt x27, x5, x11; sh3add x28, x5, x11
    bne x5, x6, on; addi x28, x0, 1
    on: add x10, x22, x27"""
AIRS = ("Binary", "Shift", "Arith", "Align")


@case("accepted: the sequential tables", MIXED, BYTES)
def _(t):
    """What `witness` writes."""


def shuffle(t, air):
    """All rows of all instances in another order, padding between them."""
    order = list(range(t.rows(air)))
    random.Random(1).shuffle(order)
    length = t.airs[air][0].rows
    for place in range(len(t.airs[air][0].columns)):
        whole = sum((it.columns[place] for it in t.airs[air]), [])
        for k, it in enumerate(t.airs[air]):
            it.columns[place] = [whole[row] for row in order[k * length : (k + 1) * length]]


@case("accepted: rows in any order", MIXED, BYTES)
def _(t):
    """Rows of Binary, Shift, Arith and Align, padding between them."""
    for air in AIRS:
        shuffle(t, air)


@case("accepted: rows of two instances in any order", LOOP)
def _(t):
    """Binary's rows, over both."""
    shuffle(t, "Binary")


@case("accepted: instances exchanged", LOOP)
def _(t):
    """Binary's two."""
    t.airs["Binary"].reverse()


@case("accepted: any padding", MIXED, BYTES)
def _(t):
    """Numbers of the field in all rows that don't count: of Mem those that the next row repeats, of Out those without
    a key."""
    numbers = random.Random(2)
    for air in ("Main", *AIRS):
        for row in range(len(t.used(air)), t.rows(air)):
            for name, place in t.names[air].items():
                if name != "sel":
                    cells = [numbers.randrange(P) for _ in range(len(place) if isinstance(place, list) else 1)]
                    t.put(air, row, **{name: cells if isinstance(place, list) else cells[0]})
    rows = t.accesses()
    rows += [Access(*(numbers.randrange(P) for _ in range(5)), sel=0) for _ in range(len(rows), t.rows("Mem") - 1)]
    t.lay(rows)
    for row in range(33, 64):
        t.put("Out", row, lo=numbers.randrange(P), hi=numbers.randrange(P))


@case("accepted: cells that nothing reads", MIXED, BYTES)
def _(t):
    """The dropped bit, and a doubleword and its place, in steps that neither jump nor load nor store; the row before the
    first, and its distance."""
    t.put("Mem", 0, psel=7, pkey=P - 3, ptime=9, plo=P - 1, phi=5, g=[1, 2, 3])
    for row in t.used("Main"):
        if not t.at("Main", row, "ld") + t.at("Main", row, "st"):
            t.put("Main", row, bit=-1, wl=P - 2, wh=7, off=9, olo=1, ohi=2, mlo=3, mhi=4)


@case("accepted: an instance of padding of every air but Out", MIXED, BYTES)
def _(t):
    """Empty tables behind the others."""
    for air in ("Main", "Mem", *AIRS):
        t.add_instance(air)


@case("accepted: an instance of an air without rows", SUM)
def _(t):
    """Empty tables of Shift, Arith and Align."""
    for air in AIRS[1:]:
        t.add_instance(air)


@case("accepted: profile Wide", MIXED, BYTES)
def _(t):
    """The same steps in tables of format 2 for Wide."""
    t.widen()


@case("accepted: profile Wide, of two instances of Main", LOOP)
def _(t):
    """Two instances of Small become one."""
    t.widen()


# ---------------------------------------------------------------- the run of the cases

def answer(zkw, folder, number, name, program, truth, forge):
    """The case's name and sentence, what is expected and what `check` says."""
    t = Forgery(program, zkw, os.path.join(folder, f"{number}.tables"))
    if truth:
        t.load(truth)
    t.change = None
    wanted = forge(t) or t.honest
    t.save()
    if t.change:
        with open(t.path, "rb") as file:
            data = file.read()
        with open(t.path, "wb") as file:
            file.write(t.change(data))
    said = t.run("check")
    os.remove(t.path)
    return name, forge.__doc__, wanted, said


def main():
    zkw = os.path.abspath(sys.argv[1] if len(sys.argv) > 1 else os.path.join(HERE, "..", "crates", "zkw", "out", "zkw"))
    chosen = [it for it in CASES if not sys.argv[2:] or sys.argv[2] in it[0]]
    passed = 0
    with tempfile.TemporaryDirectory() as folder, concurrent.futures.ThreadPoolExecutor(2) as pool:
        for name, why, wanted, said in pool.map(lambda it: answer(zkw, folder, it[0], *it[1]), enumerate(chosen)):
            passed += said == wanted
            print("passed" if said == wanted else "FAILED", f"{name}: {why} [{said.split(chr(10))[0]}]", flush=True)
            if said != wanted:
                print(f"       wanted [{wanted.split(chr(10))[0]}]", flush=True)
    print(f"{passed} passed, {len(chosen) - passed} failed")
    sys.exit(0 if passed == len(chosen) else 1)


if __name__ == "__main__":
    main()
