#!/usr/bin/env python3
"""Writes what crates/command_runs is run on, and what it must print: its files, its calls and their reports.

The instructions are given as words, the tables of texts by their values, and the samples of examples/ are copied.
The reports are worked out by hand, from docs/COMMANDS.md and the machine's rules.
"""
import os
import shutil
import struct

HERE = os.path.dirname(os.path.abspath(__file__))
EXAMPLES = os.path.join(HERE, "..", "examples")
RUNS = os.path.join(HERE, "..", "crates", "command_runs")
COPIED = ["fibonacci.pil", "fibonacci.tables", "wrong_sum.tables", "wrong_falling.tables", "longest_chain.elf", "longest_chain.input"]
P = 2**64 - 2**32 + 1
IDENT = b"\x7fELF" + bytes([2, 1, 1]) + bytes(9)


def header(entry, count):
    """An ELF header of so many program headers, which follow it."""
    return IDENT + struct.pack("<HHIQQQIHHHHHH", 2, 243, 1, entry, 64, 0, 0, 64, 56, count, 0, 0, 0)


def tiny(*words, start=0x10078):
    """A file of one segment, which has these words."""
    code = struct.pack(f"<{len(words)}I", *words)
    return header(start, 1) + struct.pack("<IIQQQQQQ", 1, 5, 120, start, start, len(code), len(code), 4) + code


LINKED = [
    0x400002B7,  # lui x5, 0x40000
    0x0002B303,  # ld x6, 0(x5)
    0x00828293,  # addi x5, x5, 8
    0x00530333,  # add x6, x6, x5
    0x000123B7,  # lui x7, 0x12
    0x00000413,  # addi x8, x0, 0
    0x02628063,  # beq x5, x6, 32: to the lui below the jal
    0x0002C483,  # lbu x9, 0(x5)
    0x00349493,  # slli x9, x9, 3
    0x007484B3,  # add x9, x9, x7
    0x0004B483,  # ld x9, 0(x9)
    0x00940433,  # add x8, x8, x9
    0x00128293,  # addi x5, x5, 1
    0xFE5FF06F,  # jal x0, -28: to the beq
    0x500002B7,  # lui x5, 0x50000
    0x0082B023,  # sd x8, 0(x5)
    0x05D00893,  # addi x17, x0, 93
    0x00000513,  # addi x10, x0, 0
    0x00000073,  # ecall
]


def linked():
    """A file as a linker writes it: code, data with memory behind it, and two headers that are passed over.

    It sums, for each byte of the input, what a table of doublewords has at its place: three times the byte.
    """
    code = struct.pack(f"<{len(LINKED)}I", *LINKED)
    table = struct.pack("<256Q", *[3 * j for j in range(256)])
    headers = [
        (1, 7, 0x1000, 0x11000, 0x11000, len(code), len(code), 0x1000),
        (1, 6, 0x2000, 0x12000, 0x12000, 2048, 4096, 0x1000),
        (0x6474E551, 6, 0, 0, 0, 0, 0, 16),
        (0x70000003, 4, 0, 0, 0, 0, 0, 1),
    ]
    file = header(0x11000, 4) + b"".join(struct.pack("<IIQQQQQQ", *h) for h in headers)
    return file.ljust(0x1000, b"\0") + code.ljust(0x1000, b"\0") + table


def tables(*columns):
    """A table file of one namespace with one instance."""
    head = b"ZKWT" + struct.pack("<7I", 1, 1, 1, 0, 0, len(columns), len(columns[0]))
    return head + b"".join(struct.pack(f"<{len(c)}Q", *c) for c in columns)


FILES = {
    "exit_seven.elf": tiny(0x00700513, 0x05D00893, 0x00000073),
    "echo.elf": tiny(0x400002B7, 0x0002B303, 0x500003B7, 0x0063B023, 0x05D00893, 0x00000073),
    "jalr.elf": tiny(0x00000297, 0x009280E7, 0x05D00893, 0x00000073),
    "jalr_odd.elf": tiny(0x00000297, 0x00A280E7, 0x05D00893, 0x00000073),
    "below_zero.elf": tiny(0xFE001EE3, 0x05D00893, 0x00000073, start=0),
    "linked.elf": linked(),
    "empty.input": b"",
    "abc.input": b"abc",
    "bytes.input": bytes(i % 256 for i in range(300)),
    "counter.pil": b"namespace A(3); pol commit x; x' = x + 1;",
    "counter.tables": tables([0, 1, 2]),
    "same.pil": b"namespace A(2); pol commit x, y; {x} is {y};",
    "same.tables": tables([5, 5], [5, 6]),
    "within.pil": b"namespace A(2); pol commit x, y; {x} in {y};",
    "within.tables": tables([5, 5], [6, 5]),
    "unknown.pil": b"namespace A(2); pol commit x; x = y;",
}


def output(*numbers):
    return struct.pack(f"<{len(numbers)}Q", *numbers).hex().ljust(512, "0")


def halted(steps, exit_code, *numbers):
    return [f"steps {steps}", f"exit {exit_code}", f"output {output(*numbers)}"]


def accepted(exit_code, *numbers):
    return ["accepted", f"exit {exit_code}", f"output {output(*numbers)}"]


# Where values of the tables of exit_seven.elf stand: the head has 44 bytes, each table 16 before its values.
MEM = 44 + 16 + 37 * 4096 * 8 + 16
OUT = MEM + 15 * 8192 * 8 + 16 + 57 * 4096 * 8 + 16
LO = 4  # a column of Mem


def mem(column, row):
    return MEM + (column * 8192 + row) * 8


DONE = (0, "the work is done")
FAILED = (9, "a file could not be opened, created, read or written, or the report could not be written")
NO_COMMAND = (2, "the commands are run ELF INPUT STEPS, witness ELF INPUT TABLES STEPS WORKERS, check ELF INPUT TABLES, "
              "pil PILFILE TABLES, machine, machine wide and demo NUMBER KIND SIZE")


def broken(line, instance, row, text):
    return (1, f"line {line} does not hold in instance {instance} at row {row}", text)


def counted(line, left, right, text):
    return (1, f"line {line} does not hold: the counts of a tuple are {left} on the left and on the right {right}", text)


# Lines as they are printed, behind their namespace.
SUM = "in Fibonacci: (1 - Fibonacci.LAST) * (Fibonacci.b' - Fibonacci.a - Fibonacci.b) = 0;"
FALLING = "in Fibonacci: {Fibonacci.a} is {Falling.v};"
COUNTER = "in A: A.x' = A.x + 1;"
SAME = "in A: {A.x} is {A.y};"
MEMORY = ("in Main: Main.sel {536870912 + Main.rs1, 8 * Main.STEP + 1, 0, Main.alo, Main.ahi}"
          " + Main.sel {536870912 + Main.rs2, 8 * Main.STEP + 2, 0, Main.slo, Main.shi}"
          " + Main.ms {Main.w, 8 * Main.STEP + 3, 0, Main.olo, Main.ohi}"
          " + (Main.sel * Main.st) {Main.w, 8 * Main.STEP + 4, 1, Main.mlo, Main.mhi}"
          " + (Main.sel * Main.wr) {536870912 + Main.rd, 8 * Main.STEP + 5, 1, Main.vlo, Main.vhi}"
          " + Init.SEL {Init.KEY, 0, 1, Init.LO, Init.HI} + Out.SEL {Out.KEY, 34359738368, 0, Out.lo, Out.hi}"
          " is Mem.sel {Mem.key, Mem.time, Mem.wr, Mem.lo, Mem.hi};")
PREVIOUS = "in Mem: (1 - Mem.LAST) * (Mem.plo' - Mem.lo) = 0;"


def limit(steps):
    return (5, f"the run neither halts nor faults within its limit of steps: {steps}")


def bad_tables(text, at):
    return (6, f"the table file is refused: {text}, at byte {at}")


# Each call, its report, its status and what that says; or a file made of another, with a number set in it.
CALLS = [
    ("pil fibonacci.pil fibonacci.tables", ["accepted", "eighth 21"], DONE),
    ("pil fibonacci.pil wrong_sum.tables", ["broken line 4 instance 0 row 6"], broken(4, 0, 6, SUM)),
    ("pil fibonacci.pil wrong_falling.tables", ["broken line 6 tuple 1 left 2 right 1"], counted(6, 2, 1, FALLING)),
    ("pil counter.pil counter.tables", ["broken line 1 instance 0 row 2"], broken(1, 0, 2, COUNTER)),
    ("pil same.pil same.tables", ["broken line 1 tuple 5 left 2 right 1"], counted(1, 2, 1, SAME)),
    ("pil within.pil within.tables", ["accepted"], DONE),
    ("pil unknown.pil counter.tables", ["bad pil UnknownName 34"], (7, "the constraint text is refused: the name isn't declared at 34")),
    ("pil counter.pil fibonacci.tables", ["bad tables BadAir 8"], bad_tables("no such number of airs, or no such air", 8)),
    ("pil counter.pil abc.input", ["bad tables Short 3"], bad_tables("the file ends inside an item", 3)),
    ("pil counter.pil none.tables", [], FAILED),
    ("run linked.elf bytes.input 2412", halted(2412, 0, 100758), DONE),
    ("run linked.elf bytes.input 2411", ["step limit 2411"], limit(2411)),
    ("run echo.elf empty.input 100", halted(6, 0), DONE),
    ("run echo.elf abc.input 100", halted(6, 0, 3), DONE),
    ("run jalr.elf empty.input 9", halted(4, 0), DONE),
    ("run jalr_odd.elf empty.input 9", ["run fault BadTarget 65660 65666"], (4, "the run faults: at pc 65660 the target is no multiple of 4: 65666")),
    ("run below_zero.elf empty.input 9", halted(3, 0), DONE),
    ("run abc.input empty.input 9", ["bad elf Short 3"], (3, "the ELF file is refused: 3 bytes are no ELF file")),
    ("run . empty.input 9", [], FAILED),
    ("run exit_seven.elf empty.input 03", ["bad words"], NO_COMMAND),
    ("run longest_chain.elf longest_chain.input 10000", halted(3126, 3, 703, 170), DONE),
    ("run longest_chain.elf longest_chain.input 3125", ["step limit 3125"], limit(3125)),
    ("witness exit_seven.elf empty.input made.tables 3 0", halted(3, 7), DONE),
    ("check exit_seven.elf empty.input made.tables", accepted(7), DONE),
    (f"set made.tables {mem(LO, 40)} 8 forged.tables",),
    ("check exit_seven.elf empty.input forged.tables", ["broken line 20 tuple 536870922,34359738368,0,7,0 left 1 right 0"], counted(20, 1, 0, MEMORY)),
    (f"set forged.tables {OUT} 8 forged.tables",),
    ("check exit_seven.elf empty.input forged.tables", ["broken line 26 instance 0 row 40"], broken(26, 0, 40, PREVIOUS)),
    (f"set made.tables 60 {P} forged.tables",),
    ("check exit_seven.elf empty.input forged.tables", ["bad tables NotCanonical 60"], bad_tables("the value is no element of the field", 60)),
]


def printed(call, report=(), status=None):
    """A call as the program prints it."""
    end = [f"status {status[0]}: {status[1]}", *status[2:]] if status else []
    return "".join(line + "\n" for line in [f"$ {call}", *report, *end])


def main():
    data = os.path.join(RUNS, "data")
    os.makedirs(data, exist_ok=True)
    for name, file in FILES.items():
        with open(os.path.join(data, name), "wb") as made:
            made.write(file)
    for name in COPIED:
        shutil.copy(os.path.join(EXAMPLES, name), data)
    with open(os.path.join(RUNS, "stdin"), "w") as calls:
        calls.writelines(call[0] + "\n" for call in CALLS)
    with open(os.path.join(RUNS, "stdout"), "w") as reports:
        reports.writelines(printed(*call) for call in CALLS)


main()
