"""What `forged.py` forges with: an assembler for small programs, their ELF files, and a run's tables in a
forger's hands, with names for their cells.
"""
import os
import re
import struct
import subprocess
import sys
from collections import namedtuple

sys.dont_write_bytecode = True
sys.path.insert(0, os.path.join(os.path.dirname(os.path.abspath(__file__)), "..", "tools"))
import zkwt

P = zkwt.P
START = 0x10000  # the first instruction's address
DATA = 0x40000008  # the input's first byte
OUTPUT = 0x50000000
REGISTERS = 2**29  # the key of x0
END = 2**35  # the time of the final reads
ROWS = {"Main": 4096, "Mem": 8192, "Binary": 4096, "Shift": 1024, "Arith": 1024, "Align": 2048, "Out": 64}

# ---------------------------------------------------------------- programs

BY_REGISTERS = {  # opcode, funct3, funct7
    "add": (0x33, 0, 0), "sub": (0x33, 0, 32), "sll": (0x33, 1, 0), "slt": (0x33, 2, 0), "sltu": (0x33, 3, 0),
    "xor": (0x33, 4, 0), "srl": (0x33, 5, 0), "sra": (0x33, 5, 32), "or": (0x33, 6, 0), "and": (0x33, 7, 0),
    "mul": (0x33, 0, 1), "mulh": (0x33, 1, 1), "mulhsu": (0x33, 2, 1), "mulhu": (0x33, 3, 1),
    "div": (0x33, 4, 1), "divu": (0x33, 5, 1), "rem": (0x33, 6, 1), "remu": (0x33, 7, 1),
    "addw": (0x3B, 0, 0), "subw": (0x3B, 0, 32), "sllw": (0x3B, 1, 0), "sraw": (0x3B, 5, 32),
    "mulw": (0x3B, 0, 1), "divw": (0x3B, 4, 1), "remw": (0x3B, 6, 1),
    "sh3add": (0x33, 6, 16), "czero.eqz": (0x33, 5, 7),
}  # fmt: skip
BY_IMMEDIATE = {"addi": (0x13, 0), "slti": (0x13, 2), "xori": (0x13, 4), "ori": (0x13, 6), "andi": (0x13, 7), "jalr": (0x67, 0)}
BY_IMMEDIATE |= {name: (0x03, k) for k, name in enumerate(("lb", "lh", "lw", "ld", "lbu", "lhu", "lwu"))}
BY_AMOUNT = {"slli": (1, 0), "srli": (5, 0), "srai": (5, 0x400)}
STORES = {name: k for k, name in enumerate(("sb", "sh", "sw", "sd"))}
BRANCHES = {"beq": 0, "bne": 1, "blt": 4, "bge": 5, "bltu": 6, "bgeu": 7}
UPPER = {"lui": 0x37, "auipc": 0x17}


def encoded(name, words, at, labels):
    """The instruction of that name at that address; a word is a register, a number or a label."""
    value = [int(w[1:]) if re.fullmatch(r"x\d+", w) else labels[w] - at if w in labels else int(w, 0) for w in words]
    if name == "ecall":
        return 0x73
    if name == "fence":
        return 0x0F
    if name in BY_REGISTERS:
        opcode, funct3, funct7 = BY_REGISTERS[name]
        return funct7 << 25 | value[2] << 20 | value[1] << 15 | funct3 << 12 | value[0] << 7 | opcode
    if name in BY_AMOUNT:
        funct3, high = BY_AMOUNT[name]
        return (high | value[2]) << 20 | value[1] << 15 | funct3 << 12 | value[0] << 7 | 0x13
    if name in BY_IMMEDIATE:
        opcode, funct3 = BY_IMMEDIATE[name]
        return (value[2] & 0xFFF) << 20 | value[1] << 15 | funct3 << 12 | value[0] << 7 | opcode
    if name in UPPER:
        return (value[1] & 0xFFFFF) << 12 | value[0] << 7 | UPPER[name]
    if name in STORES:
        source, base, k = value[0], value[1], value[2] & 0xFFF
        return k >> 5 << 25 | source << 20 | base << 15 | STORES[name] << 12 | (k & 31) << 7 | 0x23
    if name in BRANCHES:
        k = value[2] & 0x1FFF
        high = (k >> 12) << 31 | (k >> 5 & 63) << 25 | value[1] << 20 | value[0] << 15
        return high | BRANCHES[name] << 12 | (k >> 1 & 15) << 8 | (k >> 11 & 1) << 7 | 0x63
    k = value[1] & 0x1FFFFF
    assert name == "jal"
    return (k >> 20) << 31 | (k >> 1 & 1023) << 21 | (k >> 11 & 1) << 20 | (k >> 12 & 255) << 12 | value[0] << 7 | 0x6F


def assembled(text, start):
    """The code of a text, an instruction for each line or `;`, and its labels' addresses. A load or store names its
    offset as a third word."""
    labels, parts = {}, []
    for part in re.split(r"[;\n]", text):
        found = re.match(r"\s*(?:(\w+):)?\s*(.*?)\s*$", part)
        if found[1]:
            labels[found[1]] = start + 4 * len(parts)
        if found[2]:
            parts.append(found[2].replace(",", " ").split())
    code = [encoded(name, words, start + 4 * k, labels) for k, (name, *words) in enumerate(parts)]
    return struct.pack(f"<{len(code)}I", *code), labels


def elf_of(segments, entry):
    """A file of these segments, each an address, bytes and flags."""
    ident = b"\x7fELF" + bytes([2, 1, 1]) + bytes(9)
    head = ident + struct.pack("<HHIQQQIHHHHHH", 2, 243, 1, entry, 64, 0, 0, 64, 56, len(segments), 0, 0, 0)
    at, body = 64 + 56 * len(segments), b""
    for address, data, flags in segments:
        head += struct.pack("<IIQQQQQQ", 1, flags, at + len(body), address, address, len(data), len(data), 8)
        body += data
    return head + body


class Program:
    """A program of one executable segment, or of one more at `there` with these flags; and its input."""

    def __init__(self, text, data=b"", entry=START, there=None, flags=5):
        code, self.labels = assembled(text, START)
        segments = [(START, code, 5)]
        if there:
            segments.append((0x20000, assembled(there, 0x20000)[0], flags))
        self.elf, self.data, self.segments = elf_of(segments, entry), data, segments

    def memory(self):
        """The doublewords of the segments that aren't 0: limbs by key."""
        found = {}
        for address, data, _ in self.segments:
            whole = data + bytes(-len(data) % 8)
            for at in range(0, len(whole), 8):
                found[(address + at) // 8] = struct.unpack_from("<II", whole, at)
        return {key: value for key, value in found.items() if any(value)}


# ---------------------------------------------------------------- cases

EXIT = "; addi x17, x0, 93; ecall"
SUM = "addi x11, x0, 100; addi x12, x0, 23; it: add x10, x11, x12"
LOADED = "lui x12, 0x40000; it: {} x10, x12, {}"  # the input's first byte is at 8
BYTES = bytes([0x11, 0x85, 0x34, 0x72, 0x15, 0x26, 0x37, 0x48])
CASES = []


def case(name, text, *more, truth=None, **others):
    """A case: what is forged, and the program that is run. What is decorated changes a Forgery and returns the
    report that it has to get, None where the tables have to be accepted; its sentence says what a forger would gain.

    With `truth` the forger runs another program than the one that is checked, which gives tables that hold
    together, with the code of the checked one in memory, and then changes what tells them apart."""

    def enter(forge):
        CASES.append((name, Program(text + EXIT, *more, **others), truth and Program(truth + EXIT, *more), forge))
        return forge

    return enter


# ---------------------------------------------------------------- numbers

def parts(value, size, count):
    """The value as so many numbers of `size` bits, least first."""
    return [value >> size * k & (1 << size) - 1 for k in range(count)]


def bytes_of(value):
    return parts(value, 8, 8)


def digits(value, count=4):
    return parts(value, 16, count)


def limbs(value):
    return parts(value, 32, 2)


def flags(count, **values):
    """So many flags: `flags(11, q7=2)` is 2 at place 7 and else 0."""
    places = {int(name[1:]): value for name, value in values.items()}
    return [places.get(k, 0) for k in range(count)]


def quotient(a, b):
    """a / b in the field."""
    return a * pow(b, -1, P) % P


# ---------------------------------------------------------------- tables

Access = namedtuple("Access", "key time wr lo hi sel same", defaults=(1, None))


def broken(line, row, air):
    """What is reported of an identity or an `in` that a row, counted over all instances of the air, breaks."""
    return f"broken line {line} instance {row // ROWS[air]} row {row % ROWS[air]}\n"


def uneven(line, values, left, right):
    """What is reported of an `is`."""
    return f"broken line {line} tuple {','.join(map(str, values))} left {left} right {right}\n"


def gap_of(access, before):
    """Which access comes next to which: `same`, and the limbs of the distance less 1, in the field where it is negative."""
    same = int(access.key == before.key) if access.same is None else access.same
    gap = (access.time - before.time if same else access.key - before.key) - 1
    return same, ([gap & 0xFFFF, gap >> 16 & 0xFFFF, gap >> 32] if gap >= 0 else [gap % P, 0, 0])


class Forgery:
    """The honest tables of a program's run, to be changed. A row is counted over all instances of its air."""

    def __init__(self, program, zkw, path):
        self.program, self.zkw, self.path = program, zkw, path
        self.elf, self.data = program.elf, program.data
        said = self.run("witness", "20000", "0")
        assert said.startswith("steps "), said
        self.honest = "accepted\n" + said.split("\n", 1)[1]
        self.tables = zkwt.read(path)
        spaces = zkwt.read_spaces(subprocess.run([zkw, "machine"], stdout=subprocess.PIPE).stdout.decode())
        self.names, self.airs = {}, {}
        for air, (name, columns) in enumerate(zkwt.air_names(self.tables, spaces)):
            self.airs[name] = [it for it in self.tables.instances if it.air == air]
            self.names[name] = places = {}
            for place, column in enumerate(columns):
                plain = column.split("[")[0]
                places[plain] = places.get(plain, []) + [place] if "[" in column else place
        for it in self.tables.instances:
            it.columns = [list(map(int, column)) for column in it.columns]
        self.initial = [it for it in self.accesses() if it.time == 0]

    def run(self, command, *more):
        """Writes the ELF file and the input, and runs a command on them and the tables."""
        for end, content in ((".elf", self.elf), (".input", self.data)):
            with open(self.path + end, "wb") as file:
                file.write(content)
        words = [self.zkw, command, self.path + ".elf", self.path + ".input", self.path, *more]
        return subprocess.run(words, stdout=subprocess.PIPE, stderr=subprocess.DEVNULL).stdout.decode()

    def save(self):
        """Writes the tables, instances in order."""
        order = list(self.airs)
        self.tables.instances = []
        for air, name in enumerate(order):
            for number, it in enumerate(self.airs[name]):
                it.air, it.number = air, number
                self.tables.instances.append(it)
        zkwt.write(self.path, self.tables)

    def load(self, program):
        """Tells the tables as those of another program with the same input: memory has its segments at the start."""
        old = self.program.memory()
        self.initial = [it for it in self.initial if it.key not in old]
        self.initial += [Access(key, 0, 1, lo, hi) for key, (lo, hi) in program.memory().items()]
        self.elf = program.elf
        self.settle()

    # cells

    def _cells(self, air, row):
        length = self.airs[air][0].rows
        return self.airs[air][row // length].columns, row % length

    def at(self, air, row, name):
        """A cell, or the cells of an array."""
        columns, row = self._cells(air, row)
        place = self.names[air][name]
        return [columns[k][row] for k in place] if isinstance(place, list) else columns[place][row]

    def put(self, air, row, **cells):
        """Changes cells; an array has a list of values. A negative value is meant modulo p."""
        columns, row = self._cells(air, row)
        for name, value in cells.items():
            place = self.names[air][name]
            for k, one in zip(place, value) if isinstance(place, list) else [(place, value)]:
                columns[k][row] = one % P

    def rows(self, air):
        """The number of rows of all instances."""
        return sum(it.rows for it in self.airs[air])

    def used(self, air):
        """The rows that count."""
        return [row for row in range(self.rows(air)) if self.at(air, row, "sel")]

    def add_instance(self, air):
        """One more instance, of zeros."""
        width = max(places[-1] if isinstance(places, list) else places for places in self.names[air].values()) + 1
        length = self.airs[air][0].rows if self.airs[air] else ROWS[air]
        self.airs[air].append(zkwt.Instance(0, 0, [[0] * length for _ in range(width)]))

    def widen(self):
        """Puts Main's rows into instances of 16,384, as profile Wide has them."""
        self.tables.profile = "wide"
        columns = [sum(several, []) for several in zip(*(it.columns for it in self.airs["Main"]))]
        self.airs["Main"] = [zkwt.Instance(0, 0, [column + [0] * (16384 - len(column)) for column in columns])]

    # rows

    def row(self, label="it"):
        """The first step at a label."""
        pc = self.program.labels[label]
        return next(row for row in range(self.rows("Main")) if self.at("Main", row, "pc") == pc)

    def operation(self, step, air="Binary"):
        """The row of the air in which a step's operation is: they stand in the order of the steps."""
        mine = {"Binary": lambda op: op < 11 or op > 29, "Shift": lambda op: 11 <= op < 17, "Arith": lambda op: 17 <= op < 30}[air]
        return sum(1 for row in range(step) if mine(self.at("Main", row, "op")))

    def access(self, time, key=None):
        """The row of Mem of the access at that time; at time 0 and at the end, of that key."""
        for row in range(self.rows("Mem")):
            if self.at("Mem", row, "sel") and self.at("Mem", row, "time") == time and key in (None, self.at("Mem", row, "key")):
                return row
        raise ValueError(f"no access at {time}")

    # accesses

    def accesses(self):
        """Mem's rows that count."""
        return [Access(*(self.at("Mem", row, name) for name in ("key", "time", "wr", "lo", "hi"))) for row in self.used("Mem")]

    def sent(self):
        """The accesses that Main and Out send, and the initial ones."""
        yield from self.initial
        for row in self.used("Main"):
            v = {name: self.at("Main", row, name) for name in self.names["Main"]}
            time = 8 * row
            yield Access(REGISTERS + v["rs1"], time + 1, 0, v["alo"], v["ahi"])
            yield Access(REGISTERS + v["rs2"], time + 2, 0, v["slo"], v["shi"])
            where = (v["wl"] + 65536 * v["wh"]) % P
            if v["ld"] or v["st"]:
                yield Access(where, time + 3, 0, v["olo"], v["ohi"])
            if v["st"]:
                yield Access(where, time + 4, 1, v["mlo"], v["mhi"])
            if v["wr"]:
                kind = "k" if v["jr"] else "m" if v["ld"] else "c"
                yield Access(REGISTERS + v["rd"], time + 5, 1, v[kind + "lo"], v[kind + "hi"])
        for row in range(33):
            key = REGISTERS + 10 if row == 0 else OUTPUT // 8 + row - 1
            yield Access(key, END, 0, self.at("Out", row, "lo"), self.at("Out", row, "hi"))

    def lay(self, accesses):
        """Fills Mem with these accesses in this order, all other cells as the lines want them."""
        length = ROWS["Mem"]
        while len(self.airs["Mem"]) * length <= len(accesses):
            self.add_instance("Mem")
        self.airs["Mem"] = self.airs["Mem"][: len(accesses) // length + 1]
        before = None
        for row in range(self.rows("Mem")):
            it = accesses[row] if row < len(accesses) else Access(0, 0, 0, 0, 0, sel=0)
            same, gap = gap_of(it, before) if before and it.sel else (0, [0, 0, 0])
            old = before or Access(0, 0, 0, 0, 0, sel=0)
            self.put("Mem", row, sel=it.sel, key=it.key, time=it.time, wr=it.wr, lo=it.lo, hi=it.hi, same=same, g=gap,
                     psel=old.sel, pkey=old.key, ptime=old.time, plo=old.lo, phi=old.hi)  # fmt: skip
            before = it

    def settle(self):
        """Fills Mem with what is sent, in order, so that line 20 holds."""
        self.lay(sorted(self.sent()))

    def claim(self, value, flag=0):
        """Says that the step at `it` puts this value into x10, which the program leaves alone from there on."""
        row, (lo, hi) = self.row(), limbs(value)
        if self.at("Main", row, "ld"):
            self.put("Main", row, mlo=lo, mhi=hi)
        else:
            self.put("Main", row, clo=lo, chi=hi, flag=flag)
        self.put("Out", 0, lo=lo, hi=hi)
        self.settle()

    def add(self, step, a, b):
        """Gives a step with an ADD the operands a and b, and their sum, in Main and in Binary. Without settling."""
        (alo, ahi), (clo, chi) = limbs(a), limbs(a + b)
        self.put("Main", step, alo=alo, ahi=ahi, clo=clo, chi=chi)
        if self.at("Main", step, "bi"):
            self.put("Main", step, ilo=limbs(b)[0], ihi=limbs(b)[1])
        sum_of, low = digits(a + b), (a & 2**32 - 1) + (b & 2**32 - 1)
        top = bytes_of(a)[7], bytes_of(b)[7]
        self.put("Binary", self.operation(step), a=bytes_of(a), b=bytes_of(b), n=bytes_of(a & b), z=sum_of, k0=low >> 32,
                 k1=a + b >> 64, sa=top[0] >> 7, ra=top[0] & 127, sb=top[1] >> 7, rb=top[1] & 127,
                 sw=sum_of[1] >> 15, rw=sum_of[1] & 0x7FFF)  # fmt: skip
