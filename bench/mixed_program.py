"""A program of mixed steps for bench/tables.py, as an ELF file made without a compiler: in each round it draws
32 numbers, sorts them by insertion, hashes them word by word, makes products and quotients of them, and copies
them by bytes, halves and words. `steps.py` has a plainer loop."""
import struct

# registers
ROUNDS, SEED, BASE, SUM, FACTOR, I, J, A, B, C, D, E, CODE = 5, 6, 7, 8, 9, 11, 12, 13, 14, 15, 16, 18, 17
EXIT = 10
STEPS_A_ROUND = 2600  # about


class Code:
    """Instructions one after another, with labels by name."""

    def __init__(self):
        self.words, self.labels, self.branches = [], {}, []

    def label(self, name):
        self.labels[name] = len(self.words)

    def register(self, opcode, f3, f7, rd, a, b):
        self.words.append(f7 << 25 | b << 20 | a << 15 | f3 << 12 | rd << 7 | opcode)

    def immediate(self, opcode, f3, rd, a, value):
        self.words.append((value & 0xFFF) << 20 | a << 15 | f3 << 12 | rd << 7 | opcode)

    def store(self, f3, source, a, value):
        self.words.append((value >> 5 & 127) << 25 | source << 20 | a << 15 | f3 << 12 | (value & 31) << 7 | 0x23)

    def branch(self, f3, a, b, name):
        self.branches.append((len(self.words), f3, a, b, name))
        self.words.append(0)

    def upper(self, rd, value):
        self.words.append((value & 0xFFFFF) << 12 | rd << 7 | 0x37)

    def add(self, rd, a, b):
        self.register(0x33, 0, 0, rd, a, b)

    def xor(self, rd, a, b):
        self.register(0x33, 4, 0, rd, a, b)

    def addi(self, rd, a, value):
        self.immediate(0x13, 0, rd, a, value)

    def slli(self, rd, a, amount):
        self.immediate(0x13, 1, rd, a, amount)

    def srli(self, rd, a, amount):
        self.immediate(0x13, 5, rd, a, amount)

    def load(self, f3, rd, a, value):
        self.immediate(0x03, f3, rd, a, value)

    def bytes(self):
        for at, f3, a, b, name in self.branches:
            v = 4 * (self.labels[name] - at)
            self.words[at] = (v >> 12 & 1) << 31 | (v >> 5 & 63) << 25 | b << 20 | a << 15 | f3 << 12 \
                | (v >> 1 & 15) << 8 | (v >> 11 & 1) << 7 | 0x63
        return struct.pack(f"<{len(self.words)}I", *self.words)


def draw(code):
    """32 numbers of 64 bits from BASE on."""
    code.addi(I, BASE, 0)
    code.addi(J, BASE, 256)
    code.label("draw")
    code.register(0x33, 0, 1, SEED, SEED, FACTOR)  # mul
    code.addi(SEED, SEED, 0x4D5)
    code.srli(A, SEED, 29)
    code.xor(SEED, SEED, A)
    code.store(3, SEED, I, 0)
    code.addi(I, I, 8)
    code.branch(1, I, J, "draw")


def insertion_sort(code):
    code.addi(I, BASE, 8)
    code.addi(E, BASE, 256)
    code.label("sort")
    code.load(3, A, I, 0)
    code.addi(J, I, 0)
    code.label("sift")
    code.branch(0, J, BASE, "place")
    code.load(3, B, J, -8)
    code.branch(5, A, B, "place")  # bge
    code.store(3, B, J, 0)
    code.addi(J, J, -8)
    code.branch(0, 0, 0, "sift")
    code.label("place")
    code.store(3, A, J, 0)
    code.addi(I, I, 8)
    code.branch(1, I, E, "sort")


def hash_words(code):
    code.addi(I, BASE, 0)
    code.addi(J, BASE, 256)
    code.label("hash")
    code.load(6, A, I, 0)  # lwu
    code.xor(SUM, SUM, A)
    code.slli(B, SUM, 13)
    code.srli(C, SUM, 51)
    code.register(0x33, 6, 0, SUM, B, C)  # or
    code.immediate(0x1B, 5, D, A, 0x400 | 7)  # sraiw
    code.add(SUM, SUM, D)
    code.addi(I, I, 4)
    code.branch(1, I, J, "hash")


def products(code):
    """Sums of high products, quotients and remainders of eight pairs."""
    code.addi(I, BASE, 0)
    code.addi(J, BASE, 128)
    code.label("products")
    code.load(3, A, I, 0)
    code.load(3, B, I, 8)
    for f3 in (0, 1, 3):  # mul, mulh, mulhu
        code.register(0x33, f3, 1, C, A, B)
        code.add(SUM, SUM, C)
    code.srli(B, B, 17)
    for f3 in (4, 7):  # div, remu
        code.register(0x33, f3, 1, C, A, B)
        code.xor(SUM, SUM, C)
    code.register(0x33, 2, 0, C, A, B)  # slt
    code.add(SUM, SUM, C)
    code.addi(I, I, 16)
    code.branch(1, I, J, "products")


def copies(code):
    """Each doubleword in parts, 512 bytes further on."""
    code.addi(I, BASE, 0)
    code.addi(J, BASE, 256)
    code.label("copies")
    for f3, at in ((0, 7), (4, 3), (1, 4), (5, 2), (2, 0)):  # lb, lbu, lh, lhu, lw
        code.load(f3, A, I, at)
        code.store(f3 & 3, A, I, at + 512)
    code.addi(I, I, 8)
    code.branch(1, I, J, "copies")


def program(rounds):
    """The ELF file, which reads no input."""
    code = Code()
    code.upper(BASE, 0x200)
    code.upper(ROUNDS, rounds >> 12)
    code.addi(ROUNDS, ROUNDS, rounds & 0x7FF)
    code.upper(FACTOR, 0x5851F)
    code.addi(FACTOR, FACTOR, 0x42D)
    code.addi(SEED, 0, 1)
    code.label("round")
    for part in (draw, insertion_sort, hash_words, products, copies):
        part(code)
    code.addi(BASE, BASE, 256)
    code.addi(ROUNDS, ROUNDS, -1)
    code.branch(0, ROUNDS, 0, "done")
    code.words.append(jump(4 * (code.labels["round"] - len(code.words))))
    code.label("done")
    code.upper(A, 0x50000)
    code.store(3, SUM, A, 0)
    code.addi(EXIT, 0, 0)
    code.addi(CODE, 0, 93)
    code.words.append(0x73)
    return elf(code.bytes())


def jump(v):
    """JAL with x0."""
    return (v >> 20 & 1) << 31 | (v >> 1 & 1023) << 21 | (v >> 11 & 1) << 20 | (v >> 12 & 255) << 12 | 0x6F


def elf(text):
    head = b"\x7fELF" + bytes([2, 1, 1]) + bytes(9)
    head += struct.pack("<HHIQQQIHHHHHH", 2, 243, 1, 0x10078, 64, 0, 0, 64, 56, 1, 0, 0, 0)
    return head + struct.pack("<IIQQQQQQ", 1, 5, 120, 0x10078, 0x10078, len(text), len(text), 4) + text
