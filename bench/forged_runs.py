"""Forged runs: cells changed alone, rows dropped and added, accesses that aren't read-last-write, steps that don't
follow, and other programs, inputs and outputs.
"""
import struct

from forging import (  # fmt: skip
    BYTES, DATA, END, EXIT, LOADED, OUTPUT, REGISTERS, START, SUM, Access, Program, broken, bytes_of, case, digits, limbs,
    uneven,
)


# ---------------------------------------------------------------- one cell

@case("a sum in Main alone", SUM)
def _(t):
    """Another sum than the operation's table has."""
    t.put("Main", 2, clo=124)
    return uneven(18, (1, 100, 0, 23, 0, 123, 0, 0), 0, 1)


@case("pc moved", SUM)
def _(t):
    """An instruction passed over."""
    t.put("Main", 1, pc=START + 8)
    return broken(5, 0, "Main")


@case("rd changed", SUM)
def _(t):
    """The sum goes to another register."""
    t.put("Main", 2, rd=13)
    return broken(8, 2, "Main")


@case("the operand of another register", SUM)
def _(t):
    """x11 and x11 are added, as the instruction doesn't say."""
    t.put("Main", 2, rs2=11, slo=100)
    t.put("Binary", 2, b=bytes_of(100), n=bytes_of(100), z=digits(200))
    t.claim(200)
    return broken(8, 2, "Main")


@case("an immediate changed", SUM)
def _(t):
    """x11 gets another constant, here and wherever it is read."""
    t.add(0, 0, 101)
    t.add(2, 101, 23)
    t.claim(124)
    return broken(8, 0, "Main")


@case("a link changed", "it: jal x1, next; next: jalr x10, x1, 8; addi x0, x0, 0")
def _(t):
    """A call returns to another place."""
    t.put("Main", 1, klo=START + 12)
    return broken(8, 1, "Main")


@case("halt cleared", SUM)
def _(t):
    """The run goes on behind its end."""
    t.put("Main", 4, halt=0)
    return broken(4, 4, "Main")


@case("a second halt", SUM)
def _(t):
    """The run halts twice, so there are two ends to choose from."""
    for name in t.names["Main"]:
        t.put("Main", 5, **{name: t.at("Main", 4, name)})
    for name in t.names["Binary"]:
        t.put("Binary", 5, **{name: t.at("Binary", 4, name)})
    t.settle()
    return broken(4, 4, "Main")


@case("halt set early, all else with it", "addi x10, x0, 1; it: addi x10, x0, 2")
def _(t):
    """The run ends before x10 gets its value."""
    t.put("Main", 1, halt=1, wr=0)
    for row in (2, 3):
        t.put("Main", row, sel=0)
        t.put("Binary", row, sel=0)
    t.put("Out", 0, lo=1)
    t.settle()
    return broken(8, 1, "Main")


@case("sel 2 in Main", SUM)
def _(t):
    """A step that counts twice."""
    t.put("Main", 2, sel=2)
    return broken(1, 2, "Main")


@case("sel 2 in Binary", SUM)
def _(t):
    """A look-up with a weight that isn't 1; every other line holds."""
    t.put("Binary", 2, sel=2)
    return broken(75, 2, "Binary")


@case("sel 2 in Mem's last row", SUM)
def _(t):
    """A final read with a weight that isn't 1; every other line holds."""
    last = t.used("Mem")[-1]
    t.put("Mem", last, sel=2)
    t.put("Mem", last + 1, psel=2)
    return broken(21, last, "Mem")


@case("the exit code in Out alone", SUM)
def _(t):
    """Another exit code."""
    t.put("Out", 0, lo=124)
    return uneven(20, (REGISTERS + 10, END, 0, 123, 0), 0, 1)


@case("the first row empty", SUM)
def _(t):
    """A run that begins anywhere."""
    t.put("Main", 0, sel=0)
    return broken(2, 0, "Main")


# ---------------------------------------------------------------- rows dropped and added

@case("an operation dropped", SUM)
def _(t):
    """A step whose result nothing ties down."""
    t.put("Binary", 2, sel=0)
    return uneven(18, (1, 100, 0, 23, 0, 123, 0, 0), 1, 0)


@case("an operation added", SUM)
def _(t):
    """A sum in store, to be used by another step."""
    for name in t.names["Binary"]:
        t.put("Binary", 4000, **{name: t.at("Binary", 2, name)})
    return uneven(18, (1, 100, 0, 23, 0, 123, 0, 0), 1, 2)


@case("an access dropped", SUM)
def _(t):
    """A write that never happened."""
    t.lay([it for it in sorted(t.sent()) if it.time != 8 * 1 + 5])
    return uneven(20, (REGISTERS + 12, 13, 1, 23, 0), 1, 0)


@case("a write added, and the final value with it", SUM)
def _(t):
    """The exit code is overwritten by nobody."""
    t.put("Out", 0, lo=7)
    t.lay(sorted([*t.sent(), Access(REGISTERS + 10, 100, 1, 7, 0)]))
    return uneven(20, (REGISTERS + 10, 100, 1, 7, 0), 0, 1)


@case("a second write at the same time", SUM)
def _(t):
    """Two values at one time, so that either may be read."""
    rows = sorted(t.sent())
    where = next(k for k, it in enumerate(rows) if it.time == 8 * 2 + 5)
    rows.insert(where + 1, Access(REGISTERS + 10, 8 * 2 + 5, 1, 999, 0))
    t.put("Out", 0, lo=999)
    rows = [it._replace(lo=999) if it[:2] == (REGISTERS + 10, END) else it for it in rows]
    t.lay(rows)
    return uneven(20, (REGISTERS + 10, 21, 1, 999, 0), 0, 1)


# ---------------------------------------------------------------- Mem

OLDER = "addi x11, x0, 1; addi x11, x0, 2; it: addi x10, x11, 0"


def claim_sum(t, row, a, b):
    """Gives the last step before the exit the operands a and b, whatever was written."""
    t.add(row, a, b)
    t.claim(a + b)


@case("a read of an older value", OLDER)
def _(t):
    """x11 is read as it was two steps before."""
    claim_sum(t, 2, 1, 0)
    return broken(33, t.access(8 * 2 + 1), "Mem")


@case("a read before the write", OLDER)
def _(t):
    """The same, with the later write behind the read: its distance is negative in the field."""
    claim_sum(t, 2, 1, 0)
    rows, late = sorted(t.sent()), t.access(8 * 1 + 5)
    rows[late], rows[late + 1] = rows[late + 1], rows[late]
    t.lay(rows)
    return broken(35, late + 1, "Mem")


@case("a read before the write, told as the next", OLDER)
def _(t):
    """The same with a distance that isn't that of the times."""
    claim_sum(t, 2, 1, 0)
    rows, late = sorted(t.sent()), t.access(8 * 1 + 5)
    rows[late], rows[late + 1] = rows[late + 1], rows[late]
    t.lay(rows)
    t.put("Mem", late + 1, g=[0, 0, 0])
    return broken(32, late + 1, "Mem")


@case("another row before", OLDER)
def _(t):
    """The read has the older value in its copy of the row before."""
    claim_sum(t, 2, 1, 0)
    read = t.access(8 * 2 + 1)
    t.put("Mem", read, plo=1)
    return broken(26, read - 1, "Mem")


@case("the high limb of an older value", OLDER)
def _(t):
    """x11 is read as 2^32 + 2."""
    claim_sum(t, 2, 2**32 + 2, 0)
    return broken(34, t.access(8 * 2 + 1), "Mem")


@case("a row before the first", "it: ld x10, x0, 0")
def _(t):
    """The first doubleword, which is 0, is read as what a row before all others had."""
    t.put("Align", 0, o=bytes_of(77))
    t.put("Main", 0, olo=77)
    t.claim(77)
    t.put("Mem", 0, same=1, psel=1, plo=77)
    return broken(30, 0, "Mem")


@case("padding between a write and a read", OLDER)
def _(t):
    """A row that doesn't count and holds the older value stands before the read."""
    claim_sum(t, 2, 1, 0)
    rows, read = sorted(t.sent()), t.access(8 * 2 + 1)
    rows.insert(read, Access(REGISTERS + 11, 14, 0, 1, 0, sel=0))
    t.lay(rows)
    return broken(29, read + 1, "Mem")


def twice(t):
    """The accesses with the read of x11 moved behind x12's, and its row there."""
    claim_sum(t, 2, 0, 0)
    rows, read = sorted(t.sent()), t.access(8 * 2 + 1)
    moved = rows.pop(read)
    behind = next(k for k, it in enumerate(rows) if it.key > REGISTERS + 11)
    while behind < len(rows) and rows[behind].key == REGISTERS + 12:
        behind += 1
    rows.insert(behind, moved)
    t.lay(rows)
    return behind


TWICE = "addi x11, x0, 1; addi x12, x0, 2; it: addi x10, x11, 0"


@case("a key that comes twice", TWICE)
def _(t):
    """x11 is 0 again where its key begins a second time."""
    return broken(35, twice(t), "Mem")


@case("a key that comes twice, by the highest limb", TWICE)
def _(t):
    """The same, with a distance of -2 whose lower limbs have 16 bits."""
    row = twice(t)
    t.put("Mem", row, g=[0xFFFE, 0xFFFF, -1])
    return broken(37, row, "Mem")


@case("another register's value", "addi x11, x0, 5; it: add x10, x12, x0")
def _(t):
    """x12, which nobody wrote, has x11's value: its first read is told as the same key's next."""
    claim_sum(t, 1, 5, 0)
    rows, read = sorted(t.sent()), t.access(8 * 1 + 1)
    rows[read] = rows[read]._replace(same=1)
    t.lay(rows)
    return broken(31, read, "Mem")


@case("a limb of 17 bits", SUM)
def _(t):
    """A distance with two forms."""
    row = t.access(END, REGISTERS + 10)
    g = t.at("Mem", row, "g")
    t.put("Mem", row, g=[g[0], g[1] + 65536, g[2] - 1])
    return broken(36, row, "Mem")


@case("all times one step later", SUM)
def _(t):
    """Room for accesses before the first step."""
    t.lay([it._replace(time=it.time + 8) if 0 < it.time < END else it for it in sorted(t.sent())])
    return uneven(20, (REGISTERS, 1, 0, 0, 0), 1, 0)


@case("a value in Mem that nobody wrote", SUM)
def _(t):
    """Out and Mem agree on another exit code."""
    t.put("Out", 0, lo=124)
    t.settle()
    return broken(33, t.access(END, REGISTERS + 10), "Mem")


ZERO = "addi x0, x0, 5; it: addi x10, x0, 0; addi x17, x5, 93; ecall"


def zero_is_five(t):
    """x0 reads as 5 from step 1 on."""
    for step in range(1, 4):
        t.put("Main", step, slo=5)
    claim_sum(t, 1, 5, 0)


@case("x0 written", ZERO)
def _(t):
    """x0 is 5 from there on; all lines hold but the one that decodes."""
    t.put("Main", 0, wr=1)
    zero_is_five(t)
    return broken(8, 0, "Main")


@case("x0 written in Mem alone", ZERO)
def _(t):
    """The same without Main."""
    zero_is_five(t)
    t.lay(sorted([*t.sent(), Access(REGISTERS, 5, 1, 5, 0)]))
    return uneven(20, (REGISTERS, 5, 1, 5, 0), 0, 1)


# ---------------------------------------------------------------- where the run goes

@case("the first step passed over", SUM, truth=SUM, entry=START + 4)
def _(t):
    """A run from another entry."""
    return broken(3, 0, "Main")


@case("a jump to what isn't executable", "lui x11, 0x20; jalr x0, x11, 0", there="addi x10, x0, 9" + EXIT)
def _(t):
    """The program's data is run."""
    t.elf = Program("lui x11, 0x20; jalr x0, x11, 0" + EXIT, there="addi x10, x0, 9" + EXIT, flags=6).elf
    return broken(8, 2, "Main")


JUMP = "auipc x11, 0; jalr x0, x11, {}; addi x10, x0, 1; addi x0, x0, 0"


@case("two bits of a jump's target dropped", JUMP.format(12), truth=JUMP.format(14))
def _(t):
    """A jump that faults goes on: 2 is dropped where only the lowest bit is."""
    t.add(1, START, 14)
    t.put("Main", 1, bit=2)
    t.settle()
    return broken(12, 1, "Main")


@case("a jump's lowest bit kept", JUMP.format(13))
def _(t):
    """A jump to an odd address."""
    t.put("Main", 1, bit=0)
    return broken(5, 1, "Main")


LIFTED = "lui x12, 0x40000; it: ld x17, x12, 8; {}"


def lift(t, step):
    """The doubleword that is loaded into x17 is 2^32 more, in all tables, and the step that reads it too."""
    low = t.at("Main", 1, "olo")
    t.data = struct.pack("<Q", low + 2**32)
    t.initial = [it._replace(hi=1) if it.key == DATA // 8 else it for it in t.initial]
    t.put("Align", 0, o=bytes_of(low + 2**32))
    t.put("Main", 1, ohi=1, mhi=1)
    t.add(step, low + 2**32, 0)
    t.settle()


CALL = "addi x17, x0, {}; ecall"


@case("another call", CALL.format(93), truth=CALL.format(94))
def _(t):
    """A call that faults halts."""
    t.add(0, 0, 94)
    t.add(1, 94, 0)
    t.settle()
    return broken(9, 1, "Main")


@case("another call by 2^32", LIFTED.format("ecall"), struct.pack("<Q", 93))
def _(t):
    """The same, where only the high limb differs."""
    lift(t, 2)
    return broken(10, 2, "Main")


@case("a jump by 2^32", LIFTED.format("jalr x0, x17, 0; addi x0, x0, 0"), struct.pack("<Q", START + 16))
def _(t):
    """A jump out of memory ends in the program."""
    lift(t, 2)
    return broken(11, 2, "Main")


@case("an address by 2^32", LIFTED.format("ld x11, x17, 0"), struct.pack("<Q", DATA - 8))
def _(t):
    """A load that faults gives the doubleword 2^32 below."""
    lift(t, 2)
    return broken(13, 2, "Main")


# The jump at `jump` is step 4,096, the first of Main's second instance; `twin` is never run.
LOOP = """
    addi x5, x0, 1700
    addi x10, x0, 9
    loop: addi x5, x5, -1
    fence
    jump: jal x0, next
    next: bne x5, x6, loop
    it: addi x10, x0, 5
    addi x17, x6, 93
    ecall
    twin: jal x0, next"""


@case("a run that never halts", LOOP)
def _(t):
    """The tables end within the loop, with x10 as it was before."""
    for air in ("Main", "Binary"):
        t.airs[air].pop()
    t.put("Out", 0, lo=9)
    t.settle()
    return broken(6, 4095, "Main")


@case("a chain broken between two instances of Main", LOOP)
def _(t):
    """The second instance begins with another instruction, from which the run goes on as before."""
    twin = t.program.labels["twin"]
    jump = t.program.labels["jump"]
    assert t.at("Main", 4096, "pc") == jump
    t.put("Main", 4096, pc=twin)
    t.add(4096, 0, twin + 4)
    return uneven(7, (1, 1, jump), 1, 0)


def zero_is_one(t):
    """x0 reads as 1 from Mem's second instance on, in all tables."""
    first = t.at("Mem", 8192, "time")
    assert t.at("Mem", 8192, "key") == t.at("Mem", 8191, "key") == REGISTERS
    for step in t.used("Main"):
        if t.at("Main", step, "rs2") == 0 and 8 * step + 2 >= first:
            t.put("Main", step, slo=1)
        if t.at("Main", step, "rs1") == 0 and 8 * step + 1 >= first:
            t.put("Main", step, alo=1)
            again(t, step)
    t.claim(6)


def again(t, step):
    """The step's row of Binary, as of an ADD with the operands that Main has. Every step of LOOP has one."""
    a, b = t.at("Main", step, "alo"), t.at("Main", step, "ilo")
    low, high = limbs(a + b)
    t.put("Main", step, clo=low, chi=high)
    t.put("Binary", step, a=bytes_of(a), n=bytes_of(a & b), z=digits(a + b))


@case("a value changed between two instances of Mem", LOOP)
def _(t):
    """x0 is 1 from the second instance on, and the exit code 6."""
    zero_is_one(t)
    t.put("Mem", 8192, plo=1)
    return uneven(28, (1, 1, REGISTERS, t.at("Mem", 8191, "time"), 0, 0), 1, 0)


@case("x0 is 1 in Mem's second instance", LOOP)
def _(t):
    """The same where the instances hang together."""
    zero_is_one(t)
    return broken(33, 8192, "Mem")


# ---------------------------------------------------------------- another program, input or output

@case("another program", SUM)
def _(t):
    """The run of one program told as that of another."""
    t.elf = Program(SUM.replace("23", "24") + EXIT).elf
    return broken(8, 1, "Main")


@case("another program's data", SUM, there="addi x0, x0, 1", flags=6)
def _(t):
    """The same where only a doubleword of data differs, which is read nowhere."""
    t.elf = Program(SUM + EXIT, there="addi x0, x0, 2", flags=6).elf
    return uneven(20, (0x20000 // 8, 0, 1, 0x00100013, 0), 0, 1)


@case("another input", LOADED.format("ld", 8), BYTES)
def _(t):
    """The run on one input told as that on another."""
    t.data = bytes([BYTES[0] + 1]) + BYTES[1:]
    lo, hi = struct.unpack("<II", BYTES)
    return uneven(20, (DATA // 8, 0, 1, lo, hi), 0, 1)


@case("a longer input", LOADED.format("ld", 8), BYTES)
def _(t):
    """The same where only zeros follow."""
    t.data = BYTES + bytes(8)
    return uneven(20, (DATA // 8 - 1, 0, 1, 8, 0), 0, 1)


@case("two output words exchanged", "lui x12, 0x50000; addi x11, x0, 7; sd x11, x12, 0")
def _(t):
    """The output in another order: Out's rows have their keys from the constants."""
    t.put("Out", 1, lo=0)
    t.put("Out", 2, lo=7)
    return uneven(20, (OUTPUT // 8, END, 0, 0, 0), 1, 0)


def output_case(word, name):
    @case(f"output word {word}, {name}", SUM)
    def _(t):
        """Another output."""
        t.put("Out", word + 1, **{name: 1})
        return uneven(20, (OUTPUT // 8 + word, END, 0, 0, 0), 0, 1)


for word in range(32):
    for name in ("lo", "hi"):
        output_case(word, name)
