"""Forged steps: sums, comparisons, shifts, products, quotients, loads and stores. In most of them every table tells
the forger's value, and one line deep in the operation's table refuses it.
"""
import struct

from forging import (  # fmt: skip
    BYTES, DATA, LOADED, P, REGISTERS, SUM, Access, broken, bytes_of, case, digits, flags, quotient, uneven,
)


# ---------------------------------------------------------------- Binary, all tables with it

@case("a sum, all with it", SUM)
def _(t):
    """A sum that is one too large, in Binary, Main, Mem and Out."""
    t.put("Binary", 2, z=digits(124))
    t.claim(124)
    return broken(123, 2, "Binary")


@case("a sum in tables of profile Wide, all with it", SUM)
def _(t):
    """The same in the larger tables."""
    t.put("Binary", 2, z=digits(124))
    t.claim(124)
    t.widen()
    return broken(123, 2, "Binary")


@case("the high limb of a sum, all with it", SUM)
def _(t):
    """A sum that is 2^32 too large."""
    t.put("Binary", 2, z=digits(123 + 2**32))
    t.claim(123 + 2**32)
    return broken(124, 2, "Binary")


@case("a carry in the field", SUM)
def _(t):
    """A carry that is a quotient in the field makes any sum right; both equations hold."""
    k0 = quotient(-1, 2**32)
    t.put("Binary", 2, z=digits(124), k0=k0, k1=quotient(k0, 2**32))
    t.claim(124)
    return broken(104, 2, "Binary")


@case("a carry of 32 bits", SUM)
def _(t):
    """2^32 times 2^32 - 1 is -1 in the field, so this carry, of the shifted sums, makes another sum right."""
    t.put("Binary", 2, z=digits(2**64 - 2**32 + 124), j0=2**32 - 1)
    t.claim(2**64 - 2**32 + 124)
    return broken(118, 2, "Binary")


@case("a difference, all with it", "addi x11, x0, 100; addi x12, x0, 23; it: sub x10, x11, x12")
def _(t):
    """A difference that is one too large."""
    t.put("Binary", 2, z=digits(78))
    t.claim(78)
    return broken(123, 2, "Binary")


@case("a bit of an and, all with it", "addi x11, x0, 6; addi x12, x0, 3; it: and x10, x11, x12")
def _(t):
    """A bit that neither operand has."""
    t.put("Binary", 2, n=bytes_of(10))
    t.claim(10)
    return broken(92, 2, "Binary")


@case("a comparison without a borrow's digit", "addi x11, x0, 5; addi x12, x0, 3; it: sltu x10, x11, x12")
def _(t):
    """5 is below 3: the difference has a digit of 2^16, which makes up for the borrow."""
    t.put("Binary", 2, z=[2, 0, 0, 65536], k1=1)
    t.claim(1, flag=1)
    return broken(103, 2, "Binary")


@case("a negative number told as positive", "addi x11, x0, -1; addi x12, x0, 1; it: slt x10, x11, x12")
def _(t):
    """-1 isn't below 1: its top byte's rest has all eight bits."""
    t.put("Binary", 2, sa=0, ra=255)
    t.claim(0, flag=0)
    return broken(111, 2, "Binary")


@case("the sign of a sum of 32 bits", "lui x11, 0x40000; it: addw x10, x11, x11")
def _(t):
    """2^31 in place of -2^31."""
    t.put("Binary", 1, sw=0, rw=0x8000)
    t.claim(0x80000000)
    return broken(115, 1, "Binary")


@case("a conditional zero", "addi x11, x0, 5; it: czero.eqz x10, x11, x0")
def _(t):
    """The condition isn't met, says the forger, so x10 gets 5."""
    t.put("Binary", 1, eq=0)
    t.claim(5)
    return broken(128, 1, "Binary")


TAKEN = "addi x11, x0, 5; addi x10, x0, 3; it: {} x11, x11, there; addi x10, x0, 1; there: addi x0, x0, 0"


@case("a branch told as not taken", TAKEN.format("bne"), truth=TAKEN.format("beq"))
def _(t):
    """The run goes past a branch that is taken."""
    t.put("Main", 2, inv=0)
    return broken(5, 2, "Main")


@case("a branch on equal numbers told as not taken", TAKEN.format("bne"), truth=TAKEN.format("beq"))
def _(t):
    """The numbers differ, says Binary too."""
    t.put("Main", 2, inv=0, flag=0, clo=0)
    t.put("Binary", 2, eq=0)
    return broken(126, 2, "Binary")


@case("p - 1 where -1 is meant", TAKEN.format("bne"), truth=TAKEN.format("beq"))
def _(t):
    """The same, and 0 is one more than a number, which is p - 1."""
    t.put("Main", 2, inv=0, flag=0, clo=0)
    t.put("Binary", 2, eq=0, e=[-1, 0])
    return broken(116, 2, "Binary")


@case("two numbers told as equal", "addi x11, x0, 5; addi x10, x0, 3; it: bne x11, x10, there; addi x10, x0, 1; there: fence",
      truth="addi x11, x0, 5; addi x10, x0, 3; it: beq x11, x10, there; addi x10, x0, 1; there: fence")  # fmt: skip
def _(t):
    """A branch that isn't taken is taken: 5 and 3 are equal, says Binary too."""
    t.put("Main", 2, inv=0, flag=1, clo=1)
    t.put("Binary", 2, eq=1, e=[0, 0])
    return broken(125, 2, "Binary")


@case("a condition told as met", "addi x11, x0, 5; it: czero.eqz x10, x11, x11")
def _(t):
    """0 in place of 5: x11 is 0, says the forger."""
    t.put("Binary", 1, eq=1)
    t.claim(0)
    return broken(127, 1, "Binary")


# ---------------------------------------------------------------- Shift

SHIFTED = "addi x11, x0, {}; it: {} x10, x11, {}"


@case("a shift by another amount", SHIFTED.format(1000, "srli", 4), truth=SHIFTED.format(1000, "srli", 5))
def _(t):
    """The amount 5 is 4 and 64 times a quotient in the field; all but its range holds."""
    t.put("Main", 1, ilo=5)
    t.put("Shift", 0, t=[quotient(1, 64), 0])
    return broken(135, 0, "Shift")


@case("another amount's factor", SHIFTED.format(1000, "srli", 4), truth=SHIFTED.format(1000, "srli", 5))
def _(t):
    """A shift by 5 with the factor of 4."""
    t.put("Main", 1, ilo=5)
    t.put("Shift", 0, s=5)
    return broken(130, 0, "Shift")


@case("a shift without its sign", SHIFTED.format(-16, "srli", 2), truth=SHIFTED.format(-16, "srai", 2))
def _(t):
    """A negative number filled up with 0: what is left of its top digit has 16 bits."""
    t.put("Main", 1, op=13)
    t.put("Shift", 0, op=13, ar=1, sb=0, xr=0xFFFF)
    return broken(141, 0, "Shift")


@case("a shifted digit, all with it", SHIFTED.format(1000, "slli", 3))
def _(t):
    """8,001 in place of 8,000."""
    t.put("Shift", 0, l=[8001, 0, 0, 0])
    t.claim(8001)
    return broken(153, 0, "Shift")


@case("an amount's high limb", "addi x11, x0, 1; addi x12, x0, 3; it: sll x10, x11, x12")
def _(t):
    """A limb of p - 1, which no line of Shift reads: that it is one comes from what was written."""
    t.put("Shift", 0, bhi=-1)
    t.put("Main", 2, shi=-1)
    t.settle()
    return broken(34, t.access(8 * 2 + 2), "Mem")


@case("the sign of a shift of 32 bits", "addi x11, x0, 1; addi x12, x0, 31; it: sllw x10, x11, x12")
def _(t):
    """2^31 in place of -2^31."""
    t.put("Shift", 0, ws=0, rr=0x8000)
    t.claim(0x80000000)
    return broken(143, 0, "Shift")


# ---------------------------------------------------------------- Arith

OPERATION = "addi x11, x0, {}; addi x12, x0, {}; it: {} x10, x11, x12"
LEAST = "addi x11, x0, -1; slli x11, x11, 63; addi x12, x0, -1; it: div x10, x11, x12"


@case("a product, all with it", OPERATION.format(100, 23, "mul"))
def _(t):
    """2,301 in place of 2,300."""
    t.put("Arith", 0, w=digits(2301, 8), z=digits(2301))
    t.claim(2301)
    return broken(249, 0, "Arith")


@case("a product with carries in the field", OPERATION.format(100, 23, "mul"))
def _(t):
    """The same with carries that are quotients, so that all eight equations hold; the last is the top digit."""
    carries = [quotient(-1, pow(2**16, k, P)) for k in range(1, 8)]
    t.put("Arith", 0, w=[2301, 0, 0, 0, 0, 0, 0, carries[-1]], z=digits(2301), cl=carries)
    t.claim(2301)
    return broken(200, 0, "Arith")


@case("a product with a rest", OPERATION.format(100, 23, "mul"))
def _(t):
    """2,301 in place of 2,300: a rest of 1 is added."""
    t.put("Arith", 0, r=digits(1), w=digits(2301, 8), z=digits(2301))
    t.claim(2301)
    return broken(247, 0, "Arith")


@case("a dividend with a high half", OPERATION.format(100, 7, "divu"))
def _(t):
    """(2^64 + 100) / 7 in place of 100 / 7."""
    x, r = divmod(2**64 + 100, 7)
    carries, carry = [], 0
    for digit in digits(x):
        carry = 7 * digit + (r if not carries else 0) + carry >> 16
        carries.append(carry)
    t.put("Arith", 0, x=digits(x), r=digits(r), w=digits(2**64 + 100, 8), cl=carries + [0, 0, 0], g=digits(7 - r - 1), kg=0,
          z=digits(x), sw=digits(x)[1] >> 15, rw=digits(x)[1] & 0x7FFF)  # fmt: skip
    t.claim(x)
    return broken(248, 0, "Arith")


@case("another dividend's amount", OPERATION.format(-100, 7, "div"))
def _(t):
    """-15 in place of -14, which is -105 / 7."""
    t.put("Arith", 0, w=digits(105, 8), x=digits(15), r=digits(0), g=digits(6), z=digits(2**64 - 15))
    t.claim(2**64 - 15)
    return broken(243, 0, "Arith")


@case("a quotient without its sign", OPERATION.format(-100, 7, "div"))
def _(t):
    """14 in place of -14."""
    t.put("Arith", 0, z=digits(14), sw=0, rw=0)
    t.claim(14)
    return broken(262, 0, "Arith")


@case("another quotient by 0", OPERATION.format(100, 0, "divu"))
def _(t):
    """0 in place of all ones: the line of a product's result doesn't look at it."""
    t.put("Arith", 0, z=[0] * 4, sw=0, rw=0)
    t.claim(0)
    return broken(264, 0, "Arith")


@case("the high half of -1 times 1", OPERATION.format(-1, 1, "mulh"))
def _(t):
    """0 in place of -1: the low half is 0, says the forger, so nothing is borrowed of it."""
    t.put("Arith", 0, kn=0, n=[0, 0], z=[0, 0, 0, 0], k1=0, k2=0, sw=0, rw=0)
    t.claim(0)
    return broken(257, 0, "Arith")


@case("a quotient by 0", OPERATION.format(100, 0, "divu"))
def _(t):
    """0 in place of all ones, with a rest that isn't below 0."""
    t.put("Arith", 0, zb=0, x=[0] * 4, r=digits(100), z=[0] * 4, sw=0, rw=0, k1=0, k2=0, g=digits(2**32 - 101), kg=1)
    t.claim(0)
    return broken(261, 0, "Arith")


@case("a quotient by 0, with -1 in the field", OPERATION.format(100, 0, "divu"))
def _(t):
    """The same, and what the rest lacks is p - 1."""
    g = digits(2**32 - 101)[:2] + [-1, 0]
    t.put("Arith", 0, zb=0, x=[0] * 4, r=digits(100), z=[0] * 4, sw=0, rw=0, k1=0, k2=0, g=g, kg=1)
    t.claim(0)
    return broken(219, 0, "Arith")


@case("a divisor told as 0", OPERATION.format(100, 7, "divu"))
def _(t):
    """All ones in place of 14."""
    t.put("Arith", 0, zb=1, z=[0xFFFF] * 4, sw=1, rw=0x7FFF)
    t.claim(2**64 - 1)
    return broken(259, 0, "Arith")


@case("a rest that isn't below the divisor", OPERATION.format(100, 7, "remu"))
def _(t):
    """9 in place of 2, with the quotient 13."""
    t.put("Arith", 0, x=digits(13), r=digits(9), z=digits(9), g=digits(2**32 - 3), kg=1)
    t.claim(9)
    return broken(261, 0, "Arith")


@case("the quotient that overflows", LEAST)
def _(t):
    """2^63 - 1 in place of -2^63, with a rest of 1."""
    top = 2**63 - 1
    t.put("Arith", 0, x=digits(top), r=digits(1), z=digits(top), g=digits(2**32 - 1), kg=1, sw=1, rw=0x7FFF,
          cl=[1, 1, 1, 0, 0, 0, 0])  # fmt: skip
    t.claim(top)
    return broken(261, 0, "Arith")


@case("the quotient that overflows, by a divisor told as positive", LEAST)
def _(t):
    """0 in place of -2^63: -1 is 2^64 - 1, says the forger, and only the rest of its top digit is too large."""
    t.put("Arith", 0, tb=0, rb=0xFFFF, y=[0xFFFF] * 4, x=[0] * 4, r=digits(2**63), w=digits(2**63, 8), cl=[0] * 7,
          ch=[0] * 7, g=digits(2**63 - 2), kg=0, z=[0] * 4, k1=0, k2=0, kb=0, sw=0, rw=0)  # fmt: skip
    t.claim(0)
    return broken(228, 0, "Arith")


# ---------------------------------------------------------------- Align

STORED = "lui x12, 0x50000; lui x11, 0x12340; addi x11, x11, 0x56; it: {} x11, x12, 0"


@case("a loaded byte without its sign", LOADED.format("lbu", 9), BYTES, truth=LOADED.format("lb", 9))
def _(t):
    """133 in place of -123: what is left of the byte has eight bits."""
    t.put("Main", 1, kind=1)
    t.put("Align", 0, q=flags(11, q0=1), ts=0, rs=0x85)
    return broken(66, 0, "Align")


@case("a loaded byte's sign told wrong", LOADED.format("lbu", 9), BYTES, truth=LOADED.format("lb", 9))
def _(t):
    """The same, with a rest of seven bits."""
    t.put("Main", 1, kind=1)
    t.put("Align", 0, q=flags(11, q0=1), ts=0, rs=5)
    return broken(63, 0, "Align")


@case("a load off its place", LOADED.format("lh", 10), BYTES, truth=LOADED.format("lh", 9))
def _(t):
    """A load that faults, since its address is odd, gives a byte."""
    t.add(1, 0x40000000, 9)
    t.put("Main", 1, off=1)
    t.put("Align", 0, f=flags(8, f1=1), ts=0, rs=0)
    t.claim(0x85)
    return broken(60, 0, "Align")


@case("a doubleword's number in the field", LOADED.format("ld", 8), BYTES, truth=LOADED.format("ld", 12))
def _(t):
    """An address that isn't a multiple of 8, divided by 8 in the field: a doubleword that nobody wrote."""
    t.add(1, 0x40000000, 12)
    t.put("Main", 1, wl=quotient(0x4000000C, 8), wh=0, olo=0, ohi=0)
    t.put("Align", 0, o=[0] * 8)
    t.claim(0)
    return broken(15, 1, "Main")


@case("a load that reads a register", "addi x11, x0, 5; it: ld x10, x0, 88")
def _(t):
    """Address 88 is the doubleword 2^29 + 11, which is x11, with an offset of -2^32 made of flags that are none."""
    assert (8 * (REGISTERS + 11) - 2**32) % P == 88
    t.put("Align", 0, f=flags(8, f0=1, f1=2**32, f2=-(2**32)), o=bytes_of(5))
    t.put("Main", 1, wl=11, wh=2**13, off=-(2**32), olo=5)
    t.claim(5)
    return broken(17, 1, "Main")


@case("a load added", LOADED.format("ld", 8), BYTES)
def _(t):
    """A load in store, to be used by another step."""
    for name in t.names["Align"]:
        t.put("Align", 1, **{name: t.at("Align", 0, name)})
    lo, hi = struct.unpack("<II", BYTES)
    return uneven(19, (4, 0, lo, hi, 0, 0, lo, hi), 1, 2)


@case("an offset that is no offset", LOADED.format("lbu", 9), BYTES)
def _(t):
    """Offsets 0 and 2 less 1 are 1: a load of the bytes 0 and 2 less byte 1."""
    t.put("Align", 0, f=flags(8, f0=1, f1=-1, f2=1), o=[0x11, 0x05, *t.at("Align", 0, "o")[2:]])
    lo = 0x11 + 0x05 * 256 + (0x34 << 16) + (0x72 << 24)
    t.initial = [it._replace(lo=lo) if it.key == DATA // 8 else it for it in t.initial]
    t.data = bytes([0x11, 0x05]) + BYTES[2:]
    t.put("Main", 1, olo=lo)
    t.claim(0x11 - 0x05 + 0x34)
    return broken(51, 0, "Align")


@case("a store of neighbours, in Main and Mem", STORED.format("sw"), truth=STORED.format("sb"))
def _(t):
    """A store of a byte that changes the three bytes behind it."""
    t.put("Main", 3, kind=8)
    return uneven(19, (8, 0, 0, 0, 0x12340056, 0, 0x12340056, 0), 1, 0)


@case("a store of neighbours, by flags that are none", STORED.format("sw"), truth=STORED.format("sb"))
def _(t):
    """Kinds 8, 9 and 10 taken 2, -2 and 1 times are kind 8, and store four bytes."""
    t.put("Main", 3, kind=8)
    t.put("Align", 0, q=flags(11, q7=2, q8=-2, q9=1))
    return broken(46, 0, "Align")


@case("a loaded doubleword, all with it", LOADED.format("ld", 8), BYTES)
def _(t):
    """Another number than the input has, in Main, Align and Mem."""
    lo, hi = t.at("Main", 1, "olo") + 1, t.at("Main", 1, "ohi")
    t.put("Align", 0, o=bytes_of(lo + 2**32 * hi))
    t.put("Main", 1, olo=lo)
    t.claim(lo + 2**32 * hi)
    return broken(33, t.access(8 * 1 + 3), "Mem")


@case("a loaded doubleword, the initial one with it", LOADED.format("ld", 8), BYTES)
def _(t):
    """The same, and the memory had it at the start."""
    lo, hi = t.at("Main", 1, "olo"), t.at("Main", 1, "ohi")
    t.put("Align", 0, o=bytes_of(lo + 1 + 2**32 * hi))
    t.put("Main", 1, olo=lo + 1)
    t.initial = [it._replace(lo=lo + 1) if it.key == DATA // 8 else it for it in t.initial]
    t.claim(lo + 1 + 2**32 * hi)
    return uneven(20, (DATA // 8, 0, 1, lo, hi), 1, 0)


@case("memory that isn't 0 at the start", "lui x12, 0x20; it: ld x10, x12, 0")
def _(t):
    """A doubleword of the forger's own choice where nothing was loaded."""
    t.put("Align", 0, o=bytes_of(77))
    t.put("Main", 1, olo=77)
    t.initial.append(Access(0x20000 // 8, 0, 1, 77, 0))
    t.claim(77)
    return uneven(20, (0x20000 // 8, 0, 1, 77, 0), 0, 1)


@case("a first read that isn't 0", "lui x12, 0x20; it: ld x10, x12, 0")
def _(t):
    """The same without a write."""
    t.put("Align", 0, o=bytes_of(77))
    t.put("Main", 1, olo=77)
    t.claim(77)
    return broken(33, t.access(8 * 1 + 3), "Mem")
