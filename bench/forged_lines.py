#!/usr/bin/env python3
"""All lines that each case of `forged.py` breaks, by an evaluation in Python of the text that `zkw machine` prints,
which shares nothing with the proved checker. The least one has to be the one that the case expects.

Usage: forged_lines.py PROGRAM [WORDS], the built zkw; with WORDS only the cases that have them in their name. Ends
with 1 where the least broken line is another one. Rom isn't built here: line 8 is taken for broken where a case
expects it, and else for kept. Only rows that count are looked at, with those beside them, and the first and last
ones of each instance: elsewhere each side of an identity is 0.
"""
import os
import re
import struct
import subprocess
import sys
import tempfile
from collections import Counter

import forged  # its cases
from forging import CASES, OUTPUT, P, REGISTERS, Forgery

INPUT = 0x40000000
REFERENCE = re.compile(r"([A-Z][A-Za-z0-9]*\.[A-Za-z_]\w*(?:\[\d+\])?)('?)")
LIST = re.compile(r"(\((?:[^(){}]|\([^(){}]*\))*\)|[A-Z]\w*\.[\w\[\]]+)?\s*\{([^}]*)\}")


def coded(expression):
    """An expression as Python, of `value` at row r."""
    source = REFERENCE.sub(lambda it: f"value('{it[1]}', r{' + 1' if it[2] else ''})", expression)
    return compile(source.strip(), expression, "eval")


def lists_of(side):
    """The lists of one side of an `in` or `is`: each one's namespace, selector and expressions."""
    for selector, inside in LIST.findall(side):
        space = REFERENCE.search(inside)[1].split(".")[0]
        yield space, coded(selector or "1"), [coded(part) for part in inside.split(", ")]


class Text:
    """The machine's text: its intermediates by name, and its lines, each a kind and two sides."""

    def __init__(self, text):
        self.intermediates, self.lines, space = {}, [], None
        for part in text.split(";\n"):
            if part.startswith("namespace"):
                space = part.split()[1].split("(")[0]
            elif part.startswith("pol ") and " = " in part:
                name, expression = part[4:].split(" = ", 1)
                self.intermediates[f"{space}.{name}"] = coded(expression)
            elif part and not part.startswith(("pol ", "public ")):
                self.lines.append(self.line(space, part))

    @staticmethod
    def line(space, part):
        for word in (" in ", " is "):
            if word in part:
                left, right = part.split(word)
                return space, word.strip(), list(lists_of(left)), list(lists_of(right)), False
        left, right = part.split(" = ")
        return space, "=", coded(left), coded(right), "'" in part


def initial(elf, data):
    """The doublewords that aren't 0 at the start, with their keys, in order."""
    found = {}
    window = struct.pack("<Q", len(data)) + data
    (start,) = struct.unpack_from("<Q", elf, 32)
    (count,) = struct.unpack_from("<H", elf, 56)
    heads = [struct.unpack_from("<IIQQQQQQ", elf, start + 56 * k) for k in range(count)]
    for address, content in [(INPUT, window)] + [(head[3], elf[head[2] : head[2] + head[5]]) for head in heads]:
        whole = content + bytes(-len(content) % 8)
        for at in range(0, len(whole), 8):
            found[(address + at) // 8] = struct.unpack_from("<II", whole, at)
    return sorted((key, *value) for key, value in found.items() if any(value))


def shift_of(op, s):
    """ShiftTab's columns behind OP and S."""
    kind = op - 11
    amount = s % 32 if kind >= 3 else s
    right, fills, short = kind % 3 != 0, kind % 3 == 2, kind >= 3
    factor = 2 ** (16 - amount % 16) if right else 2 ** (amount % 16)
    return [int(right), int(fills), int(short), *(int(amount // 16 == k) for k in range(4)), factor]


def is_in(table, values):
    """Whether a table that is known beforehand has this row; Rom has all."""
    if table == "Bit":
        return values[0] < 2
    if table == "Range16":
        return values[0] < 2**16
    if table == "BinTab":
        x, y, *both = values
        return x < 256 and y < 256 and both in ([], [x & y])
    if table == "ShiftTab":
        return 11 <= values[0] < 17 and values[1] < 64 and values[2:] == shift_of(*values[:2])
    return True


class Look:
    """The cells and constants of forged tables, and the lines that they break."""

    def __init__(self, text, t):
        self.text, self.t = text, t
        self.length = {air: several[0].rows for air, several in t.airs.items() if several} | {"Init": 1024}
        self.count = {air: len(several) for air, several in t.airs.items()}
        self.initial = initial(t.elf, t.data)
        (self.entry,) = struct.unpack_from("<Q", t.elf, 24)
        self.columns = {}
        for air, places in t.names.items():
            for name, place in places.items():
                for k, one in enumerate(place if isinstance(place, list) else [place]):
                    word = f"{air}.{name}[{k}]" if isinstance(place, list) else f"{air}.{name}"
                    self.columns[word] = sum((it.columns[one] for it in t.airs[air]), [])
        self.rows = {air: self.rows_of(air) for air in [*t.airs, "Init"]}

    def rows_of(self, air):
        if air == "Init":
            return range(len(self.initial))
        if air == "Out" or not self.count[air]:
            return range(64 * self.count[air])
        length = self.length[air]
        used = [row for row, sel in enumerate(self.columns[f"{air}.sel"]) if sel]
        rows = {row + k for row in used for k in (-1, 0, 1)}
        rows |= {k * length + end for k in range(self.count[air]) for end in (0, length - 1)}
        return sorted(row for row in rows if 0 <= row < self.count[air] * length)

    def constant(self, air, name, row):
        if air == "Init":
            return dict(zip(("SEL", "KEY", "LO", "HI"), (1, *self.initial[row])))[name]
        if air == "Out":
            key = REGISTERS + 10 if row == 0 else OUTPUT // 8 + row - 1
            return 0 if row > 32 else 1 if name == "SEL" else key
        instance, place = divmod(row, self.length[air])
        last, goes_on = place == self.length[air] - 1, instance < self.count[air] - 1
        values = {"STEP": row, "INST": instance, "LAST": last, "L0": row == 0, "CLAST": last and goes_on,
                  "CFIRST": place == 0 and instance > 0, "LEND": last and not goes_on,
                  "ENTRY": self.entry * (row == 0)}  # fmt: skip
        return int(values[name])

    def value(self, word, row):
        if word in self.text.intermediates:
            return self.of(self.text.intermediates[word], row)
        if word in self.columns:
            return self.columns[word][row]
        return self.constant(*word.split("."), row)

    def of(self, code, row):
        return eval(code, {"value": self.value, "r": row}) % P

    def broken(self):
        """The broken lines, each with its least place: instance and row, or a tuple with its counts."""
        for number, (space, kind, left, right, is_next) in enumerate(self.text.lines, 1):
            if kind == "is":
                place = self.uneven(left, right)
            elif kind == "in":
                place = self.outside(*left[0], right[0][0])
            else:
                place = self.unequal(space, left, right, is_next)
            if place:
                yield f"broken line {number} {place}"

    def named(self, air, row):
        return f"instance {row // self.length[air]} row {row % self.length[air]}"

    def unequal(self, space, left, right, is_next):
        """A line with a mark has the factor 1 - LAST, so it holds in the last rows."""
        for row in self.rows[space]:
            if is_next and self.constant(space, "LAST", row):
                continue
            if self.of(left, row) != self.of(right, row):
                return self.named(space, row)
        return None

    def outside(self, air, selector, expressions, table):
        for row in self.rows[air]:
            if self.of(selector, row) and not is_in(table, [self.of(it, row) for it in expressions]):
                return self.named(air, row)
        return None

    def uneven(self, left, right):
        sides = [Counter(), Counter()]
        for counts, lists in zip(sides, (left, right)):
            for air, selector, expressions in lists:
                sent = (row for row in self.rows[air] if self.of(selector, row))
                counts.update(tuple(self.of(it, row) for it in expressions) for row in sent)
        differ = [values for values in sides[0] | sides[1] if sides[0][values] != sides[1][values]]
        if not differ:
            return None
        least = min(differ)
        return f"tuple {','.join(map(str, least))} left {sides[0][least]} right {sides[1][least]}"


def main():
    zkw = os.path.abspath(sys.argv[1])
    text = Text(subprocess.run([zkw, "machine"], stdout=subprocess.PIPE).stdout.decode())
    wrong = alone = looked = 0
    with tempfile.TemporaryDirectory() as folder:
        for name, program, truth, forge in CASES:
            if sys.argv[2:] and sys.argv[2] not in name:
                continue
            t = Forgery(program, zkw, os.path.join(folder, "tables"))
            if truth:
                t.load(truth)
            t.change = None
            wanted = (forge(t) or "accepted").strip()
            if t.change:
                continue
            found = list(Look(text, t).broken())
            if wanted.startswith("broken line 8 "):
                found = sorted([wanted, *found], key=lambda it: int(it.split()[2]))
            ok = (found or ["accepted"])[0] == wanted
            looked, wrong, alone = looked + 1, wrong + (not ok), alone + (len(found) == 1)
            print("agrees" if ok else "DIFFERS", f"{name}: {'; '.join(found) or 'accepted'}", flush=True)
            if not ok:
                print(f"        wanted {wanted}")
    print(f"{len(text.lines)} lines; {looked} cases, {wrong} differ, {alone} break one line alone")
    sys.exit(1 if wrong else 0)


main()
