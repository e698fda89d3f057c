#!/usr/bin/env python3
"""How far the identities of the machine's text reach in a selected row: for each namespace the largest number that
either side can come to, where what is taken away on one side is added on the other, and each column has the range that
look-ups give it. All are below p, so that an identity of the field is one of whole numbers.

It reads an expression as the proofs do, without a look at what is known of several columns together. A selected row has 1
in `sel`; Main and Mem are read once for each choice of the flags that their lines turn on.

Usage: reach.py; it prints a line a namespace. Ends with 1 where a side can come up to p.
"""
import itertools
import os
import re
import sys

HERE = os.path.dirname(os.path.abspath(__file__))
SOURCE = os.path.join(HERE, "..", "crates", "machine_text", "src", "source.rt")
P = 2**64 - 2**32 + 1
LIMB = 2**32 - 1
CONSTANTS = {"%K": 2**32, "%M": LIMB}
RANGES = {"Bit": 1, "Range16": 2**16 - 1, "BinTab": 255}
TOKEN = re.compile(r"\d+|%[A-Z]|\w+(?:\[\d+\])?'?|[-+*()]")

# what is known beside the look-ups: a number that is written out, or (0, a bound)
KNOWN = {
    "Binary": [{"ra": (0, 127), "rb": (0, 127), "rw": (0, 32767)}],
    "Shift": [{**{name: (0, 1) for name in ("rt", "ar", "ww", "u[0]", "u[1]", "u[2]", "u[3]")}, "m": (0, 65536)}],
    "Arith": [{}],
    "Align": [{}],
    "Mem": [
        {"LAST": last, "L0": first, "wr": wr, "same": same, "key": (0, 2**30 - 1), "time": (0, 2**35), **before}
        for last, first, wr, same in itertools.product((0, 1), repeat=4)
        for before in [{} if first else {"pkey": (0, 2**30 - 1), "ptime": (0, 2**35)}]
        if not (first and same)
    ],
}
LIMBS = "pc ilo ihi klo khi jt alo ahi slo shi clo chi ENTRY"
KINDS = ["bi", "", "bi jp", "bi jr", "br", "bi ld", "bi st", "bi halt"]


def rows_of_main():
    for kind, last in itertools.product(KINDS, (0, 1)):
        row = {name: (0, LIMB) for name in LIMBS.split()}
        row.update({name: (0, 1) for name in ("inv", "uw", "flag", "bit", "L0", "LEND")})
        row.update({name: int(name in kind.split()) for name in "bi ld st jr jp br halt".split()})
        if "ld" in kind or "st" in kind:
            row.update({"wl": (0, 65535), "wh": (0, 65535), "off": (0, 7), "mlo": (0, LIMB), "mhi": (0, LIMB)})
        yield {**row, "LAST": last, "sel'": (0, 1), "pc'": (0, LIMB)}


KNOWN["Main"] = list(rows_of_main())


class Amount:
    """A number that is written out, or a bound of one that isn't."""

    def __init__(self, written, size):
        self.written, self.size = written, size

    def none(self):
        return self.written and self.size == 0

    def __add__(self, other):
        if self.none() or other.none():
            return other if self.none() else self
        return Amount(self.written and other.written, self.size + other.size)

    def __mul__(self, other):
        if self.none() or other.none():
            return Amount(True, 0)
        return Amount(self.written and other.written, self.size * other.size)


def tidy(up, down):
    """What is added and what is taken away; written numbers are taken from one another."""
    if up.written and down.written:
        return Amount(True, max(up.size - down.size, 0)), Amount(True, max(down.size - up.size, 0))
    return up, down


class Reader:
    """Reads an expression of a namespace, from its tokens."""

    def __init__(self, space, known, text):
        self.space, self.known, self.tokens = space, known, TOKEN.findall(text)

    def sum(self):
        up, down = self.product()
        while self.tokens and self.tokens[0] in "+-":
            sign = self.tokens.pop(0)
            more, less = self.product()
            up, down = tidy(up + more, down + less) if sign == "+" else tidy(up + less, down + more)
        return up, down

    def product(self):
        up, down = self.factor()
        while self.tokens and self.tokens[0] == "*":
            self.tokens.pop(0)
            more, less = self.factor()
            up, down = tidy(up * more + down * less, up * less + down * more)
        return up, down

    def factor(self):
        token = self.tokens.pop(0)
        if token == "(":
            value = self.sum()
            self.tokens.pop(0)
            return value
        if token.isdigit() or token in CONSTANTS:
            return Amount(True, CONSTANTS.get(token) or int(token)), Amount(True, 0)
        if token in self.space["inter"]:
            return Reader(self.space, self.known, self.space["inter"][token]).sum()
        fact = self.known.get(token, (0, P - 1))
        return (Amount(False, fact[1]) if isinstance(fact, tuple) else Amount(True, fact)), Amount(True, 0)


def namespaces():
    """Of each namespace the intermediates, the identities and the ranges of its look-ups."""
    text = open(SOURCE).read().split('b"constant', 1)[1].split('\n",\n    )', 1)[0].replace('",\n        b"', "0")
    spaces, here = {}, None
    for line in re.sub(r"//.*", "", text).split(";"):
        line = " ".join(line.split())
        if line.startswith("namespace"):
            here = spaces.setdefault(re.match(r"namespace (\w+)", line).group(1), {"inter": {}, "lines": [], "ranges": {}})
        elif found := re.match(r"pol (\w+) = (.*)", line):
            here["inter"][found.group(1)] = found.group(2)
        elif found := re.match(r"(?:\w+ )?\{([^}]*)\} in [\w.]*\s*\{(\w+)\.", line):
            here["ranges"].update({e: RANGES[found.group(2)] for e in found.group(1).split(", ") if found.group(2) in RANGES and re.fullmatch(r"\w+(\[\d+\])?", e)})
        elif line.endswith("= 0"):
            here["lines"].append(line[: -len("= 0")])
    return spaces


def main():
    worst = 0
    for name, space in namespaces().items():
        if not space["lines"]:
            continue
        several = one = 0
        for known in KNOWN[name]:
            facts = {**{e: (0, most) for e, most in space["ranges"].items()}, **known, "sel": 1}
            for line in space["lines"]:
                up, down = Reader(space, facts, line).sum()
                reach = max(up.size, down.size)
                worst = max(worst, reach)
                # one column's value by itself on either side
                if reach == P - 1:
                    one = reach
                else:
                    several = max(several, reach)
        print(f"{name}: {several}, below 2^{several.bit_length()}" + ("; or one column's value" if one else ""))
    sys.exit(0 if worst < P else 1)


main()
