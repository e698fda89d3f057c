#!/usr/bin/env python3
"""Counts the lines that docs/AUDIT.md asks a reader to read, and lists the declarations in code among them.

Usage: audit_lines.py [--write]; without --write it says where the page differs, and then ends with 1.

A table that begins with `Read` names files or folders of crates/ in its first column; a name without a folder is
in the folder of the one before it, a folder stands for its definitions, and what comes after ` or ` isn't counted.
The tables of LAYERS count the lines of those declarations alone that the headline names, or what it names names,
and so on; a file that has one and stands in no table is an error. Other tables count their files whole. Lines that
are blank, comments or imports aren't counted. The number stands in the column `Lines`, the sum in the last row.
Behind a table of LAYERS stands one that begins with `In code`: the declarations in code, each once. The first table,
`To believe`, has the sums.
"""
import os
import re
import sys

from audit_names import CRATES, Names, files_in, is_code, lines_of

PAGE = os.path.join(CRATES, "..", "docs", "AUDIT.md")

ROOTS = [("zk_top.specs.Headline", "Headline"), ("zk_top.specs.Ends", "Ends")]
# What other commands come to, and the text of the constraints, which is read as text.
CLOSED = {
    "zk_top.IsPilOutcome",
    "zk_top.IsDemoOutcome",
    "zk_top.IsMachineOutcome",
    "pil_text.PilErr",
    "pil_text.PilKind",
    "demo_program.DemoKind",
    "machine_text.machine",
}
TEXT = "machine_text/src/source.rt"
TRAIT = "host_io/src/host.rt"
TABLES = {"run_tables.sequential_witness"}
ACCEPTANCE = {"machine_columns.AreAccepted", "machine_columns.values_of", "machine_columns.public_of", "row_check.IsFirstBroken"}
# The tables' heads, and what is still closed there: each table opens what the one before it took as a name.
LAYERS = {
    "Read": ACCEPTANCE | TABLES,
    "Read, for which tables are accepted": TABLES,
    "Read, for which bytes are written": set(),
}


def cells_of(line):
    return [it.strip() for it in line.strip().strip("|").split("|")]


def row_of(cells):
    return "| " + " | ".join(cells) + " |"


def counted(path):
    """The lines of a file that are code and no imports. An import goes on while its braces are open."""
    number = braces = 0
    for line in filter(is_code, lines_of(path)):
        if braces or re.match(r"(?:pub )?(?:ghost )?use ", line):
            braces += line.count("{") - line.count("}")
        else:
            number += 1
    return number


def files_of(cell):
    """The files that a table's first cell names."""
    found, folder = [], ""
    for name in re.findall(r"`([^`]+)`", cell.split(" or ")[0]):
        folder = os.path.dirname(name) if "/" in name else folder
        path = name if "/" in name else f"{folder}/{name}"
        if path.endswith("/"):
            found += [it for it in files_in(path, ".antt") if not it.endswith("/Lib.antt")]
        elif os.path.exists(os.path.join(CRATES, path)):
            found.append(path)
        elif "of the kit" not in cell:
            sys.exit(f"{PAGE} names {path}, which isn't there")
    return found


class Page:
    """The page's lines with the numbers as they are counted."""

    def __init__(self, lines):
        self.lines, self.at, self.made = lines, 0, []
        self.names = Names()
        self.told, self.left, self.sum, self.sums = set(), {}, 0, []

    def table(self):
        start = self.at
        while self.at < len(self.lines) and self.lines[self.at].startswith("|"):
            self.at += 1
        return self.lines[start : self.at]

    def counted(self):
        while self.at < len(self.lines):
            line = self.lines[self.at]
            if line.startswith("| Read"):
                self.made += self.read_table(self.table())
            elif line.startswith("| In code"):
                self.table()
                self.made += self.code_table()
            else:
                self.made.append(line)
                self.at += 1
        self.fill_first_table()
        return self.made

    def fill_first_table(self):
        """The sums so far in the rows of the page's first table, one for each layer."""
        start = next(at for at, line in enumerate(self.made) if line.startswith("| To believe")) + 2
        for at, total in enumerate(self.sums, start):
            self.made[at] = row_of(cells_of(self.made[at])[:-1] + [f"{total:,}"])

    def layer(self, closed):
        """The lines of each declaration that this layer adds, by file and name."""
        roots = [self.names.place(*root) for root in ROOTS] + [self.names.in_code("host_io", "Host")]
        found = self.names.reached(roots, closed | CLOSED)
        return {place: len(lines) for place, lines in found.items() if place not in self.told}

    def read_table(self, rows):
        head = cells_of(rows[0])
        if "Lines" not in head:
            return rows
        column, total, made = head.index("Lines"), 0, rows[:2]
        layered = head[0] in LAYERS
        self.left = self.layer(LAYERS[head[0]]) if layered else {}
        self.told |= set(self.left)
        for row in rows[2:]:
            cells = cells_of(row)
            if cells[0].startswith("All"):
                continue
            paths = files_of(cells[0])
            number = sum(self.take(path) if layered else counted(path) for path in paths)
            total += number
            cells[column] = f"{number:,}"
            made.append(row_of(cells))
        missing = {path for path, _ in self.left if path.endswith(".antt") or path == TRAIT}
        if missing:
            sys.exit(f"{head[0]}: no row for {', '.join(sorted(missing))}")
        self.sum += total if layered else 0
        return made + [self.last_row(total, column, len(head))]

    def take(self, path):
        """The lines of a file's declarations in this layer; the machine's text is read whole."""
        mine = [place for place in self.left if place[0] == path]
        return counted(path) if path == TEXT else sum(self.left.pop(place) for place in mine)

    def last_row(self, total, column, width):
        cells = ["All"] + [""] * (width - 1)
        cells[column] = f"{total:,}"
        return row_of(cells)

    def code_table(self):
        made, total, files = ["| In code | Declarations | Lines |", "|---|---|---|"], 0, {}
        for (path, name), number in self.left.items():
            files.setdefault(path, {})[name] = number
        for path, names in sorted(files.items()):
            number = sum(names.values())
            total += number
            made.append(row_of([f"`{path}`", ", ".join(f"`{name}`" for name in sorted(names)), f"{number:,}"]))
        self.sum += total
        self.sums.append(self.sum)
        made.append(row_of(["All, with the tables above", "", f"{self.sum:,}"]))
        return made


def main():
    with open(PAGE) as file:
        old = file.read()
    new = "\n".join(Page(old.splitlines()).counted()) + "\n"
    if "--write" in sys.argv:
        with open(PAGE, "w") as file:
            file.write(new)
    elif new != old:
        for was, now in zip(old.splitlines(), new.splitlines()):
            if was != now:
                print(f"docs/AUDIT.md has\n  {was}\nand it is\n  {now}")
                break
        sys.exit(1)


main()
