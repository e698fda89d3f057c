#!/usr/bin/env python3
"""Table files of zkw for other tools: as values in Python, and as CSV. The format: docs/TABLES.md.

    zkwt.py list FILE [--text TEXT]
        each instance: its air, number, columns and rows
    zkwt.py rows FILE AIR INSTANCE [FIRST LAST] [--text TEXT] [--columns NAME,NAME..]
        the rows FIRST to LAST of an instance, both included, or all, as CSV
    zkwt.py set FILE AIR INSTANCE ROW COLUMN VALUE [--text TEXT]
        changes one value in the file
    zkwt.py make FILE (--pil | --machine small|wide) [--text TEXT] [--airs N] AIR=CSV ..
        a table file of these instances; those of one air are numbered from 0 in the order given

TEXT is a constraint text or what `zkw machine` prints, `-` is standard input. Columns are named by it, and
else by their numbers; an air is named by its number, or by its name where there is a TEXT. A CSV has a line
of names, then a line for each row; its first column is `row`, the row's number, which `make` doesn't need.

In Python: `read`, `write`, `Tables`, `Instance`, `read_spaces`, `air_names`. An instance's columns are numpy
arrays of 64-bit numbers where numpy is there, and else lists.
"""
import argparse
import csv
import mmap
import re
import struct
import sys
from array import array
from dataclasses import dataclass, field

try:
    import numpy
except ImportError:
    numpy = None

P = 2**64 - 2**32 + 1
MAGIC = b"ZKWT"
PROFILES = {1: "small", 2: "wide"}
MACHINE_AIRS = ("Main", "Mem", "Binary", "Shift", "Arith", "Align", "Out")


class TableError(ValueError):
    """A file that isn't a table file: the first item that fails, by its kind and its byte offset.

    The kinds are those of docs/TABLES.md that can be told without the shape of the tables."""

    def __init__(self, kind, at):
        super().__init__(f"{kind} {at}")
        self.kind, self.at = kind, at


@dataclass
class Instance:
    """A table: the number of its air, its own number within the air, and its columns, all of one length.

    Where it was read, `at` is the place of its first value in the file."""

    air: int
    number: int
    columns: list
    at: int = None

    @property
    def rows(self):
        return len(self.columns[0]) if len(self.columns) else 0


@dataclass
class Tables:
    """The tables of a file, in its order. Format 2 has a profile, "small" or "wide"; format 1 has None."""

    airs: int
    format: int = 1
    profile: str = None
    instances: list = field(default_factory=list)


# ---------------------------------------------------------------- table files

class Reader:
    """The items of a file, one after another."""

    def __init__(self, data):
        self.data, self.at = data, 0

    def need(self, size):
        if len(self.data) - self.at < size:
            raise TableError("Short", len(self.data))

    def number(self):
        self.need(4)
        self.at += 4
        return struct.unpack_from("<I", self.data, self.at - 4)[0]

    def exactly(self, wanted, kind, at):
        if self.number() != wanted:
            raise TableError(kind, at)

    def skip(self, count):
        self.need(8 * count)
        self.at += 8 * count

    def values(self, count):
        """So many values, each below p."""
        whole = min(count, (len(self.data) - self.at) // 8)
        values = numbers_of(self.data, self.at, whole)
        wrong = first_too_large(values)
        if wrong is not None:
            raise TableError("NotCanonical", self.at + 8 * wrong)
        self.skip(count)
        return values


def numbers_of(data, at, count):
    if numpy:
        return numpy.frombuffer(data, "<u8", count, at) if count else numpy.zeros(0, "<u8")
    values = array("Q", bytes(data[at : at + 8 * count]))
    if sys.byteorder == "big":
        values.byteswap()
    return values


def first_too_large(values):
    if numpy:
        wrong = numpy.flatnonzero(values >= numpy.uint64(P))
        return int(wrong[0]) if len(wrong) else None
    return next((k for k, value in enumerate(values) if value >= P), None)


def cut(values, columns, rows):
    """The values as columns of so many rows."""
    if numpy:
        return list(values.reshape(columns, rows))
    return [list(values[k * rows : (k + 1) * rows]) for k in range(columns)]


def parse(data, wanted=None):
    """The tables that the bytes are.

    With `wanted`, a function of an instance's air and number, the values of the other instances are neither
    kept nor tested, and these have no columns. Raises TableError."""
    reader = Reader(data)
    reader.need(4)
    if bytes(data[:4]) != MAGIC:
        raise TableError("BadMagic", 0)
    reader.at = 4
    version = reader.number()
    if version not in (1, 2):
        raise TableError("BadVersion", 4)
    profile = None
    if version == 2:
        profile = PROFILES.get(reader.number())
        if profile is None:
            raise TableError("BadProfile", 8)
    airs = reader.number()
    reader.need(4 * airs)
    counts = [reader.number() for _ in range(airs)]
    tables = Tables(airs, version, profile)
    for air, count in enumerate(counts):
        for number in range(count):
            tables.instances.append(parse_instance(reader, airs, air, number, wanted))
    if reader.at < len(data):
        raise TableError("Trailing", reader.at)
    return tables


def parse_instance(reader, airs, air, number, wanted):
    start = reader.at
    found = reader.number()
    if found >= airs:
        raise TableError("BadAir", start)
    if found != air:
        raise TableError("BadOrder", start)
    reader.exactly(number, "BadOrder", start)
    columns, rows = reader.number(), reader.number()
    if wanted and not wanted(air, number):
        reader.skip(columns * rows)
        return Instance(air, number, [])
    at = reader.at
    return Instance(air, number, cut(reader.values(columns * rows), columns, rows), at)


def read(path, wanted=None):
    """The tables of a file, as `parse` has them. The file is mapped, so large ones cost what is looked at."""
    with open(path, "rb") as file:
        try:
            data = mmap.mmap(file.fileno(), 0, access=mmap.ACCESS_READ)
        except ValueError:  # an empty file, or one that can't be mapped
            data = file.read()
    return parse(data, wanted)


def packed(column):
    """A column's bytes."""
    if numpy:
        values = numpy.asarray(column)
        if values.dtype.kind not in "ui":
            values = numpy.array([int(v) for v in column], object)
        if len(values) and not (0 <= int(values.min()) and int(values.max()) < P):
            raise ValueError("a value isn't below p")
        return values.astype("<u8").tobytes()
    if any(not 0 <= value < P for value in column):
        raise ValueError("a value isn't below p")
    values = array("Q", column)
    if sys.byteorder == "big":
        values.byteswap()
    return values.tobytes()


def counts_of(tables):
    """The number of instances of each air. Raises ValueError where they aren't in order."""
    counts = [0] * tables.airs
    least = 0
    for it in tables.instances:
        if not least <= it.air < tables.airs or it.number != counts[it.air]:
            raise ValueError(f"instance {it.number} of air {it.air} is out of order")
        least = it.air
        counts[it.air] += 1
    return counts


def pieces(tables):
    """The bytes of a table file, in parts."""
    number = lambda *numbers: struct.pack(f"<{len(numbers)}I", *numbers)
    if tables.format == 2:
        yield MAGIC + number(2, {name: k for k, name in PROFILES.items()}[tables.profile])
    else:
        yield MAGIC + number(1)
    yield number(tables.airs, *counts_of(tables))
    for it in tables.instances:
        yield number(it.air, it.number, len(it.columns), it.rows)
        for column in it.columns:
            if len(column) != it.rows:
                raise ValueError("an instance's columns have different lengths")
            yield packed(column)


def write(path, tables):
    """Writes the tables to a file. Raises ValueError where they are none that a file can hold."""
    with open(path, "wb") as file:
        for piece in pieces(tables):
            file.write(piece)


# ---------------------------------------------------------------- names

@dataclass
class Space:
    """A namespace of a constraint text: its name, its rows, and the names of its columns."""

    name: str
    rows: int
    constants: list = field(default_factory=list)
    committed: list = field(default_factory=list)


TOKEN = re.compile(r"0x[0-9a-fA-F]+|[0-9]+|[A-Za-z_][A-Za-z0-9_]*|[^\s]")


def statements(text):
    """The statements of a text, each a list of tokens."""
    text = re.sub(r"/\*.*?\*/|//[^\n]*", " ", text, flags=re.DOTALL)
    found = []
    for token in TOKEN.findall(text):
        if token == ";":
            yield found
            found = []
        else:
            found.append(token)


def declared(tokens):
    """The columns that `a, b[2], ..` declares."""
    for part in " ".join(tokens).split(","):
        name, *rest = part.split()
        if rest:
            yield from (f"{name}[{k}]" for k in range(int(rest[1], 0)))
        else:
            yield name


def read_spaces(text):
    """The namespaces of a constraint text with their columns. The text isn't tested: `zkw pil` does that."""
    spaces, constants = [], {}
    for tokens in statements(text):
        if tokens[:1] == ["constant"]:
            constants[tokens[2]] = int(tokens[4], 0)
        elif tokens[:1] == ["namespace"]:
            size = tokens[3:-1]
            rows = constants[size[1]] if size[0] == "%" else int(size[0], 0)
            spaces.append(Space(tokens[1], rows))
        elif tokens[:2] == ["pol", "constant"]:
            spaces[-1].constants += declared(tokens[2:])
        elif tokens[:2] == ["pol", "commit"]:
            spaces[-1].committed += declared(tokens[2:])
    return spaces


def air_names(tables, spaces):
    """The name of each air of the tables, with the names of its columns.

    Under a text of its own a namespace is an air and has its constants first; of the machine's text the
    seven airs stand in the order of docs/TABLES.md, and have committed columns alone."""
    by_name = {space.name: space for space in spaces}
    is_machine = tables.airs == len(MACHINE_AIRS) and all(name in by_name for name in MACHINE_AIRS)
    if tables.format == 2 or (is_machine and len(spaces) != tables.airs):
        if not is_machine:
            raise ValueError("the text isn't that of the machine, whose tables the file has")
        return [(name, by_name[name].committed) for name in MACHINE_AIRS]
    if len(spaces) != tables.airs:
        raise ValueError(f"the text has {len(spaces)} namespaces, and the file {tables.airs} airs")
    return [(space.name, space.constants + space.committed) for space in spaces]


# ---------------------------------------------------------------- the command

def spaces_of(text):
    """The namespaces of the text in that file, or of standard input for `-`; None where no text is named."""
    if text is None:
        return None
    if text == "-":
        return read_spaces(sys.stdin.read())
    with open(text, encoding="latin-1") as file:
        return read_spaces(file.read())


def names_by(spaces, tables):
    """The airs' names with their columns' names; without a text the columns have none."""
    if spaces is not None:
        return air_names(tables, spaces)
    names = MACHINE_AIRS if tables.format == 2 else [str(air) for air in range(tables.airs)]
    return [(name, None) for name in names]


def air_of(names, word):
    for air, (name, _) in enumerate(names):
        if word in (str(air), name):
            return air
    raise ValueError(f"there is no air {word}")


def columns_of(names, it):
    known = names[it.air][1] or [str(k) for k in range(len(it.columns))]
    if len(known) != len(it.columns):
        raise ValueError(f"the text names {len(known)} columns of {names[it.air][0]}, and the file has {len(it.columns)}")
    return known


def list_instances(options):
    tables = read(options.file)
    names = names_by(spaces_of(options.text), tables)
    out = csv.writer(sys.stdout, lineterminator="\n")
    out.writerow(["air", "name", "instance", "columns", "rows"])
    for it in tables.instances:
        out.writerow([it.air, names[it.air][0], it.number, len(it.columns), it.rows])


def instance_of(options):
    """The instance that the words name, the name of its air, and its columns' names."""
    headers = read(options.file, lambda air, number: False)
    names = names_by(spaces_of(options.text), headers)
    place = (air_of(names, options.air), options.instance)
    tables = read(options.file, lambda air, number: (air, number) == place)
    for it in tables.instances:
        if (it.air, it.number) == place:
            return it, names[it.air][0], columns_of(names, it)
    raise ValueError(f"there is no instance {options.instance} of {names[place[0]][0]}")


def print_rows(options):
    it, air, known = instance_of(options)
    chosen = options.columns.split(",") if options.columns else known
    for name in chosen:
        if name not in known:
            raise ValueError(f"{air} has no column {name}")
    first = options.first or 0
    end = it.rows if options.last is None else min(options.last + 1, it.rows)
    parts = [map(int, it.columns[known.index(name)][first:end]) for name in chosen]
    out = csv.writer(sys.stdout, lineterminator="\n")
    out.writerow(["row", *chosen])
    out.writerows(zip(range(first, end), *parts))


def set_value(options):
    it, air, known = instance_of(options)
    if options.column not in known:
        raise ValueError(f"{air} has no column {options.column}")
    if not 0 <= options.row < it.rows:
        raise ValueError(f"{air} has {it.rows} rows")
    if not 0 <= options.value < 2**64:
        raise ValueError("the value doesn't fit into 64 bits")
    place = it.at + 8 * (known.index(options.column) * it.rows + options.row)
    with open(options.file, "r+b") as file:
        file.seek(place)
        file.write(struct.pack("<Q", options.value))


def csv_columns(path, known):
    """The columns of a CSV, in the order of the known names where there are some, and else in its own."""
    with open(path, newline="") as file:
        lines = list(csv.reader(file))
    if not lines:
        raise ValueError(f"{path} is empty")
    header, rows = lines[0], [line for line in lines[1:] if line]
    if header[0] == "row" and (known is None or sorted(header) != sorted(known)):
        if any(int(line[0]) != row for row, line in enumerate(rows)):
            raise ValueError(f"{path} hasn't the rows from 0 on, in order")
        header, rows = header[1:], [line[1:] for line in rows]
    if any(len(line) != len(header) for line in rows):
        raise ValueError(f"{path} has lines of different lengths")
    if known is not None and sorted(header) != sorted(known):
        raise ValueError(f"{path} has other columns than {', '.join(known)}")
    return [[int(line[header.index(name)], 0) for line in rows] for name in (known or header)]


def make_file(options):
    spaces = spaces_of(options.text)
    if options.machine:
        tables = Tables(len(MACHINE_AIRS), 2, options.machine)
    else:
        tables = Tables(options.airs or (len(spaces) if spaces else 1))
    names = names_by(spaces, tables)
    parts = [word.partition("=")[::2] for word in options.instances]
    for air, path in sorted(((air_of(names, word), path) for word, path in parts), key=lambda it: it[0]):
        number = sum(it.air == air for it in tables.instances)
        tables.instances.append(Instance(air, number, csv_columns(path, names[air][1])))
    write(options.file, tables)


def options_of(words):
    """What the words ask for. A word that isn't understood ends the program with the usage."""
    acts = {"list": list_instances, "rows": print_rows, "set": set_value, "make": make_file}
    if not words or words[0] not in acts:
        sys.exit(__doc__)
    parser = argparse.ArgumentParser(prog=f"zkwt.py {words[0]}")
    parser.set_defaults(act=acts[words[0]])
    parser.add_argument("file", metavar="FILE")
    parser.add_argument("--text", help="a constraint text, or - for standard input")
    if words[0] in ("rows", "set"):
        parser.add_argument("air", metavar="AIR")
        parser.add_argument("instance", metavar="INSTANCE", type=int)
    if words[0] == "set":
        parser.add_argument("row", metavar="ROW", type=int)
        parser.add_argument("column", metavar="COLUMN")
        parser.add_argument("value", metavar="VALUE", type=lambda word: int(word, 0))
    if words[0] == "rows":
        parser.add_argument("first", metavar="FIRST", type=int, nargs="?")
        parser.add_argument("last", metavar="LAST", type=int, nargs="?")
        parser.add_argument("--columns", help="the names of some columns, with commas between them")
    if words[0] == "make":
        kind = parser.add_mutually_exclusive_group(required=True)
        kind.add_argument("--pil", action="store_true", help="format 1, the tables of a constraint text")
        kind.add_argument("--machine", choices=PROFILES.values(), help="format 2, the machine's tables")
        parser.add_argument("--airs", type=int, help="how many airs there are, where no text says it")
        parser.add_argument("instances", nargs="*", metavar="AIR=CSV")
    return parser.parse_intermixed_args(words[1:])


def main():
    options = options_of(sys.argv[1:])
    try:
        options.act(options)
    except (ValueError, OSError) as error:
        sys.exit(f"zkwt: {error}")


if __name__ == "__main__":
    main()
