"""Tests of zkwt.py, with numpy where it is there and without it. Run by tools/test.sh."""
import contextlib
import io
import os
import re
import struct
import sys
import tempfile
import unittest

import zkwt

TOP = os.path.join(os.path.dirname(os.path.abspath(__file__)), "..")
P = 2**64 - 2**32 + 1
# a text with two namespaces; comments and an array
TEXT = """
constant %N = 0x3; // three
namespace A(%N); pol constant C; /* pol commit no; */
pol commit x, y[2];
x' = x + y[1] * C;
namespace B(2); pol commit z; pol s = z + 1; public t = z(0);
"""
# its tables: one instance of A, two of B
COLUMNS = [[[0, 0, 1], [5, 6, 7], [1, 1, P - 1], [2, 2, 2]], [[8, 9]], [[10, 11]]]
FORMAT_1 = (
    b"ZKWT" + struct.pack("<IIII", 1, 2, 1, 2)
    + struct.pack("<IIII12Q", 0, 0, 4, 3, *(v for c in COLUMNS[0] for v in c))
    + struct.pack("<IIII2Q", 1, 0, 1, 2, 8, 9)
    + struct.pack("<IIII2Q", 1, 1, 1, 2, 10, 11)
)
FORMAT_2 = b"ZKWT" + struct.pack("<III", 2, 2, 7) + struct.pack("<7I", 0, 0, 0, 0, 0, 0, 1) + struct.pack("<IIII4Q", 6, 0, 2, 2, 1, 2, 3, 4)


def machine_text():
    """The machine's constraint text as its crate has it, in profile Small."""
    with open(os.path.join(TOP, "crates", "machine_text", "src", "source.rt")) as file:
        parts = re.findall(r'b"(.*?)"', file.read(), flags=re.DOTALL)
    return "4096".join(parts[:2])


def plain(tables):
    return [[list(map(int, column)) for column in it.columns] for it in tables.instances]


class Base:
    """The tests; each class below runs them in one way."""

    def setUp(self):
        self.numpy = zkwt.numpy
        zkwt.numpy = self.with_numpy and self.numpy
        folder = tempfile.TemporaryDirectory()
        self.addCleanup(folder.cleanup)
        self.folder = folder.name

    def tearDown(self):
        zkwt.numpy = self.numpy

    def path(self, name, contents=None):
        path = os.path.join(self.folder, name)
        if contents is not None:
            with open(path, "wb") as file:
                file.write(contents if isinstance(contents, bytes) else contents.encode())
        return path

    def command(self, *words):
        out = io.StringIO()
        with contextlib.redirect_stdout(out):
            options = zkwt.options_of(list(words))
            options.act(options)
        return out.getvalue()

    def test_a_file_reads_as_its_tables(self):
        tables = zkwt.read(self.path("a", FORMAT_1))
        self.assertEqual((tables.format, tables.profile, tables.airs), (1, None, 2))
        self.assertEqual([(it.air, it.number, it.rows) for it in tables.instances], [(0, 0, 3), (1, 0, 2), (1, 1, 2)])
        self.assertEqual(plain(tables), COLUMNS)
        tables = zkwt.read(self.path("b", FORMAT_2))
        self.assertEqual((tables.format, tables.profile, tables.airs), (2, "wide", 7))
        self.assertEqual(plain(tables), [[[1, 2], [3, 4]]])

    def test_what_is_written_reads_back(self):
        for contents in (FORMAT_1, FORMAT_2):
            tables = zkwt.parse(contents)
            zkwt.write(self.path("out"), tables)
            with open(self.path("out"), "rb") as file:
                self.assertEqual(file.read(), contents)
        # columns may be given as plain lists in both ways
        lists = zkwt.Tables(2, instances=[zkwt.Instance(0, 0, COLUMNS[0]), zkwt.Instance(1, 0, COLUMNS[1]), zkwt.Instance(1, 1, COLUMNS[2])])
        self.assertEqual(b"".join(zkwt.pieces(lists)), FORMAT_1)

    def test_only_what_is_wanted_is_kept(self):
        tables = zkwt.read(self.path("a", FORMAT_1), lambda air, number: (air, number) == (1, 1))
        self.assertEqual(plain(tables), [[], [], [[10, 11]]])

    def test_the_first_item_that_fails_is_told(self):
        def told(contents):
            with self.assertRaises(zkwt.TableError) as caught:
                zkwt.read(self.path("a", contents))
            return str(caught.exception)

        def changed(at, number, width="<I"):
            data = bytearray(FORMAT_1)
            struct.pack_into(width, data, at, number)
            return bytes(data)

        for length in range(len(FORMAT_1)):
            self.assertEqual(told(FORMAT_1[:length]), f"Short {length}")
        self.assertEqual(told(b"ZKWU" + FORMAT_1[4:]), "BadMagic 0")
        self.assertEqual(told(changed(4, 3)), "BadVersion 4")
        self.assertEqual(told(FORMAT_2[:8] + struct.pack("<I", 3) + FORMAT_2[12:]), "BadProfile 8")
        self.assertEqual(told(changed(20, 2)), "BadAir 20")
        self.assertEqual(told(changed(20, 1)), "BadOrder 20")
        self.assertEqual(told(changed(24, 1)), "BadOrder 20")
        self.assertEqual(told(changed(44, P, "<Q")), "NotCanonical 44")
        self.assertEqual(told(changed(44, P, "<Q")[:60]), "NotCanonical 44")
        self.assertEqual(told(FORMAT_1 + b"\0"), f"Trailing {len(FORMAT_1)}")
        # rows that aren't there cost nothing: the values up to the next one that is too large are read
        self.assertEqual(told(FORMAT_1[:28] + struct.pack("<II", 2**32 - 1, 2**32 - 1) + bytes(8)), "Short 44")

    def test_tables_that_no_file_holds_are_refused(self):
        for instances in (
            [zkwt.Instance(1, 0, [[1]]), zkwt.Instance(0, 0, [[1]])],
            [zkwt.Instance(0, 1, [[1]])],
            [zkwt.Instance(2, 0, [[1]])],
            [zkwt.Instance(0, 0, [[1, 2], [3]])],
            [zkwt.Instance(0, 0, [[P]])],
            [zkwt.Instance(0, 0, [[-1]])],
        ):
            with self.assertRaises(ValueError):
                zkwt.write(self.path("out"), zkwt.Tables(2, instances=instances))

    def test_a_text_names_the_columns(self):
        a, b = zkwt.read_spaces(TEXT)
        self.assertEqual((a.name, a.rows, a.constants, a.committed), ("A", 3, ["C"], ["x", "y[0]", "y[1]"]))
        self.assertEqual((b.name, b.rows, b.constants, b.committed), ("B", 2, [], ["z"]))

    def test_the_machine_text_names_as_many_columns_as_the_page_says(self):
        with open(os.path.join(TOP, "docs", "TABLES.md")) as file:
            page = re.findall(r"^\| (\w+)(?:, profile Small)? \| (\d) \| ([\d,]+) \| (\d+) \|", file.read(), flags=re.M)
        tables = zkwt.Tables(7, 2, "small")
        spaces = {space.name: space for space in zkwt.read_spaces(machine_text())}
        names = zkwt.air_names(tables, list(spaces.values()))
        self.assertEqual(len(page), 7)
        for (name, number, rows, columns), (found, known) in zip(page, names):
            self.assertEqual((name, int(columns)), (found, len(known)))
            self.assertEqual(zkwt.MACHINE_AIRS[int(number)], name)
            self.assertEqual(spaces[name].rows, int(rows.replace(",", "")))
        self.assertEqual(names[0][1][:3] + names[0][1][-1:], ["sel", "pc", "rs1", "mhi"])
        # the older form of the machine's tables, in format 1
        self.assertEqual(zkwt.air_names(zkwt.Tables(7), list(spaces.values())), names)

    def test_rows_are_printed_by_name(self):
        table, text = self.path("a", FORMAT_1), self.path("a.pil", TEXT)
        self.assertEqual(self.command("rows", table, "A", "0", "1", "2", "--text", text), f"row,C,x,y[0],y[1]\n1,0,6,1,2\n2,1,7,{P - 1},2\n")
        self.assertEqual(self.command("rows", table, "B", "1", "--text", text, "--columns", "z"), "row,z\n0,10\n1,11\n")
        self.assertEqual(self.command("rows", table, "0", "0", "2", "9"), f"row,0,1,2,3\n2,1,7,{P - 1},2\n")
        self.assertEqual(self.command("list", table, "--text", text), "air,name,instance,columns,rows\n0,A,0,4,3\n1,B,0,1,2\n1,B,1,1,2\n")
        for words in (("C", "0"), ("B", "2"), ("B", "0", "--columns", "y")):
            with self.assertRaises(ValueError):
                self.command("rows", table, *words, "--text", text)

    def test_one_value_is_changed(self):
        table, text = self.path("a", FORMAT_1), self.path("a.pil", TEXT)
        self.command("set", table, "B", "1", "0", "z", "12", "--text", text)
        self.command("set", table, "0", "0", "2", "3", "0x63")
        wanted = [[[0, 0, 1], [5, 6, 7], [1, 1, P - 1], [2, 2, 99]], [[8, 9]], [[12, 11]]]
        self.assertEqual(plain(zkwt.read(table)), wanted)
        for words in (("B", "1", "2", "0", "1"), ("B", "1", "0", "1", "1"), ("B", "1", "0", "0", str(2**64))):
            with self.assertRaises(ValueError):
                self.command("set", table, *words)
        self.assertEqual(plain(zkwt.read(table)), wanted)

    def test_a_file_is_made_of_csv(self):
        table, text = self.path("a", FORMAT_1), self.path("a.pil", TEXT)
        parts = []
        for air, instance in (("B", "0"), ("A", "0"), ("B", "1")):
            printed = self.command("rows", table, air, instance, "--text", text)
            parts.append(f"{air}={self.path(air + instance + '.csv', printed)}")
        made = self.path("made")
        self.command("make", made, "--pil", "--text", text, *parts)
        with open(made, "rb") as file:
            self.assertEqual(file.read(), FORMAT_1)

    def test_columns_of_csv_go_by_name(self):
        text, made = self.path("b.pil", "namespace B(2); pol commit row, z;"), self.path("made")
        self.command("make", made, "--pil", "--text", text, "B=" + self.path("b.csv", "z,row\n1,0x10\n2,4\n"))
        self.assertEqual(plain(zkwt.read(made)), [[[16, 4], [1, 2]]])
        for wrong in ("z\n1\n", "z,row,w\n1,2,3\n", "z,row\n1\n", ""):
            with self.assertRaises(ValueError):
                self.command("make", made, "--pil", "--text", text, "B=" + self.path("b.csv", wrong))
        # a part of a table isn't a table
        with self.assertRaises(ValueError):
            self.command("make", made, "--pil", "0=" + self.path("c.csv", "row,z\n1,5\n"))

    def test_machine_tables_are_made_in_format_2(self):
        made = self.path("made")
        self.command("make", made, "--machine", "wide", "Out=" + self.path("o.csv", "lo,hi\n1,3\n2,4\n"))
        with open(made, "rb") as file:
            self.assertEqual(file.read(), FORMAT_2)


class WithLists(Base, unittest.TestCase):
    with_numpy = False


@unittest.skipIf(zkwt.numpy is None, "numpy isn't there")
class WithNumpy(Base, unittest.TestCase):
    with_numpy = True

    def test_columns_are_arrays(self):
        tables = zkwt.read(self.path("a", FORMAT_1))
        self.assertEqual(int(tables.instances[0].columns[1].sum()), 18)


if __name__ == "__main__":
    sys.exit(unittest.main())
