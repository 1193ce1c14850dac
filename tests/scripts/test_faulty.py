"""What is the matter with a table that is refused."""

import unittest
from types import SimpleNamespace

from scripts.bounded import Part
from scripts.object.faulty import header, nearest, notes_to, text_of, unreadable, wrong_count, wrong_number, wrong_order
from scripts.object.tables import LAYOUTS

ONE, _, _, FOUR = LAYOUTS


def told(line, content, notes=b""):
    return notes_to(line, SimpleNamespace(notes=notes), "t.csv", Part(content, 0, len(content)))


class Header(unittest.TestCase):
    def test_what_differs(self):
        for line, text in {
            b"Low,HIGH,path,line": "capital letters",
            b"low, high,path,line": "blanks around names",
            b"high,low,path,line": "another order of columns",
            b"low;high;path;line": "semicolons in place of commas",
            b"low|high|path|line|column": "bars in place of commas",
            b"low,high,path": "line is missing",
            b"low": None,
        }.items():
            self.assertEqual(header(line + b"\n").partition(": ")[2] or None, text)

    def test_no_header(self):
        self.assertIn("its first line has to be low,high,path,line,column", header(b"0x10,0x20,/w/a.c,1,2\n"))
        self.assertIn("semicolons", header(b"10;20;/w/a.c;1\n"))
        self.assertEqual(header(b"\n\n"), "it has no record")

    def test_nearest_version(self):
        self.assertEqual(nearest(["unit", "file", "line", "column", "is_stmt"]), ONE.columns)
        self.assertEqual(nearest(["address", "line"]), FOUR.columns)

    def test_other_files(self):
        self.assertIn("UTF-16", unreadable(b"\xff\xfel\0o\0", "t"))
        self.assertIn("UTF-16", unreadable(b"\0l\0o", "t"))
        self.assertEqual(unreadable(b"a\0b", "t"), "it is no text")
        self.assertIn("without its first line", unreadable(b"FILE 0 /w/a.c\n", "t"))
        self.assertIn("linetab-table lines t | linetab-object check PROGRAM -", unreadable(b"0x10 0x14 /w/a.c:3\n", "t"))
        self.assertIsNone(unreadable(b"low;high;path;line\n", "t"))


class Record(unittest.TestCase):
    def test_fields(self):
        self.assertEqual(wrong_count(FOUR, ["0x1;0x2;a;1"]), "it has 1 field in place of 4: semicolons in place of commas")
        self.assertIn("double quotes", wrong_count(FOUR, ["0x1", "0x2", "a", "b", "1"]))
        self.assertEqual(wrong_count(ONE, ["0x1"] * 10), "it has 10 fields in place of 9")

    def test_numbers(self):
        self.assertTrue(wrong_number(FOUR, ["10", "0x20", "a", "1"], 0).endswith(": 0x10, or 0xa if it is decimal"))
        self.assertTrue(wrong_number(FOUR, ["a0", "0x20", "a", "1"], 0).endswith(": 0xa0"))
        self.assertTrue(wrong_number(FOUR, ["0x10", "0x20", "a", "?"], 3).endswith("isn't known"))
        self.assertEqual(wrong_number(ONE, ["0x1", "0", "0x2", "0", "0", "1", "1", "1", "yes"], 8), 'is_stmt is "yes" in place of 0 or 1')

    def test_order(self):
        before = ["0x10", "0x20", "a", "1"]
        self.assertIn("may not overlap", wrong_order(FOUR, ["0x18", "0x30", "a", "1"], before))
        self.assertIn("not as texts", wrong_order(FOUR, ["0x9", "0xa", "a", "1"], before))
        self.assertIn("first address behind", wrong_order(FOUR, ["0x20", "0x20", "a", "1"], before))
        self.assertIn("0x20,3", wrong_order(ONE, ["0x20", "2", "0x40", "0", "0"], ["0x20", "0", "0x20", "3", "0"]))

    def test_long_fields_are_cut(self):
        self.assertEqual(text_of("a" * 101), '"%s" ..' % ("a" * 100))
        self.assertEqual(text_of("a\t"), '"a\\x09"')


class Notes(unittest.TestCase):
    table = b"low,high,path,line\n0x10,0x20,a,1\n0x20,0x30,a\n"

    def test_in_place_of_the_note_of_the_program(self):
        notes = b"linetab: note: no sequence begins at 0x0, so\nlinetab: note: line 3 of the table: each record has as many\n"
        self.assertEqual(told("no 37 table fields record 2", self.table, notes), (
            ["line 3 of t.csv: it has 3 fields in place of 4"], ["line 3 of the table: "]))
        self.assertEqual(told("no 37 table fields record 2", self.table), (["record 2 of t.csv: it has 3 fields in place of 4"], []))

    def test_a_record_that_is_not_there(self):
        self.assertEqual(told("no 37 table fields record 9", self.table), ([], []))


if __name__ == "__main__":
    unittest.main()
