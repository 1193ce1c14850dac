"""What a file is, by its first bytes."""

import unittest

from scripts.kinds import BREAKPAD, GSYM, LINES, LLVM, PROGRAM, READELF, TABLE, fields, first_line, foreign, kind_of


class Kinds(unittest.TestCase):
    def test_each_kind(self):
        for head, kind in {
            b"\x7fELF": PROGRAM,
            b"MZ": PROGRAM,
            b"MODULE Linux": BREAKPAD,
            b"MYSG\1": GSYM,
            b"GSYM\0": GSYM,
            b"\xef\xbb\xbflow,high,path,line\n": TABLE,
            b"Low;High;File\n": TABLE,
            b"app:\n\n.debug_line contents:\n": LLVM,
            b"Contents of the .debug_line section:\n": READELF,
            b"0x10 /a.c:3\r\n": LINES,
            b" 10 20 a b.c:3:5": LINES,
            b"0x10 /a.c\n0x11 /a.c:3\n": None,
            b"low,high\n": None,
            b"": None,
        }.items():
            self.assertEqual(kind_of(head), kind)

    def test_first_lines(self):
        self.assertEqual(first_line(b"\r\n\na\xe9\rb"), "a\xe9")
        self.assertEqual(fields('"a,b";c;d'), ["a,b", "c", "d"])

    def test_files_of_other_makers(self):
        self.assertIsNone(foreign("gsym-17", b"MYSG", "a"))
        self.assertIsNone(foreign("points", b"\x7fELF", "a"))
        self.assertIsNone(foreign("readelf", b"what?", "a"))
        self.assertIsNone(foreign("lines", b"10 a:3", "a"))
        self.assertEqual(foreign("gsym-17", b"10 a:3", "a"), "it is lines of addresses, paths and line numbers: linetab-table lines a")
        self.assertEqual(foreign("lines", b"MZ", "a"), "it is a program: linetab-table points addr2line a asks one about each address of its code")
        self.assertEqual(foreign("gsym-17", b"MODULE ", "a"), "it is a symbol file of Breakpad: linetab symbols a")
        self.assertEqual(foreign("lines", b"MYSG", "a"), "it is a GSYM file: linetab symbols a")
        self.assertIn("linetab-table readelf -", foreign("readelf", b"\x7fELF", "a"))


if __name__ == "__main__":
    unittest.main()
