import unittest

from scripts.bounded import Refusal
from scripts.table.llvm_dwarfdump import Unit, printed_rows, unescaped, whole

TEXT = b"""app:\tfile format elf64-x86-64
debug_line[0x00000000]
include_directories[  0] = "/w"
include_directories[  1] = "sub"
file_names[  0]:
           name: "a.c"
      dir_index: 0
file_names[  1]:
           name: "b.h"
      dir_index: 1
0x0000000000001010      3      1      0   0             0  is_stmt
0x0000000000001014      4      2      1   0             0  is_stmt prologue_end
0x0000000000001018      5      2      1   0             0  is_stmt end_sequence
"""


def rows(text):
    return list(printed_rows(iter(text.splitlines(keepends=True))))


class Texts(unittest.TestCase):
    def test_escapes(self):
        self.assertEqual(unescaped(rb"a\"\\\t\303\244"), b'a"\\\t\xc3\xa4')
        self.assertEqual(unescaped(None), b"")

    def test_a_relative_directory_stands_in_the_first(self):
        unit = Unit()
        unit.directories = {0: b"/w", 1: b"s", 2: b"/x", 3: b"C:/x"}
        unit.names, unit.places = {1: b"a", 2: b"a", 3: b"a", 4: b"a", 5: b"D:\\a"}, {1: 0, 2: 1, 3: 2, 4: 3, 5: 1}
        self.assertEqual([whole(unit.parts(k)) for k in (1, 2, 3, 4, 5)], [b"/w/a", b"/w/s/a", b"/x/a", b"C:/x/a", b"D:\\a"])
        with self.assertRaisesRegex(Refusal, "no file 6"):
            unit.parts(6)


class Rows(unittest.TestCase):
    def test_of_a_sequence(self):
        self.assertEqual(rows(TEXT), [
            (0x1010, ((b"/w", b"a.c"), 3, 1)), (0x1014, ((b"/w", b"sub", b"b.h"), 4, 2)), (0x1018, None)])

    def test_what_is_none(self):
        with self.assertRaisesRegex(Refusal, "isn't what llvm-dwarfdump"):
            rows(b"text\n")


if __name__ == "__main__":
    unittest.main()
