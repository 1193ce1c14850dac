"""Units of versions 2 to 4: which there are, and the paths in them."""

import struct
import unittest

from scripts.bounded import Part
from scripts.object.older import counted, joined, versions
from scripts.object.older_paths import paths


def unit(version, order="<", wide=False, folders=(b"src",), files=((b"a.c", 1), (b"b.c", 0))):
    """A unit without a program."""
    numbers = b"\1" + (b"\1" if version >= 4 else b"") + b"\1\xfb\x0e\4\0\1\1"
    tables = b"".join(folder + b"\0" for folder in folders) + b"\0"
    tables += b"".join(name + b"\0" + bytes([number, 0, 0]) for name, number in files) + b"\0"
    offset = "Q" if wide else "I"
    inner = struct.pack(order + "H" + offset, version, len(numbers + tables)) + numbers + tables
    return (b"\xff" * 4 if wide else b"") + struct.pack(order + offset, len(inner)) + inner


def part(content):
    return Part(b"before" + content, 6, len(content))


class Versions(unittest.TestCase):
    def test_each_unit_in_its_order(self):
        for order in "<>":
            units = [unit(2, order), unit(5, order, wide=True), unit(4, order)]
            starts = [0, len(units[0]), len(units[0] + units[1])]
            self.assertEqual(list(versions(part(b"".join(units)), order == ">")), list(zip((2, 5, 4), starts)))

    def test_as_far_as_lengths_separate_them(self):
        self.assertEqual(list(versions(part(b""), False)), [])
        self.assertEqual(list(versions(part(unit(3)[:5]), False)), [])
        self.assertEqual(list(versions(part(unit(3)[:7]), False)), [(3, 0)])
        self.assertEqual([version for version, _ in versions(part(b"\xff" * 8), False)], [0xFFFF])
        self.assertEqual(list(versions(part(b"\0" * 9), False)), [(0, 0)])


class Paths(unittest.TestCase):
    def test_files_in_their_directories(self):
        for version in (2, 3, 4):
            for order, name in (("<", "little"), (">", "big")):
                for wide in (False, True):
                    content = unit(5, order) + unit(version, order, wide)
                    self.assertEqual(list(paths(part(content), len(unit(5)), name)), [b"src/a.c", b"b.c"])

    def test_a_full_name_needs_no_directory(self):
        content = unit(4, folders=(b"/w", b"x"), files=((b"a.c", 1), (b"/y/b.c", 2), (b"c.c", 3), (b"C:\\d.c", 2)))
        self.assertEqual(list(paths(part(content), 0, "little")), [b"/w/a.c", b"/y/b.c", b"c.c", b"C:\\d.c"])

    def test_what_is_cut_ends_the_list(self):
        content = unit(4)
        for size in range(len(content)):
            found = list(paths(part(content[:size]), 0, "little"))
            self.assertEqual(found, [b"src/a.c", b"b.c"][: len(found)])

    def test_no_byte_behind_the_header_is_read(self):
        content = unit(3, files=((b"a.c", 0),))
        cut = content[:6] + struct.pack("<I", len(content) - 11) + content[10:]
        self.assertEqual(list(paths(part(cut), 0, "little")), [b"a.c"])
        shorter = struct.pack("<I", 6) + content[4:]
        self.assertEqual(list(paths(part(shorter), 0, "little")), [])


class Texts(unittest.TestCase):
    def test_counts(self):
        self.assertEqual([counted(1, 1), counted(3, 3), counted(1, 3)], ["its unit", "its 3 units", "1 of its 3 units"])

    def test_at_most_four_numbers(self):
        self.assertEqual([joined([4]), joined({4, 2}), joined(range(9))], ["4", "2 and 4", "0 and 1 and 2 and 3"])


if __name__ == "__main__":
    unittest.main()
