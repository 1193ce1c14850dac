import os
import struct
import unittest
import zlib

from made import part
from scripts.bounded import Refusal
from scripts.object import packed

CONTENT = b"0123456789" * 100


def gnu(content, size):
    return part(b"ZLIB" + struct.pack(">Q", size) + content)


def elf(content, size, kind=1, wide=True):
    return part((struct.pack("<IIQQ", kind, 0, size, 1) if wide else struct.pack("<III", kind, size, 1)) + content)


def from_elf(content, wide=True):
    return b"".join(packed.from_elf("<", wide, "", ".debug_line", content))


class Sections(unittest.TestCase):
    def test_both_headers(self):
        content = zlib.compress(CONTENT)
        self.assertEqual(b"".join(packed.from_gnu("x", gnu(content, 1000))), CONTENT)
        for wide in True, False:
            self.assertEqual(from_elf(elf(content, 1000, wide=wide), wide), CONTENT)

    def test_a_name_without_packed_bytes(self):
        self.assertEqual(b"".join(packed.from_gnu("x", part(b"ZLI"))), b"ZLI")

    def test_sizes_that_are_wrong(self):
        for size in 999, 1001:
            with self.assertRaisesRegex(Refusal, "isn't what its compression header says"):
                from_elf(elf(zlib.compress(CONTENT), size))

    def test_bytes_that_are_damaged(self):
        content = zlib.compress(os.urandom(1000))
        for changed in (content[:-1], content[:500], b"y" + content[1:], b""):
            with self.assertRaisesRegex(Refusal, "isn't what its compression header says"):
                from_elf(elf(changed, 1000))

    def test_one_that_stands_for_very_much(self):
        with self.assertRaisesRegex(Refusal, "stands for 1073741824 bytes"):
            from_elf(elf(b"x", 1 << 30))

    def test_an_unknown_kind(self):
        with self.assertRaisesRegex(Refusal, "number 9"):
            from_elf(elf(b"x", 1, kind=9))


if __name__ == "__main__":
    unittest.main()
