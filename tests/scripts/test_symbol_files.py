import gzip
import os
import struct
import tempfile
import unittest

from made import part
from scripts.bounded import Refusal
from scripts.object.symbol_files import Other, inflated, kind_of


class Kinds(unittest.TestCase):
    def test_by_the_first_bytes(self):
        for content, kind in ((b"MODULE Linux", "breakpad"), (b"MYSG\1", "gsym"), (b"GSYM\0", "gsym"), (b"low,high,path,line\n", None), (b"", None)):
            self.assertEqual(kind_of(part(content)), kind)


class Gzip(unittest.TestCase):
    def test_all_members(self):
        packed = gzip.compress(b"one" * 1000) + gzip.compress(b"") + gzip.compress(b"two")
        self.assertEqual(b"".join(inflated(part(packed))), b"one" * 1000 + b"two")

    def test_a_cut_one(self):
        packed = gzip.compress(os.urandom(1000))
        for content in (packed[:-9], packed[:500], packed + b"more", b"\x1f\x8b"):
            with self.assertRaisesRegex(Refusal, "cut or damaged"):
                list(inflated(part(content)))

    def test_one_that_stands_for_very_much(self):
        with self.assertRaisesRegex(Refusal, "more than 100 times"):
            list(inflated(part(gzip.compress(bytes(1 << 25)))))


class Files(unittest.TestCase):
    def other(self, content):
        """The file of these bytes."""
        with tempfile.NamedTemporaryFile(delete=False) as file:
            file.write(content)
        self.addCleanup(os.unlink, file.name)
        other = Other(file.name)
        self.addCleanup(other.close)
        return other

    def test_what_it_is(self):
        other = self.other(b"\x7fELF")
        self.assertEqual((other.kind, other.is_symbol_file, other.is_program()), (None, False, True))
        other = self.other(gzip.compress(b"MODULE Linux x86_64 01 app\n"))
        self.assertEqual((other.kind, other.is_symbol_file, other.is_program()), ("breakpad", True, False))
        self.assertNotEqual(other.opened_as, other.name)
        self.assertEqual(Other("/no/such/file").kind, None)

    def test_identifiers_of_breakpad(self):
        self.assertEqual(self.other(b"MODULE Linux x86_64 ab0 app\nFILE 0 a\n").identifier(), "ab0")
        for line in (b"MODULE Linux x86_64 000 app\n", b"MODULE Linux x86_64", b"MODULE "):
            self.assertIsNone(self.other(line).identifier())

    def test_identifiers_of_gsym(self):
        head = struct.pack("<IHBBQIII", 0x4753594D, 1, 4, 3, 0, 0, 0, 0)
        self.assertEqual(self.other(head + b"\1\2\3" + bytes(17)).identifier(), "010203")
        self.assertIsNone(self.other(head + bytes(20)).identifier())
        self.assertIsNone(self.other(head).identifier())

    def test_a_table_is_made_of_it(self):
        other = self.other(b"MODULE Linux x86_64 01 app\n")
        other.put_table([(0x1010, 0x1012, (b"/a.c", 7)), (0x1012, 0x1014, (b"/a.c", 7))])
        with open(other.opened_as, "rb") as table:
            self.assertEqual(table.read(), b"low,high,path,line\n0x1010,0x1014,/a.c,7\n")

    def test_a_refusal_names_it(self):
        other = self.other(b"MODULE Linux x86_64 01 app\nFUNC 10")
        with self.assertRaises(Refusal) as caught:
            other.symbols(0)
        self.assertEqual(caught.exception.name, other.name)


if __name__ == "__main__":
    unittest.main()
