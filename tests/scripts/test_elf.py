import struct
import unittest

from made import made, part
from scripts.bounded import DAMAGED, Nothing, Refusal
from scripts.object import elf
from scripts.object.elf import elf_image

FORMATS = ("elf64", "elf64-big", "elf32", "elf32-big")


class Images(unittest.TestCase):
    def test_what_is_read_of_each_kind(self):
        for name in FORMATS:
            image = elf_image(made(name, "code=0x1000,0x10", "id=00aaff", "load=0x400000", "symbol=main,0x1004,8", "symbol=f,0x1000,0"), "")
            self.assertEqual(image.big, name.endswith("big"))
            self.assertEqual(image.sizes == (8,), name.startswith("elf64"))
            self.assertEqual(image.code, [(0x1000, 0x1010)])
            self.assertEqual(image.identity, "00aaff")
            self.assertEqual((image.load_address(), image.base()), (0x400000, 0x400000))
            self.assertEqual(list(image.symbols()), [(0x1004, 8, "main"), (0x1000, 0, "f")])
            self.assertIsNone(image.loose)

    def test_that_the_lowest_bit_of_functions_for_arm_is_no_part_of_their_addresses(self):
        whole = made("elf32", "symbol=f,0x1001,8", "symbol=g,0x1008,8").whole
        symbols = elf_image(part(whole[:18] + struct.pack("<H", elf.ARM) + whole[20:]), "").symbols()
        self.assertEqual(list(symbols), [(0x1000, 8, "f"), (0x1008, 8, "g")])

    def test_nothing_of_all_that(self):
        image = elf_image(made("elf64", "code=0x1000,0x10"), "")
        self.assertEqual((image.identity, image.load_address(), image.base(), list(image.symbols())), (None, 0, 0, []))

    def test_what_is_refused(self):
        for word, text in (("object", "relocatable"), ("module", "kernel module"), ("dwo", "split debug information")):
            self.assertIn(text, elf_image(made("elf32", word), "").loose)
        with self.assertRaisesRegex(Nothing, "core file"):
            elf_image(made("elf64", "core"), "")
        whole = made("elf64", "code=0x1000,0x10").whole
        with self.assertRaisesRegex(Refusal, DAMAGED):
            elf_image(part(whole[:-1]), "")
        with self.assertRaisesRegex(Nothing, "no section headers"):
            elf_image(part(whole[:40] + bytes(8) + whole[48:]), "")


class Segments(unittest.TestCase):
    def headers(self, *listed):
        """An ELF file of nothing but its header and those of segments: kind, offset, address and size."""
        start = struct.pack("<16sHHIQQQIHHH", b"\x7fELF\2\1\1", 3, 62, 1, 0, 64, 0, 0, 64, 56, len(listed)).ljust(64, b"\0")
        return part(start + b"".join(struct.pack("<IIQQQQQQ", kind, 5, offset, at, at, size, size, 1) for kind, offset, at, size in listed))

    def test_the_first_byte_and_the_first_segment_that_is_loaded(self):
        data = self.headers((4, 0x10, 0, 4), (1, 0x1000, 0x402000, 9), (1, 0, 0x400000, 9))
        self.assertEqual(elf.first_byte(data, "<", True), 0x401000)
        self.assertEqual([one[0] for one in elf.segments(data, "<", True)], [4, 1, 1])

    def test_notes(self):
        data = self.headers((4, 1, 0, 3), (1, 0, 0, 1))
        self.assertEqual([one.take(0, 3) for one in elf.note_segments(data, "<", True)], [b"ELF"])


if __name__ == "__main__":
    unittest.main()
