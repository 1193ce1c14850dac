import struct
import unittest

from made import made, part
from scripts.bounded import DAMAGED, Nothing, Refusal
from scripts.object.image import Image
from scripts.object.macho import fat_image, macho_commands, macho_image, symbols_of


class Images(unittest.TestCase):
    def test_what_is_read_of_each_kind(self):
        for name, wide in (("macho", True), ("macho32-big", False)):
            image = macho_image(made(name, "code=0x1000,0x10", "id=00112233445566778899aabbccddeeff", ".debug_line=/dev/null"), "")
            self.assertEqual((image.big, image.sizes == (8,)), (not wide, wide))
            self.assertEqual(image.code, [(0x1000, 0x1010)])
            self.assertEqual(image.identity, "00112233445566778899aabbccddeeff")
            self.assertTrue(image.has(".debug_line"))

    def test_what_is_refused(self):
        self.assertIn("dsymutil", macho_image(made("macho", "object"), "").loose)
        with self.assertRaisesRegex(Refusal, DAMAGED):
            macho_image(part(made("macho", "code=0x1000,0x10").whole[:100]), "")

    def test_a_command_without_a_size(self):
        data = part(struct.pack("<IIIIIIII", 0xFEEDFACF, 0, 0, 2, 1, 8, 0, 0) + struct.pack("<II", 2, 7))
        with self.assertRaisesRegex(Refusal, DAMAGED):
            list(macho_commands(data, "<", True))


class Fat(unittest.TestCase):
    def test_one_machine(self):
        self.assertEqual(fat_image(made("fat", "code=0x1000,0x10"), "").code, [(0x1000, 0x1010)])

    def test_others(self):
        with self.assertRaisesRegex(Nothing, "for 2 machines"):
            fat_image(made("fat", "machine", "machine"), "")
        with self.assertRaisesRegex(Nothing, "class of Java"):
            fat_image(part(bytes.fromhex("cafebabe00000034")), "")
        with self.assertRaisesRegex(Refusal, DAMAGED):
            fat_image(part(struct.pack(">IIIIIII", 0xCAFEBABE, 1, 0, 0, 4, 4, 0)), "")


class Symbols(unittest.TestCase):
    def test_those_in_code(self):
        image = Image("Mach-O", False)
        image.add_code(0x1000, 0x100)
        listed = [(1, 0x0F, 0x1010), (7, 0x0E, 0x1020), (1, 0x0F, 0x2000), (1, 0x01, 0x1030), (1, 0x24, 0x1010)]
        table = b"".join(struct.pack("<IBBHQ", text, kind, 1, 0, address) for text, kind, address in listed)
        data = part(table + b"\0_main\0other\0")
        found = symbols_of(image, data, (0, len(listed), len(table), 13), "<", True)
        self.assertEqual(list(found()), [(0x1010, 0, "main"), (0x1020, 0, "other")])


if __name__ == "__main__":
    unittest.main()
