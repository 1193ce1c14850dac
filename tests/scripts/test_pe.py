import struct
import unittest

from made import made, part
from scripts.bounded import Nothing
from scripts.object.pe import coff_symbols, debug_guid, pe_image

GUID = bytes(range(16))


class Images(unittest.TestCase):
    def test_what_is_read_of_both_kinds(self):
        for name, base in (("pe", 0x140000000), ("pe32", 0x400000)):
            image = pe_image(made(name, "code=0x1000,0x10", ".debug_line=/dev/null"), "")
            self.assertEqual((image.base(), image.load_address()), (base, base))
            self.assertEqual(image.code, [(base + 0x1000, base + 0x1010)])
            self.assertTrue(image.has(".debug_line"))  # its name is longer than a header holds
            self.assertIsNone(image.debug_guid())

    def test_what_is_refused(self):
        with self.assertRaisesRegex(Nothing, "program for DOS"):
            pe_image(part(b"MZ" + bytes(0x100)), "")


class DebugDirectory(unittest.TestCase):
    """An optional header at 0, the debug directory at 0x200 and what it names at 0x300; they are loaded at 0x5000."""

    def data(self, kind=2, mark=b"RSDS", count=16):
        content = bytearray(0x400)
        struct.pack_into("<I", content, 108, count)
        struct.pack_into("<II", content, 112 + 48, 0x5000, 28)
        struct.pack_into("<IIII", content, 0x200 + 12, kind, 24 + 8, 0x5100, 0x300)
        content[0x300:0x304] = mark
        content[0x304:0x318] = GUID + struct.pack("<I", 0x1B)
        return part(bytes(content))

    def asked(self, **how):
        image = type("image", (), {"ranges": [(0x1000, 0, 0x100), (0x5000, 0x200, 0x200)]})
        return debug_guid(self.data(**how), 0, True, image)

    def test_the_guid_and_its_age(self):
        self.assertEqual(self.asked(), (GUID, 0x1B))

    def test_none(self):
        self.assertIsNone(self.asked(kind=4))
        self.assertIsNone(self.asked(mark=b"NB10"))
        self.assertIsNone(self.asked(count=6))


class Symbols(unittest.TestCase):
    def test_functions_alone(self):
        listed = [
            (b"main\0\0\0\0", 0x10, 1, 0x20, 2, 1), (bytes(18),),  # it has one more record
            (b"value\0\0\0", 4, 2, 0, 2, 0),
            (struct.pack("<II", 0, 4), 0x20, 2, 0x20, 2, 0),
            (b"other\0\0\0", 4, 0, 0x20, 2, 0),
        ]
        table = b"".join(one[0] if len(one) == 1 else struct.pack("<8sIhHBB", *one) for one in listed)
        data = part(bytes(8) + table + struct.pack("<I", 20) + b"a_longer_name\0")
        self.assertEqual(list(coff_symbols(data, 8, 5, [0x1000, 0x2000])), [(0x1010, 0, "main"), (0x2020, 0, "a_longer_name")])
        self.assertEqual(list(coff_symbols(data, 0, 5, [0x1000])), [])


if __name__ == "__main__":
    unittest.main()
