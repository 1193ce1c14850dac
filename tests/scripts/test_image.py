import os
import tempfile
import unittest

from made import made, part
from scripts.bounded import Nothing, Refusal
from scripts.object.image import LINE, OBJECT, Image, image_of, inside, judged


class Sections(unittest.TestCase):
    def test_known_ones_are_kept(self):
        image = Image("ELF", False)
        image.add(LINE, part(b"0123"), 1, 2)
        image.add(".data", part(b"0123"), 0, 4)
        self.assertEqual((image.has(LINE), image.has(".data")), (True, False))
        self.assertEqual(b"".join(image.pieces(LINE)), b"12")
        self.assertEqual(image.head(LINE), b"12")

    def test_one_that_reaches_past_the_end(self):
        image = Image("ELF", False)
        image.add(LINE, part(b"0123"), 2, 3)
        with self.assertRaisesRegex(Refusal, "reaches past the end"):
            list(image.pieces(LINE))

    def test_names_of_packed_sections(self):
        image = Image("ELF", False)
        image.add(".zdebug_line", part(b"0123"), 0, 4)
        self.assertEqual(b"".join(image.pieces(LINE)), b"0123")  # it isn't packed

    def test_two_of_a_name(self):
        image = Image("ELF", False)
        image.add(LINE, part(b"01"), 0, 1)
        image.add(LINE, part(b"01"), 1, 1)
        self.assertEqual((image.doubled, image.head(LINE)), ({LINE}, b"0"))

    def test_split_debug_information(self):
        image = Image("ELF", False)
        image.add(".debug_info.dwo", part(b""), 0, 0)
        self.assertTrue(image.is_split)


class Addresses(unittest.TestCase):
    def test_code(self):
        image = Image("ELF", False)
        image.add_code(0x10, 2)
        self.assertEqual([image.has_code_at(at) for at in (0xF, 0x10, 0x11, 0x12)], [False, True, True, False])

    def test_size(self):
        image = Image("ELF", False)
        self.assertEqual(image.address_size, 4)
        image.sizes = (8,)
        self.assertEqual(image.address_size, 8)


class Files(unittest.TestCase):
    def test_each_format_is_known_by_its_first_bytes(self):
        kinds = {"elf64": "ELF", "elf32-big": "ELF", "pe": "PE", "macho": "Mach-O", "macho32-big": "Mach-O", "fat": "Mach-O", "wasm": "WebAssembly"}
        for name, kind in kinds.items():
            self.assertEqual(image_of(made(name, "code=0x1000,0x10"), "").kind, kind, name)

    def test_others(self):
        with self.assertRaisesRegex(Nothing, "compressed by gzip"):
            image_of(part(b"\x1f\x8b"), "")
        with self.assertRaisesRegex(Nothing, "it is empty"):
            image_of(part(b""), "")
        with self.assertRaisesRegex(Nothing, "none of ELF"):
            image_of(part(b"some"), "")

    def test_what_is_not_linked(self):
        with self.assertRaises(Nothing) as caught:
            judged(made("elf64", "object", ".debug_line=/dev/null"), "")
        self.assertEqual(str(caught.exception), OBJECT)

    def test_two_sections(self):
        with self.assertRaisesRegex(Refusal, "two sections .debug_line"):
            judged(made("elf64", *[".debug_line=/dev/null"] * 2), "")

    def test_the_file_of_a_folder(self):
        with tempfile.TemporaryDirectory() as folder:
            with self.assertRaisesRegex(Refusal, "-r takes all programs"):
                inside(folder)
            place = os.path.join(folder, "Contents", "Resources", "DWARF")
            os.makedirs(place)
            open(os.path.join(place, "app"), "w").close()
            self.assertEqual(inside(folder), os.path.join(place, "app"))
        self.assertEqual(inside("/no/such/file"), "/no/such/file")


if __name__ == "__main__":
    unittest.main()
