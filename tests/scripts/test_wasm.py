import unittest

from made import made, part
from scripts.bounded import DAMAGED, Refusal
from scripts.object.wasm import wasm_image, wasm_sections

HEAD = b"\0asm\1\0\0\0"


class Images(unittest.TestCase):
    def test_sections_by_their_names(self):
        image = wasm_image(made("wasm", ".debug_line=%s" % __file__), "")
        with open(__file__, "rb") as file:
            self.assertEqual(b"".join(image.pieces(".debug_line")), file.read())

    def test_a_relocatable_object(self):
        self.assertIn("link it", wasm_image(made("wasm", "object"), "").loose)

    def test_kinds_and_places(self):
        self.assertEqual(list(wasm_sections(part(HEAD + b"\1\2ab" + b"\0\x83\0abc"))), [(1, 10, 12), (0, 15, 18)])

    def test_damaged_ones(self):
        for content in (b"\0", b"\0\x80", b"\0\2\5x"):
            with self.assertRaisesRegex(Refusal, DAMAGED):
                wasm_image(part(HEAD + content), "")


if __name__ == "__main__":
    unittest.main()
