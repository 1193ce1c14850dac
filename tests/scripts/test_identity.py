import struct
import unittest

from made import made, part
from scripts.object.elf import elf_image
from scripts.object.identity import breakpad_identifier, elf_notes, gsym_identifier, guid, identifier_of, notes_in, text_sum
from scripts.object.image import Image
from scripts.object.macho import macho_image


def note(owner, kind, content, order="<"):
    padded = [text + bytes(-len(text) % 4) for text in (owner, content)]
    return struct.pack(order + "III", len(owner), len(content), kind) + b"".join(padded)


def elf(text, *notes):
    """An ELF image with the bytes of .text and segments of notes."""
    image = Image("ELF", False)
    image.order = "<"
    image.note_segments = lambda: iter(map(part, notes))
    if text is not None:
        content, size = text
        image.add(".text", part(content), 0, size)
    return image


class Identifiers(unittest.TestCase):
    def test_a_guid(self):
        # The first three numbers, of 4, 2 and 2 bytes, are turned round, and the other bytes stand as they are.
        self.assertEqual(guid(bytes.fromhex("00112233445566778899aabbccddeeff")), "33221100554477668899AABBCCDDEEFF")

    def test_a_build_id_is_filled_or_cut(self):
        self.assertEqual(breakpad_identifier(elf(None, note(b"GNU\0", 3, b"\1\2\3"))), "00030201" + "0" * 24 + "0")
        self.assertEqual(breakpad_identifier(elf(None, note(b"GNU\0", 3, bytes(range(20))))), guid(bytes(range(16))) + "0")

    def test_the_first_note_of_its_type_counts_whatever_its_owner(self):
        image = elf(None, note(b"GNU\0", 1, bytes(16)), note(b"Go\0\0", 3, b"\5" * 16) + note(b"GNU\0", 3, b"\6" * 16))
        self.assertEqual(breakpad_identifier(image), "05" * 16 + "0")
        self.assertEqual(gsym_identifier(image), "06" * 16)

    def test_of_files(self):
        image = elf_image(made("elf64-big", "id=00112233"), "")
        self.assertEqual(breakpad_identifier(image), "33221100" + "0" * 25)
        self.assertEqual(gsym_identifier(image), "00112233")
        image = macho_image(made("macho", "id=00112233445566778899aabbccddeeff"), "")
        self.assertEqual(breakpad_identifier(image), "00112233445566778899AABBCCDDEEFF0")
        self.assertEqual(gsym_identifier(image), "00112233445566778899aabbccddeeff")

    def test_of_a_pe_file(self):
        image = Image("PE", False)
        image.debug_guid = lambda: (bytes(range(16)), 0x1B)
        self.assertEqual(breakpad_identifier(image), "03020100050407060809" + "0A0B0C0D0E0F" + "1B")
        self.assertEqual(identifier_of(image, None), breakpad_identifier(image))
        self.assertIsNone(gsym_identifier(image))
        image.debug_guid = lambda: None
        self.assertIsNone(breakpad_identifier(image))

    def test_by_the_kind_of_a_symbol_file(self):
        image = elf(None, note(b"GNU\0", 3, bytes(range(16))))
        self.assertEqual(identifier_of(image, "breakpad"), breakpad_identifier(image))
        self.assertEqual({identifier_of(image, kind) for kind in ("gsym", None)}, {bytes(range(16)).hex()})


class Notes(unittest.TestCase):
    def test_names_and_contents_are_padded(self):
        for order in "<>":
            content = note(b"a\0", 1, b"12345", order) + note(b"", 3, b"", order)
            self.assertEqual(list(notes_in(part(content), order)), [(b"a", 1, b"12345"), (b"", 3, b"")])

    def test_a_cut_one_is_none(self):
        content = note(b"GNU\0", 3, bytes(8))
        self.assertEqual(list(notes_in(part(content + content[:-4]), "<")), [(b"GNU", 3, bytes(8))])

    def test_segments_come_before_the_section(self):
        image = elf(None, note(b"A\0", 3, b"\1"))
        image.add(".note.gnu.build-id", part(note(b"B\0", 3, b"\2")), 0, 20)
        self.assertEqual([owner for owner, _, _ in elf_notes(image)], [b"A", b"B"])


class Texts(unittest.TestCase):
    def test_pieces_of_16_bytes(self):
        first, second = bytes(range(16)), b"\xf0" * 16
        self.assertEqual(text_sum(elf((first + second, 32))), bytes(byte ^ 0xF0 for byte in range(16)))

    def test_the_size_is_rounded_up_with_the_bytes_behind_it(self):
        self.assertEqual(text_sum(elf((b"\1" * 20, 3))), b"\1" * 16)

    def test_the_first_page_alone(self):
        self.assertEqual(text_sum(elf((b"\1" * 16 + bytes(4080) + b"\xff" * 16, 4112))), b"\1" * 16)

    def test_none(self):
        for text in (None, (b"", 0), (b"\1" * 15, 15)):
            self.assertIsNone(text_sum(elf(text)))
            self.assertIsNone(breakpad_identifier(elf(text)))


if __name__ == "__main__":
    unittest.main()
