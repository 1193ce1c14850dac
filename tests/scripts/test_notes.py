import types
import unittest

from made import part
from scripts.object.image import Image
from scripts.object.notes import discarded, is_left_out, is_version, marker_of, notes_to, twice_held


def image(*code, sizes=(8,)):
    made = Image("ELF", False)
    made.sizes = sizes
    made.code += code
    return made


def sets(digits):
    """An operation that sets an address."""
    return bytes([0, len(digits) + 1, 2]) + digits


class Question:
    """What is asked, with what the program says of itself by each word."""

    def __init__(self, content, *code, said=None):
        self.image, self.said, self.asked = image(*code), said or {}, []
        self.section = lambda: part(content)

    def verdict(self, *words):
        self.asked.append(words)
        return self.said.get(words, ("yes", ""))


class Discarded(unittest.TestCase):
    def test_where_no_code_is(self):
        content = part(sets(bytes(8)) + sets(b"\xff" * 8))
        self.assertEqual(list(discarded(content, image())), ["0x0", "0xffffffffffffffff"])
        self.assertEqual(list(discarded(content, image((0, 1)))), ["0xffffffffffffffff"])
        self.assertEqual(list(discarded(part(sets(b"\xff" * 4)), image(sizes=(8, 4, 2)))), ["0xffffffff"])
        self.assertEqual(list(discarded(part(sets(b"\1" * 8)), image())), [])

    def test_of_two_the_program_is_asked(self):
        question = Question(sets(bytes(8)) + sets(b"\xff" * 8))
        self.assertEqual(marker_of(question), "0x0")
        question.said = {("--dead", "0x0"): ("yes", "linetab: note: no sequence begins at 0x0, and")}
        self.assertEqual(marker_of(question), "0xffffffffffffffff")
        question = Question(sets(bytes(8)))
        self.assertEqual((marker_of(question), question.asked), ("0x0", []))
        self.assertIsNone(marker_of(Question(b"")))


class Lines(unittest.TestCase):
    def test_versions(self):
        self.assertTrue(is_version("no 25 malformed at 0x4: version 4"))
        self.assertFalse(is_version("no 25 malformed at 0x4: truncated"))
        self.assertFalse(is_version("no 26 run unit 0x0: line out of range at operation 4"))

    def test_an_address_that_is_held_twice(self):
        self.assertEqual(twice_held("no 32 overlap 0x0:0 0xa0:0 at 0x1129,0"), "0x1129")
        self.assertIsNone(twice_held("no 31 falls unit 0x0 row 1"))
        self.assertIsNone(twice_held(""))


class Told(unittest.TestCase):
    def run_of(self, status, line="", notes=b""):
        return types.SimpleNamespace(status=status, notes=notes, no=lambda: line)

    def test_a_marker_that_left_something_out(self):
        texts, same = notes_to(self.run_of(0), "app", Question(b""), "0x0", None)
        self.assertEqual(len(texts), 1)
        self.assertIn("--dead 0x0 leaves them out", texts[0])
        self.assertEqual(len(same), 2)

    def test_one_that_left_nothing_out(self):
        run = self.run_of(0, notes=b"linetab: note: no sequence begins at 0x0, and so on\n")
        self.assertEqual(notes_to(run, "app", Question(b""), "0x0", None)[0], [])

    def test_one_without_which_the_same_is_at_fault(self):
        line = "no 28 string outside unit 0x0 directories entry 0"
        self.assertFalse(is_left_out("0x0", line, self.run_of(1, line), Question(b"", said={(): (line, "")}), []))
        self.assertTrue(is_left_out("0x0", line, self.run_of(1, line), Question(b""), []))
        self.assertFalse(is_left_out("0x0", "no 25 malformed at 0x4: version 4", self.run_of(1), Question(b""), []))

    def test_copies(self):
        texts, _ = notes_to(self.run_of(0), "app", Question(b""), None, "0x1129")
        self.assertIn("the first of them 0x1129", texts[0])


if __name__ == "__main__":
    unittest.main()
