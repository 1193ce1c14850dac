import unittest

from scripts.object.image import Image
from scripts.object.stretches import LINE, Listing, addresses_of, lines, without_answer

FIRST = b'no 40 differs at 0x10,0 up to 0x18,0 table none section "/a",1\n'
SECOND = b'no 40 differs at 0x20,1 up to 0x22,3 table "/a",2 section "/a",1\n'


class Run:
    """A run that answers in these pieces."""

    def __init__(self, *pieces):
        self.given, self.is_stopped = pieces, False

    def pieces(self):
        return iter(self.given)

    def stop(self):
        self.is_stopped = True


def listing(most=None, has_ends=False, is_counted=True):
    image = Image("ELF", False)
    image.symbols = lambda: [(0x10, 4, "f"), (0x20, 8, "g")]
    return Listing(image, most, has_ends, is_counted)


class Lines(unittest.TestCase):
    def test_lines_of_pieces(self):
        self.assertEqual(list(lines([b"a\nb", b"c\n", b"d"])), [b"a", b"bc"])

    def test_addresses_are_those_whose_first_operation_lies_in_it(self):
        self.assertEqual(addresses_of(LINE.match(FIRST)), (0x10, 0x18))
        self.assertEqual(addresses_of(LINE.match(SECOND)), (0x21, 0x23))

    def test_those_without_an_answer(self):
        self.assertEqual(list(without_answer([FIRST + SECOND, b"yes\n"])), [(0x10, 0x18)])


class Listed(unittest.TestCase):
    def passed(self, listed, *pieces):
        run = Run(*pieces)
        return b"".join(listed.pieces(run)), run.is_stopped

    def test_ends_are_taken_out(self):
        listed = listing()
        text, _ = self.passed(listed, FIRST[:20], FIRST[20:] + SECOND)
        self.assertEqual(text, FIRST.replace(b" up to 0x18,0", b"") + SECOND.replace(b" up to 0x22,3", b""))
        self.assertEqual(listed.told(), "differs in 2 stretches of 10 addresses: f 4 bytes, g 2, 4 between functions")

    def test_ends_that_are_asked_for_stay(self):
        self.assertEqual(self.passed(listing(has_ends=True), FIRST, SECOND), (FIRST + SECOND, False))

    def test_no_more_than_are_wanted(self):
        listed = listing(most=1, has_ends=True)
        self.assertEqual(self.passed(listed, FIRST + SECOND), (FIRST, True))
        self.assertEqual(listed.told(), "differs in more than 1 stretch, where --max ends; it has 8 addresses: f 4 bytes, 4 between functions")

    def test_as_many_as_are_wanted(self):
        listed = listing(most=2, has_ends=True)
        self.assertEqual(self.passed(listed, FIRST + SECOND), (FIRST + SECOND, False))
        self.assertTrue(listed.told().startswith("differs in 2 stretches"))

    def test_within_an_instruction(self):
        listed = listing()
        self.passed(listed, SECOND.replace(b"0x22,3", b"0x20,3"))
        self.assertEqual(listed.told(), "differs in 1 stretch of 0 addresses, as they lie within instructions")

    def test_uncounted(self):
        listed = listing(is_counted=False)
        self.assertEqual(self.passed(listed, FIRST.replace(b" up to 0x18,0", b"")), (FIRST.replace(b" up to 0x18,0", b""), False))
        self.assertEqual(listed.told(), "")

    def test_other_lines_are_passed_on(self):
        listed = listing()
        self.assertEqual(self.passed(listed, b"yes\nans", b"wers 1 of 1\n"), (b"yes\nanswers 1 of 1\n", False))
        self.assertEqual(listed.told(), "")


if __name__ == "__main__":
    unittest.main()
