import unittest

from made import heard
from scripts.bounded import Refusal
from scripts.table.lines import place_of, range_of, spans_of, united

A, B = (b"/a", 1), (b"/b", 2)


def spans(*lines):
    return spans_of([line + b"\n" for line in lines])


class Ranges(unittest.TestCase):
    def test_an_address_or_two(self):
        for words, found in (
            ([b"0x10", b"/a.c:3"], (0x10, 0x11, b"/a.c:3")), ([b"10", b"my b.c:3"], (0x10, 0x11, b"my b.c:3")),
            ([b"0X10", b"0x1F /a.c:3"], (0x10, 0x1F, b"/a.c:3")), ([b"10", b"20 \t /a.c:3"], (0x10, 0x20, b"/a.c:3")),
            ([b"10", b"0x20 /a.c:3"], (0x10, 0x20, b"/a.c:3")), ([b"0x10", b"20 b.c:3"], (0x10, 0x11, b"20 b.c:3")),
            ([b"10", b"0x20:3"], (0x10, 0x11, b"0x20:3")), ([b"0x10", b"0x10 a:3"], (0x10, 0x10, b"a:3")),
            ([b"0xfffffffffffffffe", b"a:3"], (2**64 - 2, 2**64 - 1, b"a:3")), ([b"f" * 15 + b"e", b"f" * 16 + b" a:3"], (2**64 - 2, 2**64 - 1, b"a:3")),
        ):
            self.assertEqual(range_of(words, 1), found)

    def test_others(self):
        for words, text in (
            ([b"main", b"a:3"], 'its line 7 has "main" in place of an address, which is'), ([b"0x" + b"0" * 17, b"a:3"], "in place of an address"),
            ([b"0x", b"a:3"], 'has "0x" in place of'), ([b"-10", b"a:3"], 'has "-10" in place of'),
            ([b"0x20", b"0x10 a:3"], "its line 7 has \"0x10\" in place of an address that isn't below"), ([b"f" * 16, b"a:3"], "with another one above"),
        ):
            with self.assertRaisesRegex(Refusal, text):
                range_of(words, 7)


class Places(unittest.TestCase):
    def test_paths_with_lines_and_columns(self):
        for text, found in (
            (b"/a.c:3", (b"/a.c", b"3", None)), (b"/a.c:3:5", (b"/a.c", b"3", b"5")), (b"C:/x:12", (b"C:/x", b"12", None)),
            (b"C:\\x y:12:0", (b"C:\\x y", b"12", b"0")), (b"a:b:3", (b"a:b", b"3", None)), (b"a::3", (b"a:", b"3", None)),
            (b"1:2:3:4", (b"1:2", b"3", b"4")), (b"??:?", (b"??", b"?", None)), (b"a:" + b"9" * 19, (b"a", b"9" * 19, None)),
        ):
            self.assertEqual(place_of(text, 1), found)

    def test_others(self):
        for text in (b"", b"a", b":3", b":3:4", b"a:", b"a:x", b"a:3x", b"a:-3", b"a:" + b"9" * 20):
            with self.assertRaisesRegex(Refusal, "^its line 7 has (\".*\"|nothing) in place of PATH:LINE or PATH:LINE:COLUMN$"):
                place_of(text, 7)


class Spans(unittest.TestCase):
    def test_in_any_order(self):
        self.assertEqual(spans(b"20 24 /b:2", b"", b"0x10 /a:1\r", b" 11\t/a:1 (discriminator 7) "), ([(0x10, 0x11, A), (0x11, 0x12, A), (0x20, 0x24, B)], False))

    def test_columns_if_any_line_has_one(self):
        self.assertEqual(spans(b"10 /a:1", b"11 /b:2:9"), ([(0x10, 0x11, (b"/a", 1, 0)), (0x11, 0x12, (b"/b", 2, 9))], True))

    def test_what_answers_nothing(self):
        self.assertEqual(spans(b"10 ??:0", b"11 crt.c:?", b"12 12 /a:1", b"13 ??:0:0"), ([], True))

    def test_a_mark_of_utf_8(self):
        self.assertEqual(spans(b"\xef\xbb\xbf10 /a:1"), ([(0x10, 0x11, A)], False))

    def test_those_that_overlap(self):
        self.assertEqual(list(united([(5, 9, A), (1, 6, A), (8, 10, B), (9, 10, B)])), [(1, 9, A), (8, 10, B)])
        with heard() as ear:
            self.assertEqual(spans(b"10 20 /a:1", b"18 /b:2", b"18 28 /a:1")[0], [(0x10, 0x20, A)])
            self.assertEqual(spans(b"10 20 /a:1", b"18 /a:1", b"1f 28 /a:1", b"10 /a:1")[0], [(0x10, 0x28, A)])
        self.assertEqual(ear.notes, ["left out, since they overlap an earlier one: 2 lines"])

    def test_what_is_none(self):
        for lines, text in (([b""], "it has no line"), ([], "it has no line"), ([b"10 /a:1", b"10"], "its line 2 has nothing in place of PATH")):
            with self.assertRaisesRegex(Refusal, text):
                spans(*lines)
        with self.assertRaisesRegex(Refusal, "its last line, 2, has no end: it is cut"):
            spans_of([b"10 /a:1\n", b"11 /a:1"])


if __name__ == "__main__":
    unittest.main()
