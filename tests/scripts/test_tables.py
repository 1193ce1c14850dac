"""The records of address tables."""

import unittest

from scripts.object.tables import LAYOUTS, LONGEST, Unclear, layout_of, records, texts


class Records(unittest.TestCase):
    def test_pieces_break_lines_anywhere(self):
        self.assertEqual(list(records([b"\xef\xbb\xbflow,hi", b'gh\n\n"a\n', b'b",\xe9'])), [["low", "high"], ["a\nb", "\xe9"]])

    def test_long_lines_are_unclear(self):
        with self.assertRaises(Unclear):
            list(texts([b"a" * LONGEST, b"a"]))
        with self.assertRaises(Unclear):
            list(records([b'a,"b"\rc"\n']))

    def test_layouts_of_versions(self):
        self.assertEqual([(layout.high, layout.answer) for layout in LAYOUTS], [(2, 4), (2, 4), (1, 2), (1, 2)])
        with self.assertRaises(Unclear):
            layout_of(["low"])

    def test_what_an_answer_is_known_by(self):
        self.assertEqual(LAYOUTS[3].key(["0x1", "0x2", "C:\\w/a.c", "7"]), ("a.c", "7"))
        self.assertEqual(LAYOUTS[0].key(["0x1", "0", "0x2", "0", "0", "1", "7", "0", "1"]), ("0", "1", "7", "0", "1"))


if __name__ == "__main__":
    unittest.main()
