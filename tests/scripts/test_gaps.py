"""Lines of the word gaps."""

import unittest

from scripts.object.gaps import record
from scripts.object.stretches import Answer, Stretch


class Lines(unittest.TestCase):
    def test_a_line(self):
        gap = Stretch(0x10, 0x18, None, Answer("/a,b\xff", 3, (7,)))
        self.assertEqual(record(gap, "f", False), b'0x10,0x18,8,f,"/a,b\xff",3\n')
        self.assertEqual(record(gap, None, False), b'0x10,0x18,8,,"/a,b\xff",3\n')

    def test_a_line_that_a_terminal_shows(self):
        gap = Stretch(0, 1, None, Answer("/\x1b[31m", 1, ()))
        self.assertEqual(record(gap, "a\x1bb", False).count(b"\x1b"), 2)
        self.assertEqual(record(gap, "a\x1bb", True).count(b"\x1b"), 0)


if __name__ == "__main__":
    unittest.main()
