"""What the word check reads of the program's answers."""

import unittest

from scripts.object.check import counts_in


class Counts(unittest.TestCase):
    def test_answers_that_have_them(self):
        self.assertEqual(counts_in(b"yes\nanswers 5 of 17\n"), (5, 17))
        self.assertEqual(counts_in(b"no 46 answers 0 of 0\n"), (0, 0))

    def test_others(self):
        for answer in (b"", b"yes\n", b"yes\nanswers 5 of 17", b"no 47 answers 5 of 17\n", b"answers 5 of 17\n", b"no 40 differs at 0x5,0 table a of b\n",
                       b"no 46 answers 5 of 17\nmore\n"):
            self.assertIsNone(counts_in(answer))


if __name__ == "__main__":
    unittest.main()
