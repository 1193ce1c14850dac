"""The sequences that a text lists."""

import unittest
from types import SimpleNamespace

from scripts.bounded import Refusal
from scripts.table.sequences import spans_of

A, B = ("/a", 1), ("/b", 2)


def spans(*sequences, dead=None, skip_copies=False):
    rows = (row for rows in sequences for row in rows)
    return list(spans_of(rows, SimpleNamespace(dead=dead, skip_copies=skip_copies), str.encode))


def answer(path, *numbers):
    return (path.encode(), *numbers)


class Spans(unittest.TestCase):
    def test_in_the_order_of_addresses(self):
        self.assertEqual(spans([(8, A), (9, B), (12, None)], [(0, A), (4, None)]), [(0, 4, answer(*A)), (8, 9, answer(*A)), (9, 12, answer(*B))])
        self.assertEqual(spans(), [])

    def test_those_that_answer_the_same_are_one(self):
        self.assertEqual(spans([(0, A), (2, A), (2, B), (2, A), (3, None)]), [(0, 3, answer(*A))])

    def test_columns(self):
        self.assertEqual(spans([(0, ("/a", 1, 7)), (1, ("/a", 1, 8)), (2, None)]), [(0, 1, answer("/a", 1, 7)), (1, 2, answer("/a", 1, 8))])

    def test_rows_that_go_back_and_do_not_overlap(self):
        self.assertEqual(spans([(8, A), (9, A), (2, B), (4, None)]), [(2, 4, answer(*B)), (8, 9, answer(*A))])

    def test_without_discarded_ones_and_copies(self):
        sequences = [[(0, A), (4, None)], [(8, A), (9, B), (12, None)], [(8, B), (12, None)], [(0, B), (99, None)]]
        self.assertEqual(spans(*sequences, dead=0, skip_copies=True), [(8, 9, answer(*A)), (9, 12, answer(*B))])


class Overlaps(unittest.TestCase):
    def test_it_is_told_where(self):
        for sequences, address in (
            (([(8, A), (12, None)], [(8, A), (12, None)]), "0x8"), (([(8, A), (12, None)], [(11, B), (13, None)]), "0xb"),
            (([(8, A), (12, A), (9, B), (10, None)],), "0x9"),
        ):
            with self.assertRaisesRegex(Refusal, "sequences overlap in it at %s: --skip-copies leaves out copies" % address):
                spans(*sequences)

    def test_one_that_is_cut(self):
        with self.assertRaisesRegex(Refusal, "it ends within a sequence"):
            spans([(8, A), (12, B)])


if __name__ == "__main__":
    unittest.main()
