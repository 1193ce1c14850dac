import unittest

from made import heard
from scripts.bounded import PIECE, Refusal
from scripts.table.spans import LONGEST, apart, first_difference, joined, meant, quoted, steps, table_of

A, B = (b"/a", 1), (b"/b", 2)


class Rows(unittest.TestCase):
    def test_steps(self):
        self.assertEqual(list(steps([(1, A), (3, B), (3, A), (5, None)])), [(1, 3, A), (3, 5, A)])
        self.assertEqual(list(steps([(1, None), (3, A)])), [])
        self.assertEqual(list(steps([])), [])

    def test_joined(self):
        self.assertEqual(list(joined([(1, 3, A), (3, 5, A), (5, 6, B), (7, 8, B)])), [(1, 5, A), (5, 6, B), (7, 8, B)])
        self.assertEqual(list(joined([])), [])

    def test_what_tools_mean(self):
        for said, answer in (
            ((b"/a", b"1"), A), ((b"/a", b"1", b"3"), (b"/a", 1, 3)), ((b"/a", b"1", None), (b"/a", 1, 0)), ((b"/a", b"?"), (b"/a", 0)),
            ((b"a", b"?"), None), ((b"a", b"0"), (b"a", 0)), ((b"??", b"0"), None), ((b"??", b"?", b"?"), None),
        ):
            self.assertEqual(meant(*said), answer)


class Apart(unittest.TestCase):
    def test_what_overlaps_is_left_out_and_told(self):
        with heard() as ear:
            self.assertEqual(list(apart([(1, 5, A), (2, 3, B), (4, 6, A), (5, 7, B)], "line")), [(1, 5, A), (5, 7, B)])
        self.assertEqual(ear.notes, ["left out, since they overlap an earlier one: 2 lines"])

    def test_nothing_is_told_where_nothing_does(self):
        with heard() as ear:
            self.assertEqual(len(list(apart([(1, 2, A), (2, 3, A)], "line"))), 2)
        self.assertEqual(ear.notes, [])


class Tables(unittest.TestCase):
    def test_both_versions(self):
        self.assertEqual(b"".join(table_of([(1, 0x1F, A)], False)), b"low,high,path,line\n0x1,0x1f,/a,1\n")
        self.assertEqual(b"".join(table_of([(1, 2, (b"a,b", 1, 7))], True)), b'low,high,path,line,column\n0x1,0x2,"a,b",1,7\n')

    def test_a_long_one_comes_in_pieces(self):
        spans = ((low, low + 1, (b"x" * LONGEST, 1)) for low in range(1000))
        pieces = list(map(len, table_of(spans, False)))
        self.assertGreater(len(pieces), 3)
        self.assertLess(max(pieces), PIECE + 2 * LONGEST)

    def test_quotes(self):
        self.assertEqual([quoted(path) for path in (b"a b", b'a"b', b"a\nb")], [b"a b", b'"a""b"', b'"a\nb"'])

    def test_a_path_that_is_too_long(self):
        with self.assertRaises(Refusal):
            list(table_of([(1, 2, (b"x" * (LONGEST + 1), 1))], False))


class Differences(unittest.TestCase):
    def test_the_first_one(self):
        self.assertEqual(first_difference([(1, 5, A), (5, 9, A)], [(1, 3, A), (4, 6, B)]), (4, A, B))

    def test_where_one_has_no_answer_there_is_none(self):
        self.assertIsNone(first_difference([(1, 5, A)], [(0, 1, B), (2, 4, A), (5, 8, B)]))
        self.assertIsNone(first_difference([], [(0, 1, B)]))


if __name__ == "__main__":
    unittest.main()
