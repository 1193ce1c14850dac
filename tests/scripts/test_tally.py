"""Differences that are added up, and the cause that is named."""

import unittest

from scripts.object.causes import Causes
from scripts.object.image import Image
from scripts.object.rows import others, rows
from scripts.object.stretches import Answer, Answers, Stretch, joined, stretches
from scripts.object.tally import (COLUMN, COPY, EXTRA, FILE, FIRST, LINE, MISSING, OTHERS, PATH, WRONG, Tally, Worst, kind_of, worst_files,
                                  worst_functions)


def image(*functions):
    made = Image("ELF", False)
    made.symbols = lambda: functions
    return made


def at(low, high, ours, theirs, path="/w/a.c", other=None):
    """A stretch at which the table says one line and the section another; None is no answer."""
    return Stretch(low, high, None if ours is None else Answer(other or path, ours, ()), None if theirs is None else Answer(path, theirs, ()))


def tally(*found, total=100, functions=((0, 50, "f"), (50, 50, "g"))):
    return Tally(image(*functions), total).add_all(found)


class Stretches(unittest.TestCase):
    def test_both_answers(self):
        lines = (b'no 40 differs at 0x10,0 up to 0x18,0 table none section "/a\\x22\\x2c",1\n'
                 b'no 40 differs at 0x20,1 up to 0x20,3 table "/a",2 section "/a",1\n'
                 b'no 40 differs at 0x30,0 up to 0x32,0 table "/a",2,7 section none\nyes\n')
        self.assertEqual(list(stretches([lines], Answers())), [
            Stretch(0x10, 0x18, None, Answer('/a",', 1, ())), Stretch(0x30, 0x32, Answer("/a", 2, (7,)), None)])

    def test_answers_by_number(self):
        answers = Answers(lambda unit, file: "/%d-%d" % (unit, file))
        self.assertEqual(answers[b"5,1,7,3,1"], Answer("/5-1", 7, (3, 1, 5, 1)))
        self.assertEqual(Answers()[b"5,1,7,3,1"].path, "unit 5 file 1")

    def test_those_that_touch_are_one(self):
        self.assertEqual(list(joined([at(0, 2, None, 1), at(2, 4, None, 2), at(5, 6, None, 3)])), [at(0, 4, None, 1), at(5, 6, None, 3)])
        self.assertEqual(list(joined([])), [])


class Sums(unittest.TestCase):
    def test_kinds(self):
        for ours, theirs, kind in (
            (("/a", 1, ()), ("/a", 2, ()), LINE), (("/a/b", 1, ()), ("/c/b", 1, ()), PATH), (("/a/b", 1, ()), ("/a/c", 1, ()), FILE),
            (("C:\\a\\b", 1, ()), ("/c/b", 1, ()), PATH), (("/a", 1, (3,)), ("/a", 1, (4,)), COLUMN), (("/a/b", 1, ()), ("/c/b", 2, ()), LINE),
            (("/a", 1, (3, 0, 0, 1)), ("/a", 1, (3, 1, 0, 1)), OTHERS),
        ):
            self.assertEqual(kind_of(Answer(*ours), Answer(*theirs)), kind)

    def test_counts(self):
        found = tally(at(0, 10, None, 1), at(20, 30, 5, 6), at(60, 63, 5, None), at(70, 74, 1, 1, other="/x/a.c"))
        self.assertEqual([found.count(what) for what in (WRONG, MISSING, EXTRA)], [14, 10, 3])
        self.assertEqual(found.right(), 76)
        self.assertEqual(dict(found.kinds), {LINE: 10, PATH: 4})
        self.assertEqual(dict(found.pairs), {("/x/a.c", "/w/a.c"): 4})
        self.assertEqual(list(worst_functions(found)), [("f", {MISSING: 10, WRONG: 10}), ("g", {EXTRA: 3, WRONG: 4})])
        self.assertEqual(worst_files(found)[:2], [("/w/a.c", {WRONG: 14, MISSING: 10, EXTRA: 3})])

    def test_the_worst_are_wrong_ones(self):
        worst = Worst(2)
        for stretch in (at(0, 10, None, 1), at(20, 22, 1, 2), at(30, 31, 1, 2), at(40, 44, 1, None)):
            worst.add(stretch)
        self.assertEqual((worst.count, worst.largest(1)), (4, [at(40, 44, 1, None)]))
        self.assertEqual(worst.in_order(), [at(20, 22, 1, 2), at(40, 44, 1, None)])

    def test_code_between_functions_has_no_name(self):
        self.assertEqual(list(worst_functions(tally(at(4, 12, None, 1), functions=((0, 8, "f"),)))), [("", {MISSING: 4}), ("f", {MISSING: 4})])


class OtherRows(unittest.TestCase):
    DUMP = (b"unit 0x0 32 10\nheader\nrow 0 0x10 0 1 5 2 1 - 0 0\nrow 1 0x10 0 1 6 2 1 - 0 0\nrow 2 0x14 0 1 6 2 1 e 0 0\n"
            b"row 3 0x12 0 2 9 2 1 b 0 0\nrow 4 0x18 0 2 9 2 1 be 0 0\n")

    def test_rows(self):
        found = list(rows([self.DUMP[:30], self.DUMP[30:]]))
        self.assertEqual(found[0], (0, 0x10, 1, 5, 2, False))
        self.assertEqual([row[-1] for row in found], [False, False, True, False, True])

    def test_others(self):
        found = [(address, kind, row[3]) for address, kind, row in others(rows([self.DUMP]), [0x10, 0x13, 0x20])]
        self.assertEqual(found, [(0x10, FIRST, 5), (0x10, COPY, 6), (0x13, COPY, 6), (0x13, COPY, 9)])


def cause(found, diagnosed=None):
    return Causes("t", found, diagnosed).found()[0]


class Named(unittest.TestCase):
    def test_nothing_differs(self):
        self.assertEqual(Causes("t", tally(), None).found(), ("", ""))

    def test_dots(self):
        self.assertIn("differ by . and .. alone, which those of t have: /w/./a.c", cause(tally(at(0, 9, 1, 1, other="/w/./a.c"))))
        self.assertIn("which those of the section have", cause(tally(at(0, 9, 1, 1, path="/w/x/../a.c", other="/w/a.c"))))

    def test_what_is_shown_by_a_second_comparison(self):
        self.assertEqual(Causes("t", tally(at(0, 9, 1, 2)), ("so", "do")).found(), ("so", "do"))

    def test_declarations(self):
        late = tally(at(0, 4, 7, None), at(4, 20, 7, 8), at(20, 40, 7, 9))
        self.assertIn("1 function has one line throughout", cause(late))
        self.assertNotIn("throughout", cause(tally(at(0, 4, 7, None), at(4, 20, 7, 8), at(20, 40, 6, 9))))
        self.assertNotIn("throughout", cause(tally(at(4, 20, 7, 8), at(20, 40, 7, 9))))

    def test_rows_that_do_not_answer(self):
        for kind, text in ((COPY, "answers by another one than the first"), (FIRST, "the first of two rows")):
            found, stretch = tally(at(0, 9, 1, 2)), at(0, 9, 1, 2)
            found.move(stretch, kind)
            self.assertIn(text, cause(found))

    def test_columns(self):
        for ours, theirs, text in ((0, 7, "they are 0"), (3, 65539, "are cut to 16 bits"), (8, 7, "they differ by +1")):
            stretch = Stretch(0, 9, Answer("/a", 1, (ours,)), Answer("/a", 1, (theirs,)))
            self.assertIn("columns alone are wrong: " + text if "are cut" not in text else text, cause(tally(stretch)))

    def test_what_is_missing(self):
        self.assertEqual(cause(tally(at(0, 40, None, 1))), "t has no answer for 40 of 100 addresses, and is right elsewhere")

    def test_lines_that_are_shifted(self):
        self.assertEqual(cause(tally(*(at(k, k + 1, k + 5, k + 4) for k in range(0, 30, 3)))), "lines alone are wrong: they differ by +1")

    def test_relative_paths(self):
        found = Causes("t", tally(at(0, 9, 1, 1, other="./a.c")), None).found()
        self.assertEqual(found, ("paths in t are relative, as ./a.c in place of /w/a.c", "linetab-table --paths-of makes them whole"))

    def test_another_build(self):
        found = tally(*(at(k, k + 2, k * k % 17 + 50, k) for k in range(0, 100, 2)))
        self.assertIn("t may be of another build", cause(found))

    def test_nothing_in_common(self):
        self.assertEqual(cause(tally(at(0, 3, 1, 2), at(8, 10, 5, 1))), "")


if __name__ == "__main__":
    unittest.main()
