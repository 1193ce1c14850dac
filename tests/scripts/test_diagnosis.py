"""What differences have in common: shifts, and beginnings of paths."""

import unittest
from types import SimpleNamespace

from scripts.kinds import BREAKPAD
from scripts.object.diagnosis import Change, Differences, Head, beginnings, option_text, unescaped, what_is_so, what_to_do
from scripts.object.image import Image
from scripts.object.tables import LAYOUTS, Unclear, layout_of

LINES = layout_of(["low", "high", "path", "line"])
HEADER = b"low,high,path,line\n"


def spans(*answers, base=0x1000):
    """A span of 16 bytes for each answer, a path with its line."""
    return [["0x%x" % (base + 16 * k), "0x%x" % (base + 16 * k + 16), path, str(line)] for k, (path, line) in enumerate(answers)]


def written(change, *answers):
    return b"".join(change.pieces(LINES, iter(spans(*answers))))


class Run:
    """A run of the program that has ended."""

    def __init__(self, text, status):
        self.text, self.status = text, status

    def pieces(self):
        yield self.text[:10]
        yield self.text[10:]

    def end(self):
        return self.status


def comparison(kind=None, base=0x400000, load=0x400000, maps=()):
    image = Image("ELF", False)
    image.load_address = lambda: load
    other = SimpleNamespace(name="app.sym", kind=kind, is_symbol_file=kind is not None)
    return SimpleNamespace(name="app", image=image, base=base, other=other, given=SimpleNamespace(maps=maps))


class Shifts(unittest.TestCase):
    answers = [("/w/a.c", line) for line in (1, 2, 3, 2)]

    def test_most_answers_decide(self):
        here, there = Head(LINES, spans(*self.answers, base=0x5000)), Head(LINES, spans(*self.answers))
        self.assertEqual(here.shift_from(there), 0x4000)
        self.assertEqual(there.shift_from(here), -0x4000)
        self.assertEqual(here.shift_from(here), 0)

    def test_answers_in_several_places_say_nothing(self):
        twice = [("/w/a.c", 1), ("/w/a.c", 2)] * 2
        self.assertEqual(Head(LINES, spans(*twice, base=0x5000)).shift_from(Head(LINES, spans(*twice))), 0)

    def test_one_answer_is_too_few(self):
        self.assertEqual(Head(LINES, spans(("/w/a.c", 1), base=0x5000)).shift_from(Head(LINES, spans(("/w/a.c", 1)))), 0)

    def test_folders_of_files_say_nothing(self):
        others = [("C:\\a.c", line) for _, line in self.answers]
        self.assertEqual(Head(LINES, spans(*others, base=0x2000)).shift_from(Head(LINES, spans(*self.answers))), 0x1000)

    def test_spans_that_touch_and_answer_alike_are_one(self):
        self.assertEqual(Head(LINES, spans(("/w/a.c", 1), ("/w/a.c", 1))).lows, {("a.c", "1"): 0x1000})


class Beginnings(unittest.TestCase):
    def test_shortest_ones(self):
        pairs = {("/b/s/a.c", "/w/s/a.c"), ("/b/b.c", "/w/b.c")}
        self.assertEqual(beginnings(pairs, []), [("/b/", "/w/")])
        self.assertEqual(beginnings({("a.c", "/w/a.c")}, []), [("", "/w/")])

    def test_what_is_right_stays(self):
        self.assertEqual(beginnings({("s/a.c", "/w/s/a.c")}, ["/usr/b.h"]), [("s/", "/w/s/")])
        self.assertEqual(beginnings({("/b/s/a.c", "/w/s/a.c")}, ["/b/t/b.c"]), [("/b/s/", "/w/s/")])
        self.assertEqual(beginnings({("/a.c", "/w/a.c")}, ["/a.c/b"]), [])

    def test_several_beginnings_the_longest_first(self):
        pairs = {("s/a.c", "/w/s/a.c"), ("tt/b.c", "/v/tt/b.c")}
        self.assertEqual(beginnings(pairs, []), [("tt/", "/v/tt/"), ("s/", "/w/s/")])

    def test_other_names_have_none(self):
        self.assertEqual(beginnings({("/w/a.c", "/w/b.c")}, []), [])

    def test_relative_ones_that_become_whole(self):
        for maps, is_so in (([("", "/w/")], True), ([("s/", "C:/w/s/"), ("", "\\\\s\\")], True), ([("", "w/")], False), ([("/v/", "/w/")], False), ([], False)):
            self.assertEqual(Change(maps=maps).is_about_relative(), is_so)


class Changes(unittest.TestCase):
    def test_addresses(self):
        self.assertEqual(written(Change(0x800), ("/w/a.c", 1)), HEADER + b"0x800,0x810,/w/a.c,1\n")

    def test_paths(self):
        change = Change(maps=[("/b/c/", "/x,y/"), ("/b/", "/w/")])
        self.assertEqual(written(change, ("/b/c/a.c", 1), ("/b/a\xe9.c", 2), ("a.c", 3)),
                         HEADER + b'0x1000,0x1010,"/x,y/a.c",1\n0x1010,0x1020,/w/a\xe9.c,2\n0x1020,0x1030,a.c,3\n')

    def test_positions(self):
        out = b"".join(Change(16).pieces(LAYOUTS[0], iter([["0x20", "0", "0x30", "1", "0", "1", "7", "0", "1"]])))
        self.assertEqual(out.splitlines()[1], b"0x10,0,0x20,1,0,1,7,0,1")

    def test_backslashes_and_beginnings(self):
        change = Change().with_paths({("C:\\s\\a.c", "/w/s/a.c")}, [])
        self.assertTrue(change.is_turned)
        self.assertEqual(change.maps, [("C:/", "/w/")])
        self.assertEqual(change.path("C:\\s\\a.c"), "/w/s/a.c")

    def test_nothing_new(self):
        self.assertIsNone(Change().with_paths({("/w/a.c", "/w/b.c")}, []))
        self.assertFalse(Change())


class Listed(unittest.TestCase):
    def test_pairs_of_paths(self):
        run = Run(b'no 40 differs at 0x1,0 table "/b\\x5ca.c",1 section "/w/a.c",1\nno 40 differs at 0x2,0 table "/a",1 section "/b",2\n'
                  b'no 40 differs at 0x3,0 table none section "/b",2\nno 40 differs at 0x4,0 table "/c",1,2 section "/d",1,2\n', 1)
        differences = Differences(run, None)
        self.assertEqual((differences.count, differences.pairs), (4, {("/b\\a.c", "/w/a.c"), ("/c", "/d")}))

    def test_no_more_than_wanted(self):
        self.assertEqual(Differences(Run(b"no 40 differs\n" * 9, -13), 4).count, 4)

    def test_yes(self):
        self.assertEqual(Differences(Run(b"yes\nanswers 1 of 2\n", 0), 4).count, 0)

    def test_another_end(self):
        with self.assertRaises(Unclear):
            Differences(Run(b"", 4), 4)

    def test_bytes_of_paths(self):
        self.assertEqual(unescaped("a\\x22\\xc3b"), 'a"\xc3b')


class Told(unittest.TestCase):
    def told(self, change, *args, **options):
        one = comparison(*args, **options)
        return what_is_so(change, one), what_to_do(change, one)

    def test_shifts(self):
        self.assertEqual(self.told(Change(0x1000), BREAKPAD, base=0x401000),
                         ("each record of app.sym lies 0x1000 too high", ["check it without --base"]))
        self.assertEqual(self.told(Change(-0x1000), BREAKPAD)[1], ["check it with --base 0x401000"])
        self.assertEqual(self.told(Change(0x500000), BREAKPAD)[1], ["make it of the program as it is linked"])
        self.assertEqual(self.told(Change(-16), "gsym"),
                         ("each record of app.sym lies 0x10 too low", ["make it of the program as it is linked"]))
        self.assertEqual(self.told(Change(-16))[1], ["add 0x10 to each address in it"])

    def test_paths(self):
        change = Change(maps=[("/b/", "/w/"), ("", "./")])
        self.assertEqual(self.told(change, BREAKPAD), ("paths in app.sym begin with /b/ in place of /w/, or with nothing in place of ./",
                                                       ["check it with --map /b/=/w/ --map =./"]))
        self.assertEqual(self.told(change, BREAKPAD, maps=[("a", "b")])[1], ["correct --map"])
        self.assertEqual(self.told(change)[1], ["write them as linetab-object files app lists them"])

    def test_many_beginnings(self):
        change = Change(maps=[("/%d/" % k, "/w/") for k in range(6)])
        text, advice = self.told(change, BREAKPAD)
        self.assertTrue(text.endswith(", or with /3/ in place of /w/, .. and 2 more"))
        self.assertEqual(advice, ["write them as linetab-object files app lists them"])

    def test_values_of_options(self):
        self.assertEqual(option_text(("/a b/", "/w/")), "'/a b/=/w/'")


if __name__ == "__main__":
    unittest.main()
