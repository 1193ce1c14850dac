"""The code by address, and the page that shows it."""

import html.parser
import unittest
from types import SimpleNamespace

from scripts.object import html_page, sources
from scripts.object.coverage import Axis, Column, Coverage, Spread, columns
from scripts.object.functions import Missed
from scripts.object.image import Image
from scripts.object.pages import Part
from scripts.object.stretches import Answer, Stretch
from scripts.object.summary import cut_path, listed, place_text, summary
from scripts.object.tally import EXTRA, MISSING, WRONG

HOSTILE = '/w/<script>alert("1")</script>\x1b[31m.c'


def spread(*found, total=100, name="f"):
    image = Image("ELF", False)
    image.symbols = lambda: [(0, 50, name), (50, 50, "g")]
    return Spread(image, total).add_all(found)


def at(low, high, ours, theirs, path="/w/a.c"):
    return Stretch(low, high, ours and Answer(path, ours, ()), theirs and Answer(path, theirs, ()))


class Findings(SimpleNamespace):
    """What is found, made by hand."""

    def __init__(self, tally, cause="", remedy=""):
        super().__init__(tally=tally, cause=cause, remedy=remedy, counts=lambda: "%d right" % tally.right())


class Run:
    """A run that prints a table by number."""

    def pieces(self):
        yield (b"low,low_op,high,high_op,unit,file,line,column,is_stmt\n0x0,0,0x4,0,0,1,5,0,1\n"
               b"0x4,0,0x8,1,0,2,6,0,1\n0x50,1,0x52,0,0,1,7,0,1\n")

    def judged(self):
        return 0


class Covered(unittest.TestCase):
    def test_what_a_section_answers(self):
        question = SimpleNamespace(run=lambda *_, **__: Run())
        found = Coverage(spread().functions, question, [], lambda unit, file: "/%d-%d" % (unit, file))
        self.assertEqual((found.total(), found.ranges), (10, [[0, 9], [0x51, 0x52]]))
        self.assertEqual((dict(found.by_file), dict(found.by_function.sizes)), ({"/0-1": 5, "/0-2": 5}, {"f": 9, "g": 1}))


class Strips(unittest.TestCase):
    def test_gaps_without_code_are_left_out(self):
        axis = Axis([(10, 20), (30, 35), (15, 22)])
        self.assertEqual((axis.size, axis.place(30), axis.address(12)), (17, 12, 30))

    def test_each_address_is_in_one_column(self):
        found = columns([(0, 600)], [(0, 1, WRONG), (100, 400, MISSING), (700, 703, EXTRA)])
        self.assertEqual(sum(column.size for column in found), 603)
        self.assertEqual([sum(column.counts[what] for column in found) for what in (WRONG, MISSING, EXTRA)], [1, 300, 3])
        self.assertTrue(all(column.right() >= 0 for column in found))

    def test_few_addresses(self):
        self.assertEqual([(column.low, column.high) for column in columns([(5, 7)], [])], [(5, 6), (6, 7)])
        self.assertEqual(columns([], []), [])

    def test_a_single_byte_is_seen(self):
        column = Column(0, 10000, 10000)
        column.counts[WRONG] = 1
        self.assertGreaterEqual(dict(html_page.column_parts(column))[WRONG], html_page.LEAST)

    def test_ranges_that_touch(self):
        tally = spread(at(0, 4, None, 1), at(4, 8, None, 2), at(8, 9, 1, 2))
        self.assertEqual(tally.ranges, [[0, 8, MISSING], [8, 9, WRONG]])
        self.assertEqual(dict(tally.places), {MISSING: 2, WRONG: 1})


class Texts(unittest.TestCase):
    def test_names_are_escaped(self):
        for text in (html_page.escaped(HOSTILE), html_page.in_one_line(HOSTILE), html_page.in_one_line(HOSTILE * 9, True)):
            self.assertNotIn("<script", text)
            self.assertNotIn("\x1b", text)
            self.assertIn("&lt;script&gt;", text)

    def test_long_names(self):
        text = html_page.in_one_line("a" * 50 + "b" * 50)
        self.assertIn("<summary", text)
        self.assertIn("a" * 22 + "&hellip;" + "b" * 22, text)
        self.assertTrue(cut_path("/" + "d" * 500 + "/a.c").startswith(".."))

    def test_bytes_that_are_no_text(self):
        self.assertEqual(html_page.of_latin("a\xff"), "a\udcff")
        self.assertEqual(html_page.escaped("a\udcff"), "a\\xff")


class Parser(html.parser.HTMLParser):
    """The elements of a page, their counts, and which of them are open at its end."""

    def __init__(self):
        super().__init__()
        self.tags, self.open, self.counts, self.at = set(), [], {}, None

    def handle_starttag(self, tag, attrs):
        self.tags.add(tag)
        if tag not in ("meta", "br"):
            self.open.append(tag)
        self.at = dict(attrs).get("data-count")

    def handle_endtag(self, tag):
        assert self.open.pop() == tag, tag

    def handle_data(self, data):
        if self.at:
            self.counts[self.at] = int(data)
            self.at = None


class Pages(unittest.TestCase):
    def page(self, *found, name="f"):
        tally = spread(*found, name=name)
        coverage = SimpleNamespace(by_function=Missed(tally.functions), by_file={"/w/a.c": 100, HOSTILE.encode().decode("latin-1"): 100},
                                   ranges=[(0, 100)])
        coverage.by_function.add(0, 100)
        parts = [Part(HOSTILE, "linetab-object check " + HOSTILE, "no 40 " + HOSTILE, [HOSTILE], Findings(tally, HOSTILE, "do"), coverage),
                 Part("other", "linetab-object check other", "no 36 table header", [])]
        return "".join(html_page.page(HOSTILE, parts, [HOSTILE]))

    def test_counts_and_elements(self):
        text = self.page(at(0, 10, None, 1), at(20, 23, 1, 2), at(90, 91, 1, None), at(95, 96, 1, 2, path=HOSTILE), name=HOSTILE)
        parser = Parser()
        parser.feed(text)
        self.assertEqual(parser.counts, {"right": 86, "wrong": 4, "missing": 10, "extra": 1, "total": 100})
        self.assertFalse({"script", "link", "img", "iframe", "object"} & parser.tags)
        self.assertEqual([tag for tag in parser.open if tag not in ("rect", "circle", "path")], [])

    def test_nothing_of_it_is_fetched(self):
        text = self.page(at(0, 10, None, 1))
        for mark in ("http:", "https:", "src=", "@import", "\x1b"):
            self.assertFalse(mark in text, mark)

    def test_many_functions_are_folded(self):
        text = html_page.table(["a"], ["<tr><td>%d</td></tr>" % k for k in range(30)], "what")
        self.assertIn("and 10 more", text)

    def test_what_it_comes_to(self):
        for found, text in (((), "right"), ((at(0, 1, None, 1),), "right where it answers: no answer for 1.0 %"), ((at(0, 1, 1, 2),), "wrong")):
            self.assertEqual(html_page.verdict(Part("t", "", "yes", [], Findings(spread(*found)), None)), text)
        self.assertEqual(html_page.verdict(Part("t", "", "no 36 table header", [])), "not compared")


class Lines(unittest.TestCase):
    def test_lines_of_sources(self):
        import os
        import tempfile

        with tempfile.TemporaryDirectory() as folder:
            for name in ("a.c", "secret"):
                with open(os.path.join(folder, name), "w") as file:
                    file.write("one\n  two <b>\n")
            os.mkfifo(os.path.join(folder, "pipe.c"))
            read = sources.Sources()
            self.assertEqual(read.line(os.path.join(folder, "a.c"), 2), "two <b>")
            for name, number in (("a.c", 9), ("a.c", 0), ("none.c", 1), ("secret", 1), ("pipe.c", 1)):
                self.assertEqual(read.line(os.path.join(folder, name), number), "")
            self.assertEqual(read.line("a.c", 1), "")
            self.assertEqual(read.line("/a\0.c", 1), "")


class Summaries(unittest.TestCase):
    def test_lines(self):
        tally = spread(at(0, 10, None, 1), at(20, 23, 1, 2))
        self.assertEqual(list(summary(Findings(tally, "so it is", "do it"))), [
            "87 right", "kinds: no answer 10, another line 3", "files: /w/a.c 3 wrong and 10 missing",
            "functions: f 3 wrong and 10 missing", "at 0x14 in f, 3 bytes wrong: /w/a.c:1 in place of /w/a.c:2",
            "at 0x0 in f, 10 bytes missing: none in place of /w/a.c:1", "cause: so it is", "what settles it: do it"])
        self.assertEqual(list(summary(Findings(spread()))), ["100 right"])

    def test_a_hostile_path(self):
        stretch = at(0, 1, 1, 2, path=HOSTILE)
        self.assertNotIn("\x1b", place_text(stretch, spread(stretch)))
        self.assertNotIn("\x1b", "".join(summary(Findings(spread(stretch, name=HOSTILE)))))

    def test_the_first_ten(self):
        text = listed([("n%d" % k, {WRONG: 1, MISSING: 0, EXTRA: 0}) for k in range(12)], str)
        self.assertTrue(text.endswith("n9 1 wrong, .. and 2 more"))


if __name__ == "__main__":
    unittest.main()
