import json
import os
import types
import unittest

from scripts.object.image import Image
from scripts.object import report as module
from scripts.object.report import Lines, Report, put_lack, text_of


class Kept:
    """A sink that keeps what is written."""

    def __init__(self):
        self.content, self.status = b"", None

    def write(self, piece):
        self.content += piece

    def end(self, status):
        self.status = status


def given(*others, names=()):
    return types.SimpleNamespace(others=list(others), names=set(names))


def written(report, status):
    sink = Kept()
    report.put(sink, status)
    assert sink.content.endswith(b"\n") and sink.content.count(b"\n") == 1 and sink.content.isascii() and sink.status == status
    return json.loads(sink.content)


class Texts(unittest.TestCase):
    def test_bytes_that_are_not_utf_8(self):
        self.assertEqual(text_of(os.fsdecode(b"a\xff\xc3\xa4\x1b")), "a\\xff\u00e4\x1b")
        self.assertEqual(text_of(b"a\\b"), "a\\b")

    def test_lines(self):
        self.assertEqual(b"".join(Lines().pieces()), b"[]")
        lines = Lines()
        for line in (b'a"', b"\xff"):
            lines.add(line)
        self.assertEqual(json.loads(b"".join(lines.pieces())), ['a"', "\\xff"])


class Objects(unittest.TestCase):
    def test_a_yes(self):
        report = Report(given(), "app")
        report.know(image=Image("ELF", False))
        report.facts["image"].note_segments = lambda: ()
        report.write(b"ye")
        report.write(b"s\n")
        report.note("so it is")
        self.assertEqual(written(report, 0), {
            "file": "app", "identifier": None, "answer": "yes", "number": None, "line": "yes", "notes": ["so it is"]})

    def test_a_no_with_counts(self):
        report = Report(given("app.sym"), "app")
        missed = types.SimpleNamespace(listed=lambda: [("f", 3)], between=2)
        report.know(counts=(1, 6), missed=missed)
        report.write(b"no 46 answers 1 of 6\n")
        found = written(report, 1)
        self.assertEqual((found["answer"], found["number"], found["line"]), ("no", 46, "no 46 answers 1 of 6"))
        self.assertEqual((found["symbols"], found["answered"], found["of"], found["missing"]), ("app.sym", 1, 6, {"f": 3, "": 2}))

    def test_differences(self):
        report = Report(given("t.csv", names=["--all"]), "app")
        report.write(b"no 40 differs at 0x0,0 table none section none\nno 40 differs at 0x1,0 table none section none\n")
        found = written(report, 1)
        self.assertEqual((len(found["differences"]), found["line"]), (2, found["differences"][0]))

    def test_a_summary(self):
        report = Report(given("app.sym"), "app")
        report.know(summary=["1 right", "a\udcff"])
        report.write(b"yes\n")
        self.assertEqual(written(report, 0)["summary"], ["1 right", "a\\xff"])

    def test_what_lacks_its_other_half(self):
        sink = Kept()
        module.Standard, kept = (lambda: sink), module.Standard
        self.addCleanup(setattr, module, "Standard", kept)
        put_lack("app", None, "no symbol file", None)
        found = json.loads(sink.content)
        self.assertEqual((found["file"], found["symbols"], found["answer"], found["line"]), ("app", None, "no", "no symbol file"))

    def test_a_no_without_a_number(self):
        report = Report(given("app.sym"), "app")
        report.write(b"no other build: app.sym is of 1, app is 2\n")
        self.assertIsNone(written(report, 1)["number"])

    def test_what_was_not_judged(self):
        report = Report(given("t.csv", names=["--all"]), "app")
        report.write(b"no 40 differs at 0x0,0 table none section none\nno 40")
        report.told("linetab: cannot read t.csv")
        found = written(report, 3)
        self.assertEqual((found["answer"], found["line"], found["reason"], found["status"]), ("none", None, "cannot read t.csv", 3))
        self.assertEqual(found["differences"], [])

    def test_a_run_that_was_ended(self):
        found = Report(given(), "app").fields(-11)
        self.assertEqual((found["answer"], found["reason"], found["status"]), ("none", "signal 11 ended the program", 3))


if __name__ == "__main__":
    unittest.main()
