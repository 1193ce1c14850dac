"""Several answers at a time, and what is paired with what."""

import os
import struct
import tempfile
import time
import types
import unittest

from scripts.bounded import Failure
from scripts.kinds import BREAKPAD, GSYM, TABLE
from scripts.object import jobs, pairs
from scripts.object.jobs import Jobs, Work
from scripts.object.output import Unwritten


class Sink:
    def __init__(self):
        self.content = b""

    def write(self, piece):
        self.content += piece


def say(text, status, wait=0.0):
    time.sleep(wait)
    os.write(1, text)
    return status


def raises(fault):
    raise fault


class Order(unittest.TestCase):
    def ended(self, most, *works):
        sink, statuses = Sink(), []
        for job in Jobs(most).ended(works):
            job.pass_on(sink)
            statuses.append(job.status)
        return sink.content, statuses

    def test_answers_come_in_their_order(self):
        works = [Work(say, b"%d" % k, k % 2, 0.05 * (k == 0)) for k in range(30)]
        for most in (1, 4, 100):
            self.assertEqual(self.ended(most, *works), (b"".join(b"%d" % k for k in range(30)), [k % 2 for k in range(30)]))
        self.assertEqual(self.ended(4), (b"", []))

    def test_nothing_to_say(self):
        self.assertEqual(self.ended(2, Work(say, b"", None), Work(say, b"a", 3)), (b"a", [None, 3]))

    def test_what_ends_a_process(self):
        for fault, text in ((Unwritten(), "can't be written"), (KeyboardInterrupt(), "was ended")):
            with self.assertRaisesRegex(Failure, text):
                self.ended(2, Work(raises, fault))

    def test_those_that_run_are_ended(self):
        began = time.monotonic()
        for job in Jobs(3).ended([Work(say, b"", 0), Work(say, b"", 0, 60), Work(say, b"", 0, 60)]):
            job.close()
            break
        self.assertLess(time.monotonic() - began, 30)

    def test_no_more_at_a_time(self):
        many = Jobs(2)
        many.begin(iter([Work(say, b"", 0, 60)] * 5))
        self.assertEqual((len(many.running), len(many.order)), (2, 2))
        many.stop()

    def test_no_progress_without_a_terminal(self):
        progress = jobs.Progress(5)
        progress.is_seen, told = False, []
        jobs.put_error, kept = told.append, jobs.put_error
        self.addCleanup(setattr, jobs, "put_error", kept)
        progress.show(1)
        progress.hide()
        self.assertEqual(told, [])
        progress.is_seen = True
        progress.show(1)
        progress.hide()
        progress.hide()
        self.assertEqual(told, [b"\r\x1b[K1 of 5 done", b"\r\x1b[K"])


def program(path, has_lines=True, **identifiers):
    made = object.__new__(pairs.Program)
    made.path, made.place, made.has_lines, made.others, made.symbols = "/p/" + path, path, has_lines, [], []
    made.identifiers = {BREAKPAD: identifiers.get("breakpad"), GSYM: identifiers.get("gsym")}
    return made


def symbols(path, kind=TABLE, identifier=None):
    name = os.path.splitext(os.path.basename(path))[0]
    return types.SimpleNamespace(path="/s/" + path, place=path, kind=kind, identifier=identifier, name=name)


class Pairs(unittest.TestCase):
    def of(self, found, *programs):
        found = pairs.Pairing(list(programs)).program_of(found)
        return found and found.place

    def test_by_identifiers(self):
        one, two = program("a", breakpad="AB0", gsym="ba"), program("b", breakpad="CD0", gsym="dc")
        self.assertEqual(self.of(symbols("x/a.sym", BREAKPAD, "cd0"), one, two), "b")
        self.assertEqual(self.of(symbols("a.gsym", GSYM, "ba"), one, two), "a")
        self.assertIsNone(self.of(symbols("a.gsym", GSYM, "ff"), one, two))

    def test_by_names(self):
        one, two = program("bin/app", gsym="1"), program("lib/so.debug", gsym="2")
        self.assertEqual(self.of(symbols("app.csv"), one, two), "bin/app")
        self.assertEqual(self.of(symbols("so.csv"), one, two), "lib/so.debug")
        self.assertEqual(self.of(symbols("so.debug.csv"), one, two), "lib/so.debug")
        self.assertIsNone(self.of(symbols("other.csv"), one, two))

    def test_a_name_that_several_have(self):
        one, two = program("a/app", gsym="1"), program("b/app", gsym="2")
        self.assertEqual(self.of(symbols("b/app.csv"), one, two), "b/app")
        self.assertIsNone(self.of(symbols("app.csv"), one, two))
        self.assertEqual(self.of(symbols("x/app.csv"), program("y/app", gsym="1"), program("y/app.debug", gsym="2")), "y/app")

    def test_programs_without_an_identifier(self):
        self.assertEqual(self.of(symbols("app.sym", BREAKPAD, "AB0"), program("app")), "app")
        self.assertEqual(self.of(symbols("app.sym", BREAKPAD), program("app", breakpad="AB0")), "app")

    def test_the_last_line(self):
        counted = pairs.Counted(None, None)
        for status in (0, 0, 1, 3, pairs.LACKS_SYMBOLS, pairs.LACKS_PROGRAM, None):
            counted.add(status)
        self.assertEqual(counted.told(), "4 pairs: 2 yes, 1 no, 1 not judged; 1 without a symbol file, 1 without a program, 1 passed over\n")
        self.assertEqual(counted.status(), 1)
        one = pairs.Counted(None, None)
        one.add(0)
        self.assertEqual((one.told()[:7], one.status()), ("1 pair:", 0))


class Folders(unittest.TestCase):
    def setUp(self):
        folder = tempfile.TemporaryDirectory()
        self.addCleanup(folder.cleanup)
        self.folder = folder.name

    def put(self, name, content):
        with open(os.path.join(self.folder, name), "wb") as file:
            file.write(content)

    def test_what_a_folder_has(self):
        import gzip

        head = b"MODULE Linux x86_64 AB0 app\n"
        gsym = struct.pack("<IHBBQIII20s", 0x4753594D, 1, 8, 2, 0, 0, 0, 0, b"\xba\xab") + bytes(10)
        for name, content in (("a.sym", head), ("b.sym.gz", gzip.compress(head)), ("c", gsym), ("d.csv", b"low,high,path,line\n"),
                              ("e.sym", b""), ("f", b"text\n"), ("g", b"\x7fELF"), ("h.gz", b"\x1f\x8bno")):
            self.put(name, content)
        answers = types.SimpleNamespace(passed=0)
        found = [(each.place, each.kind, each.identifier, each.name) for each in pairs.symbols_of(self.folder, answers)]
        self.assertEqual(found, [("a.sym", BREAKPAD, "AB0", "a"), ("b.sym.gz", BREAKPAD, "AB0", "b"), ("c", GSYM, "baab", "c"),
                                 ("d.csv", TABLE, None, "d"), ("e.sym", BREAKPAD, None, "e")])
        self.assertEqual(answers.passed, 2)

    def test_programs_of_one_build(self):
        import images

        lines = os.path.join(self.folder, "lines")
        self.put("lines", b"x")
        for name, words in (("a", ["id=0011"]), ("a.debug", ["id=0011", ".debug_line=" + lines]), ("b", ["id=22"])):
            self.put(name, images.FORMATS["elf64"](words))
        found = pairs.builds(self.folder, types.SimpleNamespace(passed=0))
        self.assertEqual([(one.place, [other.place for other in one.others]) for one in found], [("a.debug", ["a"]), ("b", [])])


if __name__ == "__main__":
    unittest.main()
