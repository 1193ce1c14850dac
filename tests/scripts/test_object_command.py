import os
import types
import unittest

from made import heard
from scripts.bounded import Nothing, Refusal
from scripts.object import command


def run(notes):
    return types.SimpleNamespace(notes=notes)


class Notes(unittest.TestCase):
    def test_those_of_the_program(self):
        said = b"linetab: note: one\nlinetab: note: two, and more\nlinetab: cannot read x\n"
        with heard() as ear:
            command.told_of(run(said), ["two,"], False, "")
        self.assertEqual((ear.notes, ear.lines), (["one"], ["linetab: cannot read x"]))

    def test_none_of_them(self):
        with heard() as ear:
            command.told_of(run(b"linetab: note: one\nlinetab: cannot read x\n"), [], True, "")
        self.assertEqual((ear.notes, ear.lines), ([], ["linetab: cannot read x"]))

    def test_which_file_they_are_about(self):
        given = types.SimpleNamespace(is_several=True, is_json=False, is_quiet=False)
        with heard() as ear:
            command.tell_notes(run(b""), "app", given, (["it is so"], []), ["of app it is so"])
        self.assertEqual(ear.notes, ["app: it is so", "of app it is so"])
        given.is_json = True
        with heard() as ear:
            command.tell_notes(run(b""), "app", given, (["it is so"], []), [])
        self.assertEqual(ear.notes, ["it is so"])


class Reasons(unittest.TestCase):
    def test_why_nothing_was_answered(self):
        for fault, reason in (
            (MemoryError(), ("out of memory", 4)), (Refusal("it is cut"), ("it is cut", 3)), (Nothing("it has none"), ("it has none", 3)),
            (FileNotFoundError(2, "No such file"), ("cannot read it: No such file", 3)),
            (ImportError("a.so: failed to map segment from shared object"), ("out of memory", 4)),
        ):
            self.assertEqual(command.reason_of(fault), reason)
        self.assertEqual(command.reason_of(ValueError("x"))[1], 3)


class Files(unittest.TestCase):
    def test_a_named_one(self):
        data, path = command.source(__file__)
        self.assertEqual((path, data.size), (__file__, os.path.getsize(__file__)))

    def test_notes_that_can_not_be_made(self):
        def no():
            raise Refusal("it is cut")

        one = types.SimpleNamespace(status=1, no=no)
        self.assertEqual(command.noted(one, "app", None, None, None, False), ([], []))
        self.assertEqual(command.noted(None, "app", None, None, None, True), ([], []))


if __name__ == "__main__":
    unittest.main()
