import os
import tempfile
import types
import unittest

from scripts.bounded import Nothing
from scripts.object import folders
from scripts.object.folders import Answers, below, is_program, one_answer

PLAIN = types.SimpleNamespace(is_json=False)


class Counted(unittest.TestCase):
    def answers(self, name, *statuses):
        answers = Answers(types.SimpleNamespace(name=name), PLAIN)
        answers.statuses += statuses
        return answers

    def test_the_last_line(self):
        self.assertEqual(self.answers("verify", 0).told(), "1 file: 1 yes, 0 no, 0 not judged\n")
        answers = self.answers("units", 0, 1, 3, 4, 0)
        answers.passed = 2
        self.assertEqual(answers.told(), "5 files: 2 done, 1 no, 2 not judged, 2 passed over\n")

    def test_a_no_comes_before_the_rest(self):
        for statuses, status in (((), 3), ((0, 0), 0), ((0, 4, 3), 4), ((4, 1, 0), 1)):
            self.assertEqual(self.answers("verify", *statuses).status(), status)


class Folders(unittest.TestCase):
    def setUp(self):
        folder = tempfile.TemporaryDirectory()
        self.addCleanup(folder.cleanup)
        self.folder = folder.name
        for name, content in (("b", b"\x7fELF"), ("a/c", b"MZ"), ("a/text", b"low"), ("a/b/d", b"\0asm")):
            path = os.path.join(self.folder, name)
            os.makedirs(os.path.dirname(path), exist_ok=True)
            with open(path, "wb") as file:
                file.write(content)
        os.symlink("b", os.path.join(self.folder, "link"))
        os.mkfifo(os.path.join(self.folder, "pipe"))

    def test_programs_by_their_names(self):
        answers = Answers(types.SimpleNamespace(name="verify"), PLAIN)
        answers.passed = 0
        found = [os.path.relpath(path, self.folder) for path in below(self.folder, answers)]
        self.assertEqual((found, answers.passed), (["b", "a/c", "a/b/d"], 1))

    def test_one_that_can_not_be_read(self):
        answers = Answers(types.SimpleNamespace(name="verify"), PLAIN)
        told = []
        folders.tell, kept = told.append, folders.tell
        self.addCleanup(setattr, folders, "tell", kept)
        self.assertEqual(list(below(os.path.join(self.folder, "none"), answers)), [])
        self.assertEqual((answers.statuses, len(told)), ([3], 1))

    def test_first_bytes(self):
        self.assertTrue(is_program(os.path.join(self.folder, "b")))
        self.assertFalse(is_program(os.path.join(self.folder, "a/text")))


class One(unittest.TestCase):
    def test_its_status(self):
        self.assertEqual(one_answer(None, PLAIN, "a", lambda *_: 1, False), 1)

    def test_one_that_has_nothing(self):
        def tried(*_):
            raise Nothing("it has none")

        self.assertIsNone(one_answer(None, PLAIN, "a", tried, True))

    def test_one_that_was_ended(self):
        told = []
        folders.tell, kept = told.append, folders.tell
        self.addCleanup(setattr, folders, "tell", kept)
        self.assertEqual(one_answer(None, PLAIN, "a", lambda *_: -11, False), 3)
        self.assertEqual(told, ["a: signal 11 ended the program"])


if __name__ == "__main__":
    unittest.main()
