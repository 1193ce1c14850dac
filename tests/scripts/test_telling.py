import os
import unittest
from unittest import mock

from made import heard
from scripts import telling
from scripts.telling import ended_by, hand_on, note, put_whole, shown


class Shown(unittest.TestCase):
    def test_a_name_stays(self):
        self.assertEqual(shown("a b\u00e4"), "a b\u00e4")
        self.assertEqual(os.fsencode(shown(b"\xff")), b"\xff")

    def test_control_characters_are_escaped_between_quotes(self):
        self.assertEqual(shown("a\x1b[31m"), '"a\\x1b[31m"')
        self.assertEqual(shown("\u0085"), '"\\xc2\\x85"')
        self.assertEqual(shown(b"\xff\n"), '"\\xff\\x0a"')


class Told(unittest.TestCase):
    def setUp(self):
        self.written = []
        patch = mock.patch.object(telling, "put_error", self.written.append)
        patch.start()
        self.addCleanup(patch.stop)
        self.addCleanup(setattr, telling, "is_quiet", telling.is_quiet)

    def test_a_note_is_told(self):
        note("it is so")
        self.assertEqual(self.written, [b"linetab-object: note: it is so\n"])

    def test_no_note_is_told_quietly(self):
        telling.is_quiet = True
        note("it is so")
        with heard() as ear:
            note("it is so")
        self.assertEqual((self.written, ear.notes), ([], []))

    def test_lines_of_the_program(self):
        hand_on(b"linetab: note: it is so\n", "app: ")
        hand_on(b"linetab: out of memory\n", "app: ")
        self.assertEqual(self.written, [b"linetab: note: app: it is so\n", b"linetab: out of memory\n"])

    def test_a_listener_gets_all(self):
        with heard() as ear:
            note("one")
            hand_on(b"linetab: note: two\n", "")
            hand_on(b"linetab: cannot read x\n", "")
        self.assertEqual((ear.notes, ear.lines, self.written), (["one", "two"], ["linetab: cannot read x"], []))


class Streams(unittest.TestCase):
    def test_all_bytes_are_written(self):
        theirs, ours = os.pipe()
        put_whole(ours, b"0123")
        os.close(ours)
        self.assertEqual(os.read(theirs, 10), b"0123")
        os.close(theirs)

    def test_the_signal_that_ended_a_run(self):
        self.assertEqual(ended_by(-9), "signal 9 ended the program")


if __name__ == "__main__":
    unittest.main()
