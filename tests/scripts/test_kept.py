"""How Python keeps the modules that it compiled."""

import os
import tempfile
import unittest
from unittest import mock

import scripts


class Kept(unittest.TestCase):
    def setUp(self):
        room = tempfile.TemporaryDirectory()
        self.addCleanup(room.cleanup)
        self.folder = os.path.join(room.name, "__pycache__")
        self.path = os.path.join(self.folder, "a.pyc")

    def content(self):
        with open(self.path, "rb") as file:
            return file.read()

    def test_a_new_one_and_one_in_its_place(self):
        for content in (b"one", b"two"):
            scripts.keep(None, self.path, content, _mode=0o644)
            self.assertEqual(self.content(), content)
        self.assertEqual(os.listdir(self.folder), ["a.pyc"])

    def test_nothing_of_one_that_is_cut(self):
        scripts.keep(None, self.path, b"one")
        with mock.patch("os.replace", side_effect=OSError):
            scripts.keep(None, self.path, b"two")
        self.assertEqual(self.content(), b"one")
        self.assertEqual(os.listdir(self.folder), ["a.pyc"])

    def test_nothing_where_no_folder_can_be_made(self):
        with open(self.folder, "wb"):
            pass
        scripts.keep(None, self.path, b"one")
        self.assertTrue(os.path.isfile(self.folder))

    def test_python_keeps_them_so(self):
        self.assertIs(type(scripts.__spec__.loader).set_data, scripts.keep)


if __name__ == "__main__":
    unittest.main()
