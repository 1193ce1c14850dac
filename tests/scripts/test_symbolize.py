import unittest
from types import SimpleNamespace

from scripts.object.symbolize import ADDRESS, Lookups, place_in


class Answers(unittest.TestCase):
    def test_paths(self):
        for path, place in (
            (b"/w/a.c", b"/w/a.c:3:1"), (b"/w/\\xffa.c", b'"/w/\\xffa.c":3:1'), (b"C:\\x5cw\\x5ca.c", b"C:\\w\\a.c:3:1"),
            (b"C:\\x5c\\x22a.c", b'"C:\\x5c\\x22a.c":3:1'), (b"C:/w/a.c", b"C:/w/a.c:3:1"),
        ):
            self.assertEqual(place_in(b'0x10 unit 0x0 file 1 line 3 column 1 path "%s"' % path), place)

    def test_none(self):
        self.assertIsNone(place_in(b"0x10 none"))


class Offsets(unittest.TestCase):
    def address(self, text):
        lookups = Lookups(SimpleNamespace(pieces=list), SimpleNamespace(kind="PE", base=lambda: 0x400000), None)
        return lookups.address_of(text, next(ADDRESS.finditer(text)))

    def test_behind_paths_and_other_names(self):
        for name in (b"/tmp/app", b"C:\\tmp\\app.exe", b"C:/app.exe", b"\\\\s\\app.exe", b"bin\\app.exe", b"("):
            self.assertEqual(self.address(name + b"+0x1137"), 0x401137)
        self.assertIsNone(self.address(b"app.exe+0x1137"))


if __name__ == "__main__":
    unittest.main()
