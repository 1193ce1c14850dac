import unittest

from scripts.paths import behind, is_full, within


class Paths(unittest.TestCase):
    def test_full_ones(self):
        for path in (b"/a", b"/", b"C:/a", b"c:\\a", b"z:/", b"\\\\server\\a", b"\\\\"):
            self.assertTrue(is_full(path), path)

    def test_others(self):
        for path in (b"a", b"", b"./a", b"C:", b"C:a", b"CC:/a", b"1:/a", b":/a", b"\\a", b"\xe4:/a", b"a/C:/b", b" /a"):
            self.assertFalse(is_full(path), path)

    def test_a_name_in_a_directory(self):
        for directory, name, path in (
            (b"/w", b"a", b"/w/a"), (b"/w/", b"a", b"/w/a"), (b"/w", b"/a", b"/a"), (b"", b"a", b"a"), (b"C:/b", b"C:/b/inc", b"C:/b/inc"),
            (b"C:\\b", b"a", b"C:\\b/a"), (b"C:\\b\\", b"a", b"C:\\b\\/a"), (b"/w", b"\\\\s\\a", b"\\\\s\\a"), (b"/w", b"\\a", b"/w/\\a"),
        ):
            self.assertEqual(within(directory, name), path)

    def test_a_full_path_behind_a_directory(self):
        for path, full in (
            (b"/dir//w/a.c", b"/w/a.c"), (b"/w/a.c", b"/w/a.c"), (b"C:/b/C:/b/a.c", b"C:/b/a.c"), (b"C:\\b/D:\\a.c", b"D:\\a.c"),
            (b"/a//b//c", b"/c"), (b"/a\n//b", b"/b"), (b"a.c", b"a.c"), (b"/w/\\\\s\\a.c", b"\\\\s\\a.c"),
        ):
            self.assertEqual(behind(path), full)


if __name__ == "__main__":
    unittest.main()
