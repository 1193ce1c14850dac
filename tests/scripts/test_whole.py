import unittest

from made import heard
from scripts.table.whole import Whole, with_whole_paths


class Listed(Whole):
    """The paths of a program that lists these."""

    def listed(self):
        return [b"/w/a.c", b"/w/sub/b.h", b"/x/c.h", b"/y/c.h", b"C:/b/inc/w.h", b"D:\\e.h"]


class Paths(unittest.TestCase):
    def setUp(self):
        self.whole = Listed("app")

    def test_ends(self):
        self.assertEqual(self.whole.ends(b"b.h"), (1, b"/w/sub/b.h"))
        self.assertEqual(self.whole.ends(b".h"), (0, None))
        self.assertEqual(self.whole.ends(b"c.h")[0], 2)

    def test_one_alone_is_taken(self):
        for path, whole in ((b"b.h", b"/w/sub/b.h"), (b"./sub/b.h", b"/w/sub/b.h"), (b"/w/a.c", b"/w/a.c"), (b"/dir//w/a.c", b"/w/a.c"), (b"/z", b"/z"),
                            (b"inc/w.h", b"C:/b/inc/w.h"), (b"C:/b/C:/b/inc/w.h", b"C:/b/inc/w.h"), (b"C:\\b/D:\\e.h", b"D:\\e.h"), (b"E:/z", b"E:/z")):
            self.assertEqual(self.whole.of(path), whole)

    def test_others_stay_and_are_told_once(self):
        with heard() as ear:
            self.assertEqual([self.whole.of(path) for path in (b"c.h", b"d.h", b"d.h")], [b"c.h", b"d.h", b"d.h"])
        self.assertEqual(ear.notes, ["c.h stays as it is: more than one path of app ends so", "d.h stays as it is: no path of app ends so"])

    def test_spans(self):
        self.assertEqual(list(with_whole_paths([(1, 2, (b"a.c", 3, 4))], self.whole)), [(1, 2, (b"/w/a.c", 3, 4))])


if __name__ == "__main__":
    unittest.main()
