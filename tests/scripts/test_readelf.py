import io
import unittest
from types import SimpleNamespace
from unittest import mock

from scripts.bounded import Refusal
from scripts.table import readelf
from scripts.table.readelf import decoded, decoded_rows, path_of_row

TEXT = b"""Contents of the .debug_line section:

CU: /w/a.c:
File name    Line number    Starting address    View    Stmt
a.c                    3              0x1010               x
a.c                    4              0x1014       1       x

sub/b 2 0x5.h:
b 2 0x5.h              9              0x1018        
b 2 0x5.h              -              0x1020
c.h                    7                   0       1       x
c.h                    -                 0x8

"""


def rows(text):
    return list(decoded_rows(iter(text.splitlines(keepends=True))))


class Lines(unittest.TestCase):
    def test_of_rows(self):
        for line, row in (
            (b"a.c   3  0x1010   x", (b"a.c", 3, 0x1010)), (b"a b  4  0x10  1  x", (b"a b", 4, 0x10)), (b"a.c  -  0x20", (b"a.c", None, 0x20)),
            (b"a.c   3  0   1", (b"a.c", 3, 0)), (b"a.c   3  0x10[2]   x", (b"a.c", 3, 0x10)),
        ):
            self.assertEqual(decoded(line), row)

    def test_of_others(self):
        for line in (b"", b"a.c", b"File name  Line number  Starting address", b"a.c  x  0x10", b"a.c  3  10x"):
            self.assertIsNone(decoded(line))

    def test_the_path_above(self):
        self.assertEqual(path_of_row(b"b.h", b"sub/b.h"), b"sub/b.h")
        self.assertEqual(path_of_row(b"b.h", b"sub/a.h"), b"b.h")


class Rows(unittest.TestCase):
    def test_of_sequences(self):
        self.assertEqual(rows(TEXT), [
            (0x1010, (b"/w/a.c", 3)), (0x1014, (b"/w/a.c", 4)), (0x1018, (b"sub/b 2 0x5.h", 9)), (0x1020, None),
            (0, (b"c.h", 7)), (8, None),
        ])

    def test_spans_in_order(self):
        with mock.patch.object(readelf, "source", lambda asked: io.BytesIO(TEXT)):
            spans = list(readelf.from_readelf(SimpleNamespace(dead=None, skip_copies=False)))
        self.assertEqual(spans[:2], [(0, 8, (b"c.h", 7)), (0x1010, 0x1014, (b"/w/a.c", 3))])
        self.assertEqual(len(spans), 4)

    def test_what_is_none(self):
        for text, reason in ((b"text\n", "isn't what readelf"), (b"./a..h:\n", "names are cut")):
            with self.assertRaisesRegex(Refusal, reason):
                rows(text)


if __name__ == "__main__":
    unittest.main()
