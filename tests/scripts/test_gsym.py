import unittest

import gsym_file
from scripts.bounded import Refusal
from scripts.table import gsym
from scripts.table.gsym import Gsym, first_rows, number

SRC = b"/src/a.c"
WANTED = [
    (0x1000, 0x1004, (SRC, 5)), (0x1004, 0x1005, (SRC, 6)), (0x1005, 0x1008, (SRC, 7)), (0x1008, 0x1010, (b"b.h", 9)), (0x1014, 0x1020, (SRC, 20)),
    (0x1032, 0x1038, (SRC, 40)), (0x1040, 0x1050, (SRC, 50)), (0x1050, 0x1054, (SRC, 60)),
]


def spans_of(data):
    return list(gsym.spans_of(data))


def small(order="<"):
    return gsym_file.whole(order, gsym_file.SMALL, False)


class Files(unittest.TestCase):
    def test_answers_in_both_orders(self):
        for order in "<>":
            self.assertEqual(spans_of(small(order)), WANTED)

    def test_functions_of_one_start(self):
        found = list(Gsym(small()).functions())
        self.assertEqual([(low, high) for low, high, _, _ in found][:3], [(0x1000, 0x1010), (0x1010, 0x1014), (0x1014, 0x1020)])

    def test_paths(self):
        file = Gsym(small())
        self.assertEqual([file.path(k) for k in range(3)], [b"", SRC, b"b.h"])
        with self.assertRaisesRegex(Refusal, "no file 3"):
            file.path(3)

    def test_what_is_none(self):
        with self.assertRaisesRegex(Refusal, "isn't a GSYM file"):
            spans_of(b"MODULE")
        with self.assertRaisesRegex(Refusal, "version 2 is not supported"):
            spans_of(small()[:4] + b"\2" + small()[5:])
        for end in (3, 47, 60, len(small()) - 20):
            with self.assertRaises(Refusal):
                spans_of(small()[:end])

    def test_tables_that_many_functions_share(self):
        table = bytes([0x7F, 2, 1]) + bytes([8, 5]) * 200 + bytes(1)
        functions = [(0x1000 + 16 * k, 16, table) for k in range(100)]
        with self.assertRaisesRegex(Refusal, "cut or damaged"):
            spans_of(gsym_file.whole("<", functions, True))

    def test_addresses_of_any_size(self):
        for base, width, kind in ((0, 1, "B"), (7, 2, "H"), (1 << 40, 8, "Q")):
            file = Gsym.__new__(Gsym)
            file.order, file.data, file.base = ">", b"xx" + bytes(width - 1) + b"\5", base
            self.assertEqual(list(file.listed(kind, 1, 2)), [5])
            with self.assertRaises(Refusal):
                file.listed(kind, 2, 2)

    def test_no_more_than_some_paths_are_kept(self):
        file = Gsym(small())
        file.file_count, file.paths = 3, dict.fromkeys(range(-gsym.KEPT, 0), b"")
        self.assertEqual((file.path(1), list(file.paths)), (SRC, [1]))


class Rows(unittest.TestCase):
    def test_numbers_have_at_most_ten_bytes(self):
        self.assertEqual(number(b"\x7f", 0, True), (-1, 1))
        with self.assertRaises(IndexError):
            number(b"\x80" * 10 + b"\0", 0)

    def test_first_rows(self):
        self.assertEqual(list(first_rows([(1, "a"), (2, "b"), (2, "c"), (2, "d"), (5, None)])), [(1, "a"), (2, "b"), (3, "d"), (5, None)])

    def test_lines_are_taken_modulo_32_bits(self):
        file = Gsym(small())
        table = bytes([0x7F, 2, 0, 4, 0])  # line 0 and one less
        self.assertEqual(list(file.rows(table, 0x10)), [(0x10, 1, 0xFFFFFFFF)])

    def test_a_range_that_is_none(self):
        with self.assertRaises(Refusal):
            list(Gsym(small()).rows(bytes([3, 2, 0, 4, 0]), 0))


if __name__ == "__main__":
    unittest.main()
