import io
import os
import tempfile
import unittest

from made import part
from scripts import bounded
from scripts.bounded import CUT_MEANWHILE, DAMAGED, MOST, PAGE, Failure, Refusal, few, found_in, leb, opened, stored


class Parts(unittest.TestCase):
    def test_part_is_cut_to_what_is_there(self):
        inner = part(b"0123456789").part(4, 3)
        self.assertEqual(inner.take(0, 3), b"456")
        self.assertEqual(inner.part(1, 100).take(0, 2), b"56")
        self.assertEqual(inner.part(9, 1).size, 0)

    def test_take_refuses_what_reaches_past_the_end(self):
        inner = part(b"0123456789").part(4, 3)
        with self.assertRaisesRegex(Refusal, DAMAGED):
            inner.take(1, 3)

    def test_has(self):
        inner = part(b"0123456789").part(4, 3)
        self.assertTrue(inner.has(b"56", 1))
        self.assertFalse(inner.has(b"67", 2))

    def test_numbers_in_both_orders(self):
        self.assertEqual(part(b"\x01\x02\x03\x04").numbers("<HH", 0), (0x201, 0x403))
        self.assertEqual(part(b"\x01\x02\x03\x04").numbers(">H", 1), (0x203,))

    def test_name_ends_at_a_zero_byte_or_a_limit(self):
        self.assertEqual(part(b"..text\0rest").name(2), "text")
        self.assertEqual(part(b"..text").name(2, 3), "tex")
        self.assertEqual(os.fsencode(part(b"\xff\0").name(0)), b"\xff")

    def test_leb_of_a_part(self):
        inner = part(b"\xff\xe5\x8e\x26\x80").part(1, 4)
        self.assertEqual(inner.leb(0), (624485, 3))
        with self.assertRaisesRegex(Refusal, DAMAGED):
            inner.leb(3)
        with self.assertRaises(Refusal):
            inner.leb(40)

    def test_pieces_are_all_bytes(self):
        self.assertEqual(b"".join(part(bytes(3 << 20)).pieces()), bytes(3 << 20))


class Numbers(unittest.TestCase):
    def test_unsigned(self):
        self.assertEqual(leb(b"\xe5\x8e\x26", 0, 3), (624485, 3))
        self.assertEqual(leb(b".\x00", 1, 2), (0, 2))
        self.assertEqual(leb(b"\xff" * 9 + b"\x01", 0, 10), ((1 << 64) - 1, 10))

    def test_signed(self):
        self.assertEqual(leb(b"\x7f", 0, 1, True), (-1, 1))
        self.assertEqual(leb(b"\x80\x7f", 0, 2, True), (-128, 2))
        self.assertEqual(leb(b"\x3f", 0, 1, True), (63, 1))

    def test_one_that_does_not_end(self):
        for end in 0, 1, 2:
            with self.assertRaises(IndexError):
                leb(b"\x80\x80\x01", 0, end)

    def test_padded(self):
        self.assertEqual(leb(b"\x81" + b"\x80" * 11 + b"\x00", 0, 13), (1, 13))


class Files(unittest.TestCase):
    def test_a_file_that_is_read_is_known(self):
        with tempfile.NamedTemporaryFile() as file:
            file.write(b"some")
            file.flush()
            self.assertEqual(opened(file.name).take(0, 4), b"some")
            status = os.stat(file.name)
            self.assertIn((status.st_dev, status.st_ino), bounded.files_read)

    def test_an_empty_file(self):
        with tempfile.TemporaryFile() as file:
            data = stored(file.fileno())
            self.assertEqual((data.size, data.whole[:5], list(data.lines()), list(data.pieces())), (0, b"", [], []))
            with self.assertRaises(IndexError):
                data.whole[0]

    def test_no_other_file_is_opened(self):
        with self.assertRaisesRegex(Refusal, "isn't a regular file"):
            opened("/dev/null")
        self.assertIsNone(bounded.place_of(os.stat("/dev/null")))


    def test_all_of_a_file_can_be_read_at_any_place(self):
        content = bytes(range(256)) * 200 + b"\n" + b"x" * PAGE + b"\nend"
        with tempfile.TemporaryFile() as file:
            file.write(content)
            file.flush()
            data = stored(file.fileno())
            for start, end in ((0, 5), (PAGE - 2, PAGE + 2), (PAGE, 2 * PAGE), (PAGE - 1, 3 * PAGE), (len(content) - 3, len(content) + 9)):
                self.assertEqual(data.whole[start:end], content[start:end])
            self.assertEqual([data.whole[k] for k in (0, 255, PAGE, len(content) - 1)], [0, 255, content[PAGE], ord("d")])
            self.assertEqual(data.whole.find(b"e", PAGE, len(content)), content.index(b"e", PAGE))
            self.assertEqual(data.whole.find(b"e", len(content) - 2, len(content)), -1)
            self.assertEqual(list(data.lines()), list(io.BytesIO(content)))
            self.assertEqual(b"".join(data.part(3, PAGE).lines()), content[3 : 3 + PAGE])

    def test_one_that_is_cut_meanwhile(self):
        with tempfile.TemporaryFile() as file:
            file.truncate(8 * PAGE)
            data = stored(file.fileno())
            data.take(0, 1)
            file.truncate(4)
            for read in (lambda: data.take(2 * PAGE, 3), lambda: data.whole[8 * PAGE - 1], lambda: data.whole.find(b"x", PAGE, 8 * PAGE),
                         lambda: list(data.pieces()), lambda: list(data.whole.extents(0, 8 * PAGE)), lambda: list(data.part(PAGE, 9).lines())):
                with self.assertRaisesRegex(Failure, CUT_MEANWHILE):
                    read()

    def test_where_a_file_has_bytes(self):
        with tempfile.TemporaryFile() as file:
            file.truncate(1 << 24)
            os.pwrite(file.fileno(), b"some", 1 << 22)
            whole = stored(file.fileno()).whole
            found = list(whole.extents(5, 1 << 24))
            self.assertTrue(any(start <= 1 << 22 and end > (1 << 22) + 3 for start, end in found))
            self.assertEqual(list(whole.extents((1 << 22) + 1, (1 << 22) + 3)), [((1 << 22) + 1, (1 << 22) + 3)])
            self.assertLessEqual(sum(end - start for start, end in found), 1 << 24)
            pieces = list(stored(file.fileno()).part(7, 1 << 23).without_holes())
            self.assertEqual(found_in(pieces, [bytes(9) + b"some" + bytes(9)]), {bytes(9) + b"some" + bytes(9)})
            self.assertLess(sum(map(len, pieces)), 1 << 20)

    def test_files_that_nothing_has_are_closed(self):
        class Round:
            def __init__(self, data):
                self.data, self.round = data, self

        before = len(os.listdir("/proc/self/fd"))
        with tempfile.TemporaryFile() as file:
            for _ in range(3 * bounded.MOST_OPEN):
                Round(stored(file.fileno()))
        self.assertLess(len(os.listdir("/proc/self/fd")), before + bounded.MOST_OPEN + 9)


class Bounds(unittest.TestCase):
    def test_few(self):
        self.assertEqual(len(list(few(range(MOST)))), MOST)
        with self.assertRaisesRegex(Refusal, "more than 65536 headers"):
            list(few(range(MOST + 1)))

    def test_marks_are_found_across_pieces(self):
        self.assertEqual(found_in([b"xxrus", b"tc ve", b"rsion"], [b"rustc version", b"Go "]), {b"rustc version"})
        self.assertEqual(found_in([b"Go x", b""], [b"rustc version", b"Go "]), {b"Go "})
        self.assertEqual(found_in([], [b"a"]), set())


if __name__ == "__main__":
    unittest.main()
