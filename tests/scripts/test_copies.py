"""Parts of files that are copied for the program."""

import errno
import os
import tempfile
import unittest
from unittest import mock

from made import part
from scripts.bounded import CUT_MEANWHILE, Failure, stored
from scripts.object.program import copied


class Copies(unittest.TestCase):
    def setUp(self):
        self.file = tempfile.TemporaryFile()
        self.addCleanup(self.file.close)

    def copy_of(self, part_of_it):
        copy = copied(part_of_it)
        self.addCleanup(os.close, copy)
        return copy

    def test_of_a_file_and_of_bytes(self):
        self.file.write(bytes(range(256)) * 300)
        self.file.flush()
        whole = stored(self.file.fileno())
        for start, size in ((0, 76800), (3, 5), (5000, 70000), (76800, 0)):
            wanted = (bytes(range(256)) * 300)[start : start + size]
            copy = self.copy_of(whole.part(start, size))
            self.assertEqual((os.pread(copy, 1 << 20, 0), os.fstat(copy).st_size), (wanted, size))
        self.assertEqual(os.pread(self.copy_of(part(b"some").part(1, 2)), 9, 0), b"om")

    def test_where_the_system_cannot_copy(self):
        self.file.write(b"some bytes")
        self.file.flush()
        with mock.patch.object(os, "copy_file_range", side_effect=OSError(errno.EXDEV, "Invalid cross-device link")):
            self.assertEqual(os.pread(self.copy_of(stored(self.file.fileno()).part(5, 5)), 9, 0), b"bytes")

    def test_a_hole_stays_one(self):
        self.file.truncate(1 << 30)
        os.pwrite(self.file.fileno(), b"some", 1 << 29)
        copy = self.copy_of(stored(self.file.fileno()).part(4096, (1 << 30) - 4096))
        status = os.fstat(copy)
        self.assertEqual((status.st_size, os.pread(copy, 4, (1 << 29) - 4096)), ((1 << 30) - 4096, b"some"))
        if 512 * os.fstat(self.file.fileno()).st_blocks < 1 << 20:  # the file system knows of holes
            self.assertLess(512 * status.st_blocks, 1 << 20)

    def test_one_that_is_cut_meanwhile(self):
        self.file.write(bytes(1 << 16))
        self.file.flush()
        before, data = len(os.listdir("/proc/self/fd")), stored(self.file.fileno())
        self.file.truncate(5)
        with self.assertRaisesRegex(Failure, CUT_MEANWHILE):
            copied(data.part(4, 1 << 15))
        self.assertLessEqual(len(os.listdir("/proc/self/fd")), before + 1)

    def test_no_room(self):
        self.file.write(b"some")
        self.file.flush()
        full = OSError(errno.ENOSPC, "No space left on device")
        with mock.patch.object(os, "copy_file_range", side_effect=full), mock.patch.object(os, "pwrite", side_effect=full):
            with self.assertRaisesRegex(Failure, "its sections can't be written to a temporary file: No space left on device"):
                copied(stored(self.file.fileno()))


if __name__ == "__main__":
    unittest.main()
