import contextlib
import os
import signal
import tempfile
import time
import unittest
from unittest import mock

from scripts.object.output import Named, Overwriting, Standard, Unwritten
from scripts.object.whole_file import Whole, listed_in, place_named, removed_where_ended


@contextlib.contextmanager
def output():
    """What is written to standard output meanwhile, once it is done."""
    with tempfile.TemporaryFile() as file:
        kept = os.dup(1)
        os.dup2(file.fileno(), 1)
        written = []
        try:
            yield written
        finally:
            os.dup2(kept, 1)
            os.close(kept)
            file.seek(0)
            written.append(file.read())


class Lines(unittest.TestCase):
    def named(self, *pieces):
        with output() as written:
            sink = Named("a\n")
            for piece in pieces:
                sink.write(piece)
            sink.end(0)
        return written[0].replace(b'"a\\x0a": ', b"> ")

    def test_each_line_has_the_name(self):
        self.assertEqual(self.named(b"one\ntwo\n"), b"> one\n> two\n")
        self.assertEqual(self.named(b"on", b"e\nt", b"", b"wo\n", b"three\n"), b"> one\n> two\n> three\n")
        self.assertEqual(self.named(b"\n\n"), b"> \n> \n")
        self.assertEqual(self.named(), b"")

    def test_a_line_that_is_cut_is_ended(self):
        self.assertEqual(self.named(b"one\ntw"), b"> one\n> tw\n")


class Files(unittest.TestCase):
    def setUp(self):
        folder = tempfile.TemporaryDirectory()
        self.addCleanup(folder.cleanup)
        self.folder, self.path = folder.name, os.path.join(folder.name, "out")

    def test_one_is_written_whole(self):
        sink = Whole(self.path)
        sink.write(b"one")
        self.assertFalse(os.path.exists(self.path))
        sink.end(0)
        with open(self.path, "rb") as file:
            self.assertEqual(file.read(), b"one")
        self.assertEqual(os.listdir(self.folder), ["out"])

    def test_one_takes_the_place_of_another_and_keeps_its_mode(self):
        for is_linked in True, False:
            with open(self.path, "w"):
                os.chmod(self.path, 0o640)
            sink = Whole(self.path)
            sink.write(b"two")
            with mock.patch.object(os, "link", side_effect=None if is_linked else OSError(18, "Invalid cross-device link"), wraps=os.link):
                sink.end(0)
            with open(self.path, "rb") as file:
                self.assertEqual((file.read(), os.stat(self.path).st_mode & 0o777), (b"two", 0o640))
            self.assertEqual(os.listdir(self.folder), ["out"])

    def test_a_signal_leaves_nothing_behind(self):
        for number in signal.SIGTERM, signal.SIGHUP:
            child = os.fork()
            if child == 0:
                signal.signal(number, signal.SIG_DFL)  # nohup leaves SIGHUP ignored
                with removed_where_ended(self.path), open(self.path, "w"):
                    os.kill(os.getpid(), number)
                    time.sleep(9)
                os._exit(0)
            self.assertEqual((os.waitpid(child, 0)[1], os.listdir(self.folder)), (number, []))

    def test_what_fails_leaves_nothing_behind(self):
        with self.assertRaises(KeyError), removed_where_ended(self.path), open(self.path, "w"):
            raise KeyError
        self.assertEqual((os.listdir(self.folder), signal.getsignal(signal.SIGTERM)), ([], signal.SIG_DFL))

    def test_what_is_no_answer_goes_to_standard_output(self):
        with output() as written:
            sink = Whole(self.path)
            sink.write(b"no\n")
            sink.end(1)
        self.assertEqual((written, os.listdir(self.folder)), ([b"no\n"], []))

    def test_a_place_that_is_none(self):
        for path in (self.folder, os.path.join(self.path, "x")):
            with self.assertRaisesRegex(Unwritten, "cannot write it"):
                Whole(path)

    def test_what_is_read_is_kept(self):
        link, other = self.path + "-link", self.path + "-other"
        with open(self.path, "w"):
            pass
        os.symlink(self.path, link)
        os.link(self.path, other)
        for path in (self.path, link, other):
            with self.assertRaisesRegex(Overwriting, "is read"):
                Whole(path).keep_off([self.path])
        Whole(self.path).keep_off(["/no/such/file", self.folder, "/dev/null"])
        Whole("/dev/null").keep_off(["/dev/null"])

    def test_what_was_read_meanwhile_is_kept(self):
        from scripts.bounded import opened

        with open(self.path, "w") as file:
            file.write("before")
        sink = Whole(self.path)
        opened(self.path)
        sink.write(b"after")
        with self.assertRaises(Overwriting):
            sink.end(0)
        with open(self.path) as file:
            self.assertEqual(file.read(), "before")

    def test_files_that_an_answer_names(self):
        answer = b'unit 0 file 1 same "/a\\x22 b.c"\nunit 0 file 2 unreadable "-"\n'
        self.assertEqual(listed_in(answer), [b'/a" b.c'])

    def test_names(self):
        self.assertIsNone(place_named(self.path))
        self.assertEqual(place_named("/proc/self/exe"), place_named(os.path.realpath("/proc/self/exe")))


class Device(unittest.TestCase):
    def test_a_full_one(self):
        kept = os.dup(1)
        full = os.open("/dev/full", os.O_WRONLY)
        os.dup2(full, 1)
        try:
            with self.assertRaisesRegex(Unwritten, "cannot write"):
                Standard().write(b"x")
        finally:
            os.dup2(kept, 1)
            os.close(kept)
            os.close(full)


if __name__ == "__main__":
    unittest.main()
