"""What the machine can't do: nothing is answered as if a file had less in it, and an answer that is there stands."""

import errno
import os
import unittest
from types import SimpleNamespace
from unittest import mock

from scripts import bounded
from scripts.bounded import Failure, Nothing, Refusal
from scripts.object import check, command, symbol_files
from scripts.object.program import Run


def ended(status):
    """A run of the program that ended so."""
    run = Run.__new__(Run)
    run.status = status
    return run


class Failures(unittest.TestCase):
    def test_it_is_no_refusal_and_its_status_is_3(self):
        self.assertFalse(issubclass(Failure, Refusal))
        self.assertEqual(command.reason_of(Failure("it is full")), ("it is full", 3))

    def test_no_memory_for_what_the_system_does(self):
        error = OSError(errno.ENOMEM, "Cannot allocate memory")
        self.assertEqual(command.reason_of(error), ("out of memory", 4))
        self.assertIsInstance(bounded.failure("it can't be run: %s", error), MemoryError)
        with mock.patch.object(os, "posix_spawn", side_effect=error):
            self.assertRaises(MemoryError, Run, ["verify"])
        other = bounded.failure("it can't be run: %s", OSError(errno.ENOENT, "No such file or directory"))
        self.assertEqual(command.reason_of(other), ("it can't be run: No such file or directory", 3))

    def test_a_run_that_came_to_no_answer(self):
        self.assertEqual([ended(0).judged(), ended(1).judged()], [0, 1])
        self.assertRaises(MemoryError, ended(4).judged)
        for status in (2, 3, -9):
            with self.assertRaisesRegex(Failure, "ended with %d" % status):
                ended(status).judged()

    def test_a_symbol_file_that_cannot_be_read_is_no_table(self):
        with mock.patch.object(os, "open", side_effect=OSError(errno.EIO, "Input/output error")):
            with self.assertRaises(Failure) as caught:
                symbol_files.Other("app.sym")
        self.assertEqual((str(caught.exception), caught.exception.name), ("cannot read it: Input/output error", "app.sym"))
        # Of a file that isn't there the program tells.
        self.assertIsNone(symbol_files.Other("/none/app.sym").data)

    def test_a_note_that_cannot_be_made_is_left_out_and_in_json_nothing_is(self):
        for fault in (Failure("it is full"), OSError(5, "Input/output error"), MemoryError()):
            for is_json in (False, True):
                comparison = check.Comparison(SimpleNamespace(is_json=is_json), "app", None, None)
                with mock.patch.object(check.Comparison, "missing", side_effect=fault):
                    if is_json:
                        self.assertRaises(type(fault), comparison.add_notes, None, [])
                    else:
                        comparison.add_notes(None, [])
                self.assertEqual(comparison.notes, [])

    def test_a_debug_file_that_cannot_be_read_is_no_missing_one(self):
        from scripts.object import apart
        from scripts.object.image import Image

        image = Image("ELF", False)
        image.identity = "0011"
        with mock.patch.object(apart, "opened", side_effect=OSError(errno.EIO, "Input/output error")):
            self.assertRaises(OSError, apart.apart, "/none/app", image)
        with mock.patch.object(apart, "opened", side_effect=OSError(errno.ENOENT, "No such file or directory")):
            self.assertRaises(Nothing, apart.apart, "/none/app", image)


if __name__ == "__main__":
    unittest.main()
