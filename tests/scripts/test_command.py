import tempfile
import unittest
from unittest import mock

from scripts.table import command

ABOUT = """Writes.

usage: linetab-table MAKER FILE [OPTIONS..]

Makers:
  lines           A file
  gsym-17         Another
                  file
  points COMMAND  A program

Options:
      --dead <ADDRESS>   Leaves out
                         (llvm-dwarfdump, readelf)
      --quiet            Prints no notes
  -V, --version          Prints the version

More.
"""


class Words(unittest.TestCase):
    def refused(self, *typed):
        """What is told of words that are refused."""
        told = []
        with mock.patch.object(command, "tell", told.append), self.assertRaises(SystemExit) as caught:
            command.asked_for(list(typed))
        self.assertEqual(caught.exception.code, 2)
        return told[0]

    def test_what_is_asked(self):
        asked = command.asked_for(["readelf", "--dead", "0x0", "-", "--skip-copies"])
        self.assertEqual((asked.maker, asked.file, asked.dead, asked.skip_copies, asked.like), ("readelf", "-", 0, True, None))
        asked = command.asked_for(["points", "llvm-symbolizer", "app"])
        self.assertEqual((asked.command, asked.file), ("llvm-symbolizer", "app"))

    def test_what_is_refused(self):
        for typed, text in (
            ([], "one of gsym-17, llvm-dwarfdump"), (["gdb", "a"], "one of gsym-17"), (["gsym-17"], "linetab-table gsym-17 FILE"),
            (["gsym-17", "a", "b"], "linetab-table gsym-17 FILE"), (["readelf", "a", "--like", "addr2line"], "--like is for points"),
            (["gsym-17", "a", "--dead", "0x0"], "--dead is for llvm-dwarfdump and readelf"), (["readelf", "a", "--dead", "12"], "12 isn't"),
            (["points", "gdb", "app"], "COMMAND is an addr2line"),
        ):
            self.assertIn(text, self.refused(*typed))


class Helps(unittest.TestCase):
    def test_of_a_maker(self):
        self.assertEqual(command.help_of(ABOUT, "gsym-17"), "gsym-17         Another\nfile\n\nusage: linetab-table gsym-17 FILE [OPTIONS..]\n\n"
                         "Options:\n      --quiet            Prints no notes\n")
        self.assertIn("usage: linetab-table points COMMAND FILE [OPTIONS..]", command.help_of(ABOUT, "points"))

    def test_parts(self):
        self.assertEqual([left for left, _ in command.part_of(ABOUT, "Makers")], ["lines", "gsym-17", "points COMMAND"])
        self.assertTrue(command.is_of("readelf", ["", "(llvm-dwarfdump, readelf)"]))
        self.assertFalse(command.is_of("lines", ["", "(llvm-dwarfdump, readelf)"]))
        self.assertTrue(command.is_of("lines", ["for all"]))


class Tables(unittest.TestCase):
    def test_of_each_file(self):
        with tempfile.NamedTemporaryFile() as file:
            file.write(b"0x10 0x12 /a.c:1\n0x12 0x14 /a.c:1\n")
            file.flush()
            asked = command.asked_for(["lines", file.name])
            self.assertEqual(b"".join(command.table_for(asked)), b"low,high,path,line\n0x10,0x14,/a.c,1\n")

    def test_columns(self):
        makers = command.MAKERS
        self.assertTrue(makers["llvm-dwarfdump"].has_columns(None))
        self.assertFalse(makers["readelf"].has_columns(None))
        asked = command.asked_for(["points", "eu-addr2line", "app"])
        self.assertTrue(makers["points"].has_columns(asked))
        for like, has in (("llvm-symbolizer", True), ("addr2line", False)):
            self.assertEqual(makers["points"].has_columns(command.asked_for(["points", "mine", "app", "--like", like])), has)

    def test_columns_of_lines(self):
        for text, table in ((b"10 /a:1\n", b"low,high,path,line\n0x10,0x11,/a,1\n"), (b"10 /a:1:2\n", b"low,high,path,line,column\n0x10,0x11,/a,1,2\n")):
            with tempfile.NamedTemporaryFile() as file:
                file.write(text)
                file.flush()
                self.assertEqual(b"".join(command.table_for(command.asked_for(["lines", file.name]))), table)

    def test_each_maker_has_a_name(self):
        self.assertEqual(list(command.MAKERS), ["gsym-17", "llvm-dwarfdump", "readelf", "lines", "points"])


if __name__ == "__main__":
    unittest.main()
