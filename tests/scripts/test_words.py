import os
import sys
import tempfile
import unittest
from unittest import mock

from scripts.object import words
from scripts.object.words import GAPS, REPORT, Check, Differing, Given, Symbolize, Usage, Word

TEXT = """Tells whether

Usage: linetab %s [OPTIONS] <SECTION>%s

Arguments:
  <SECTION>  The file%s

Options:
      --all              All
      --big              Big
      --quiet            Quiet
      --line-str <FILE>  Texts
      --addresses <FILE>  Addresses
      --op <N>           Operation
  -h, --help             Print help

More
"""
VERIFY = Word("verify", TEXT % ("verify", "", ""))
TABLE = Word("table", TEXT % ("table", "", ""))
CHECK = Check(TEXT % ("check", " <TABLE>", "\n  <TABLE>    The table"))
LOOKUP = Word("lookup", TEXT % ("lookup", " [ADDRESS]...", "\n  [ADDRESS]...  An address"))
SYMBOLIZE = Symbolize(LOOKUP)
GAPS_OF, REPORT_OF = (Differing(named, CHECK.text.replace("<SYMBOLS>", "<TABLE>")) for named in (GAPS, REPORT))


class Helps(unittest.TestCase):
    def test_rows(self):
        self.assertEqual(words.rows(VERIFY.text, "Options")[:2], [("--all", "All"), ("--big", "Big")])
        self.assertEqual(words.names_of("-o, --output <FILE>"), ["-o", "--output"])

    def test_what_a_word_takes(self):
        self.assertEqual([one.takes_many for one in (VERIFY, CHECK, LOOKUP, SYMBOLIZE)], [True, False, False, False])
        self.assertEqual(CHECK.used(), "linetab-object check [OPTIONS] <FILE> <SYMBOLS>")
        self.assertEqual(VERIFY.used(), "linetab-object verify [OPTIONS] <FILE>...")
        self.assertEqual(LOOKUP.taken_by_it(), "one FILE and ADDRESS..")

    def test_help_has_its_own_options_too(self):
        for word, option in ((VERIFY, "--json"), (CHECK, "--max <N>"), (CHECK, "--json"), (TABLE, "-r, --recursive"), (SYMBOLIZE, "--base <ADDRESS>")):
            self.assertIn(option, word.help())
        self.assertNotIn("--json", TABLE.help())
        self.assertTrue(CHECK.help().endswith("\n\nMore\n"))

    def test_words_about_what_check_finds(self):
        self.assertEqual(GAPS_OF.used(), "linetab-object gaps [OPTIONS] <FILE> <SYMBOLS>")
        self.assertEqual(REPORT_OF.used(), "linetab-object report [OPTIONS] <FILE> <SYMBOLS>...")
        for word in (GAPS_OF, REPORT_OF):
            self.assertTrue(word.help().startswith(("Prints as CSV", "Writes a page")))
            self.assertIn("--map <FROM=TO>", word.help())
            for option in ("--all", "--json", "--summary", "--recursive"):
                self.assertNotIn(option, word.help())

    def test_texts_of_the_program(self):
        self.assertEqual(words.renamed("Usage: linetab check <SECTION> <TABLE> 'linetab'"),
                         "Usage: linetab-object check <FILE> <SYMBOLS> 'linetab-object'")
        self.assertEqual(words.without_size("upgrade --address-size <2|4|8> <SECTION>"), "upgrade <SECTION>")


class Kept(unittest.TestCase):
    def test_the_program_is_asked_unless_its_help_is_kept(self):
        asked = mock.Mock(return_value=(0, "asked", ""))
        with tempfile.TemporaryDirectory() as folder, mock.patch.object(sys, "path", [folder]), mock.patch.object(words, "asked", asked):
            program, kept = os.path.join(folder, "linetab"), os.path.join(folder, "words", "verify")
            os.mkdir(os.path.dirname(kept))
            for path in (program, kept):
                with open(path, "w") as file:
                    file.write("kept")
            with mock.patch.object(words, "LINETAB", program):
                for time, name, found in ((9, "verify", "kept"), (10, "verify", "kept"), (11, "verify", "asked"), (9, "table", "asked"),
                                          (9, "../words/verify", "asked"), (9, ".", "asked")):
                    os.utime(program, (time, time))
                    os.utime(kept, (10, 10))
                    self.assertEqual(words.help_of(name), (0, found, ""))
        asked.assert_called_with([".", "--help"])


class Typed(unittest.TestCase):
    def test_options_wherever_they_stand(self):
        given = Given(CHECK, ["--all", "app", "--line-str", "x", "table", "--quiet", "-oout"])
        self.assertEqual((given.files, given.others), (["app"], ["table"]))
        self.assertEqual(given.options, [["--all"], ["--line-str", "x"], ["--quiet"]])
        self.assertEqual(given.own, {"--output": "out"})
        self.assertEqual(given.words(), ["--all", "--line-str", "x"])
        self.assertEqual(given.words_of_section(), ["--line-str", "x"])
        self.assertTrue(given.is_quiet)

    def test_what_stands_behind_two_dashes(self):
        given = Given(CHECK, ["app", "--", "--all"])
        self.assertEqual((given.others, given.names, given.behind()), (["--all"], set(), ["--", "--all"]))

    def test_several_files(self):
        self.assertTrue(Given(VERIFY, ["a", "b"]).is_several)
        self.assertTrue(Given(VERIFY, ["-r", "a"]).is_several)
        self.assertFalse(Given(VERIFY, ["a"]).is_several)
        self.assertFalse(Given(CHECK, ["a", "b"]).is_several)

    def test_names_are_changed(self):
        given = Given(CHECK, ["app", "--map", "/b=/w", "--map=/bc=/x", "--map", "/e="])
        spans = [(0, 1, (b"/bc/a", 1)), (1, 2, (b"/e/a", 2)), (2, 3, (b"c", 3))]
        self.assertEqual([path for _, _, (path, _) in given.mapped(spans)], [b"/wc/a", b"/a", b"c"])
        plain = Given(CHECK, ["app"])
        self.assertIs(plain.mapped(spans), spans)

    def test_numbers(self):
        self.assertEqual([Given(CHECK, ["app", *typed]).jobs() for typed in (["-j3"], ["--jobs=04"], ["-j", "5"])], [3, 4, 5])
        self.assertGreater(Given(CHECK, ["app"]).jobs(), 0)
        self.assertEqual(Given(CHECK, ["app", "--base=0x4F"]).base(), 0x4F)
        self.assertEqual(Given(CHECK, ["app", "--base", "4f"]).base(), 0x4F)
        self.assertIsNone(Given(CHECK, ["app"]).base())
        self.assertEqual(Given(CHECK, ["app", "--all", "--max", "07"]).most(), 7)
        self.assertIsNone(Given(CHECK, ["app", "--all"]).most())

    def test_files_that_are_read(self):
        self.assertEqual(Given(CHECK, ["app", "t", "--line-str=x", "-o", "y"]).inputs(), ["app", "t", "x"])
        self.assertEqual(Given(LOOKUP, ["app", "0x0", "--addresses", "-", "--op", "1"]).inputs(), ["app", "-"])
        self.assertEqual(Given(SYMBOLIZE, ["app"]).inputs(), ["app", "-"])

    def test_what_is_refused(self):
        cases = [
            (VERIFY, ["-o"], "-o wants a value"),
            (VERIFY, ["--recursive=yes"], "--recursive takes no value"),
            (CHECK, ["--base", "0y"], "--base wants"),
            (CHECK, ["--map", "x"], "--map wants FROM=TO"),
            (CHECK, ["--max", "3"], "--max is for check --all"),
            (CHECK, ["--all", "--max", "0"], "--max wants a number"),
            (CHECK, ["--all", "--max", "\u0663"], "--max wants a number"),
            (CHECK, ["-r", "-j", "0"], "--jobs wants a number from 1 on, and not 0"),
            (TABLE, ["-jx"], "--jobs wants a number"),
            (LOOKUP, ["--recursive"], "lookup takes one FILE and ADDRESS.., and no folders"),
            (TABLE, ["--json"], "table takes FILEs, and no --json"),
            (SYMBOLIZE, ["--max", "3"], "symbolize takes one FILE, and no --max"),
            (GAPS_OF, ["a", "b", "--all"], "gaps takes one FILE and SYMBOLS, and no --all, which is for check"),
            (REPORT_OF, ["a", "b", "--summary"], "report takes one FILE and SYMBOLS.., and no --summary, which is for check"),
        ]
        for word, typed, text in cases:
            with self.assertRaisesRegex(Usage, text):
                Given(word, typed)

    def test_what_the_program_refuses_is_handed_on(self):
        self.assertEqual(Given(VERIFY, ["--none", "-x"]).words(), ["--none", "-x"])


if __name__ == "__main__":
    unittest.main()
