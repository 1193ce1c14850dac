"""What to do about units of another version, and about addresses of another size."""

import struct
import unittest

from scripts.bounded import Part
from scripts.object.advice import advice, compiler_of, first_path, of_another_version
from scripts.object.image import Image

ANEW = "to build it anew: compile with -gdwarf-5"


class Question:
    """What is asked of a file with these sections."""

    def __init__(self, line, versions=(5,), upgrading="with --older", **others):
        self.image, self.line = Image("ELF", False), line
        self.versions, self.upgrading, self.options = versions, upgrading, {}
        for name, content in others.items():
            self.image.add("." + name, Part(content, 0, len(content)), 0, len(content))

    def section(self):
        return Part(self.line, 0, len(self.line))


def unit(version, name=b"a.c"):
    header = b"\1\1\1\xfb\x0e\1" if version == 4 else b"\1\1\xfb\x0e\1"
    header += b"\0" + name + b"\0\0\0\0\0"
    return struct.pack("<IHI", len(header) + 6, version, len(header)) + header


class Versions(unittest.TestCase):
    def test_what_is_shipped_comes_first(self):
        self.assertEqual(of_another_version(Question(unit(4))),
                         "its unit, of a.c, is of version 4; linetab reads DWARF 5 alone: with --older it is upgraded first; " + ANEW)

    def test_how_it_would_be_read(self):
        self.assertEqual(of_another_version(Question(unit(5) + unit(4) + unit(4), upgrading="without --no-older")),
                         "2 of its 3 units, the first of a.c, are of version 4; linetab reads DWARF 5 alone: without --no-older they are "
                         "upgraded first; " + ANEW)

    def test_a_version_that_nothing_upgrades(self):
        self.assertEqual(of_another_version(Question(unit(7), versions=(5, 2, 3, 4))),
                         "its unit is of version 7; linetab reads DWARF 2 to 5 alone: compile with -gdwarf-5")

    def test_the_compiler_says_how(self):
        said = of_another_version(Question(unit(4), debug_str=b"clang LLVM (rustc version 1.95.0)\0"))
        self.assertIn("with --older it is upgraded first; to build it anew: rustc takes -C dwarf-version=5, and ", said)
        said = of_another_version(Question(unit(2), debug_info=b"xGo cmd/compile go1.19"))
        self.assertIn("with --older it is upgraded first; to build it anew: Go writes version 5 from release 1.25 on", said)

    def test_no_such_unit(self):
        self.assertIsNone(of_another_version(Question(unit(5))))
        self.assertIsNone(of_another_version(Question(unit(4), versions=(5, 2, 3, 4))))

    def test_a_name_that_no_terminal_shows(self):
        section = Part(unit(4, b"\x1b[m"), 0, 99)
        self.assertEqual(first_path(section, 0, False), "")


class Advice(unittest.TestCase):
    def test_addresses_of_another_size(self):
        line = "no 25 malformed at 0x47: extended length"
        question = Question(unit(4))
        self.assertEqual(advice(line, question), (None, ()))
        question.options["--address-size"] = ["4"]
        text, same = advice(line, question)
        self.assertTrue(text.startswith("units were upgraded for addresses of 4 bytes, and "), text)
        self.assertEqual(same, ("the operation there sets an address ",))

    def test_compilers_in_all_sections(self):
        self.assertIsNone(compiler_of(Question(b"").image))
        self.assertEqual(compiler_of(Question(b"", comment=b"GCC: (Debian) 12\0Free Pascal 3.2.2").image), b"Free Pascal ")


if __name__ == "__main__":
    unittest.main()
