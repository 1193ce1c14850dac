"""The directories in which units were compiled, and the supplementary file in which some stand."""

import os
import tempfile
import unittest
from unittest import mock

from scripts.bounded import Failure, Part
from scripts.object import directories, program, supplement
from scripts.object.cursor import Broken, Cursor
from scripts.object.directories import WINDOW
from scripts.object.image import LINE, Image

STRING, STRP, ALT, SUP = b"\x08", b"\x0e", b"\xa1\x3e", b"\x1d"


def image_with(path="/w/app", **sections):
    image = Image("ELF", False)
    image.path = path
    for name, content in sections.items():
        image.add("." + name, Part(content, 0, len(content)), 0, len(content))
    return image


def info_of(*values):
    """Units of version 4 with these directories, as they stand there; the Kth names the Kth unit of line numbers."""
    info = b""
    for k, value in enumerate(values):
        content = b"\4\0" + bytes(4) + b"\x08" + b"\1" + (LINE_SIZE * k).to_bytes(4, "little") + value
        info += len(content).to_bytes(4, "little") + content
    return info


def line_unit(name=b"a.c"):
    header = b"\1\1\1\xfb\x0e\1" + b"\0" + name + b"\0\0\0\0\0"
    content = b"\4\0" + len(header).to_bytes(4, "little") + header
    return len(content).to_bytes(4, "little") + content


LINE_SIZE = len(line_unit())


def found(form, values, names=(b"a.c",), **sections):
    """The records of directories, and the notes."""
    line = b"".join(map(line_unit, names))
    abbrev = b"\1\x11\0\x10\x17\x1b" + form + b"\0\0\0"
    image = image_with(debug_info=info_of(*values), debug_abbrev=abbrev, **sections)
    image.add(LINE, Part(line, 0, len(line)), 0, len(line))
    made = directories.Directories(image, Part(line, 0, len(line)))
    return b"".join(made.records()).split(b"\n")[1:-1], made.notes()


class Records(unittest.TestCase):
    def test_a_directory_of_its_own(self):
        self.assertEqual(found(STRING, [b"/w\0"]), ([b"0,/w"], []))

    def test_no_directory_and_relative_paths(self):
        self.assertEqual(found(STRING, [b"\0", b"/w\0"], [b"a.c", b"b.c"]), ([b"%d,/w" % LINE_SIZE], [
            "no compilation directory is known of 1 of its 2 units, so relative paths stay relative, as a.c"]))

    def test_no_directory_and_whole_paths(self):
        self.assertEqual(found(STRING, [b"\0"], [b"/a.c"]), ([], []))

    def test_a_directory_that_cannot_be_read_is_told_once(self):
        records, notes = found(STRP, [bytes(4)])
        self.assertEqual((records, len(notes)), ([], 1))
        self.assertIn("its directory lies past the end of a section", notes[0])

    def test_units_that_are_too_short_are_counted(self):
        names = [b"a.c", b"b.c"]
        whole = info_of(b"/w\0", b"/x\0")
        first = whole[: len(whole) // 2]
        info = bytes(8) + first + bytes(4) + b"\1\0\0\0\0" + bytes(4) + whole[len(first) :] + bytes(3)
        with mock.patch(__name__ + ".info_of", lambda *_: info):
            records, notes = found(STRING, [b"", b""], names)
        self.assertEqual(records, [b"0,/w", b"%d,/x" % LINE_SIZE])
        self.assertEqual(notes, ["6 compilation directories can't be read, and are left empty; the first is that of the unit at 0x0 of "
                                 ".debug_info: it is cut"])

    def test_a_megabyte_of_zeros_is_no_quarter_of_a_million_units(self):
        with mock.patch.object(directories, "Unit", side_effect=AssertionError):
            image = image_with(debug_info=bytes(1 << 20))
            self.assertEqual([count for *_, count in directories.Units(image, None).places()], [WINDOW // 4] * ((1 << 20) // WINDOW))

    def test_a_file_that_cannot_be_written_is_no_fault_of_the_section(self):
        with mock.patch.object(program, "without_name", side_effect=OSError(28, "No space left on device")):
            with self.assertRaises(Failure):
                program.unnamed([b"some"])

    def test_a_file_that_cannot_be_written_is_closed(self):
        before = len(os.listdir("/proc/self/fd"))
        with mock.patch.object(program, "put_whole", side_effect=OSError(27, "File too large")):
            with self.assertRaises(Failure):
                program.unnamed([b"some"])
        self.assertEqual(len(os.listdir("/proc/self/fd")), before)


class Supplements(unittest.TestCase):
    def setUp(self):
        self.folder = tempfile.TemporaryDirectory()
        self.addCleanup(self.folder.cleanup)

    def at(self, name, content=b""):
        """A file in the folder."""
        path = os.path.join(os.path.realpath(self.folder.name), name)
        with open(path, "wb") as file:
            file.write(content)
        return path

    def supplement(self, image, files):
        """The image of the supplementary file, where these images stand at these places."""
        with mock.patch.object(supplement, "image_of", lambda data, place: files[place]):
            return supplement.supplement_of(image)

    def test_the_two_sections_that_name_one(self):
        self.assertIsNone(supplement.named_by(image_with()))
        self.assertEqual(supplement.named_by(image_with(gnu_debugaltlink=b"../x\0\1\xab")), ("../x", "01ab"))
        self.assertEqual(supplement.named_by(image_with(debug_sup=b"\5\0\0x\0\2\1\xab")), ("x", "01ab"))
        for cut in (b"", b"\5\0\0x", b"\5\0\0x\0\2\1"):
            with self.assertRaises(Broken):
                supplement.named_by(image_with(debug_sup=cut))

    def test_its_places(self):
        places = list(supplement.candidates("/none/app", "../.dwz/x/y.debug", "abcd"))
        self.assertEqual(places, ["/.dwz/x/y.debug", "/usr/lib/debug/.dwz/x/y.debug", "/usr/lib/debug/.build-id/ab/cd.debug"])
        # Nothing lies beside standard input.
        self.assertEqual(list(supplement.candidates("/proc/self/fd/0", "d/y", "abcd"))[0], "/usr/lib/debug/.dwz/y")
        self.assertEqual(list(supplement.candidates("/proc/self/fd/0", "/d/y", "abcd"))[0], "/d/y")

    def test_it_has_to_be_of_the_build_that_is_named(self):
        place = self.at("common")
        image = image_with(self.at("app"), gnu_debugaltlink=b"common\0\1\xab")
        right, wrong = image_with(), image_with()
        right.identity, wrong.identity = "01ab", "01ac"
        self.assertIs(self.supplement(image, {place: right}), right)
        with self.assertRaisesRegex(Broken, "of build id 01ab, and .*common is another one"):
            self.supplement(image, {place: wrong})
        sup = image_with(debug_sup=b"\5\0\1\0\2\1\xab")
        self.assertIs(self.supplement(image, {place: sup}), sup)
        with self.assertRaises(Broken):  # a program that names one isn't one
            self.supplement(image, {place: image_with(debug_sup=b"\5\0\0\0\2\1\xab")})

    def test_no_file(self):
        image = image_with(self.at("app"), gnu_debugaltlink=b"none\0\1\xab")
        with self.assertRaisesRegex(Broken, "isn't in .*/none or /usr/lib/debug/.dwz/none or /usr/lib/debug/.build-id/01/ab.debug"):
            self.supplement(image, {})

    def test_a_disk_that_fails_is_no_missing_file(self):
        image = image_with(self.at("app"), gnu_debugaltlink=b"common\0\1\xab")
        with mock.patch.object(supplement, "opened", side_effect=OSError(5, "Input/output error")):
            with self.assertRaisesRegex(Failure, "the supplementary file .*/common can't be read: Input/output error"):
                supplement.supplement_of(image)

    def test_it_is_looked_for_only_where_it_is_wanted(self):
        line = line_unit().replace(b"\4\0", b"\5\0", 1)
        image = image_with(debug_info=info_of(bytes(4)), debug_abbrev=b"\1\x11\0\x10\x17\x1b" + ALT + b"\0\0\0")
        with mock.patch.object(supplement, "supplement_of", side_effect=AssertionError):
            made = directories.Directories(image, Part(line, 0, len(line)))
        self.assertEqual((list(made.records()), made.notes()), ([b"unit,directory\n"], []))

    def test_directories_in_it(self):
        other = image_with("/w/common", debug_str=b"\0/of\0")
        for form in (ALT, SUP):
            with mock.patch.object(supplement, "supplement_of", lambda image: other):
                self.assertEqual(found(form, [b"\1\0\0\0"]), ([b"0,/of"], ["compilation directories are in the supplementary file /w/common"]))
            with mock.patch.object(supplement, "supplement_of", side_effect=Broken("it is elsewhere")):
                records, notes = found(form, [b"\1\0\0\0"] * 2, [b"a.c", b"b.c"])
            self.assertEqual(records, [])
            self.assertEqual(notes, ["2 compilation directories can't be read, and are left empty; the first is that of the unit at 0x0 of "
                                     ".debug_info: it is elsewhere"])


class Cursors(unittest.TestCase):
    def test_it_ends_where_its_part_does(self):
        cursor = Cursor(Part(b"xx\1\0ab\0c", 2, 5), 0, 9, "little")
        self.assertEqual((cursor.number(2), cursor.text()), (1, b"ab"))
        for read in (cursor.text, cursor.leb, lambda: cursor.skip(1), lambda: cursor.bytes(1)):
            with self.assertRaises(Broken):
                read()

    def test_it_ends_no_later_than_before(self):
        cursor = Cursor(Part(bytes(9), 0, 9), 1, 4, "little")
        cursor.end_after(2)
        cursor.end_after(9)
        cursor.skip(2)
        with self.assertRaises(Broken):
            cursor.skip(1)


if __name__ == "__main__":
    unittest.main()
