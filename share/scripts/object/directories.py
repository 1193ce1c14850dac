"""The directories in which units were compiled: of each unit of .debug_info that names a unit of .debug_line of version 2, 3 or 4 by
DW_AT_stmt_list, its DW_AT_comp_dir, as comma-separated values `unit,directory`.

It reads versions 2 to 5 in both formats and byte orders (DWARF 5, 7.5). Memory and time grow as the file does, whatever it holds."""

import os
import re
from array import array
from bisect import bisect_left
from itertools import filterfalse, islice

from scripts.bounded import MOST, Part, Refusal, stored
from scripts.object.cursor import Broken, Cursor
from scripts.object.older import OLDER, counted, versions
from scripts.object.older_paths import paths
from scripts.object.program import unnamed
from scripts.paths import is_full
from scripts.telling import shown

STMT_LIST, COMP_DIR, STR_OFFSETS_BASE = 0x10, 0x1B, 0x72
# Forms by the number of bytes that each has, and others by what stands there.
SIZES = {
    0x05: 2, 0x06: 4, 0x07: 8, 0x0B: 1, 0x0C: 1, 0x11: 1, 0x12: 2, 0x13: 4, 0x14: 8, 0x19: 0, 0x1C: 4, 0x1E: 16, 0x20: 8, 0x21: 0, 0x24: 8,
    0x25: 1, 0x26: 2, 0x27: 3, 0x28: 4, 0x29: 1, 0x2A: 2, 0x2B: 3, 0x2C: 4,
}
OFFSETS = {0x0E, 0x17, 0x1D, 0x1F, 0x1F20, 0x1F21}
NUMBERS = {0x0D, 0x0F, 0x15, 0x1A, 0x1B, 0x22, 0x23, 0x1F01, 0x1F02}
BLOCKS = {0x0A: 1, 0x03: 2, 0x04: 4, 0x09: 0, 0x18: 0}  # the bytes of the length, 0 where it is a number in LEB128
ADDRESS, REF_ADDR, STRING, INDIRECT, IMPLICIT = 0x01, 0x10, 0x08, 0x16, 0x21
STRP, LINE_STRP, INDEXES = 0x0E, 0x1F, {0x1A, 0x25, 0x26, 0x27, 0x28, 0x1F02}
STRP_SUP, STRP_ALT = 0x1D, 0x1F21  # in the supplementary file
# Sections, by the numbers under which a place in them is kept.
INFO, STR, LINE_STR, SUPPLEMENT = 1, 2, 3, 4
SECTION_OF = {STRING: INFO, LINE_STRP: LINE_STR, STRP_SUP: SUPPLEMENT, STRP_ALT: SUPPLEMENT}
NONE, UNREAD = 0, 255  # in their place, of a unit without a directory, and of one whose directory can't be read
LONGEST = 1 << 12  # bytes of a directory: no system takes a longer one
LEAST = 8  # bytes that a unit has behind its length: a version, a size of addresses, the offset of a table, and a code
WINDOW = 1 << 16  # bytes in which units that are shorter are counted at once
ZEROS = re.compile(rb"(?:\0\0\0\0)*")  # units of no byte


def section_of(image, name):
    """The bytes of a section, which are unpacked into a file where they are packed."""
    if not image.has(name):
        return Part(b"", 0, 0)
    if name in image.doubled:
        raise Refusal("it has two sections %s, and nothing says which one is meant" % name)
    data, offset, size, unpack = image.sections[name]
    if not unpack:
        return data.part(offset, size)
    file = unnamed(image.pieces(name))
    try:
        return stored(file)
    finally:
        os.close(file)


class Units:
    """The units of .debug_info. Of those that name a unit of .debug_line for which `is_wanted` is false, no directory is looked for."""

    def __init__(self, image, is_wanted):
        self.image, self.is_wanted = image, is_wanted
        self.order = "big" if image.big else "little"
        self.info, self.abbrev = section_of(image, ".debug_info"), section_of(image, ".debug_abbrev")
        self.texts = {INFO: self.info, STR: section_of(image, ".debug_str"), LINE_STR: section_of(image, ".debug_line_str")}
        self.offsets = section_of(image, ".debug_str_offsets")
        self.place = None  # where the supplementary file lies, if it is read
        self.without = ""  # why it can't be read
        self.sizes = set()  # those that addresses have
        self.known = {}  # where the attributes of an abbreviation stand, by the offset of its table and its code
        self.left = 2 * (self.info.size + self.abbrev.size) + (1 << 16)  # bytes of abbreviations that are gone through

    def short(self, at):
        """How many units, of those from an offset on, end before their headers do, and where the last of them ends."""
        window = self.info.part(at, WINDOW)
        window, place, count = window.take(0, window.size), 0, 0
        while place + 4 <= len(window):
            length = int.from_bytes(window[place : place + 4], self.order)
            if length >= LEAST or place + 4 + length > len(window):
                break
            units = (ZEROS.match(window, place).end() - place) // 4 or 1
            place, count = place + 4 * units + length, count + units
        return count, at + place

    def places(self):
        """Of each unit where it begins, the unit of .debug_line that it names, where its directory stands, why that isn't known, and how
        many units there are of which the same is so."""
        at = 0
        while at < self.info.size:
            head = self.info.part(at, 4)
            count, behind = self.short(at) if int.from_bytes(head.take(0, head.size), self.order) < LEAST else (0, at)
            if count:
                yield at, None, None, Broken("it is cut"), count
                at = behind
                continue
            try:
                unit = Unit(self, at)
            except Broken as fault:
                yield at, None, None, fault, 1
                return
            place = fault = None
            try:
                place = unit.place()
            except Broken as broken:
                fault = broken
            if unit.named is not None:
                self.sizes.add(unit.address)
            yield at, unit.named, place, fault, 1
            at = unit.after

    def texts_of(self, section):
        """The bytes of a section with texts."""
        if section not in self.texts:
            self.texts[section] = self.supplement()
        if self.without and section == SUPPLEMENT:
            raise Broken(self.without)
        return self.texts[section]

    def supplement(self):
        """The bytes of the texts in the supplementary file."""
        from scripts.object.supplement import supplement_of

        try:
            found = supplement_of(self.image)
            texts, self.place = section_of(found, ".debug_str"), found.path
            return texts
        except (Broken, Refusal) as fault:
            self.without = str(fault)
            return Part(b"", 0, 0)

    def attributes(self, table, code):
        """A place before the names and forms of an abbreviation."""
        if (table, code) not in self.known:
            self.known[table, code] = self.found(table, code)
        at = self.known[table, code]
        if at is None:
            raise Broken("it has no abbreviation %d" % code)
        return Cursor(self.abbrev, at, min(self.left, self.abbrev.size), self.order)

    def found(self, table, code):
        cursor = Cursor(self.abbrev, table, min(self.left, self.abbrev.size), self.order)
        start = cursor.at
        try:
            while True:
                number = cursor.leb()
                if number == 0:
                    return None
                cursor.leb()
                cursor.skip(1)
                if number == code:
                    return cursor.at - self.abbrev.start
                for _, _ in names_and_forms(cursor):
                    pass
        except Broken:
            return None
        finally:
            self.left -= cursor.at - start


def names_and_forms(cursor):
    """The name and the form of each attribute of an abbreviation, up to the last. A value that the abbreviation itself has is passed."""
    while True:
        name, form = cursor.leb(), cursor.leb()
        if name == form == 0:
            return
        if form == IMPLICIT:
            cursor.leb()
        yield name, form


class Unit:
    """A unit of .debug_info, whose header is read."""

    def __init__(self, units, at):
        self.units = units
        self.named = None  # the unit of .debug_line that it names
        head = Cursor(units.info, at, 12, units.order)
        length, self.width = head.number(4), 4
        if length == 0xFFFFFFFF:
            length, self.width = head.number(8), 8
        elif length >= 0xFFFFFFF0:
            raise Broken("its length is none")
        start = at + 12 if self.width == 8 else at + 4
        self.after = start + length
        if self.after > units.info.size:
            raise Broken("it is cut")
        self.cursor = Cursor(units.info, start, length, units.order)

    def header(self):
        """Reads the header, and gives the offset of the table of abbreviations."""
        cursor = self.cursor
        self.version = cursor.number(2)
        if not 2 <= self.version <= 5:
            raise Broken("it is of version %d" % self.version)
        if self.version < 5:
            table, self.address = cursor.number(self.width), cursor.number(1)
            return table
        kind, self.address, table = cursor.number(1), cursor.number(1), cursor.number(self.width)
        # Behind it stand the signature of a type and its offset, or the number of a unit apart.
        cursor.skip({2: 8 + self.width, 6: 8 + self.width, 4: 8, 5: 8}.get(kind, 0))
        return table

    def place(self):
        """Where its directory stands, or None where it has none or names no unit of .debug_line for which it is wanted."""
        table = self.header()
        code = self.cursor.leb()
        if code == 0:
            return None
        listed = self.units.attributes(table, code)
        start = listed.at
        try:
            base, directory = self.asked(listed)
        finally:
            self.units.left -= listed.at - start
        if self.named is None or directory is None or not self.units.is_wanted(self.named):
            return None
        return self.found(base, *directory)

    def asked(self, listed):
        """The attributes that are asked for, beside the unit of .debug_line: the base of offsets of texts, and the directory's form and
        text."""
        base = directory = None
        for name, form in names_and_forms(listed):
            while form == INDIRECT:
                form = self.cursor.leb()
            if name == STMT_LIST:
                self.named = self.value(form)
            elif name == STR_OFFSETS_BASE:
                base = self.value(form)
            elif name == COMP_DIR:
                directory = form, self.text(form)
            else:
                self.skip(form)
        return base, directory

    def value(self, form):
        """A number, or None where the form is of something else."""
        if form in OFFSETS or form in (0x06, 0x07):
            return self.cursor.number(SIZES.get(form, self.width))
        self.skip(form)
        return None

    def text(self, form):
        """Where a text stands, or the number that leads to it."""
        if form == STRING:
            at = self.cursor.at - self.units.info.start
            self.cursor.to_zero()
            return at
        if form in (STRP, LINE_STRP, STRP_SUP, STRP_ALT):
            return self.cursor.number(self.width)
        if form in INDEXES:
            return self.cursor.number(SIZES[form]) if form in SIZES else self.cursor.leb()
        raise Broken("its directory is of the form 0x%x, which isn't read here" % form)

    def found(self, base, form, number):
        """The number of the section in which a text stands, and its offset there."""
        if form in INDEXES:
            if base is None:
                base = 0 if self.version < 5 else 2 * self.width
            number = Cursor(self.units.offsets, base + number * self.width, self.width, self.units.order).number(self.width)
        section = SECTION_OF.get(form, STR)
        if number >= self.units.texts_of(section).size:
            raise Broken("its directory lies past the end of a section")
        return section, number

    def skip(self, form):
        """Goes behind a value."""
        cursor = self.cursor
        if form in SIZES:
            cursor.skip(SIZES[form])
        elif form in OFFSETS or form == REF_ADDR and self.version > 2:
            cursor.skip(self.width)
        elif form in (ADDRESS, REF_ADDR):
            cursor.skip(self.address)
        elif form in NUMBERS:
            cursor.leb()
        elif form == STRING:
            cursor.to_zero()
        elif form in BLOCKS:
            cursor.skip(cursor.number(BLOCKS[form]) if BLOCKS[form] else cursor.leb())
        else:
            raise Broken("it has a value of the form 0x%x, which isn't known here" % form)


def field(content):
    """A field of comma-separated values."""
    if any(mark in content for mark in (b",", b'"', b"\n", b"\r")):
        return b'"%s"' % content.replace(b'"', b'""')
    return content


class Directories:
    """The directory of each unit of .debug_line of version 2, 3 or 4, as far as it is known."""

    def __init__(self, image, section):
        """`section` has the bytes of .debug_line."""
        self.units, self.line = Units(image, self.is_older), section
        self.lines, self.count = array("Q"), 0
        for version, at in versions(section, image.big):
            self.count += 1
            if version in OLDER:
                self.lines.append(at)
        self.sections = array("B", bytes(len(self.lines)))
        self.places = array("Q", bytes(8 * len(self.lines)))
        self.broken, self.first = 0, ""
        self.relative, self.example = 0, ""  # units without a directory that have relative paths, and one of these
        # No more is written than the file has, but for what stands in it more than once.
        self.left = 8 * (self.units.info.size + section.size) + (1 << 20)
        for at, named, place, fault, count in self.units.places():
            if named is not None and not self.is_older(named):
                continue
            if fault is not None:
                self.add_broken(at, ".debug_info", fault, count)
                place = UNREAD, 0
            if named is not None and place is not None:
                self.add(named, *place)

    def is_older(self, line):
        """Whether a unit of version 2, 3 or 4 begins there in .debug_line."""
        k = bisect_left(self.lines, line)
        return k < len(self.lines) and self.lines[k] == line

    def add_broken(self, at, section, fault, count=1):
        self.broken += count
        self.first = self.first or "that of the unit at 0x%x of %s: %s" % (at, section, fault)

    def add(self, named, section, place):
        k = bisect_left(self.lines, named)
        if self.sections[k] in (NONE, UNREAD):
            self.sections[k], self.places[k] = section, place

    def text(self, section, place):
        """A directory, or None if it is longer than any."""
        if section in (NONE, UNREAD):
            return b""
        content = self.units.texts_of(section).part(place, LONGEST)
        text, end, _ = content.take(0, content.size).partition(b"\0")
        return text if end and len(text) <= self.left else None

    def add_without(self, line):
        """Counts a unit of .debug_line without a directory, if one of its first paths is relative."""
        path = next(filterfalse(is_full, islice(paths(self.line, line, self.units.order), MOST)), None)
        if path is not None:
            self.relative += 1
            self.example = self.example or os.fsdecode(path)

    def records(self):
        """The lines of comma-separated values, each with its end."""
        yield b"unit,directory\n"
        for line, section, place in zip(self.lines, self.sections, self.places):
            text = self.text(section, place)
            if text is None:
                self.add_broken(line, ".debug_line", "it is longer than any")
            elif text:
                self.left -= len(text)
                yield b"%d,%s\n" % (line, field(text))
            elif section != UNREAD:
                self.add_without(line)

    def address_size(self):
        """The size of addresses, where all units that name one of .debug_line have one that is known there."""
        return next(iter(self.units.sizes)) if len(self.units.sizes) == 1 and self.units.sizes <= {2, 4, 8} else None

    def notes(self):
        """What is to be told, once all records are read."""
        notes = []
        if self.units.place:
            notes.append("compilation directories are in the supplementary file %s" % shown(self.units.place))
        if self.broken:
            notes.append("%d compilation director%s can't be read, and %s left empty%s %s" % (
                self.broken, "y" if self.broken == 1 else "ies", "is" if self.broken == 1 else "are",
                ":" if self.broken == 1 else "; the first is", self.first))
        if self.relative:
            notes.append("no compilation directory is known of %s, so relative paths stay relative, as %s" % (
                counted(self.relative, self.count), shown(self.example)))
        return notes
