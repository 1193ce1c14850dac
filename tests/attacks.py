"""Makes files of shapes that cost a careless reader much, one line of SHAPES each, and bounds what a word takes with them. What is bounded
by Growth takes at most 5.3 times the processor time at four times the size; what is bounded by Beside, a few times that of a small
one. The memory of each word stays within four times the bytes that are given and 8 MB, or within what the line says, as docs/LIMITS.md
does. With the word --figures it also prints what each took; other words choose lines by a part of their names or words. The last line is
'N passed, M failed'."""

import functools
import math
import os
import shutil
import struct
import subprocess
import sys
import tempfile
import time
import zlib
from typing import Any, Callable, NamedTuple

import hostile
from line_writer import PLAIN, leb

PROGRAM = "crates/linetab/out/linetab"
# The least time of each of the two sizes counts. Where these are too far apart, and not by twice as much, more turns are taken, each
# after a pause, since other work on the machine slows some of them, and may take a while.
TURNS, MOST_TURNS, PAUSE = 5, 50, 0.25
# Four times the size takes at most as long as two doublings of 2.3 times each, also where it no longer fits a cache; what grows with the
# square takes sixteen times as long.
MOST_GROWTH = 2.3**2
MOST_COPIES, OWN_MEMORY = 4, 8 << 20
# What Python takes itself, with the modules of a script.
SCRIPT_MEMORY = 24 << 20

ONE_DIRECTORY = bytes([1, 1, 8, 1]) + b"/s\0"
TWO_FILES = bytes([2, 1, 8, 2, 0x0B, 2]) + b"a\0\0" * 2


def sequence(address, rows=b"\1"):
    """DW_LNE_set_address, rows, DW_LNS_advance_pc by 16 and DW_LNE_end_sequence."""
    return b"\0\x09\x02" + address.to_bytes(8, "little") + rows + b"\2\x10\0\1\1"


def sequences(places):
    return PLAIN.unit(ONE_DIRECTORY + TWO_FILES, b"".join(sequence(0x1000 + 16 * place) for place in places))


def with_tables(tables):
    return PLAIN.unit(tables, sequence(0x1000))


def one_directory(count):
    return with_tables(bytes([1, 1, 8, 1]) + b"/" + b"s" * count + b"\0" + bytes([2, 1, 8, 2, 0x0B]) + leb(count) + b"a\0\0" * count)


def one_string(count):
    """Each directory is the whole string, by its offset in `.debug_line_str`."""
    return with_tables(bytes([1, 1, 0x1F]) + leb(count) + b"\0" * 8 * count + bytes([2, 1, 0x1F, 2, 0x0B, 2]) + b"\0" * 9 * 2)


def files(count):
    return with_tables(ONE_DIRECTORY + bytes([2, 1, 8, 2, 0x0B]) + leb(count) + b"a\0\0" * count)


def directories(count):
    return with_tables(bytes([1, 1, 8]) + leb(count) + b"d\0" * count + TWO_FILES)


def formats(count):
    """Files of 255 values each, of which all but the path are of a content type that nobody knows."""
    values = b"a\0" + b"\0" * 254
    return with_tables(ONE_DIRECTORY + bytes([255, 1, 8]) + b"\x81\x40\x0b" * 254 + leb(count) + values * count)


def rows(count):
    """Special opcodes, each a row of its own."""
    return PLAIN.unit(ONE_DIRECTORY + TWO_FILES, sequence(0x1000, b"\x20" * count))


def units(count):
    return b"".join(PLAIN.unit(ONE_DIRECTORY + TWO_FILES, sequence(0x1000 + 16 * place)) for place in range(count))


def one_sequence(tables, rows):
    """A section of one sequence with these rows, which ends an address after the last."""
    return PLAIN.unit(tables, b"\0\x09\2" + (0x1000).to_bytes(8, "little") + rows + b"\2\1\0\1\1")


def long_directory(count):
    return bytes([1, 1, 8, 1]) + b"/" + b"s" * count + b"\0"


def one_span(count, path, line=1):
    """A table by path of one span, of this many addresses."""
    return b"low,high,path,line\n0x1001,0x%x,%s,%d\n" % (0x1001 + count, path, line)


# A row at the next address, of the same line.
NEXT_ROW = b"\x20"
# Two of them, of the next line and of the same.
TWO_LINES = b"\x21\x1f"


def copy_by_turns(count):
    """A sequence of one line, a copy that has another at each other address, and a table that has this one at each address."""
    both = (one_sequence(ONE_DIRECTORY + TWO_FILES, rows) for rows in (NEXT_ROW * count, TWO_LINES * (count // 2)))
    return {"line": b"".join(both), "table": one_span(count, b"/s/a", 2)}


def copies_of_no_line(count):
    """Two copies whose lines alternate, and a table that has another line at each address."""
    lines = (b"0x%x,0x%x,/s/a,%d\n" % (0x1001 + place, 0x1002 + place, 3 + place % 2) for place in range(count))
    return {
        "line": one_sequence(ONE_DIRECTORY + TWO_FILES, TWO_LINES * (count // 2)) * 2,
        "table": b"low,high,path,line\n" + b"".join(lines),
    }


def long_paths(length):
    """A row for each of many files of the same long path."""
    files = bytes([2, 1, 8, 2, 0x0B]) + leb(1024) + b"a\0\0" * 1024
    rows = b"".join(b"\4" + leb(file) + NEXT_ROW for file in range(1024))
    return {
        "line": one_sequence(long_directory(length) + files, rows),
        "table": one_span(1024, b"/" + b"s" * length + b"/a"),
    }


def directories_before(count):
    """Files of a short directory that stands after many long ones."""
    long = (b"/" + b"d" * (count // 10) + b"\0") * 63
    files = bytes([2, 1, 8, 2, 0x0B]) + leb(count) + b"a\0\x3f" * count
    return {"line": with_tables(bytes([1, 1, 8, 64]) + long + b"/e\0" + files)}


def files_before(count):
    """Rows of two files with short names by turns, each of which stands after many with long ones."""
    names = ((b"f" * (count // 10) + b"\0") * 63 + b"x\0") * 2
    rows = b"".join(b"\4" + (b"\x3f" if row % 2 else b"\x7f") + NEXT_ROW for row in range(count))
    return {"line": one_sequence(ONE_DIRECTORY + bytes([1, 1, 8]) + leb(128) + names, rows)}


def long_sequence(rows):
    return one_sequence(ONE_DIRECTORY + TWO_FILES, NEXT_ROW * rows)


def addresses_in(rows, count):
    """A sequence of so many rows, and addresses in it, in no order."""
    addresses = (b"0x%x" % (0x1000 + place * 7919 % rows) for place in range(1, count + 1))
    return {"line": long_sequence(rows), "addresses": b"\n".join(addresses)}


def many_addresses(count):
    """Addresses of a long sequence, in no order, 64 for each row: so few rows stay in the same caches at each size."""
    return addresses_in(count, 64 * count)


def columns_of_one_file(count):
    """Rows of one file with a long path, whose columns alternate."""
    return {
        "line": one_sequence(long_directory(count) + TWO_FILES, b"\5\1\x20\5\2\x20" * (count // 2)),
        "table": one_span(count, b"/" + b"s" * count + b"/a"),
    }


def plain_lines(count):
    """Rows of one file, whose columns alternate, and the table of them by path, on the lines that the program writes for them."""
    line = b"0x%%x,0x%%x,/%s/a,1,%%d\n" % (b"s" * 200)
    lines = (line % (0x1001 + place, 0x1002 + place, 1 + place % 2) for place in range(count))
    return {
        "line": one_sequence(long_directory(200) + TWO_FILES, b"\5\1\x20\5\2\x20" * (count // 2)),
        "table": b"low,high,path,line,column\n" + b"".join(lines),
    }


def two_files(count):
    """Rows of two files in turn, which have the same long path."""
    return {"line": one_sequence(long_directory(count) + TWO_FILES, b"\4\0\x20\4\1\x20" * (count // 2))}


def rows_of(files):
    """A row at the next address for each of these files."""
    return b"".join(b"\4" + leb(file) + NEXT_ROW for file in files)


def one_path(tables, files, path, strings=b""):
    """Rows of files that have the same path, of many bytes, a table that says so, and one that says so of a longer path."""
    count = len(files)
    return {
        "line": one_sequence(tables, rows_of(files)),
        "table": one_span(count, path),
        "other": one_span(count, path + b"x"),
        "strings": strings,
    }


def files_of_a_directory(size):
    """A row for each of the files of one name, in a directory of 256 times as many bytes."""
    count = size // 256
    files = bytes([2, 1, 8, 2, 0x0B]) + leb(count) + b"a\0\0" * count
    return one_path(long_directory(size) + files, range(count), b"/" + b"s" * size + b"/a")


def files_of_a_string(count):
    """A row for each of many files whose name is one string of as many bytes."""
    files = bytes([1, 1, 0x0E]) + leb(count) + b"\0" * 8 * count
    return one_path(ONE_DIRECTORY + files, range(count), b"/s/" + b"a" * count, b"a" * count + b"\0")


def directories_of_a_string(count):
    """A row for each of many files, each in a directory of its own, whose name is one string of as many bytes."""
    directories = bytes([1, 1, 0x0E]) + leb(count) + b"\0" * 8 * count
    files = bytes([2, 1, 8, 2, 0x0F]) + leb(count) + b"".join(b"a\0" + leb(place) for place in range(count))
    return one_path(directories + files, range(count), b"/" + b"s" * count + b"/a", b"/" + b"s" * count + b"\0")


def strings_by_turns(count):
    """A row for each of many files, whose names are by turns at five places, with the same string of many bytes."""
    name = b"a" * (count // 5)
    places = b"".join((place % 5 * (len(name) + 1)).to_bytes(8, "little") for place in range(count))
    files = bytes([1, 1, 0x0E]) + leb(count) + places
    return one_path(ONE_DIRECTORY + files, range(count), b"/s/" + name, (name + b"\0") * 5)


def files_by_turns(count):
    """Rows of nine files by turns, each with a copy of the same name of many bytes."""
    name = b"a" * (count // 9)
    files = bytes([1, 1, 8, 9]) + (name + b"\0") * 9
    return one_path(ONE_DIRECTORY + files, [row % 9 for row in range(count // 2)], b"/s/" + name)


def copies_of_a_path(count, length, units, unit_of):
    """Sequences of so many units, in the order that a function gives, each unit with a copy of the same path of as many bytes."""
    tables, rows, programs = long_directory(length) + TWO_FILES, count // 16, [[] for unit in range(units)]
    for row in range(rows):
        programs[unit_of(row)].append(sequence(0x1001 + 16 * row))
    path = b"/" + b"s" * length + b"/a"
    return {
        "line": b"".join(PLAIN.unit(tables, b"".join(program)) for program in programs),
        "table": one_span(16 * rows, path),
        "other": one_span(16 * rows, path + b"x"),
    }


def units_by_turns(count):
    """Those of five units by turns."""
    return copies_of_a_path(count, count, 5, lambda row: row % 5)


def units_that_meet(count):
    """Those of many units, of which any two meet."""
    return copies_of_a_path(count, count // 199, 199, lambda row: row * (1 + row // 199 % 198) % 199)


def older(files):
    """A unit of version 4 with these files and no program."""
    header = bytes([1, 1, 1, 0xFB, 14, 1]) + b"\0" + files + b"\0"
    return struct.pack("<IHI", 6 + len(header), 4, len(header)) + header


def older_units(count):
    """Units of version 4 with a file each, and a directory for each of them."""
    unit = older(b"a\0\0\0\0")
    records = (b"%d,/build/%d\n" % (place * len(unit), place) for place in range(count))
    return {"line": unit * count, "directories": b"unit,directory\n" + b"".join(records)}


def older_files(count):
    """A unit of version 4 with many files."""
    return {"line": older(b"a\0\0\0\0" * count)}


def overlap_of_many_files(count):
    """Two sequences of the same addresses, in a unit of many files without a name."""
    return {"line": PLAIN.unit(bytes([1, 1, 8, 1, 0, 1, 1, 8]) + leb(count) + b"\0" * count, sequence(0x1000) * 2)}


def short_sequences(count):
    """Sequences of five bytes each."""
    return {"line": PLAIN.unit(ONE_DIRECTORY + TWO_FILES, b"\1\x08\0\1\1" * count)}


def short_units(count):
    """Units of 22 bytes each, with headers that differ from one to the next."""
    one, other = (b"\x12\0\0\0\5\0\x08\0\x0a\0\0\0" + bytes([least, 1, 1, 0, 1, 1]) + b"\0" * 4 for least in (1, 2))
    return {"line": (one + other) * (count // 2)}


def fields(count, before=b""):
    """A table with a record of many empty fields."""
    return {"line": sequences([0]), "table": before + b"," * count + b"\n"}


def directory_fields(before):
    """A file of directories with a record of many empty fields."""
    return lambda count: {"line": older(b"a\0\0\0\0"), "directories": before + b"," * count + b"\n"}


def long_older_name(count):
    """A unit of version 4 with one file, whose name is long."""
    return {"line": older(b"a" * count + b"\0\0\0\0")}


def address_line(count):
    """One long line of addresses, of bytes that are written as four."""
    return {"line": long_sequence(10), "addresses": b"\xff" * count + b"\n"}


def held_lines(count):
    """Rows of one file, whose lines alternate, and the table of them by path, whose first line isn't written plainly."""
    lines = (b"0x%x,0x%x,/a,%d\n" % (0x1001 + place, 0x1002 + place, 2 - place % 2) for place in range(count))
    tables = bytes([1, 1, 8, 1]) + b"/\0" + TWO_FILES
    return {
        "line": one_sequence(tables, b"\3\1\x20\3\x7f\x20" * (count // 2)),
        "table": b"low,high,path,line\n0x0" + b"".join(lines)[2:],
    }


# ---- files that the scripts read


class Sparse(bytes):
    """The first bytes of a file whose others are zeros that take no room."""

    whole = 0


def gsym_rows(count):
    """A function whose rows have a byte each, of a file with a long path."""
    strings = b"\0/" + b"s" * 4000 + b"\0a\0f\0"
    name, table = 4003, bytes([0x7F, 2, 1]) + b"\x0a" * count + b"\0"
    info = struct.pack("<IIII", 4 * count, name + 2, 1, len(table)) + table + bytes(8)
    head = struct.pack("<IHBBQIII20xI", 0x4753594D, 1, 4, 0, 0x1000, 1, 76 + len(info), len(strings), 0)
    return {"gsym": head + struct.pack("<IIIIII", 76, 2, 0, 0, 1, name) + info + strings}


def symbols(*lines):
    """A symbol file of Breakpad."""
    return {"sym": b"MODULE Linux x86_64 0 a\n" + b"".join(lines)}


def symbol_lines(count):
    """Line records of a byte each, of a file with a long path."""
    lines = (b"%x 1 %d 0\n" % (place, place % 7) for place in range(count))
    return symbols(b"FILE 0 /%s\nFUNC 0 %x 0 f\n" % (b"s" * 4000, count), *lines)


def symbol_lines_of_two_files(count):
    """The same of two such files in turns."""
    lines = (b"%x 1 1 %d\n" % (place, place % 2) for place in range(count))
    return symbols(b"FILE 0 /%s\nFILE 1 /%s\nFUNC 0 %x 0 f\n" % (b"s" * 4000, b"t" * 4000, count), *lines)


def short_symbol_lines(count):
    """The shortest line records that there are, of which one counts."""
    return symbols(b"FUNC 0 1 0 f\n", b"0 1 1 0\n" * count)


def reversed_symbol_lines(count):
    return symbols(b"FUNC 0 %x 0 f\n" % count, *(b"%x 1 1 0\n" % place for place in range(count - 1, -1, -1)))


def symbol_lines_and_one_below(count):
    """Line records that rise, but for the last one."""
    lines = (b"%x 1 1 0\n" % place for place in range(1, count))
    return symbols(b"FUNC 0 %x 0 f\n" % count, *lines, b"0 1 1 0\n")


def overlapping_symbol_lines(count):
    """Line records of which each overlaps its neighbours, in falling order; every second counts."""
    return symbols(b"FUNC 0 %x 0 f\n" % (2 * count), *(b"%x 3 1 0\n" % (2 * place) for place in range(count, 0, -1)))


def empty_lines(count):
    return symbols(b"\n" * count)


def reversed_functions(count):
    return symbols(b"FILE 0 /a\n", *(b"FUNC %x 1 0 f\n%x 1 1 0\n" % (place, place) for place in range(count, 0, -1)))


def overlapping_functions(count):
    """Functions of which each overlaps its neighbours, in falling order; every second counts."""
    return symbols(*(b"FUNC %x 18 0 f\n%x 18 1 0\n" % (16 * place, 16 * place) for place in range(count, 0, -1)))


def overlapping_one(count):
    """Functions that all lie in the first one."""
    return symbols(b"FUNC 0 %x 0 f\n" % (count + 1), *(b"FUNC %x 1 0 f\n%x 1 1 0\n" % (place, place) for place in range(count, 0, -1)))


def symbol_files(count):
    """Many FILE lines, in falling order of their numbers, and a line record of each."""
    names = (b"FILE %d /%d\n" % (place, place) for place in range(count, 0, -1))
    return symbols(*names, b"FUNC 0 %x 0 f\n" % count, *(b"%x 1 1 %d\n" % (place, place) for place in range(count)))


def symbol_names(count):
    """The shortest FILE lines of so many numbers."""
    return symbols(*(b"FILE %d a\n" % place for place in range(100_000, 100_000 + count)))


def one_symbol_file(count):
    """FILE lines of one number."""
    return symbols(b"FILE 1 a\n" * count)


def long_symbol_line(count):
    return symbols(b"INFO " + b"a" * count + b"\n")


def long_symbol_name(count):
    return symbols(b"FILE 1 /" + b"a" * count + b"\nFUNC 0 2 0 f\n0 1 1 1\n1 1 2 1\n")


def long_symbol_number(count):
    """A number of many digits, which is no fault until its end is read."""
    return symbols(b"FUNC " + b"0" * count + b"\n")


def readelf_sequences(count):
    return {"text": b"CU: a:\n" + b"".join(b"a 1 0x%x\na - 0x%x\n" % (place, place + 1) for place in range(count))}


def dumped_files(count):
    """Many files of a long directory, each with a row."""
    names = b"".join(b'file_names[%d]:\n           name: "%x"\n' % (place, place) for place in range(count))
    rows = b"".join(b"0x%08x 1 1 %d 0 0\n" % (place, place) for place in range(count))
    start = b'debug_line[0x0]\ninclude_directories[  0] = "/%s"\n' % (b"s" * 4000)
    return {"text": start + names + rows + b"0x%08x 1 1 0 0 0 end_sequence\n" % count}


def object_of(*sections):
    """A program with these sections: the name of each, its bytes, and its size, if that is another."""
    texts = b"".join(b"\0" + name for name, *_ in sections) + b"\0"
    return hostile.elf([(texts.index(name), content, size[0] if size else len(content)) for name, content, *size in sections], texts)


def sparse_section(size):
    made = Sparse(object_of((b".debug_line", bytes(16), size)))
    made.whole = max(len(made), 64 + size)
    return {"object": made}


def info_of_zeros(size):
    """A unit of version 4, and .debug_info of units of no byte."""
    return {"object": object_of((b".debug_line", older(b"a\0\0\0\0")), (b".debug_info", bytes(size)))}


def packed_section(size):
    """A section that stands for nearly a hundred times its bytes."""
    content = sequences(range(size // 16)) * 90
    packed = struct.pack("<4s", b"ZLIB") + len(content).to_bytes(8, "big") + zlib.compress(content, 9)
    return {"object": object_of((b".zdebug_line", packed))}


# ---- bounds


def times(count):
    """So many times the bytes given."""
    return lambda size, given: count * given


def more_for_each(count):
    """So many bytes more for each of the size."""
    return lambda size, given: MOST_COPIES * given + count * size


class Memory(NamedTuple):
    """A word ends with this status, and takes at most so many bytes, by the size and the bytes given, beside its own."""

    most: Callable = times(MOST_COPIES)
    status: int = 0
    own: int = OWN_MEMORY

    def fault(self, status, memory, files):
        if status != self.status:
            return "status %d" % status
        if memory > self.own + self.most(files.size, files.bytes):
            return "%d bytes of memory for %d given" % (memory, files.bytes)
        return None

    def judged(self, measured, shape, files_of):
        """What is wrong with what a word takes, if anything, and what it took."""
        files = files_of(shape.make, shape.size)
        status, _, memory = taken(measured, files.words(shape.words))
        return self.fault(status, memory, files), times_given(memory, files)


class Growth(NamedTuple):
    """At four times the size a word takes at most so many times as long."""

    most: float = MOST_GROWTH
    memory: Memory = Memory()

    def judged(self, measured, shape, files_of):
        sizes = shape.size // 2, 2 * shape.size
        return judged_timed(measured, shape.words, [files_of(shape.make, size) for size in sizes], self)


class Beside(NamedTuple):
    """A word takes at most so many times as long as with a size of one."""

    most: float
    memory: Memory = Memory()

    def judged(self, measured, shape, files_of):
        return judged_timed(measured, shape.words, [files_of(shape.make, size) for size in (1, shape.size)], self)


def taken(measured, words):
    """The status, processor seconds and bytes of memory of the program with these words."""
    run = subprocess.run([measured, *words], capture_output=True, text=True)
    seconds, kilobytes = run.stdout.split()
    return run.returncode, float(seconds), int(kilobytes) << 10


def times_given(memory, files):
    return "%.1f times the bytes given" % (memory / max(files.bytes, 1))


def judged_timed(measured, text, both, bound):
    """What is wrong with the time and memory of a word with two files, if anything, and what it took."""
    least = [math.inf, math.inf]
    for turn in range(1, MOST_TURNS + 1):
        for which, files in enumerate(both):
            status, seconds, memory = taken(measured, files.words(text))
            figures, fault = times_given(memory, files), bound.memory.fault(status, memory, files)
            if fault:
                return fault, figures
            least[which] = min(least[which], seconds)
        if turn >= TURNS:
            if not 1 < least[1] / (bound.most * least[0]) < 2:
                break
            time.sleep(PAUSE)
    times = "%.3f s and %.3f s, %.2f times as long" % (*least, least[1] / least[0])
    return times if least[1] > bound.most * least[0] else None, "%s, in %d turns, %s" % (times, turn, figures)


# ---- the table


class Shape(NamedTuple):
    """A name; the words, in which LINE and others stand for files by their kinds, ASKED for the addresses in one, and OWN for the section's
    own table; what makes the files of a size; the size; and what bounds the word."""

    name: str
    words: str
    make: Any
    size: int
    bound: Any


def fields_behind(names):
    return lambda count: fields(count, names.encode() + b"\n")


def section(make, strings=lambda size: b""):
    """A maker of a section and of the bytes of its strings."""
    return lambda size: {"line": make(size), "strings": strings(size)}


# Those with which every word is run, and an address at which no sequence begins as that of discarded code.
EVERY = {
    "neighbours exchanged": (section(lambda count: sequences(place ^ 1 for place in range(count))), 200_000),
    "groups reversed": (section(lambda count: sequences(place - 2 * (place % 100) + 99 for place in range(count))), 200_000),
    "one long directory of many files": (section(one_directory), 200_000),
    "one long string of many directories": (section(one_string, lambda count: b"a" * count + b"\0"), 400_000),
    "many files": (section(files), 300_000),
    "many directories": (section(directories), 300_000),
    "many values of a file": (section(formats), 8_000),
    "many rows": (section(rows), 2_000_000),
    "many units": (section(units), 20_000),
}
# Symbol files. Where line records have some ten bytes and don't rise, more is held for each byte.
FALLING = Growth(memory=Memory(times(8)))
SYMBOLS = {
    "line records of a long path": (symbol_lines, 20_000, Memory()),
    "line records of two long paths": (symbol_lines_of_two_files, 20_000, Memory()),
    "short line records": (short_symbol_lines, 1_000_000, Growth()),
    "empty lines": (empty_lines, 4_000_000, Growth()),
    "line records in falling order": (reversed_symbol_lines, 400_000, FALLING),
    "line records that rise but for the last": (symbol_lines_and_one_below, 400_000, FALLING.memory),
    "line records that overlap": (overlapping_symbol_lines, 400_000, FALLING),
    "functions in falling order": (reversed_functions, 200_000, Growth()),
    "functions that overlap": (overlapping_functions, 200_000, Growth()),
    "functions in another": (overlapping_one, 200_000, Growth()),
    "many files": (symbol_files, 200_000, Growth()),
    "names of many files": (symbol_names, 400_000, Growth()),
    "many files of one number": (one_symbol_file, 400_000, Growth()),
    "a long line": (long_symbol_line, 8_000_000, Growth()),
    "a long name": (long_symbol_name, 4_000_000, Growth()),
    "a long number": (long_symbol_number, 8_000_000, Memory(status=1)),
}
STR = " --line-str STRINGS"
WORDS = {
    **dict.fromkeys(("units LINE", "dump LINE --ops --rows", "convert LINE --format 32 --order big"), Memory()),
    **dict.fromkeys(("verify LINE" + STR, "md5 LINE" + STR, "table LINE" + STR), Memory()),
    "verify LINE --dead 0x7" + STR: Memory(),
    "lookup LINE 0x1000 0x7 --dead 0x7" + STR: Memory(),
    "check LINE OWN" + STR: Memory(),
    "check LINE OWN --dead 0x7" + STR: Memory(),
    "lookup LINE 0x1000" + STR: Growth(),
    "files LINE" + STR: Growth(),
}
# What it prints is itself the square of the section's bytes.
SQUARE = "one long directory of many files", "files LINE" + STR

NUMBERS, PATHS = "low,low_op,high,high_op,unit,file,line,column,is_stmt", "low,high,path,line"
IN_SCRIPT = functools.partial(Memory, own=SCRIPT_MEMORY)
UPGRADE_BESIDE = "upgrade LINE --address-size 8 --directories DIRECTORIES"
# Many files or units of one path, which takes most of the bytes: whether two of them have the same costs once for each copy.
SAME_PATHS = [
    ("files of a long directory", files_of_a_directory, 4_000_000, False),
    ("files of a long name", files_of_a_string, 200_000, True),
    ("files of directories with a long name", directories_of_a_string, 200_000, True),
    ("files of five copies of a long name", strings_by_turns, 200_000, True),
    ("nine files with long names by turns", files_by_turns, 1_000_000, False),
    ("five units with a long path by turns", units_by_turns, 1_000_000, False),
    ("many units with a long path, of which any two meet", units_that_meet, 500_000, False),
]
SAME_PATH_WORDS = [
    ("table LINE --lines", 0),
    ("check LINE TABLE", 0),
    ("check LINE TABLE --partial", 0),
    ("check LINE TABLE --all", 0),
    ("check LINE OTHER --all", 1),
]
# A name, the words, what makes the files, their size, and what bounds it.
SHAPES = [
    *(Shape(name, words, *made, bound) for name, made in EVERY.items() for words, bound in WORDS.items() if (name, words) != SQUARE),
    Shape("many files of a long path", "check LINE TABLE", long_paths, 250_000, Growth()),
    Shape("many long directories before a short one", "files LINE", directories_before, 20_000, Growth()),
    Shape("many long names before short ones", "table LINE --paths", files_before, 160_000, Growth()),
    Shape("many addresses of a long sequence", "lookup LINE --addresses ADDRESSES", many_addresses, 5_000, Growth()),
    Shape("columns of a file with a long path", "check LINE TABLE", columns_of_one_file, 400_000, Growth()),
    Shape("columns of a file with a long path", "check LINE TABLE --all", columns_of_one_file, 400_000, Growth()),
    Shape("two files of a long path", "table LINE --lines", two_files, 640_000, Growth()),
    *(
        Shape(name, "check LINE TABLE --any-copy --all", make, 200_000, Growth(memory=Memory(times(7), status=1)))
        for name, make in (("a copy that is right by turns", copy_by_turns), ("copies that are wrong at each row", copies_of_no_line))
    ),
    *(
        Shape(name, words + " --str STRINGS" * with_strings, make, size, Growth(memory=Memory(status=status)))
        for name, make, size, with_strings in SAME_PATHS
        for words, status in SAME_PATH_WORDS
    ),
    Shape("many older units", "upgrade LINE --address-size 8", older_units, 60_000, Growth()),
    Shape("many older units", UPGRADE_BESIDE, older_units, 60_000, Growth()),
    Shape("many files of an older unit", "upgrade LINE --address-size 8", older_files, 800_000, Growth()),
    # Twice what it takes. Of 200,000 rows all are kept, of a million not. Where nothing was kept, each address would take as long as one.
    Shape("many addresses", "lookup LINE --addresses ADDRESSES", functools.partial(addresses_in, 200_000), 20_000, Beside(3)),
    Shape("of a very long sequence", "lookup LINE --addresses ADDRESSES", functools.partial(addresses_in, 1_000_000), 20_000, Beside(8)),
    Shape("many addresses among the words", "lookup LINE ASKED", functools.partial(addresses_in, 200_000), 2_000, Beside(4)),
    Shape("a note about many files", "verify LINE", overlap_of_many_files, 2_000_000, Memory(status=1)),
    Shape("many short sequences", "verify LINE --skip-copies", short_sequences, 1_100_000, Memory(more_for_each(128))),
    Shape("many short units", "verify LINE", short_units, 140_000, Memory(more_for_each(1024))),
    *(Shape(name, "symbols SYM", *made, bound) for name, (*made, bound) in SYMBOLS.items()),
    # The lines are compared as text, and the table isn't held.
    Shape("a table by path of many lines", "check LINE TABLE", plain_lines, 100_000, Memory(lambda size, given: 4 * size)),
    Shape("a table by path that is held", "check LINE TABLE --all", held_lines, 500_000, Memory(times(5))),
    Shape("a header of many fields", UPGRADE_BESIDE, directory_fields(b""), 8_000_000, Memory(times(26), status=1)),
    Shape("a record of many fields", UPGRADE_BESIDE, directory_fields(b"unit,directory\n"), 8_000_000, Memory(times(10), status=1)),
    Shape("a long name of an older unit", "upgrade LINE --address-size 8", long_older_name, 8_000_000, Memory(times(5))),
    Shape("a long line of addresses", "lookup LINE --addresses ADDRESSES", address_line, 8_000_000, Memory(times(8), status=1)),
    Shape("a header of many fields", "check LINE TABLE", fields, 8_000_000, Memory(status=1)),
    Shape("a record of many fields by number", "check LINE TABLE", fields_behind(NUMBERS), 8_000_000, Memory(status=1)),
    Shape("a record of many fields by number", "check LINE TABLE --all", fields_behind(NUMBERS), 8_000_000, Memory(status=1)),
    Shape("a record of many fields by path", "check LINE TABLE", fields_behind(PATHS), 8_000_000, Memory(status=1)),
    Shape("a record of many fields by path", "check LINE TABLE --all", fields_behind(PATHS), 8_000_000, Memory(status=1)),
    Shape("rows of a byte and a long path", "symbols GSYM", gsym_rows, 20_000, Memory(times(4))),
    Shape("the same by their first rows", "linetab-table gsym-17 GSYM", gsym_rows, 20_000, IN_SCRIPT()),
    Shape("sequences", "linetab-table readelf TEXT", readelf_sequences, 100_000, IN_SCRIPT(times(16))),
    Shape("files of a long directory", "linetab-table llvm-dwarfdump TEXT", dumped_files, 20_000, IN_SCRIPT(times(16))),
    Shape("a sparse section", "linetab-object verify OBJECT", sparse_section, 1 << 30, IN_SCRIPT(status=1)),
    Shape("a sparse section", "linetab-object verify OBJECT", sparse_section, 1 << 30, Beside(3, IN_SCRIPT(status=1))),
    Shape("units of no byte", "linetab-object upgrade OBJECT", info_of_zeros, 8 << 20, Beside(4, IN_SCRIPT())),
    Shape("a packed section", "linetab-object units OBJECT", packed_section, 100_000, IN_SCRIPT()),
]


class Files:
    """The files of a size, by their kinds."""

    def __init__(self, contents, size, folder):
        self.size, self.bytes, self.folder = size, sum(map(len, contents.values())), folder
        os.mkdir(folder)
        for kind, content in contents.items():
            with open(os.path.join(folder, kind), "wb") as file:
                file.write(content)
                file.truncate(getattr(content, "whole", len(content)))

    def place(self, kind):
        return os.path.join(self.folder, kind)

    def words(self, text):
        """The program of a text and its words, with the names of the files in the place of their kinds."""
        first, *rest = text.split()
        words = [PROGRAM, first] if not first.startswith("linetab-") else [os.path.join(self.folder, "..", "bin", first)]
        for word in rest:
            if word == "ASKED":
                with open(self.place("addresses")) as file:
                    words += file.read().split()
            else:
                words.append(self.place(word.lower()) if word.isupper() else word)
        if "OWN" in rest and not os.path.exists(self.place("own")):
            self.add_table()
        return words

    def add_table(self):
        """Writes the section's table, which then counts as given."""
        with open(self.place("own"), "wb") as file:
            subprocess.run(self.words("table LINE" + STR), stdout=file, check=True)
        self.bytes += os.path.getsize(self.place("own"))


def installed(folder):
    """Puts the scripts beside the program, as they are installed."""
    os.makedirs(os.path.join(folder, "bin"))
    for name in "linetab-object", "linetab-table":
        shutil.copy(name, os.path.join(folder, "bin"))
    shutil.copytree("share/scripts", os.path.join(folder, "share", "linetab", "scripts"))
    os.symlink(os.path.abspath(PROGRAM), os.path.join(folder, "bin", "linetab"))


def main():
    passed = failed = 0
    with tempfile.TemporaryDirectory() as folder:
        measured = os.path.join(folder, "measured")
        subprocess.run(["cc", "-O2", "-o", measured, "bench/peers/measured.c"], check=True)
        installed(folder)

        @functools.lru_cache(maxsize=None)
        def files_of(make, size):
            return Files(make(size), size, os.path.join(folder, "%d" % files_of.cache_info().currsize))

        asked = [word for word in [*sys.argv[1:], os.environ.get("ONLY", "")] if word and not word.startswith("--")]
        for shape in [it for it in SHAPES if not asked or any(word in it.words + ": " + it.name for word in asked)]:
            fault, figures = shape.bound.judged(measured, shape, files_of)
            if "--figures" in sys.argv:
                print("%s: %s: %s" % (shape.words, shape.name, figures), flush=True)
            if fault:
                failed += 1
                print("failed: %s: %s: %s" % (shape.words, shape.name, fault))
            else:
                passed += 1
    print("%d passed, %d failed" % (passed, failed))
    return 1 if failed else 0


if __name__ == "__main__":
    sys.exit(main())
