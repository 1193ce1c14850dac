"""What `upgrade` has to print: a section whose units of versions 2, 3 and 4 are written anew as version 5. A converter of its own, from
what the standards say of these versions, which judges each field where it reads it.

    older.py upgrade SECTION --address-size 4|8|2 [--directories FILE] [--big]
        prints it, with the exit status that the program has to end with
    older.py make FOLDER COUNT SEED
        writes so many cases, as tests/cases/README.md has them: sections and files of directories, the words, and what has to be printed
"""

import argparse
import os
import random
import re
import sys
from dataclasses import dataclass

from line_section import (STRING, UDATA, Cursor, Machine, No, Numbers, Unit, decimal, frames, header_end, header_numbers, held, malformed,
                          operation_in, records)
from line_writer import DIRECTORIES, PATHS, Program, Shape, extended, leb, numbers, picked_unit, write_case

# The entries of a list have no format before them. These formats are as they are spelled: a path; and a path, a directory, a time and
# a size.
DIRECTORY_FORMAT = bytes([1, 1, STRING])
FILE_FORMAT = bytes([4, 1, STRING, 2, UDATA, 3, UDATA, 4, UDATA])


# ---- older units


@dataclass
class Older:
    """A unit of version 2, 3 or 4: its directories and files as they are spelled, one by one, the bytes between them and the program,
    and the program."""

    offset: int
    offset_size: int
    order: str
    numbers: Numbers
    directories: list
    files: list
    extra: bytes
    program: bytes


def listed(cursor, operands):
    """The entries of a list, each a name and so many numbers. An empty name ends the list, and is no entry."""
    found = []
    while True:
        first = cursor.place
        if not cursor.text():
            return found
        for _ in range(operands):
            cursor.leb()
        found.append(cursor.data[first:cursor.place])


def older_in(frame, cursor, version):
    """A unit of version 2, 3 or 4, from what follows its version on."""
    end = header_end(cursor, frame.offset_size)
    header = Cursor(cursor.data, cursor.place, end, cursor.order)
    told = header_numbers(header, version)
    directories, files = listed(header, 0), listed(header, 3)
    extra, program = header.take(end - header.place), cursor.data[end:frame.end]
    return Older(frame.offset, frame.offset_size, cursor.order, told, directories, files, extra, program)


def units_of(data, order):
    """The units of a section: the bytes of those of version 5, and the others as they are read."""
    for frame, cursor in frames(data, order):
        place, version = cursor.place, cursor.number(2)
        if version not in (2, 3, 4, 5):
            raise malformed(place, "version %d" % version)
        yield data[frame.offset:frame.end] if version == 5 else older_in(frame, cursor, version)


def written(unit, address_size, directory):
    """An older unit as one of version 5, compiled in a directory."""
    shape = Shape(5, unit.order, unit.offset_size, address_size, unit.numbers)
    directories = [directory + b"\0", *unit.directories]
    files = unit.files[:1] + unit.files
    tables = DIRECTORY_FORMAT + leb(len(directories)) + b"".join(directories) + FILE_FORMAT + leb(len(files)) + b"".join(files)
    counted = shape.counted(tables + unit.extra, unit.program)
    if unit.offset_size == 4 and len(counted) >= 0xFFFFFFF0:
        raise No("no 20 too large unit 0x%x" % unit.offset)
    return shape.frame(counted)


def zero_row(unit, address_size):
    """The first row of an older unit that isn't an end row and names file 0, which is no file there, as far as its program can be read and
    its lines are in range. None if there is none."""
    cursor = Cursor(unit.program, 0, len(unit.program), unit.order)
    machine, count = Machine(Unit(unit.offset, address_size, unit.numbers, None, None, [])), 0
    while cursor.place < cursor.limit:
        try:
            operation = operation_in(cursor, unit.numbers, address_size)
        except No:
            return None
        row = machine.step(operation)
        if not 0 <= machine.row.line < 1 << 32:
            return None
        if row and operation.kind != "extended" and not row.file:
            return count
        count += row is not None
    return None


def judge_rows(units, address_size):
    for unit in units:
        row = zero_row(unit, address_size) if unit.files else None
        if row is not None:
            raise No("no 30 file number unit 0x%x row %d file 0" % (unit.offset, row))


def directories_of(data, offsets):
    """The directory of each unit that a file tells one of, by the unit's offset."""
    found, least = {}, 0
    header, *rest = records(data) or [[]]
    if header != [b"unit", b"directory"]:
        raise No("no 44 directories record 0")
    for number, record in enumerate(rest, 1):
        unit = decimal(record[0]) if len(record) == 2 else None
        if unit is None or unit < least or unit not in offsets or b"\0" in record[1]:
            raise No("no 44 directories record %d" % number)
        found[unit], least = record[1], unit + 1
    return found


def upgraded(data, order, address_size, told=None):
    """What is printed of a section and the bytes of a file of directories, and the status."""
    try:
        units = list(units_of(data, order))
        older = [unit for unit in units if isinstance(unit, Older)]
        directories = {} if told is None else directories_of(told, {unit.offset for unit in older})
        printed = b"".join(written(unit, address_size, directories.get(unit.offset, b"")) if isinstance(unit, Older) else unit
                           for unit in units)
        judge_rows(older, address_size)
        return printed, 0
    except No as no:
        return b"%s\n" % str(no).encode(), 1


# ---- units for cases


@dataclass
class Draft:
    """The parts of an older unit, of which a case may have others than there should be."""

    shape: Shape
    fields: bytearray
    directories: list
    files: list
    extra: bytes
    program: bytes
    longer_header: int = 0
    longer_unit: int = 0

    def bytes(self):
        shape = self.shape
        header = bytes(self.fields) + b"".join(self.directories) + b"".join(self.files) + self.extra
        length = max(0, len(header) + self.longer_header)
        counted = shape.number(shape.version, 2) + shape.number(length, shape.offset_size) + header + self.program
        return shape.frame(counted, self.longer_unit)


def picked_file(picked, directories):
    # An empty name would end the list.
    name = picked.choice([path for path in PATHS if path])
    # Which directory, time and size, some of them spelled longer than they need to be.
    operands = picked.randrange(directories + 1), picked.choice((0, 1_000_000_000, (1 << 64) - 1)), picked.randrange(70_000)
    return name + b"\0" + b"".join(leb(operand, picked.choice((0, 0, 0, 0, 1, 3))) for operand in operands)


def picked_program(picked, shape, files, places):
    """Operations, some of which may name file 0, or bytes that are none: a program is copied, whatever it has."""
    if picked.randrange(12) == 0:
        return picked.randbytes(picked.randrange(20))
    first = 0 if picked.randrange(12) == 0 else 1
    program = Program(picked, shape, range(first, files + 1) if files else [1])
    for place in places:
        if picked.randrange(8) == 0:
            program.bytes += extended(3, b"new.c\0\0\0\0")
        program.sequence(place, picked.randrange(6))
    return bytes(program.bytes)


def picked_draft(picked, shape, places):
    """A unit that is sound."""
    directories = [picked.choice([path for path in DIRECTORIES if path]) + b"\0" for _ in range(picked.choice((0, 0, 1, 2, 5)))]
    files = [picked_file(picked, len(directories)) for _ in range(picked.choice((0, 1, 2, 3) * 5 + (127, 128)))]
    extra = picked.randbytes(picked.randrange(1, 5)) if picked.randrange(6) == 0 else b""
    program = picked_program(picked, shape, len(files), places if files else [])
    return Draft(shape, bytearray(shape.fields()), directories + [b"\0"], files + [b"\0"], extra, program)


# Where fields stand before the lists of a unit of version 4. Those before it have no maximum_operations_per_instruction.
MAX_OPS, LINE_RANGE, OPCODE_BASE, LENGTHS = 1, 4, 5, 6


def place_of(draft, field):
    return field - (draft.shape.version < 4 and field > MAX_OPS)


def zero_field(picked, draft):
    """A number of operations, of lines or of opcodes that is zero."""
    fields = (LINE_RANGE, OPCODE_BASE) if draft.shape.version < 4 else (MAX_OPS, LINE_RANGE, OPCODE_BASE)
    draft.fields[place_of(draft, picked.choice(fields))] = 0


def wrong_length(picked, draft):
    """A standard opcode with another number of operands, where there is one."""
    places = range(place_of(draft, LENGTHS), len(draft.fields))
    if places:
        at = picked.choice(places)
        draft.fields[at] = (draft.fields[at] + picked.randrange(1, 4)) % 256


def other_opcode_base(picked, draft):
    """More or fewer standard opcodes than there are lengths."""
    at = place_of(draft, OPCODE_BASE)
    draft.fields[at] = picked.choice((draft.fields[at] - 1, draft.fields[at] + 1, 1, 10, 255))


def list_without_end(picked, draft):
    picked.choice((draft.directories, draft.files)).pop()


def header_ends_before(picked, draft):
    """The header ends where the list of files does, or within it, and the list goes on."""
    draft.files.pop()
    draft.extra = picked.choice((b"", b"", b"f", b"f.c\0", b"f.c\0\1", b"f.c\0\1\x80", b"f.c\0\1\2", b"f.c\0\1\2\x80\x80", b"f.c\0\1\2\3"))


def long_number(picked, draft):
    """A number of ten bytes that is out of range, or is just within it."""
    operands = [leb(1), leb(2), leb(3)]
    operands[picked.randrange(3)] = b"\xff" * 9 + picked.choice((b"\1", b"\2", b"\x7f", b"\x81\0", b"\x82\0", b"\x80" * 20 + b"\1"))
    draft.files.insert(picked.randrange(len(draft.files)), b"long.c\0" + b"".join(operands))


def other_header_length(picked, draft):
    most = (1 << 8 * draft.shape.offset_size - 1) - 1
    draft.longer_header = picked.choice((-1, 1, 2, -2, -picked.randrange(60), -picked.randrange(60), picked.randrange(300), most))


def other_unit_length(picked, draft):
    draft.longer_unit = picked.choice((-1, 1, 2, -picked.randrange(1, 40), picked.randrange(1, 300)))


def other_version(picked, draft):
    draft.shape.version = picked.choice((0, 1, 6, 7, 0x0200, 0xFFFF))


def other_byte(picked, draft):
    """A byte of the header that is another one."""
    at = picked.randrange(len(draft.fields))
    draft.fields[at] = picked.randrange(256)


def no_program(picked, draft):
    draft.program = b""


FAULTS = [zero_field, zero_field, wrong_length, other_opcode_base, list_without_end, list_without_end, header_ends_before,
          header_ends_before, long_number, other_header_length, other_header_length, other_unit_length, other_version, other_byte,
          no_program]


# ---- files of directories for cases

NAMES = [b"/build/s", b"", b"/a b", b'/odd "dir",\r\n', b"\xff", b"relative", b"/" + b"long/" * 60]


def field(path):
    return b'"%s"' % path.replace(b'"', b'""') if re.search(rb'[",\r\n]', path) else path


def wrong_header(picked, lines, offsets):
    lines[0] = picked.choice((b"directory,unit", b"unit,directory,", b"unit", b"", b"Unit,directory", b' unit,directory', b"0,/s"))


def no_number(picked, lines, offsets):
    lines.append(picked.choice((b"x,/s", b",/s", b"0x0,/s", b"18446744073709551616,/s", b"-1,/s", b" 0,/s", b"000000000000000000000,/s")))


def other_fields(picked, lines, offsets):
    at = picked.randrange(len(lines))
    lines[at] = picked.choice((lines[at] + b",", lines[at].partition(b",")[0], lines[at] + b",1"))


def no_unit(picked, lines, offsets):
    """A number at which no older unit begins: within one, beyond them, or where one of version 5 does."""
    lines.insert(picked.randrange(1, len(lines) + 1), b"%d,/s" % picked.choice([*offsets, 1, 3, 1 << 40]))


def twice(picked, lines, offsets):
    lines.insert(picked.randrange(1, len(lines) + 1), lines[-1])


def other_order(picked, lines, offsets):
    lines[1:] = lines[:0:-1]


def zero_byte(picked, lines, offsets):
    lines[-1] += picked.choice((b"\0", b"\0x"))


def empty_lines(picked, lines, offsets):
    """Which are no records."""
    lines[picked.randrange(len(lines)):0] = [b"", b""]


LISTS = [wrong_header, no_number, other_fields, no_unit, twice, other_order, zero_byte, empty_lines]


def picked_directories(picked, older, offsets):
    """A file of directories of some of the older units, and the name of its fault, where it has one."""
    lines = [b"unit,directory"]
    for offset in older:
        if picked.randrange(4):
            zeros = b"0" * picked.choice((0,) * 9 + (2,))
            lines.append(b"%s%d,%s" % (zeros, offset, field(picked.choice(NAMES))))
    names = []
    if picked.randrange(3) == 0:
        change = picked.choice(LISTS)
        change(picked, lines, offsets)
        names = [change.__name__]
    end = picked.choice((b"\n",) * 8 + (b"\r\n", b"\r"))
    mark = b"\xef\xbb\xbf" if picked.randrange(20) == 0 else b""
    return mark + end.join(lines) + end * (picked.randrange(5) > 0), names


# ---- cases


def picked_section(picked, order, address_size):
    """Units of several versions: the bytes of each, whether it is an older one, and the names of what was changed."""
    places, strings = [0x1000 * place for place in range(1, 13)], {0x1F: b"", 0x0E: b""}
    count = picked.choice((0,) + (1, 2, 3, 4, 5) * 4)
    faults = {picked.randrange(count): picked.choice(FAULTS)} if count and picked.randrange(3) else {}
    units, names = [], []
    for number in range(count):
        version = picked.choice((2, 3, 4, 4, 5))
        shape = Shape(version, order, picked.choice((4, 4, 8)), address_size, numbers(picked))
        if version < 4:
            shape.numbers.max_ops = 1
        here = [places.pop() for _ in range(picked.randrange(3))]
        if version == 5:
            units.append((picked_unit(picked, shape, strings, here, False), False))
            continue
        draft = picked_draft(picked, shape, here)
        if number in faults:
            faults[number](picked, draft)
            names.append(faults[number].__name__)
        units.append((draft.bytes(), True))
    return units, names


def cut(picked, data):
    return data[:picked.randrange(len(data) + 1)]


def reserved(picked, data):
    """After the units an initial length that is reserved, or isn't whole."""
    lengths = b"\xff\xff\xff\xf0", b"\xf0\xff\xff\xff", b"\xfe\xff\xff\xff", b"\xff", b"\xff" * 4, b"\xff" * 9, b"\xff" * 14, bytes(5)
    return data + picked.choice(lengths)


def made_case(picked):
    """The name, words and files of a case, what has to be printed, and the status."""
    order, address_size = picked.choice(("little", "little", "big")), picked.choice((8, 8, 4, 2))
    units, names = picked_section(picked, order, address_size)
    data, offsets, older = b"", [], []
    for unit, is_older in units:
        offsets.append(len(data))
        older += [len(data)] * is_older
        data += unit
    change = picked.choice((cut, reserved)) if picked.randrange(10) == 0 else None
    if change:
        data, names = change(picked, data), [*names, change.__name__]
    files, told = {"section.bin": data}, None
    words = ["upgrade", "section.bin", *picked.choice((["--address-size", "%d"], ["--address-size=%d"]))]
    words[-1] %= address_size
    if picked.randrange(2):
        told, more = picked_directories(picked, older, offsets)
        names, files["directories.csv"] = names + more, told
        words += ["--directories", "directories.csv"]
    if order == "big":
        words.append("--big")
    said, status = upgraded(data, order, address_size, told)
    if picked.randrange(40) == 0:
        # A size that none has, or no size.
        words[2:] = picked.choice(([], ["--address-size", "3"], ["--address-size=16"], ["--address-size", "x"]))
        return "usage", words, files, b"", 2
    return "-".join(names) or "sound", words, files, said, status


def make(folder, count, seed):
    picked = random.Random(seed)
    for number in range(count):
        name, words, files, said, status = made_case(picked)
        write_case(os.path.join(folder, "%06d-upgrade-%s" % (number, name)), words, files, said, status)


# ---- the command


def words():
    parser = argparse.ArgumentParser(prog="older.py", allow_abbrev=False)
    words = parser.add_subparsers(dest="word", required=True)
    upgrade = words.add_parser("upgrade", allow_abbrev=False)
    upgrade.add_argument("section")
    upgrade.add_argument("--address-size", type=int, choices=(4, 8, 2), required=True)
    upgrade.add_argument("--directories")
    upgrade.add_argument("--big", action="store_true")
    made = words.add_parser("make", allow_abbrev=False)
    made.add_argument("folder")
    for name in "count", "seed":
        made.add_argument(name, type=int)
    return parser


def main():
    given = words().parse_args()
    if given.word == "make":
        make(given.folder, given.count, given.seed)
        return
    told = held(given.directories) if given.directories else None
    said, status = upgraded(held(given.section), "big" if given.big else "little", given.address_size, told)
    sys.stdout.buffer.write(said)
    sys.exit(status)


if __name__ == "__main__":
    main()
