"""A slow reader of line number sections, for what the tests compare the program with. It was written from the standard and the
documents, and shares nothing with the crates: it holds every row, and asks each rule of all of them.

A section that isn't good ends in No, with the text of the line that the program has to print."""

import csv
import re
import sys
from dataclasses import dataclass

TRUNCATED, RESERVED_LENGTH, TOO_LARGE, EXTENDED_LENGTH = "truncated", "reserved length", "number too large", "extended length"

# The content types that are asked for, and the forms that they may have.
PATH, DIRECTORY_INDEX, MD5 = 1, 2, 5
STRING, LINE_STRP, STRP, UDATA, DATA16 = 0x08, 0x1F, 0x0E, 0x0F, 0x1E
FORMS_OF = {PATH: {STRING, LINE_STRP, STRP}, DIRECTORY_INDEX: {UDATA, 0x0B, 0x05, 0x06, 0x07}, MD5: {DATA16}}
# The forms that are a number of so many bytes, and those that are a length of so many bytes and as many bytes.
DATA = {0x0B: 1, 0x05: 2, 0x06: 4, 0x07: 8}
BLOCK, BLOCKS = 0x09, {0x0A: 1, 0x03: 2, 0x04: 4}

# How many operands the standard opcodes 1 to 12 have.
STANDARD_LENGTHS = (0, 1, 1, 1, 1, 0, 0, 0, 1, 0, 0, 1)
(COPY, ADVANCE_PC, ADVANCE_LINE, SET_FILE, SET_COLUMN, NEGATE_STMT, SET_BASIC_BLOCK, CONST_ADD_PC, FIXED_ADVANCE_PC, SET_PROLOGUE_END,
 SET_EPILOGUE_BEGIN, SET_ISA) = range(1, 13)
END_SEQUENCE, SET_ADDRESS, SET_DISCRIMINATOR = 1, 2, 4


class No(Exception):
    """What stands against a section or a table. Its text is the line that is printed."""


def malformed(place, reason):
    return No("no 25 malformed at 0x%x: %s" % (place, reason))


class Cursor:
    """Bytes that are read from a place up to a limit. What these don't hold whole is truncated at its first byte."""

    def __init__(self, data, place, limit, order):
        self.data, self.place, self.limit, self.order = data, place, limit, order

    def take(self, count, first=None):
        """So many bytes, of what begins at a place before them, where one is given."""
        if count > self.limit - self.place:
            raise malformed(self.place if first is None else first, TRUNCATED)
        self.place += count
        return self.data[self.place - count:self.place]

    def number(self, size, first=None):
        return int.from_bytes(self.take(size, first), self.order)

    def text(self):
        end = self.data.find(0, self.place, self.limit)
        if end < 0:
            raise malformed(self.place, TRUNCATED)
        return self.take(end - self.place + 1)[:-1]

    def leb(self, signed=False):
        first = end = self.place
        while end < self.limit and self.data[end] >= 128:
            end += 1
        # Where the last byte isn't there, this is one too many.
        spelled = self.take(end - first + 1)
        value = sum((byte & 127) << 7 * place for place, byte in enumerate(spelled))
        if signed and spelled[-1] & 64:
            value -= 1 << 7 * len(spelled)
        least, most = (-1 << 63, 1 << 63) if signed else (0, 1 << 64)
        if not least <= value < most:
            raise malformed(first, TOO_LARGE)
        return value


@dataclass
class Frame:
    """A unit as its initial length parts it from the others: where it begins, where what is counted does, and where it ends."""

    offset: int
    offset_size: int
    body: int
    end: int


def frames(data, order):
    """The frames of a section, one by one, with a cursor at the version."""
    offset = 0
    while offset < len(data):
        cursor = Cursor(data, offset, len(data), order)
        size, length = 4, cursor.number(4)
        if length == 0xFFFFFFFF:
            size, length = 8, cursor.number(8, offset)
        elif length >= 0xFFFFFFF0:
            raise malformed(offset, RESERVED_LENGTH)
        frame = Frame(offset, size, cursor.place, cursor.place + length)
        cursor.take(length, offset)
        yield frame, Cursor(data, frame.body, frame.end, order)
        offset = frame.end


@dataclass
class Numbers:
    """The numbers of a header."""

    minimum_length: int
    max_ops: int
    default_is_stmt: int
    line_base: int
    line_range: int
    opcode_base: int
    standard_lengths: bytes

    def special(self, advance, lines):
        """The special opcode that moves so many operations on, and so many lines."""
        return self.opcode_base + advance * self.line_range + lines - self.line_base


def not_zero(cursor, reason):
    place, byte = cursor.place, cursor.number(1)
    if not byte:
        raise malformed(place, reason)
    return byte


def standard_lengths(cursor, opcode_base):
    lengths = bytearray()
    for opcode in range(1, opcode_base):
        place, length = cursor.place, cursor.number(1)
        if opcode <= 12 and length != STANDARD_LENGTHS[opcode - 1]:
            raise malformed(place, "length %d of standard opcode %d" % (length, opcode))
        lengths.append(length)
    return bytes(lengths)


def header_end(cursor, offset_size):
    """Reads header_length, which tells where the program begins."""
    place, length = cursor.place, cursor.number(offset_size)
    if length > cursor.limit - cursor.place:
        raise malformed(place, "header length")
    return cursor.place + length


def header_numbers(cursor, version):
    """The fields from minimum_instruction_length to standard_opcode_lengths. maximum_operations_per_instruction is there from version
    4 on."""
    minimum_length = cursor.number(1)
    max_ops = not_zero(cursor, "zero operations per instruction") if version >= 4 else 1
    default_is_stmt, line_base = cursor.number(1), cursor.number(1)
    line_range = not_zero(cursor, "zero line range")
    opcode_base = not_zero(cursor, "zero opcode base")
    line_base -= (line_base & 128) * 2
    lengths = standard_lengths(cursor, opcode_base)
    return Numbers(minimum_length, max_ops, default_is_stmt, line_base, line_range, opcode_base, lengths)


@dataclass
class Table:
    """The directories or the files of a unit: pairs of a content type and a form, and for each entry a value for each pair."""

    pairs: list
    entries: list

    def place_of(self, content):
        """Which value of an entry has a content type, the first that does; none where no value has it."""
        return next((place for place, pair in enumerate(self.pairs) if pair[0] == content), None)


def value_in(cursor, form, offset_size):
    place = cursor.place
    if form == STRING:
        return cursor.text()
    if form == UDATA:
        return cursor.leb()
    if form in DATA:
        return cursor.number(DATA[form])
    if form in (LINE_STRP, STRP):
        return cursor.number(offset_size)
    if form == DATA16:
        return cursor.take(16)
    return cursor.take(cursor.leb() if form == BLOCK else cursor.number(BLOCKS[form]), place)


def form_in(cursor):
    place, form = cursor.place, cursor.leb()
    if form not in (STRING, UDATA, LINE_STRP, STRP, DATA16, BLOCK, *DATA, *BLOCKS):
        raise malformed(place, "form 0x%x" % form)
    return form


def table_in(cursor, offset_size):
    pairs = []
    for _ in range(cursor.number(1)):
        pairs.append((cursor.leb(), form_in(cursor)))
    place, count = cursor.place, cursor.leb()
    if count and not pairs:
        raise malformed(place, "entries without a format")
    entries = []
    while len(entries) < count:
        entries.append([value_in(cursor, form, offset_size) for _, form in pairs])
    return Table(pairs, entries)


@dataclass
class Operation:
    """An operation: its opcode, and its operand. `kind` tells special opcodes, standard and extended ones apart."""

    kind: str
    opcode: int
    operand: object = None


def extended_in(cursor, address_size):
    at, length = cursor.place, cursor.leb()
    if not length:
        raise malformed(at, EXTENDED_LENGTH)
    held = Cursor(cursor.data, cursor.place, cursor.place + length, cursor.order)
    cursor.take(length)
    opcode = held.number(1)
    left = held.limit - held.place
    if opcode == END_SEQUENCE and left or opcode == SET_ADDRESS and left != address_size:
        raise malformed(at, EXTENDED_LENGTH)
    if opcode == SET_ADDRESS:
        return Operation("extended", opcode, held.number(address_size))
    if opcode == SET_DISCRIMINATOR:
        # Its bytes are one number, whose last byte alone is below 128.
        ends = [place for place in range(held.place, held.limit) if held.data[place] < 128]
        if ends != [held.limit - 1]:
            raise malformed(at, EXTENDED_LENGTH)
        return Operation("extended", opcode, held.leb())
    return Operation("extended", opcode)


def operation_in(cursor, numbers, address_size):
    opcode = cursor.number(1)
    if opcode >= numbers.opcode_base:
        return Operation("special", opcode)
    if not opcode:
        return extended_in(cursor, address_size)
    if opcode == ADVANCE_LINE:
        return Operation("standard", opcode, cursor.leb(signed=True))
    if opcode == FIXED_ADVANCE_PC:
        return Operation("standard", opcode, cursor.number(2))
    operands = [cursor.leb() for _ in range(numbers.standard_lengths[opcode - 1])]
    return Operation("standard", opcode, operands[0] if opcode <= 12 and operands else None)


@dataclass
class Unit:
    offset: int
    address_size: int
    numbers: Numbers
    directories: Table
    files: Table
    operations: list


def unit_in(frame, cursor):
    """A unit of version 5."""
    place, version = cursor.place, cursor.number(2)
    if version != 5:
        raise malformed(place, "version %d" % version)
    place, address_size = cursor.place, cursor.number(1)
    if address_size not in (2, 4, 8):
        raise malformed(place, "address size %d" % address_size)
    place, selector_size = cursor.place, cursor.number(1)
    if selector_size:
        raise malformed(place, "segment selector size %d" % selector_size)
    end = header_end(cursor, frame.offset_size)
    header = Cursor(cursor.data, cursor.place, end, cursor.order)
    numbers = header_numbers(header, version)
    directories, files = table_in(header, frame.offset_size), table_in(header, frame.offset_size)
    program, operations = Cursor(cursor.data, end, frame.end, cursor.order), []
    while program.place < program.limit:
        operations.append(operation_in(program, numbers, address_size))
    return Unit(frame.offset, address_size, numbers, directories, files, operations)


@dataclass
class Row:
    address: int = 0
    op: int = 0
    file: int = 1
    line: int = 1
    column: int = 0
    is_stmt: int = 0
    isa: int = 0
    discriminator: int = 0

    def position(self):
        return self.address, self.op


class Machine:
    """The registers that answers tell. The marks of rows aren't among them."""

    def __init__(self, unit):
        self.unit, self.numbers = unit, unit.numbers
        self.reset()

    def reset(self):
        self.row = Row(is_stmt=int(self.numbers.default_is_stmt != 0))

    def advance(self, count):
        steps, self.row.op = divmod(self.row.op + count, self.numbers.max_ops)
        self.move(self.numbers.minimum_length * steps)

    def move(self, bytes_on):
        self.row.address = (self.row.address + bytes_on) % (1 << 8 * self.unit.address_size)

    def appended(self):
        row = Row(**vars(self.row))
        self.row.discriminator = 0
        return row

    def special(self, opcode):
        steps, lines = divmod(opcode - self.numbers.opcode_base, self.numbers.line_range)
        self.advance(steps)
        self.row.line += self.numbers.line_base + lines

    def standard(self, opcode, operand):
        if opcode == ADVANCE_PC:
            self.advance(operand)
        elif opcode == ADVANCE_LINE:
            self.row.line += operand
        elif opcode == SET_FILE:
            self.row.file = operand
        elif opcode == SET_COLUMN:
            self.row.column = operand
        elif opcode == NEGATE_STMT:
            self.row.is_stmt ^= 1
        elif opcode == CONST_ADD_PC:
            self.advance((255 - self.numbers.opcode_base) // self.numbers.line_range)
        elif opcode == FIXED_ADVANCE_PC:
            self.move(operand)
            self.row.op = 0
        elif opcode == SET_ISA:
            self.row.isa = operand

    def extended(self, opcode, operand):
        if opcode == SET_ADDRESS:
            self.row.address, self.row.op = operand, 0
        elif opcode == SET_DISCRIMINATOR:
            self.row.discriminator = operand

    def step(self, operation):
        """Takes an operation, and gives the row that it appends, if it does."""
        if operation.kind == "special":
            self.special(operation.opcode)
            return self.appended()
        if operation.kind == "standard":
            self.standard(operation.opcode, operation.operand)
            return self.appended() if operation.opcode == COPY else None
        if operation.opcode == END_SEQUENCE:
            row = self.row
            self.reset()
            return row
        self.extended(operation.opcode, operation.operand)
        return None


@dataclass
class Sequence:
    """Rows of a unit up to one that ends a sequence, which is the last; where the first one stands in the unit; and the sequence's own
    number."""

    unit: Unit
    index: int
    first_row: int
    rows: list

    def first(self):
        return self.rows[0].position()

    def end(self):
        return self.rows[-1].position()

    def holds_any(self):
        return self.first() < self.end()

    def spans(self):
        return [Span(row.position(), after.position(), (self.unit, row)) for row, after in zip(self.rows, self.rows[1:])
                if row.position() < after.position()]


def sequences_of(unit):
    machine, sequences, rows, count = Machine(unit), [], [], 0
    for place, operation in enumerate(unit.operations):
        row = machine.step(operation)
        if not 0 <= machine.row.line < 1 << 32:
            raise No("no 26 run unit 0x%x: line out of range at operation %d" % (unit.offset, place))
        if row:
            rows.append(row)
        if row and operation.kind == "extended":
            sequences.append(Sequence(unit, len(sequences), count, rows))
            count += len(rows)
            rows = []
    if rows:
        raise No("no 26 run unit 0x%x: open sequence" % unit.offset)
    return sequences


class Strings:
    """The string sections, in which a path's text may stand."""

    def __init__(self, line=b"", general=b""):
        self.of = {LINE_STRP: line, STRP: general}

    def text(self, form, value):
        """The text of a path; none where it isn't there."""
        if form == STRING:
            return value
        end = self.of[form].find(0, value)
        return None if end < 0 else self.of[form][value:end]


def directory_number(files, entry):
    place = files.place_of(DIRECTORY_INDEX)
    return 0 if place is None else entry[place]


def judge_table(unit, name, table):
    """The form of each content type that is asked for is one that it may have, and there is a path."""
    if not table.entries:
        return
    for content, forms in FORMS_OF.items():
        place = table.place_of(content)
        if place is None and content == PATH or place is not None and table.pairs[place][1] not in forms:
            raise No("no 27 entry format unit 0x%x %s" % (unit.offset, name))


def path_text(strings, table, entry):
    place = table.place_of(PATH)
    return strings.text(table.pairs[place][1], entry[place])


def judge_tables(unit, strings):
    tables = [("directories", unit.directories), ("files", unit.files)]
    for name, table in tables:
        judge_table(unit, name, table)
    for name, table in tables:
        for place, entry in enumerate(table.entries):
            if path_text(strings, table, entry) is None:
                raise No("no 28 string outside unit 0x%x %s entry %d" % (unit.offset, name, place))
    for place, entry in enumerate(unit.files.entries):
        if directory_number(unit.files, entry) >= len(unit.directories.entries):
            raise No("no 29 directory number unit 0x%x file %d" % (unit.offset, place))


def judge_rows(unit, live):
    for sequence in live:
        for place, row in enumerate(sequence.rows[:-1], sequence.first_row):
            if row.file >= len(unit.files.entries):
                raise No("no 30 file number unit 0x%x row %d file %d" % (unit.offset, place, row.file))
    for sequence in live:
        for place, (before, row) in enumerate(zip(sequence.rows, sequence.rows[1:]), sequence.first_row + 1):
            if row.position() < before.position():
                raise No("no 31 falls unit 0x%x row %d" % (unit.offset, place))


def without_copies(sequences):
    """The sequences but for those that begin and end as one before them does."""
    kept, extents = [], set()
    for sequence in sequences:
        extent = sequence.first(), sequence.end()
        if extent not in extents or not sequence.holds_any():
            kept.append(sequence)
        extents.add(extent)
    return kept


def judge_apart(kept):
    """The sequences that hold a position, in their order, of which no two hold the same."""
    holding = sorted((sequence for sequence in kept if sequence.holds_any()), key=Sequence.first)
    for one, other in zip(holding, holding[1:]):
        if other.first() < one.end():
            named = "0x%x:%d 0x%x:%d" % (one.unit.offset, one.index, other.unit.offset, other.index)
            raise No("no 32 overlap %s at 0x%x,%d" % (named, *other.first()))
    return holding


def is_full(path):
    """Whether a path begins with /, with a letter, a colon and a separator, or with two backslashes."""
    return path[:1] == b"/" or path[:1].isalpha() and path[1:3] in (b":/", b":\\") or path[:2] == b"\\\\"


def joined(directory, name):
    if not directory or directory.endswith(b"/"):
        return directory + name
    return directory + b"/" + name


@dataclass
class Span:
    """What answers from a position up to another one."""

    low: tuple
    high: tuple
    answer: object


class Section:
    """A good section: its units by their offsets, and its spans, each of which answers by a row, in the order of positions."""

    def __init__(self, data, strings=Strings(), order="little", dead=None, skip_copies=False):
        self.strings, self.units, live = strings, {}, []
        for frame, cursor in frames(data, order):
            unit = unit_in(frame, cursor)
            sequences = sequences_of(unit)
            judge_tables(unit, strings)
            alive = [sequence for sequence in sequences if sequence.rows[0].address != dead]
            judge_rows(unit, alive)
            self.units[unit.offset] = unit
            live += alive
        self.live = live
        self.sequences = judge_apart(without_copies(live) if skip_copies else live)
        self.spans = [span for sequence in self.sequences for span in sequence.spans()]

    def path(self, unit, file):
        """The whole path of a file."""
        entry = unit.files.entries[file]
        name = path_text(self.strings, unit.files, entry)
        number = directory_number(unit.files, entry)
        directory = path_text(self.strings, unit.directories, unit.directories.entries[number])
        if is_full(name):
            return name
        if number and not is_full(directory):
            directory = joined(path_text(self.strings, unit.directories, unit.directories.entries[0]), directory)
        return joined(directory, name)


def records(data):
    """The records of comma-separated values: empty lines are none, and a byte order mark at the start is left out."""
    csv.field_size_limit(sys.maxsize)
    text = data.removeprefix(b"\xef\xbb\xbf").decode("latin-1")
    lines = re.findall("[^\r\n]*(?:\r\n|\r|\n)|[^\r\n]+", text)
    return [[field.encode("latin-1") for field in record] for record in csv.reader(lines) if record]


def decimal(field):
    """The value of 1 to 20 decimal digits below 2^64; none where it isn't one."""
    return int(field) if re.fullmatch(rb"[0-9]{1,20}", field) and int(field) < 1 << 64 else None


def held(name):
    """The bytes of a file, or of standard input."""
    if name == "-":
        return sys.stdin.buffer.read()
    try:
        with open(name, "rb") as file:
            return file.read()
    except OSError:
        sys.stderr.write("cannot read %s\n" % name)
        sys.exit(3)
