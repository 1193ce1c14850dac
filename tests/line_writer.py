"""Writes units of line number sections with numbers, tables and programs that are picked at random, for the cases that tests make."""

import os
from dataclasses import dataclass

from line_section import (ADVANCE_LINE, ADVANCE_PC, CONST_ADD_PC, COPY, DATA, END_SEQUENCE, FIXED_ADVANCE_PC, LINE_STRP, NEGATE_STMT,
                          SET_ADDRESS, SET_BASIC_BLOCK, SET_COLUMN, SET_DISCRIMINATOR, SET_EPILOGUE_BEGIN, SET_FILE, SET_ISA,
                          SET_PROLOGUE_END, STANDARD_LENGTHS, STRING, STRP, UDATA, Numbers)

# DW_LNE_end_sequence
END = bytes([0, 1, END_SEQUENCE])

# Names of files and of directories, with odd ones among them.
PATHS = [b"a.c", b"b.h", b"sub/c.c", b"/usr/include/d.h", b'odd "name", and\n\\', b"", b"\xff\xfe", b"C:/w/e.c", b"\\\\m\\f.c", b"D:g.c"]
DIRECTORIES = [b"/s", b"/", b"sub", b"", b"/usr/include", b"t/u/", b"c:\\v", b"\\w", b"Z:/"]


def leb(number, padding=0):
    """An unsigned number, with so many bytes more than it needs."""
    out = bytearray()
    while number > 127:
        out.append(number & 127 | 128)
        number >>= 7
    out.append(number)
    for _ in range(padding):
        out[-1] |= 128
        out.append(0)
    return bytes(out)


def sleb(number):
    out = bytearray()
    while not -64 <= number < 64:
        out.append(number & 127 | 128)
        number >>= 7
    return bytes(out + bytes([number & 127]))


@dataclass
class Shape:
    """How a unit is written, whatever its tables and its program tell."""

    version: int
    order: str
    offset_size: int
    address_size: int
    numbers: Numbers

    def number(self, value, size):
        return value.to_bytes(size, self.order)

    def frame(self, counted, longer=0):
        """What the initial length counts, with it. It may tell another length."""
        length = max(0, len(counted) + longer)
        return (b"\xff" * 4 if self.offset_size == 8 else b"") + self.number(length, self.offset_size) + counted

    def fields(self):
        """The fields from minimum_instruction_length to standard_opcode_lengths, one by one."""
        numbers = self.numbers
        after = [numbers.default_is_stmt, numbers.line_base & 255, numbers.line_range, numbers.opcode_base, *numbers.standard_lengths]
        return [numbers.minimum_length, *([numbers.max_ops] if self.version >= 4 else []), *after]

    def counted(self, tables, program):
        """What the initial length counts, of a unit of version 5 with these tables and this program."""
        header = bytes(self.fields()) + tables
        start = self.number(self.version, 2) + bytes([self.address_size, 0])
        return start + self.number(len(header), self.offset_size) + header + program

    def unit(self, tables, program):
        return self.frame(self.counted(tables, program))


# A unit in the 64-bit format, with the numbers that compilers write.
PLAIN = Shape(5, "little", 8, 8, Numbers(1, 1, 1, -5, 14, 13, bytes(STANDARD_LENGTHS)))


def numbers(picked):
    """Numbers as compilers write them, or odd ones that are allowed."""
    opcode_base = picked.choice((13, 13, 13, 10, 11, 12, 14, 17, 1, 4))
    lengths = STANDARD_LENGTHS[:opcode_base - 1] + tuple(picked.randrange(4) for _ in range(13, opcode_base))
    line_base, line_range = picked.choice(((-5, 14), (-3, 12), (-10, 242), (-1, 4), (0, 1), (1, 7)))
    if opcode_base <= ADVANCE_LINE:
        # No other operation changes the line, which begins at 1.
        line_base = max(line_base, 0)
    return Numbers(picked.choice((1, 1, 4)), picked.choice((1, 1, 1, 4)), picked.choice((0, 1, 1)), line_base, line_range, opcode_base,
                   bytes(lengths))


def extended(opcode, operand=b"", padding=0):
    return b"\0" + leb(1 + len(operand), padding) + bytes([opcode]) + operand


class Program:
    """Operations of a unit that were picked at random."""

    def __init__(self, picked, shape, files):
        self.picked, self.shape, self.numbers, self.files = picked, shape, shape.numbers, files
        self.bytes = bytearray()
        self.cuts = []  # where each row of the last sequence begins, its end, and where that ends

    def standard(self, opcode, operand=b""):
        """A standard operation, where opcode_base leaves its number to it."""
        if opcode < self.numbers.opcode_base:
            self.bytes += bytes([opcode]) + operand

    def set_address(self, address):
        self.bytes += extended(SET_ADDRESS, self.shape.number(address, self.shape.address_size))

    def special(self):
        """Few operations on, and a line that isn't far below."""
        advance, lines = self.picked.randrange(4), self.picked.randrange(self.numbers.line_range)
        opcode = self.numbers.special(advance, self.numbers.line_base + lines)
        self.bytes.append(opcode if opcode < 256 else self.picked.randrange(self.numbers.opcode_base, 256))

    def register(self):
        """An operation that sets a register, or an unknown one."""
        picked = self.picked
        change = picked.randrange(7)
        if change == 0:
            self.standard(SET_FILE, leb(picked.choice(self.files)))
        elif change == 1:
            self.standard(SET_COLUMN, leb(picked.randrange(300), picked.choice((0, 0, 2))))
        elif change == 2:
            self.standard(SET_ISA, leb(picked.randrange(3)))
        elif change == 3:
            self.standard(picked.choice((NEGATE_STMT, SET_BASIC_BLOCK, SET_PROLOGUE_END, SET_EPILOGUE_BEGIN)))
        elif change == 4:
            self.bytes += extended(SET_DISCRIMINATOR, leb(picked.randrange(200)))
        elif change == 5:
            self.bytes += extended(picked.choice((0x80, 0xFF)), picked.randbytes(picked.randrange(4)))
        elif self.numbers.opcode_base > 13:
            opcode = picked.randrange(13, self.numbers.opcode_base)
            self.standard(opcode, b"".join(leb(picked.randrange(500)) for _ in range(self.numbers.standard_lengths[opcode - 1])))

    def move(self):
        """An operation that moves on, without a row."""
        picked = self.picked
        change = picked.randrange(4)
        if change == 0:
            self.standard(ADVANCE_PC, leb(picked.randrange(20), picked.choice((0, 0, 1))))
        elif change == 1:
            self.standard(FIXED_ADVANCE_PC, self.shape.number(picked.randrange(1, 30), 2))
        elif change == 2:
            self.standard(ADVANCE_LINE, sleb(picked.randrange(-3, 40)))
        elif self.numbers.line_range > 1:
            self.standard(CONST_ADD_PC)

    def row(self):
        for _ in range(self.picked.randrange(3)):
            self.register()
        if self.picked.randrange(3) == 0:
            self.move()
        if self.picked.randrange(3) == 0 and self.numbers.opcode_base > COPY:
            self.standard(COPY)
        else:
            self.special()

    def sequence(self, address, rows):
        """So many rows from an address on, and the end behind them. The lines are far above 0, where an operation can set them."""
        self.set_address(address)
        self.standard(ADVANCE_LINE, sleb(200))
        self.standard(SET_FILE, leb(self.picked.choice(self.files)))
        self.cuts = []
        for _ in range(rows):
            self.cuts.append(len(self.bytes))
            self.row()
        self.cuts.append(len(self.bytes))
        self.standard(ADVANCE_PC, leb(self.picked.randrange(1, 9)))
        self.bytes += extended(END_SEQUENCE, b"", self.picked.choice((0, 0, 0, 1)))
        self.cuts.append(len(self.bytes))

    def copy(self, begin, is_other):
        """The last sequence, which begins there, once more; if it is to be another one, with other lines or files from some rows on."""
        whole, before = bytes(self.bytes), begin
        for cut in self.cuts:
            self.bytes += whole[before:cut]
            before = cut
            if is_other and cut != self.cuts[-1] and self.picked.randrange(3) == 0:
                self.standard(ADVANCE_LINE, sleb(self.picked.randrange(-2, 4)))
                if self.picked.randrange(3) == 0:
                    self.standard(SET_FILE, leb(self.picked.choice(self.files)))


def path_bytes(shape, form, path, strings):
    """A path in its form, whose text is put into its string section where it stands there."""
    if form == STRING:
        return path.replace(b"\0", b"") + b"\0"
    strings[form] += path + b"\0"
    return shape.number(len(strings[form]) - len(path) - 1, shape.offset_size)


def table_bytes(picked, shape, paths, strings, directories):
    """A table of paths, with the numbers of their directories where there are some."""
    form = picked.choice((STRING, STRING, LINE_STRP, STRP))
    pairs, index = [(1, form)], picked.choice((UDATA, 0x0B, 0x05)) if directories else None
    if directories:
        pairs.append((2, index))
    if picked.randrange(4) == 0:
        pairs.insert(picked.randrange(len(pairs) + 1), (0x2001, 0x0A))
    out = bytes([len(pairs)]) + b"".join(leb(content) + leb(code) for content, code in pairs) + leb(len(paths))
    for path in paths:
        number = picked.randrange(directories) if directories else 0
        spelled = {1: path_bytes(shape, form, path, strings), 0x2001: b"\2xy"}
        spelled[2] = leb(number) if index == UDATA else shape.number(number, DATA.get(index, 1))
        out += b"".join(spelled[content] for content, _ in pairs)
    return out


def picked_unit(picked, shape, strings, places, again, others=False):
    """A unit with a sequence at each of these places, and if there are to be copies, with some of them again, as others if they are to be
    so."""
    directories = [picked.choice(DIRECTORIES) for _ in range(picked.randrange(1, 4))]
    files = [picked.choice(PATHS) for _ in range(picked.randrange(2, 6))]
    tables = table_bytes(picked, shape, directories, strings, 0) + table_bytes(picked, shape, files, strings, len(directories))
    program = Program(picked, shape, range(len(files) + (picked.randrange(60) == 0)))
    for place in places:
        begin = len(program.bytes)
        program.sequence(place, picked.randrange(7))
        for _ in range(1 + 2 * others):
            if again and picked.randrange(2):
                program.copy(begin, others and picked.randrange(4) > 0)
    return shape.unit(tables, bytes(program.bytes))


def write_case(folder, words, files, said, status):
    """A case as tests/cases/README.md has it: the words, the files that they name, and what has to be printed."""
    os.makedirs(folder)
    texts = {"args": "".join("%s\n" % word for word in words).encode(), "stdout": said, "status": b"%d\n" % status}
    for name, content in {**files, **texts}.items():
        with open(os.path.join(folder, name), "wb") as file:
            file.write(content)
