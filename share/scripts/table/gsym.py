"""GSYM files of version 1, as readers up to LLVM 17 answer from them; linetab symbols prints what later ones do."""

import itertools
import struct
import sys
from array import array

from scripts.bounded import Refusal, leb
from scripts.table.source import CUT
from scripts.table.spans import BEYOND, FIRST, LONGEST, steps

KEPT = 256  # paths of files


class Gsym:
    """A GSYM file: functions in the order of their addresses, each with a line table, and the files that these name."""

    def __init__(self, data):
        self.order = {b"MYSG": "<", b"GSYM": ">"}.get(data[:4])
        if self.order is None:
            raise Refusal("it isn't a GSYM file")
        self.data, self.paths = data, {}
        _, version, width, _, base, count, strings, strings_size = self.numbers("IHBBQIII", 0)
        if version != 1:
            raise Refusal("GSYM version %d is not supported" % version)
        kind = {1: "B", 2: "H", 4: "I", 8: "Q"}.get(width)
        if kind is None or strings + strings_size > len(data):
            raise Refusal(CUT)
        at = -(-(48 + width * count) // 4) * 4
        self.base, self.starts, self.infos = base, self.listed(kind, count, 48), self.listed("I", count, at)
        (self.file_count,) = self.numbers("I", at + 4 * count)
        self.files = at + 4 * count + 4
        self.strings = strings, strings + strings_size
        # What may still be read of line tables. Those of two functions have no byte in common, so it is enough.
        self.left = len(data)

    def numbers(self, layout, at):
        return struct.unpack(self.order + layout, self.data[at : at + struct.calcsize("=" + layout)])

    def listed(self, kind, count, at):
        """So many numbers of a kind, one behind the other."""
        listed = array(kind)
        content = self.data[at : at + count * listed.itemsize]
        if len(content) < count * listed.itemsize:
            raise Refusal(CUT)
        listed.frombytes(content)
        if (self.order == "<") != (sys.byteorder == "little"):
            listed.byteswap()
        return listed

    def text(self, offset):
        start, end = self.strings
        start = min(start + offset, end)
        return self.data[start : min(start + LONGEST + 1, end)].split(b"\0", 1)[0]

    def path(self, number):
        """The path of a file: its directory and its name, or nothing where it has neither."""
        if number not in self.paths:
            if number >= self.file_count:
                raise Refusal("it has no file %d, which a line table names" % number)
            if len(self.paths) == KEPT:
                self.paths.clear()
            folder, name = map(self.text, self.numbers("II", self.files + 8 * number))
            separator = b"\\" if b"\\" in folder and b"/" not in folder else b"/"
            self.paths[number] = folder + separator + name if folder else name
        return self.paths[number]

    def functions(self):
        """Each function: where it answers, its own start, and where its info begins. Of several that start at one address each
        answers where those before it don't."""
        starts = self.starts
        if any(low > high for low, high in zip(starts, starts[1:])) or starts and self.base + starts[-1] >= BEYOND:
            raise Refusal(CUT)
        first = 0
        for offset, group in itertools.groupby(starts):
            behind = first + sum(1 for _ in group)
            following = self.base + starts[behind] if behind < len(starts) else BEYOND - 1
            yield from self.answering(self.base + offset, following, self.infos[first:behind])
            first = behind

    def answering(self, start, following, infos):
        """The functions that start at one address, of which the next ones start at another."""
        low = start
        for info in infos:
            (size,) = self.numbers("I", info)
            # One without a size, as of Darwin's symbols, goes up to the next.
            high = min(start + size, following) if size else following
            if low < high:
                yield low, high, start, info
                low = high

    def line_table(self, info):
        """The bytes of a function's line table, or none where it has none or no name."""
        (name,) = self.numbers("I", info + 4)
        at, found = info + 8, b""
        while name:
            kind, size = self.numbers("II", at)
            self.left -= size + 8
            if self.left < 0 or at + 8 + size > len(self.data):
                raise Refusal(CUT)
            if kind == 0:
                return found
            if kind == 1:
                found = self.data[at + 8 : at + 8 + size]
            at += 8 + size
        return b""

    def rows(self, table, address):
        """The rows of a line table: the address of each, and the file and line from there on."""
        least, at = number(table, 0, True)
        greatest, at = number(table, at, True)
        line, at = number(table, at)
        width, file = greatest - least + 1, 1
        if width <= 0:
            raise Refusal(CUT)
        while table[at] != 0:
            opcode = table[at]
            at += 1
            if opcode == 1:
                file, at = number(table, at)
                continue
            if opcode == 3:
                change, at = number(table, at, True)
                line += change
                continue
            if opcode == 2:
                advance, at = number(table, at)
            else:
                advance, change = divmod(opcode - 4, width)
                line += least + change
            address += advance
            yield address, file & 0xFFFFFFFF, line & 0xFFFFFFFF

    def rows_up_to(self, table, start, high):
        """The rows below an address, with their answers, and its end."""
        for address, file, line in self.rows(table, start):
            if address >= high:
                break
            path = file and self.path(file)
            yield address, (path, line) if path else None
        yield high, None

    def spans(self):
        for low, high, start, info in self.functions():
            table = self.line_table(info)
            rows = self.rows_up_to(table, start, high) if table else ()
            for row_low, row_high, answer in steps(first_rows(rows)):
                if row_high > low:
                    yield max(low, row_low), row_high, answer


def number(table, at, signed=False):
    """A number in LEB128, which has at most 10 bytes."""
    return leb(table, at, min(at + 10, len(table)), signed)


def first_rows(rows):
    """Rows that answer at an address with several as the first of them does, and behind it as the last."""
    for address, group in itertools.groupby(rows, key=FIRST):
        count = 0
        for count, (_, answer) in enumerate(group, 1):
            if count == 1:
                yield address, answer
        if count > 1:
            yield address + 1, answer


def spans_of(data):
    """The spans of a GSYM file, as they come."""
    try:
        yield from Gsym(data).spans()
    except (struct.error, IndexError):
        raise Refusal(CUT) from None
