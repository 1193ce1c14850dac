"""What `llvm-dwarfdump --debug-line` prints."""

import functools
import re

from scripts.bounded import Refusal
from scripts.paths import within
from scripts.table.source import CUT, source
from scripts.table.sequences import spans_of

ENTRY = re.compile(rb'(include_directories|file_names)\[ *([0-9]{1,19})\](?: = "(.*)")?')
ROW = re.compile(rb"0x[0-9a-f]{8,16} +[0-9]{1,19} +[0-9]{1,19} +[0-9]{1,19} +[0-9]{1,19} +[0-9]{1,19}\b")
ESCAPE = re.compile(rb'\\([\\"tn]|[0-7]{3})')
MEANT = {b"\\": b"\\", b'"': b'"', b"t": b"\t", b"n": b"\n"}


def unescaped(text):
    """The bytes of a string as llvm-dwarfdump prints it between quotes."""
    return ESCAPE.sub(lambda it: MEANT[it[1]] if it[1] in MEANT else bytes([int(it[1], 8) & 0xFF]), text or b"")


def whole(parts):
    return functools.reduce(within, parts)


class Unit:
    """The directories and files of a unit, as its header lists them."""

    def __init__(self):
        self.directories, self.names, self.places, self.known = {}, {}, {}, {}

    def parts(self, number):
        """The whole path of a file in its parts: a relative one stands in its directory, and a relative directory in directory 0."""
        if number not in self.known:
            if number not in self.names:
                raise Refusal("it has no file %d, which a row names, or is of another kind of print" % number)
            place = self.places.get(number, 0)
            folders = [self.directories.get(k, b"") for k in ((0, place) if place else (0,))]
            self.known[number] = (*folders, self.names[number])
        return self.known[number]


def printed_rows(lines):
    """The rows that llvm-dwarfdump prints."""
    unit = number = None
    for line in lines:
        entry = ENTRY.match(line)
        if line.startswith(b"debug_line["):
            unit = Unit()
        elif unit is None:
            continue
        elif entry and entry[1] == b"include_directories":
            unit.directories[int(entry[2])] = unescaped(entry[3])
        elif entry:
            number = int(entry[2])
        elif line.startswith(b"           name: "):
            unit.names[number] = unescaped(line.partition(b'"')[2].rpartition(b'"')[0])
        elif line.startswith(b"      dir_index: "):
            unit.places[number] = int(line[17:40])
        elif ROW.match(line):
            address, source_line, column, file, *rest = line.split()
            answer = None if b"end_sequence" in rest else (unit.parts(int(file)), int(source_line), int(column))
            yield int(address, 16), answer
    if unit is None:
        raise Refusal("it isn't what llvm-dwarfdump --debug-line prints of a program with a line number section")


def from_llvm_dwarfdump(asked):
    try:
        with source(asked) as file:
            return spans_of(printed_rows(file), asked, whole)
    except ValueError:
        raise Refusal(CUT) from None
