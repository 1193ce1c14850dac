"""The records of address tables, and which columns these have."""

import csv
import io
import itertools

from scripts.kinds import MARK

LONGEST = 1 << 13  # bytes of a line of a table


class Unclear(Exception):
    """What a table has can't be told, or not within bounds."""


class Layout:
    """The columns of a table: how many stand before `high` and before the answer, and the option with which the program prints it."""

    def __init__(self, columns, option):
        self.columns, self.option = columns.split(","), option
        self.has_paths = "path" in self.columns
        self.high = self.columns.index("high")
        self.answer = self.high + (1 if self.has_paths else 2)

    def key(self, record):
        """What an answer is known by, whatever folder its file lies in: the file's name, and all numbers."""
        answer = record[self.answer :]
        return (name_of(answer[0]), *answer[1:]) if self.has_paths else tuple(answer)


NUMBERS = "low,low_op,high,high_op,unit,file,line,column,is_stmt"
LAYOUTS = [
    Layout(NUMBERS, []),
    Layout(NUMBERS + ",isa,discriminator", ["--wide"]),
    Layout("low,high,path,line,column", ["--paths"]),
    Layout("low,high,path,line", ["--lines"]),
]


def name_of(path):
    return path[1 + max(path.rfind("/"), path.rfind("\\")) :]


def texts(pieces, longest=LONGEST):
    """The lines of a text in pieces, with their ends, one character for each byte."""
    rest = b""
    for piece in pieces:
        head, end, rest = (rest + piece).rpartition(b"\n")
        if len(rest) > longest:
            raise Unclear
        yield from io.StringIO((head + end).decode("latin-1"), newline="\n")
    yield rest.decode("latin-1")


def records(pieces):
    """The records of a table, the header first. Empty lines are none."""
    read = texts(pieces)
    start = next(read, "").removeprefix(MARK.decode("latin-1"))
    try:
        yield from filter(None, csv.reader(itertools.chain([start], read)))
    except csv.Error:
        raise Unclear from None


def spans_in(pieces):
    """The spans of a table of version 4, as they come."""
    read = records(pieces)
    next(read, None)
    for low, high, path, line in read:
        yield int(low, 16), int(high, 16), (path.encode("latin-1"), int(line))


def layout_of(header):
    found = next((layout for layout in LAYOUTS if layout.columns == header), None)
    if found is None:
        raise Unclear
    return found
