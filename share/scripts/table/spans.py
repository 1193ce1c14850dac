"""Spans: low, high and the answer, which is a path with its line, and in some a column."""

import operator
import re

from scripts.bounded import PIECE, Refusal
from scripts.telling import note

# Longer paths are refused: each span has its path, so a long one that many share would be a table much longer than FILE.
LONGEST = 4096
BEYOND = 1 << 64
FIRST = operator.itemgetter(0)


def counted(number, what):
    return "%d %s%s" % (number, what, "" if number == 1 else "s")


def meant(path, *numbers):
    """The answer of a path and numbers as tools print them, of which some may be missing; none where nothing is known."""
    # Of code without line information addr2line says the name of a file that the symbol table has, and no line.
    if path == b"??" or numbers[0] == b"?" and b"/" not in path:
        return None
    return path, *(int(number) if number and number != b"?" else 0 for number in numbers)


def steps(rows):
    """Of rows, which are an address and the answer from there on, each two at different addresses that follow one another make a
    span; the answer of the last is none."""
    low = answer = None
    for high, following in rows:
        if answer and low < high:
            yield low, high, answer
        low, answer = high, following


def joined(spans):
    """Spans that touch and answer alike are one."""
    last = None
    for low, high, answer in spans:
        if last and last[1] == low and last[2] == answer:
            last = last[0], high, answer
            continue
        if last:
            yield last
        last = low, high, answer
    if last:
        yield last


def apart(ranges, what):
    """Of ranges in the order of their lows those that don't begin below the end of one before."""
    end, left_out = 0, 0
    for it in ranges:
        if it[0] < end:
            left_out += 1
            continue
        end = it[1]
        yield it
    if left_out:
        note("left out, since they overlap an earlier one: %s" % counted(left_out, what))


def table_of(spans, columns):
    """The bytes of the table, in pieces, as the spans come."""
    piece = bytearray(b"low,high,path,line,column\n" if columns else b"low,high,path,line\n")
    record = b"0x%x,0x%x,%s,%d,%d\n" if columns else b"0x%x,0x%x,%s,%d\n"
    for low, high, (path, *numbers) in spans:
        if len(path) > LONGEST:
            raise Refusal("a path in it has more than %d bytes" % LONGEST)
        piece += record % (low, high, quoted(path), *numbers)
        if len(piece) >= PIECE:
            yield piece
            piece = bytearray()
    yield piece


def quoted(path):
    return b'"' + path.replace(b'"', b'""') + b'"' if re.search(rb'[",\r\n]', path) else path


def first_difference(ours, theirs):
    """The first address at which two lists of spans, each in order and apart, answer otherwise, and both answers. Where one has none,
    that is no difference."""
    ours, theirs = iter(ours), iter(theirs)
    one, other = next(ours, None), next(theirs, None)
    while one and other:
        low = max(one[0], other[0])
        if low < min(one[1], other[1]) and one[2] != other[2]:
            return low, one[2], other[2]
        if one[1] <= other[1]:
            one = next(ours, None)
        else:
            other = next(theirs, None)
    return None
