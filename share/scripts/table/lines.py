"""Lines with an address or a range of addresses, a path and a line number, as many tools print them."""

import re

from scripts.bounded import Refusal
from scripts.kinds import HEAD, MARK, kind_of
from scripts.object.faulty import text_of, unreadable
from scripts.table.source import source
from scripts.table.spans import BEYOND, FIRST, apart, meant
from scripts.telling import shown

ADDRESS = re.compile(rb"(0[xX])?([0-9a-fA-F]{1,16})")
NUMBER = re.compile(rb"[0-9]{1,19}|\?")
DISCRIMINATOR = re.compile(rb" \(discriminator [0-9]+\)$")


def wrong(number, found, wanted):
    return Refusal("its line %d has %s in place of %s" % (number, text_of(found.decode("latin-1")) if found else "nothing", wanted))


def range_of(words, number):
    """The address or the range with which a line begins, and what stands behind it. The second word is an address too if it is written
    as the first one is, or with 0x, and something stands behind it."""
    match = ADDRESS.fullmatch(words[0])
    if not match:
        raise wrong(number, words[0], "an address, which is 1 to 16 hexadecimal digits, with 0x or without")
    low, rest = int(match[2], 16), b"".join(words[1:])
    more = rest.split(None, 1)
    second = ADDRESS.fullmatch(more[0]) if len(more) == 2 else None
    if not second or match[1] and not second[1]:
        if low + 1 == BEYOND:
            raise wrong(number, words[0], "an address with another one above")
        return low, low + 1, rest
    high = int(second[2], 16)
    if high < low:
        raise wrong(number, more[0], "an address that isn't below the one before it")
    return low, high, more[1]


def place_of(text, number):
    """The path, the line and the column (none if there is none) of PATH:LINE or PATH:LINE:COLUMN."""
    path, *numbers = text.rsplit(b":", 2)
    if len(numbers) == 2 and not NUMBER.fullmatch(numbers[0]):
        path, numbers = path + b":" + numbers[0], numbers[1:]
    if not path or not numbers or not all(map(NUMBER.fullmatch, numbers)):
        raise wrong(number, text, "PATH:LINE or PATH:LINE:COLUMN")
    return path, numbers[0], numbers[1] if len(numbers) == 2 else None


def read_lines(lines):
    """The number, the range and the place of each line that isn't empty."""
    for number, line in enumerate(lines, 1):
        if not line.endswith(b"\n"):
            raise Refusal("its last line, %d, has no end: it is cut" % number)
        line = (line.removeprefix(MARK) if number == 1 else line).strip()
        if line:
            low, high, rest = range_of(line.split(None, 1), number)
            yield low, high, place_of(DISCRIMINATOR.sub(b"", rest), number)


def united(spans):
    """Spans in the order of their lows, of which those that overlap and answer alike are one."""
    last = None
    for low, high, answer in sorted(spans, key=FIRST):
        if last and low < last[1] and answer == last[2]:
            last = last[0], max(last[1], high), answer
            continue
        if last:
            yield last
        last = low, high, answer
    if last:
        yield last


def spans_of(lines):
    """The spans of lines in any order, and whether they have columns. Of an address alone it is one byte."""
    spans, same, has_lines, has_columns = [], {}, False, False
    for low, high, (path, line, column) in read_lines(lines):
        has_lines, has_columns = True, has_columns or column is not None
        answer = meant(path, line, column)
        if answer and low < high:
            # Of answers that are the same one is held.
            spans.append((low, high, same.setdefault(answer, answer)))
    if not has_lines:
        raise Refusal("it has no line: what should have written it failed, or wrote nothing")
    if not has_columns:
        spans = [(low, high, answer[:2]) for low, high, answer in spans]
    return list(apart(united(spans), "line")), has_columns


def from_lines(asked):
    with source(asked) as file:
        head = file.peek(HEAD)[:HEAD]
        text = unreadable(head, shown(asked.file)) if kind_of(head) is None else None
        if text:
            raise Refusal(text)
        spans, asked.has_columns = spans_of(file)
    return spans
