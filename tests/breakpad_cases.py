"""breakpad_cases.py PROGRAM COUNT SEED: makes so many symbol files of Breakpad, odd ones and broken ones, and compares what `PROGRAM symbols`
prints of each with a slow reader, which was written from the documents. The last line is 'N passed, M failed'."""

import re

from symbol_cases import table_of, tried

# The file is read in blocks of so many bytes.
BLOCK = 1 << 16
NOTHING = (b"MODULE ", b"INFO ", b"STACK ", b"INLINE ", b"INLINE_ORIGIN ")


# ---- the reader


class Fault(Exception):
    """Why a line isn't one of a symbol file."""


def number(text, digits, base, is_large):
    if not re.fullmatch(digits, text):
        raise Fault("not a record")
    if is_large(text):
        raise Fault("number too large")
    return int(text, base)


def hexadecimal(text):
    return number(text, rb"[0-9a-fA-F]+", 16, lambda text: len(text) > 16)


def decimal(text):
    return number(text, rb"[0-9]+", 10, lambda text: int(text) >= 1 << 31)


def fields(text, *kinds):
    """A number of each kind, each with a blank behind it, and what is left."""
    values = []
    for kind in kinds:
        digits, blank, text = text.partition(b" ")
        if not blank:
            raise Fault("not a record")
        values.append(kind(digits))
    return (*values, text)


class Ranges:
    """Ranges of addresses, of which each is kept that has none in common with a kept one before it."""

    def __init__(self):
        self.kept = []

    def keep(self, low, size, value):
        is_sound = size and low + size <= 1 << 64
        if not is_sound or any(low < high and start < low + size for start, high, _ in self.kept):
            return False
        self.kept.append((low, low + size, value))
        return True

    def at(self, address):
        return next((value for low, high, value in self.kept if low <= address < high), None)


class Breakpad:
    """A whole file: its names by number, and its functions."""

    def __init__(self, data):
        self.names, self.functions, self.borders, self.lines = {}, Ranges(), set(), None
        for count, line in enumerate(re.split(rb"\r\n|\r|\n", data), 1):
            try:
                if count == 1 and not line.startswith(b"MODULE "):
                    raise Fault("not a symbol file")
                self.take(line)
            except Fault as fault:
                raise Fault("line %d: %s" % (count, fault)) from None

    def take(self, line):
        if b"\0" in line:
            raise Fault("zero byte")
        if line.startswith(b"FILE "):
            file, name = fields(line[5:], decimal)
            if not name:
                raise Fault("not a record")
            self.names.setdefault(file, name)
        elif line.startswith(b"FUNC "):
            low, size, _, name = fields(line[5:].removeprefix(b"m "), hexadecimal, hexadecimal, hexadecimal)
            if not name:
                raise Fault("not a record")
            self.lines = Ranges()
            self.functions.keep(low, size, self.lines)
            self.borders |= {low, low + size}
        elif line.startswith(b"PUBLIC "):
            self.lines = None
        elif line and not line.startswith(NOTHING):
            low, size, place, file = fields(line, hexadecimal, hexadecimal, decimal)
            file = decimal(file)
            if self.lines is None:
                raise Fault("no function")
            self.lines.keep(low, size, (file, place))
            self.borders |= {low, low + size}

    def answer(self, address):
        lines = self.functions.at(address)
        found = lines and lines.at(address)
        return found and (self.names.get(found[0], b""), found[1])


def wanted(data):
    """What is printed of a file, and the status."""
    try:
        file = Breakpad(data)
    except Fault as fault:
        return b"no 45 symbols %s\n" % str(fault).encode(), 1
    return table_of(file.borders, file.answer), 0


# ---- files


def spelled(picked, value, form):
    text = form % value
    return text.upper() if picked.randrange(9) == 0 else text.rjust(picked.choice((0, 0, 0, 16)), b"0")


def picked_line(picked, low):
    """A line record, which mostly lies behind the address `low`, and where it ends."""
    start = max(0, low + picked.choice((0, 0, 0, 0, 1, -3, 40, -40)))
    size = picked.choice((0, 1, 4, 4, 8, 30))
    file, line = picked.choice((0, 1, 1, 2, 7)), picked.choice((0, 1, 7, 300, (1 << 31) - 1))
    return b"%s %x %d %s" % (spelled(picked, start, b"%x"), size, line, spelled(picked, file, b"%d")), start + size


def picked_file(picked):
    """A sound file."""
    lines, low = [b"MODULE Linux x86_64 0 app"], picked.choice((0, 0x1000, 0x1000, (1 << 64) - 300))
    for _ in range(picked.randrange(5)):
        kind = picked.randrange(8)
        if kind < 2:
            lines.append(b"FILE %d %s" % (picked.randrange(3), picked.choice((b"/a b.c", b"c,d.h", b' "x"'))))
        elif kind == 2:
            lines.append(picked.choice((b"", b"INFO a", b"STACK CFI 10 .ra: x", b"PUBLIC 10 0 p", b"INLINE_ORIGIN 0 f", b"MODULE again")))
        else:
            size = picked.choice((0, 4, 16, 16, 60, 400))
            lines.append(b"FUNC %s%x %x 0 f g" % (picked.choice((b"", b"m ")), low, size))
            place = low
            for _ in range(picked.randrange(6)):
                line, place = picked_line(picked, place)
                lines.append(line)
            low = max(0, low + picked.choice((size, size, size + 8, -8, 0)))
    end = picked.choice((b"\n", b"\n", b"\r\n", b"\r"))
    if picked.randrange(20) == 0:
        lines.insert(1, b"INFO " + b"x" * (picked.choice((BLOCK, BLOCK, 2 * BLOCK)) - picked.randrange(len(end.join(lines)) + 20)))
    return end.join(lines) + end * picked.randrange(2)


if __name__ == "__main__":
    tried(picked_file, wanted)
