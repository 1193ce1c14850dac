"""gsym_cases.py PROGRAM COUNT SEED: makes so many GSYM files, odd ones and broken ones, and compares what `PROGRAM symbols` prints of each
with a slow reader, which was written from the documents and asks the rule of each address at each border. The last line is
'N passed, M failed'."""

import bisect
import struct

from line_writer import leb, sleb
from symbol_cases import TOP, table_of, tried


# ---- the reader


class Fault(Exception):
    """The first thing that is wrong in a file: its place, and the reason."""


class Cursor:
    """Bytes that are read from a place up to an end."""

    def __init__(self, data, order, place, end):
        self.data, self.order, self.place, self.end = data, order, place, end

    def take(self, size):
        if size > self.end - self.place:
            raise Fault(self.place, "cut")
        self.place += size
        return self.data[self.place - size:self.place]

    def number(self, size):
        return int.from_bytes(self.take(size), self.order)

    def leb(self, least, most, signed=False):
        """A LEB128 number from `least` to `most`."""
        first = end = self.place
        while end < self.end and self.data[end] >= 128:
            end += 1
        if end >= self.end:
            raise Fault(first, "cut")
        spelled = self.data[first:end + 1]
        self.place = end + 1
        value = sum((byte & 127) << 7 * k for k, byte in enumerate(spelled))
        if signed and spelled[-1] & 64:
            value -= 1 << 7 * len(spelled)
        if not least <= value <= most:
            raise Fault(first, "number too large")
        return value

    def unsigned(self, most=TOP):
        return self.leb(0, most)

    def signed(self):
        return self.leb(-1 << 63, (1 << 63) - 1, True)


def rows_of(cursor, start, files):
    """The rows of a line table: the address, the file and the line of each."""
    least, at = cursor.signed(), cursor.place
    greatest = cursor.signed()
    if greatest < least:
        raise Fault(at, "line range")
    line, address, file, rows = cursor.unsigned(), start, 1, []
    while True:
        at, opcode = cursor.place, cursor.number(1)
        if opcode == 0:
            return rows
        if opcode == 1:
            file = cursor.unsigned((1 << 32) - 1)
            continue
        if opcode == 3:
            line += cursor.signed()
            continue
        if opcode == 2:
            address += cursor.unsigned()
        else:
            advance, change = divmod(opcode - 4, greatest - least + 1)
            address, line = address + advance, line + least + change
        if address > TOP:
            raise Fault(at, "number too large")
        if file and file >= files:
            raise Fault(at, "no file %d" % file)
        rows.append((address, file, line % (1 << 32)))


class Function:
    """A function: its start, its size, whether it has a name, and the rows of its line tables."""

    def __init__(self, cursor, start, files):
        self.start, self.size, self.has_name, self.tables = start, cursor.number(4), cursor.number(4) != 0, []
        while True:
            kind, size = cursor.number(4), cursor.number(4)
            at = cursor.place
            cursor.take(size)
            if kind == 0:
                return
            if kind == 1:
                self.tables.append(rows_of(Cursor(cursor.data, cursor.order, at, at + size), start, files))

    def holds(self, address):
        return self.size == 0 or address < self.start + self.size <= TOP

    def row_at(self, address):
        """The last row before the first that lies above an address, of the last table, if each has one, of a file."""
        found = None
        for rows in self.tables:
            above = next((k for k, row in enumerate(rows) if row[0] > address), len(rows))
            if above == 0 or rows[above - 1][1] == 0:
                return None
            found = rows[above - 1]
        return found


class Gsym:
    """A whole file."""

    def __init__(self, data, order):
        if len(data) < 48:
            raise Fault(0, "cut")
        head = Cursor(data, order, 4, 48)
        for size, is_so, reason in ((2, lambda n: n == 1, "version"), (1, lambda n: n in (1, 2, 4, 8), "address size"),
                                    (1, lambda n: n <= 20, "uuid size")):
            at, width = head.place, head.number(size)
            if not is_so(width):
                raise Fault(at, reason)
        width, base, count, strings, size = data[6], head_number(data, order, 8, 8), *(head_number(data, order, k, 4) for k in (16, 20, 24))
        if strings + size > len(data):
            raise Fault(20, "cut")
        self.strings = data[strings:strings + size]
        cursor = Cursor(data, order, 48, len(data))
        cursor.take(width * count)
        offsets = [head_number(data, order, 48 + width * k, width) for k in range(count)]
        for k in range(1, count):
            if offsets[k] < offsets[k - 1]:
                raise Fault(48 + width * k, "not in order")
        cursor.place = -(-cursor.place // 4) * 4
        at = cursor.place
        cursor.take(4 * count)
        infos = [head_number(data, order, at + 4 * k, 4) for k in range(count)]
        files = cursor.number(4)
        at = cursor.place
        cursor.take(8 * files)
        self.files = [(head_number(data, order, at + 8 * k, 4), head_number(data, order, at + 8 * k + 4, 4)) for k in range(files)]
        self.functions = [Function(Cursor(data, order, info, max(info, len(data))), base + offset, files)
                          for offset, info in zip(offsets, infos)]

    def text(self, offset):
        return self.strings[offset:].split(b"\0", 1)[0]

    def path(self, file):
        folder, name = map(self.text, self.files[file])
        if not folder:
            return name
        return folder + (b"\\" if b"\\" in folder and b"/" not in folder else b"/") + name

    def answer(self, address):
        starts = [function.start for function in self.functions]
        at = bisect.bisect_right(starts, address)
        nearest = [function for function in self.functions if at and function.start == starts[at - 1]]
        function = next((function for function in nearest if function.holds(address)), None)
        row = function.row_at(address) if function and function.has_name else None
        path = self.path(row[1]) if row else b""
        return (path, row[2]) if path else None

    def table(self):
        """The table of its answers."""
        borders = set()
        for function in self.functions:
            borders |= {function.start, function.start + function.size}
            borders.update(row[0] for rows in function.tables for row in rows)
        return table_of(borders, self.answer)


def head_number(data, order, place, size):
    return int.from_bytes(data[place:place + size], order)


def wanted(data):
    """What is printed of a file, and the status."""
    order = {b"MYSG": "little", b"GSYM": "big"}.get(data[:4])
    if order is None:
        return b"no 45 symbols line 1: not a symbol file\n", 1
    try:
        return Gsym(data, order).table(), 0
    except Fault as fault:
        return b"no 45 symbols at 0x%x: %s\n" % (fault.args[0], fault.args[1].encode()), 1


# ---- files


STRINGS = [b"", b"f", b"/src", b"a.c", b"b.h", b"C:\\w", b"sub/", b"w\\", b"a, \"b\".c"]


def picked_table(picked):
    """A line table, whose rows mostly lie near the start of the function."""
    least, width = picked.choice((-1, 0, -4, 3)), picked.randrange(1, 7)
    out = sleb(least) + sleb(least + width - 1) + leb(picked.choice((1, 9, 300, 1 << 31)))
    for _ in range(picked.randrange(7)):
        change = picked.randrange(6)
        if change == 0:
            out += b"\1" + leb(picked.choice((0, 1, 1, 2, 3)))
        elif change == 1:
            out += b"\2" + leb(picked.choice((0, 1, 3, 16)))
        elif change == 2:
            out += b"\3" + sleb(picked.randrange(-3, 90))
        else:
            out += bytes([4 + picked.choice((0, 0, 1, 2, 4)) * width + picked.randrange(width)])
    return out + b"\0"


def picked_info(picked, mark, offsets):
    parts = b""
    for _ in range(picked.choice((0, 1, 1, 1, 1, 2))):
        kind = picked.choice((1, 1, 1, 1, 2, 3))
        content = picked_table(picked) if kind == 1 else picked.randbytes(picked.randrange(9))
        parts += struct.pack(mark + "II", kind, len(content)) + content
    name = offsets[1] if picked.randrange(8) else 0
    return struct.pack(mark + "II", picked.choice((0, 4, 16, 16, 16, 40)), name) + parts + bytes(8)


def picked_file(picked):
    """A sound file."""
    mark = picked.choice("<<>")
    strings, offsets = b"", []
    for text in STRINGS:
        offsets.append(len(strings))
        strings += text + b"\0"
    strings = strings[:-picked.randrange(2) or None]
    width, count = picked.choice("BHIQ"), picked.choice((0, 1, 2, 3, 5))
    starts = sorted(picked.choice((0, 8, 16, 16, 24, 40, 90, 200)) for _ in range(count))
    base = picked.choice((0, 0x1000, 0x1000, 1 << 40, TOP - 120))
    files = [(0, 0)] + [(picked.choice(offsets + [len(strings) + 9] * (picked.randrange(9) == 0)), picked.choice(offsets)) for _ in range(3)]
    infos = [picked_info(picked, mark, offsets) for _ in range(count)]
    before = 48 + count * struct.calcsize("=" + width)
    aligned = -(-before // 4) * 4
    at = aligned + 4 * count + 4 + 8 * len(files)
    places = []
    for info in infos:
        places.append(at + len(strings) + sum(map(len, infos[:len(places)])))
    if count > 1 and picked.randrange(6) == 0:
        places[-1] = places[0]
    out = struct.pack(mark + "IHBBQIII", 0x4753594D, 1, struct.calcsize("=" + width), picked.choice((0, 8, 20)), base, count, at, len(strings))
    out += bytes(20) + b"".join(struct.pack(mark + width, start) for start in starts) + bytes(aligned - before)
    out += b"".join(struct.pack(mark + "I", place) for place in places) + struct.pack(mark + "I", len(files))
    return out + b"".join(struct.pack(mark + "II", *file) for file in files) + strings + b"".join(infos)


if __name__ == "__main__":
    tried(picked_file, wanted)
