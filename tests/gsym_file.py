#!/usr/bin/env python3
"""gsym_file.py ORDER FILE [FUNCTIONS]: writes a small GSYM file, by hand, in the byte order little or big.

It has the functions of SMALL: an address, a size, and a line table or none. With FUNCTIONS it has that many of 16 bytes, which all
share one line table, as no writer makes them."""

import struct
import sys

STRINGS = b"\0f\0/src\0a.c\0b.h\0"
FILES = [(0, 0), (STRINGS.index(b"/src"), STRINGS.index(b"a.c")), (0, STRINGS.index(b"b.h"))]
# Changes of the line from -1 to 2, so a special opcode is 4 + 4 * advance + (change + 1); the first line; then opcodes.
SMALL = [
    # Line 5 at 0x1000; 6 and then 7 at 0x1004; file 2 and line 9 at 0x1008.
    (0x1000, 0x10, bytes([0x7F, 2, 5, 4 + 1, 4 + 16 + 2, 4 + 2, 1, 2, 4 + 16 + 3, 0])),
    # Two that begin at 0x1010: the first has no line table, and the other line 20 from its start on.
    (0x1010, 4, None),
    (0x1010, 0x10, bytes([0x7F, 2, 20, 4 + 1, 0])),
    # Line 40, by an advance of the line and one of the address; it has no row before 0x1032.
    (0x1030, 8, bytes([0x7F, 2, 30, 3, 10, 2, 2, 0])),
    # No size: it goes up to the next one.
    (0x1040, 0, bytes([0x7F, 2, 50, 4 + 1, 0])),
    # File 0 is none, from 0x1054 on.
    (0x1050, 8, bytes([0x7F, 2, 60, 4 + 1, 1, 0, 4 + 16 + 1, 0])),
]


def info(mark, size, table):
    """What a function has: its size, its name, its line table and the end."""
    parts = b"" if table is None else struct.pack(mark + "II", 1, len(table)) + table
    return struct.pack(mark + "II", size, STRINGS.index(b"f")) + parts + bytes(8)


def whole(mark, functions, shared):
    base, count = 0x1000, len(functions)
    width = "Q" if shared else "B"
    before = 48 + count * struct.calcsize(width)
    before += -before % 4
    strings_at = before + 4 * count + 4 + 8 * len(FILES)
    out = struct.pack(mark + "IHBBQIII", 0x4753594D, 1, struct.calcsize(width), 0, base, count, strings_at, len(STRINGS)) + bytes(20)
    out += b"".join(struct.pack(mark + width, address - base) for address, _, _ in functions)
    out += bytes(before - len(out))
    bodies, offsets = b"", []
    first = strings_at + len(STRINGS)
    first += -first % 4
    for _, size, table in functions[:1] if shared else functions:
        bodies += bytes(-len(bodies) % 4)
        offsets.append(first + len(bodies))
        bodies += info(mark, size, table)
    offsets = offsets * count if shared else offsets
    out += struct.pack(mark + "%dI" % count, *offsets) + struct.pack(mark + "I", len(FILES))
    out += b"".join(struct.pack(mark + "II", *file) for file in FILES) + STRINGS
    return out + bytes(first - len(out)) + bodies


def main(order, name, *many):
    listed = SMALL
    if many:
        long_table = bytes([0x7F, 2, 1]) + bytes([4 + 4 + 1, 4 + 1]) * 8 * int(many[0]) + bytes(1)
        listed = [(0x1000 + 16 * k, 16, long_table) for k in range(int(many[0]))]
    with open(name, "wb") as file:
        file.write(whole("<" if order == "little" else ">", listed, bool(many)))


if __name__ == "__main__":
    main(*sys.argv[1:])
