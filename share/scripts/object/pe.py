"""PE files."""

import os

from scripts.bounded import Nothing, few
from scripts.object.image import Image

CODEVIEW = 2  # the kind of an entry of the debug directory
FUNCTION = 0x20  # the mark of a symbol's type


def pe_image(data, _path):
    (start,) = data.numbers("<I", 0x3C)
    if not data.has(b"PE\0\0", start):
        raise Nothing("it is a program for DOS, without a PE header")
    if data.has(b"HdrS", 0x202):
        raise Nothing("it is a compressed kernel: take its vmlinux, of a package with debug symbols")
    image = Image("PE", False)
    image.ranges = []  # of each section where it is loaded, counted from the base, and where its bytes are in the file, and how many
    count, _, symbols, symbol_count, extra = data.numbers("<HIIIH", start + 6)
    wide = data.has(b"\x0b\x02", start + 24)
    (base,) = data.numbers("<Q" if wide else "<I", start + (48 if wide else 52))
    image.base = lambda: base
    image.sizes = (8,) if wide else image.sizes
    image.is_stripped = symbols == 0
    texts = symbols + 18 * symbol_count
    starts = []  # of sections, in their order
    image.debug_guid = lambda: debug_guid(data, start + 24, wide, image)
    image.symbols = lambda: coff_symbols(data, symbols, symbol_count, starts)
    for k in range(count):
        at = start + 24 + extra + 40 * k
        name, size, address, raw_size, offset, *_, marks = data.numbers("<8sIIIIIIHHI", at)
        starts.append(base + address)
        image.ranges.append((address, offset, raw_size))
        name = name.split(b"\0")[0]
        # A longer name stands behind the symbols.
        name = data.name(texts + int(name[1:])) if name[:1] == b"/" and name[1:].isdigit() else os.fsdecode(name)
        # The bytes in the file are padded to whole blocks, and the size in memory is the section's own.
        image.add(name, data, offset, min(size, raw_size) if size else raw_size)
        if marks & 0x20000020:
            image.add_code(base + address, size)
    return image


def debug_guid(data, at, wide, image):
    """The GUID and the age of the program database that the debug directory names, or None if there is none. `at` is where the optional
    header begins."""
    (count,) = data.numbers("<I", at + (108 if wide else 92))
    if count <= 6:
        return None
    address, size = data.numbers("<II", at + (112 if wide else 96) + 8 * 6)
    offset = next((offset + address - low for low, offset, length in image.ranges if low <= address < low + length), None)
    if offset is None:
        return None
    for entry in few(range(offset, offset + size - 27, 28)):
        kind, length, _, place = data.numbers("<IIII", entry + 12)
        if kind == CODEVIEW and length >= 24 and data.has(b"RSDS", place):
            return data.take(place + 4, 16), data.numbers("<I", place + 20)[0]
    return None


def coff_symbols(data, at, count, starts):
    """The address and the name of each function of the table of symbols; their sizes aren't there."""
    texts = at + 18 * count
    k = 0
    while at and k < count:
        name, value, section, kind, _, more = data.numbers("<8sIhHBB", at + 18 * k)
        if kind & FUNCTION and 0 < section <= len(starts):
            far = int.from_bytes(name[4:], "little")
            text = data.name(texts + far, 1 << 12) if name[:4] == bytes(4) else os.fsdecode(name.split(b"\0")[0])
            yield starts[section - 1] + value, 0, text
        k += 1 + more
