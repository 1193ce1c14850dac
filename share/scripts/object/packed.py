"""Compressed sections."""

import struct
import zlib

from scripts.bounded import PIECE, Refusal

RATIO = 100  # bytes that a compressed one may stand for, beyond one piece
TORN = "section %s isn't what its compression header says: the file is damaged"


def exactly(name, packed, size, pieces):
    """What was packed, whose bytes have to be as many as its header says."""
    if size > PIECE + RATIO * packed.size:
        raise Refusal("section %s stands for %d bytes by its compression header, and has %d: if that is true, "
                      "objcopy --decompress-debug-sections unpacks it" % (name, size, packed.size))
    for piece in pieces:
        size -= len(piece)
        if size < 0:
            break
        yield piece
    if size != 0:
        raise Refusal(TORN % name)


def unpacked(name, packed, unpacker, faults):
    """What a decompressor of Python makes of these bytes."""
    try:
        for piece in packed.pieces():
            is_full = True
            while is_full and not unpacker.eof:
                whole = unpacker.decompress(piece, PIECE)
                piece = getattr(unpacker, "unconsumed_tail", b"")
                is_full = len(whole) == PIECE
                yield whole
    except faults:
        raise Refusal(TORN % name) from None
    if not unpacker.eof:
        raise Refusal(TORN % name)


def inflated(name, packed, size):
    """Unpacks zlib's format."""
    return exactly(name, packed, size, unpacked(name, packed, zlib.decompressobj(), zlib.error))


def from_gnu(name, part):
    """Unpacks a section whose name begins with .zdebug, where it is packed."""
    if not part.has(b"ZLIB"):
        return part.pieces()
    return inflated(name, part.part(12, part.size), int.from_bytes(part.take(4, 8), "big"))


def from_elf(order, wide, path, name, part):
    """Unpacks a section that has a compression header (ELF's SHF_COMPRESSED)."""
    layout = order + ("I4xQ8x" if wide else "II4x")
    kind, size = part.numbers(layout, 0)
    packed = part.part(struct.calcsize(layout), part.size)
    if kind == 1:
        return inflated(name, packed, size)
    if kind == 2:
        from scripts.object.zstd import from_zstd

        return exactly(name, packed, size, from_zstd(name, packed, path))
    raise Refusal("section %s is compressed in an unknown way, number %d" % (name, kind))
