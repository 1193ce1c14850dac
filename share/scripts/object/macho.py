"""Mach-O files."""

import os
import struct

from scripts.bounded import DAMAGED, Nothing, Refusal, few
from scripts.object.image import MACHO, Image

STAB, TYPE, SECTION = 0xE0, 0x0E, 0x0E  # marks of a symbol's kind, and that it is defined in a section


def macho_image(data, _path):
    order = "<" if data.take(0, 1) in (b"\xce", b"\xcf") else ">"
    wide = 0xCF in (data.take(0, 4)[0], data.take(0, 4)[3])
    image = Image("Mach-O", order == ">")
    image.sizes = (8,) if wide else image.sizes
    (kind,) = data.numbers(order + "I", 12)
    for command, part in few(macho_commands(data, order, wide)):
        if command == (0x19 if wide else 1):
            macho_sections(image, data, part, order, wide)
        elif command == 0x1B:
            image.identity = part.take(8, 16).hex()
        elif command == 2:
            image.symbols = symbols_of(image, data, part.numbers(order + "IIII", 8), order, wide)
    if kind == 1:
        image.loose = "it is a relocatable object: take the dSYM of the linked program, which dsymutil makes"
    return image


def macho_commands(data, order, wide):
    """The number and the bytes of each load command. No two overlap."""
    (count,) = data.numbers(order + "I", 16)
    at = 32 if wide else 28
    for _ in range(count):
        command, size = data.numbers(order + "II", at)
        if size < 8:
            raise Refusal(DAMAGED)
        yield command, data.part(at, size)
        at += size


def macho_sections(image, data, segment, order, wide):
    """Adds the sections of a segment, whose headers stand in its load command."""
    (count,) = segment.numbers(order + "I", 64 if wide else 48)
    if segment.has(b"__TEXT\0", 8):
        (base,) = segment.numbers(order + ("Q" if wide else "I"), 24)
        image.base = lambda: base
    layout = order + ("16s16sQQIIIII" if wide else "16s16sIIIIIII")
    for k in range(count):
        name, _, address, size, offset, _, _, _, marks = segment.numbers(layout, 72 + 80 * k if wide else 56 + 68 * k)
        name = os.fsdecode(name.split(b"\0")[0])
        if marks & 0x80000400:
            image.add_code(address, size)
        if name[:2] == "__" and "debug_" in name:
            # A name has at most 16 bytes there.
            name = ".debug_str_offsets" if name == "__debug_str_offs" else "." + name[2:]
        image.add(name, data, offset, size)


def symbols_of(image, data, places, order, wide):
    """A function that gives the address and the name of each symbol in code; their sizes aren't there."""
    first, count, texts, size = places
    layout = struct.Struct(order + ("IBBHQ" if wide else "IBBHI"))

    def symbols():
        names = data.part(texts, size)
        for at in range(first, first + count * layout.size, layout.size):
            text, kind, _, _, address = layout.unpack(data.take(at, layout.size))
            if kind & (STAB | TYPE) == SECTION and image.has_code_at(address):
                name = names.name(text, 1 << 12)
                yield address, 0, name[1:] if name.startswith("_") else name

    return symbols


def fat_image(data, path):
    """A file with a Mach-O file for each of several machines, of which there has to be one."""
    (count,) = data.numbers(">I", 4)
    if count > 30:
        raise Nothing("it is a class of Java, which has no DWARF")
    if count != 1:
        raise Nothing("it is for %d machines: take one of them out by lipo -thin MACHINE FILE -output ONE" % count)
    inner = data.part(*data.numbers(">QQ" if data.has(b"\xbf", 3) else ">II", 16))
    if not any(map(inner.has, MACHO)):
        raise Refusal(DAMAGED)
    return macho_image(inner, path)
