"""images.py FORMAT OUT [WORD..]: writes a program of that format, of nothing but headers and the sections that WORDs name.

FORMAT is elf64, elf64-big, elf32, elf32-big, pe, pe32, macho, macho32-big, fat (a Mach-O file in one for several machines) or
wasm. A WORD is NAME=FILE, a section with the bytes of a file; z:NAME=FILE, compressed with a header of ELF's own; zstd:NAME=FILE,
with such a header before the bytes of a file that zstd made; gnu:NAME=FILE, compressed as .zdebug; claims=SIZE, what the headers of
compressed sections say that they hold; code=ADDRESS,SIZE, code without bytes; link=NAME,FILE, a debug link with the sum of the file;
id=DIGITS, a build id; alt=NAME,DIGITS, a section as dwz makes it, with the name and the build id of a supplementary file; sup=NAME,DIGITS,
the same as DWARF 5 has it, or without a name that of the supplementary file; load=ADDRESS, a segment of ELF that is loaded there; symbol=NAME,ADDRESS,SIZE, a function of ELF's table of
symbols; object, core; dwo, module: sections that split debug information and kernel modules have; damaged: the
compressed sections end early."""

import os
import struct
import sys
import zlib


def read(name):
    with open(name, "rb") as file:
        return file.read()


def link(order, words):
    name, file = words.split(",")
    content = os.fsencode(name) + b"\0"
    content += b"\0" * (-len(content) % 4)
    return content + struct.pack(order + "I", zlib.crc32(read(file)))


def note(order, digits):
    content = bytes.fromhex(digits)
    return struct.pack(order + "III", 4, len(content), 3) + b"GNU\0" + content


def squeezed(content, damaged):
    packed = zlib.compress(content)
    return packed[:-8] if damaged else packed


def packed_part(order, wide, kind, size, packed):
    """A section with a compression header of ELF's own."""
    return struct.pack(order + ("IIQQ" if wide else "III"), *((kind, 0, size, 1) if wide else (kind, size, 1))) + packed


def symbols(words, order, wide):
    """The table of symbols and its names, where words name functions."""
    listed = [word[7:].split(",") for word in words if word.startswith("symbol=")]
    if not listed:
        return
    names, table = b"\0", bytes(24 if wide else 16)
    for name, address, size in listed:
        numbers = int(address, 0), int(size, 0)
        if wide:
            table += struct.pack(order + "IBBHQQ", len(names), 2, 0, 1, *numbers)
        else:
            table += struct.pack(order + "IIIBBH", len(names), *numbers, 2, 0, 1)
        names += os.fsencode(name) + b"\0"
    yield ".symtab", table, 2, 0, 0, None
    yield ".strtab", names, 3, 0, 0, None


def segments(words, order, wide):
    """The headers of segments that are loaded."""
    for word in words:
        if word.startswith("load="):
            address = int(word[5:], 0)
            if wide:
                yield struct.pack(order + "IIQQQQQQ", 1, 5, 0, address, address, 64, 64, 4096)
            else:
                yield struct.pack(order + "IIIIIIII", 1, 0, address, address, 52, 52, 5, 4096)


def parts_of(words, order, wide):
    """The sections: name, bytes, ELF's kind and flags, address, and the size where that isn't the number of bytes."""
    damaged = "damaged" in words
    claims = [int(word[7:]) for word in words if word.startswith("claims=")]
    for word in words:
        name, _, value = word.partition("=")
        if name in ("claims", "load", "symbol"):
            continue
        if name == "code":
            address, size = (int(each, 0) for each in value.split(","))
            yield ".text", b"", 8, 6, address, size
        elif name == "link":
            yield ".gnu_debuglink", link(order, value), 1, 0, 0, None
        elif name == "id":
            yield ".note.gnu.build-id", note(order, value), 7, 2, 0, None
        elif name == "alt":
            text, _, digits = value.partition(",")
            yield ".gnu_debugaltlink", os.fsencode(text) + b"\0" + bytes.fromhex(digits), 1, 0, 0, None
        elif name == "sup":
            text, _, digits = value.partition(",")
            head = struct.pack(order + "HB", 5, text == "") + os.fsencode(text) + b"\0"
            yield ".debug_sup", head + leb(len(digits) // 2) + bytes.fromhex(digits), 1, 0, 0, None
        elif name in ("dwo", "module"):
            yield {"dwo": ".debug_info.dwo", "module": ".modinfo"}[name], b"some", 1, 0, 0, None
        elif name.startswith("z:"):
            content = read(value)
            size = claims[0] if claims else len(content)
            yield name[2:], packed_part(order, wide, 1, size, squeezed(content, damaged)), 1, 0x800, 0, None
        elif name.startswith("zstd:"):
            yield name[5:], packed_part(order, wide, 2, claims[0], read(value)), 1, 0x800, 0, None
        elif name.startswith("gnu:"):
            content = read(value)
            packed = b"ZLIB" + struct.pack(">Q", claims[0] if claims else len(content)) + squeezed(content, damaged)
            yield name[4:].replace(".debug", ".zdebug"), packed, 1, 0, 0, None
        elif value:
            yield name, read(value), 1, 0, 0, None


def elf(words, wide, big):
    order = ">" if big else "<"
    parts = [*parts_of(words, order, wide), *symbols(words, order, wide)]
    loads = list(segments(words, order, wide))
    names = b"\0" + b"".join(os.fsencode(part[0]) + b"\0" for part in parts) + b".shstrtab\0"
    parts.append((".shstrtab", names, 3, 0, 0, None))
    start = 64 if wide else 52
    layout = order + ("IIQQQQIIQQ" if wide else "IIIIIIIIII")
    body, headers, at = b"", [b"\0" * struct.calcsize(layout)], 1
    for name, content, kind, flags, address, size in parts:
        size = len(content) if size is None else size
        headers.append(struct.pack(layout, at, kind, flags, address, start + len(body), size, 0, 0, 1, 0))
        at += len(name) + 1
        body += content
    kind = 1 if "object" in words or "dwo" in words or "module" in words else 4 if "core" in words else 3
    machine = {(True, False): 62, (True, True): 21, (False, False): 3, (False, True): 20}[wide, big]
    sections = start + len(body)
    first = sections + len(headers[0]) * len(headers) if loads else 0
    numbers = (kind, machine, 1, 0, first, sections, 0, start, 56 if wide else 32, len(loads), len(headers[0]), len(headers), len(headers) - 1)
    identity = b"\x7fELF" + bytes([2 if wide else 1, 2 if big else 1, 1]) + b"\0" * 9
    return identity + struct.pack(order + ("HHIQQQIHHHHHH" if wide else "HHIIIIIHHHHHH"), *numbers) + body + b"".join(headers + loads)


def pe(words, wide):
    """Sections in whole blocks of 512 bytes, their long names after an empty table of symbols."""
    parts = list(parts_of(words, "<", wide))
    optional = struct.pack("<H22xQ", 0x20B, 0x140000000) if wide else struct.pack("<H26xI", 0x10B, 0x400000)
    size = 64 + 24 + len(optional) + 40 * len(parts)
    at = (size + 511) // 512 * 512
    headers, body, names = b"", b"", b""
    for k, (name, content, kind, _, address, length) in enumerate(parts):
        text = os.fsencode(name)
        if len(text) > 8:
            names, text = names + text + b"\0", b"/%d" % (4 + len(names))
        padded = content + b"\0" * (-len(content) % 512)
        marks = 0x60000020 if kind == 8 else 0x42000040
        headers += struct.pack("<8sIIIIIIHHI", text, len(content) if length is None else length, address or 4096 * (k + 1), len(padded),
                               at + len(body), 0, 0, 0, 0, marks)
        body += padded
    start = struct.pack("<2s58xI", b"MZ", 64) + b"PE\0\0"
    start += struct.pack("<HHIIIHH", 0x8664 if wide else 0x14C, len(parts), 0, at + len(body), 0, len(optional), 0x22)
    whole = start + optional + headers
    return whole + b"\0" * (-len(whole) % 512) + body + struct.pack("<I", 4 + len(names)) + names


def macho(words, wide, big):
    """One segment with all sections, and a UUID."""
    order = ">" if big else "<"
    parts = list(parts_of([word for word in words if not word.startswith("id=")], order, wide))
    identity = [bytes.fromhex(word[3:]) for word in words if word.startswith("id=")] or [b"\0" * 16]
    each = 80 if wide else 68
    size = (72 if wide else 56) + each * len(parts)
    at = (32 if wide else 28) + size + 24
    sections, body = b"", b""
    for name, content, kind, _, address, length in parts:
        inner = "__text" if kind == 8 else "__" + name[1:]
        fields = (os.fsencode(inner), b"__TEXT" if kind == 8 else b"__DWARF", address, len(content) if length is None else length,
                  at + len(body), 0, 0, 0, 0x80000400 if kind == 8 else 0x2000000, 0, 0)
        sections += struct.pack(order + ("16s16sQQIIIIIII4x" if wide else "16s16sIIIIIIIII"), *fields)
        body += content
    numbers = (0, 0, at, len(body), 7, 3, len(parts), 0)
    segment = struct.pack(order + ("II16sQQQQIIII" if wide else "II16sIIIIIIII"), 0x19 if wide else 1, size, b"__DWARF", *numbers)
    kind = 1 if "object" in words else 0xA
    machine = 0x1000007 if wide else 18
    head = struct.pack(order + "IIIIIII", 0xFEEDFACF if wide else 0xFEEDFACE, machine, 3, kind, 2, size + 24, 0)
    head += b"\0\0\0\0" if wide else b""
    return head + segment + sections + struct.pack(order + "II", 0x1B, 24) + identity[0].ljust(16, b"\0") + body


def fat(words):
    """As many machines as the words say `machine`, one if none does; each has the same bytes."""
    count = max(1, words.count("machine"))
    inner = macho(words, True, False)
    start = 8 + 20 * count
    return struct.pack(">II", 0xCAFEBABE, count) + struct.pack(">IIIII", 0x1000007, 3, start, len(inner), 0) * count + inner


def leb(value):
    out = b""
    while value >= 0x80:
        out, value = out + bytes([value & 0x7F | 0x80]), value >> 7
    return out + bytes([value])


def wasm(words):
    out = b"\0asm\1\0\0\0"
    for name, content, *_ in parts_of(words, "<", False):
        inner = leb(len(os.fsencode(name))) + os.fsencode(name) + content
        out += b"\0" + leb(len(inner)) + inner
    return out + (b"\0\x08\x07linking" if "object" in words else b"")


FORMATS = {
    "elf64": lambda words: elf(words, True, False),
    "elf64-big": lambda words: elf(words, True, True),
    "elf32": lambda words: elf(words, False, False),
    "elf32-big": lambda words: elf(words, False, True),
    "pe": lambda words: pe(words, True),
    "pe32": lambda words: pe(words, False),
    "macho": lambda words: macho(words, True, False),
    "macho32-big": lambda words: macho(words, False, True),
    "fat": fat,
    "wasm": wasm,
}

if __name__ == "__main__":
    with open(sys.argv[2], "wb") as made:
        made.write(FORMATS[sys.argv[1]](sys.argv[3:]))
