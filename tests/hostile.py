"""hostile.py FOLDER: writes files whose headers lead far, overlap, or stand within one another, so that a reader that trusts them takes
the square of a file's bytes, or more. tests/images.py makes those that differ from a good file by a name or a number."""

import os
import struct
import sys


def elf(sections, texts):
    """An ELF file of 64 bits with these sections, each by the offset of its name, its bytes and its size, and these texts for names."""
    body, headers = b"", [bytes(64)]
    for name, content, size in sections + [(0, texts, len(texts))]:
        headers.append(struct.pack("<IIQQQQIIQQ", name, 1, 0, 0, 64 + len(body), size, 0, 0, 1, 0))
        body += content
    numbers = (3, 62, 1, 0, 0, 64 + len(body), 0, 64, 0, 0, 64, len(headers), len(headers) - 1)
    return b"\x7fELF\2\1\1" + bytes(9) + struct.pack("<HHIQQQIHHHHHH", *numbers) + body + b"".join(headers)


def fat(depth, inner):
    """A file for one machine in another one, and so on, in turns of the two formats."""
    for k in range(depth):
        if k % 2:
            inner = struct.pack(">IIIIIII", 0xCAFEBABE, 1, 7, 3, 28, len(inner), 0) + inner
        else:
            inner = struct.pack(">IIIIQQII", 0xCAFEBABF, 1, 7, 3, 40, len(inner), 0, 0) + inner
    return inner


def macho(count):
    """Load commands, each a segment whose sections reach to the end of the file."""
    size = 72 * count
    out = struct.pack("<IIIIIIII", 0xFEEDFACF, 0x1000007, 3, 0xA, count, size, 0, 0)
    for k in range(count):
        out += struct.pack("<II16sQQQQIIII", 0x19, 72, b"__DWARF", 0, 0, 0, 0, 7, 3, (size - 72 * (k + 1)) // 80, 0)
    return out


def wasm(count, rest):
    """Sections of a few bytes, each with a name that reaches to the end of the file."""
    out, whole = b"\0asm\1\0\0\0", 8 + 10 * count + rest
    for _ in range(count):
        length = whole - len(out) - 7
        out += b"\0\x08" + bytes((length >> shift & 127) | (128 if shift < 28 else 0) for shift in range(0, 35, 7)) + b"abc"
    return out + b"x" * rest


def files():
    return {
        "elf-names": elf([(1 + k, b"", 0) for k in range(500)], b"\0" + b"n" * 4000000 + b"\0"),
        "elf-units": elf([(1, bytes(4000000), 4000000)], b"\0.debug_line\0"),
        "fat-deep": fat(2000, b""),
        "fat-long": fat(100, bytes(8000000)),
        "macho-commands": macho(10000),
        "macho-many": struct.pack("<IIIIIIII", 0xFEEDFACF, 0x1000007, 3, 0xA, 300000, 0, 0, 0) + struct.pack("<II", 0x99, 8) * 300000,
        "wasm-names": wasm(500, 4000000),
        "wasm-number": b"\0asm\1\0\0\0\0" + b"\xff" * 300000 + b"\1",
        "wasm-many": b"\0asm\1\0\0\0" + b"\1\0" * 300000,
    }


def main():
    for name, made in files().items():
        with open(os.path.join(sys.argv[1], name), "wb") as file:
            file.write(made)


if __name__ == "__main__":
    main()
