"""older_program.py FORMAT OUT UNIT.. [WORD..]: writes a program of that format, as images.py has them, with these units of line numbers,
each of which a unit of .debug_info names.

A UNIT is VERSION,DIRECTORY and then what is odd in it: `wide`, in the 64-bit format; `alone`, no unit of .debug_info names it; `broken`,
the directory there can't be read; `alt` and `sup`, it stands at this offset in the texts of a supplementary file; `whole`, its files have
whole paths, /x/a.c and /y/src/b.c; `long`, there it has 200,000 bytes more; `size=N`, so many bytes of an address, there and here; `at=N`, where it begins. The Kth begins at
0xK000 with line 3 of src/a.c, and has line 4 of b.c 4 bytes on, and 2 bytes of that. In a DIRECTORY %2C is a comma. WORDs are those of
images.py; `cut` leaves half of .debug_info away, `twice` has it two times, `squeezed` has it compressed,
and `packed` has it compressed with 8 bytes too few."""

import os
import subprocess
import sys
import tempfile
from urllib.parse import unquote_to_bytes

from line_section import SET_ADDRESS, STANDARD_LENGTHS, Numbers
from line_writer import END, Shape, extended, leb

IMAGES = os.path.join(os.path.dirname(os.path.abspath(__file__)), "images.py")
OWN = {"cut", "twice", "squeezed", "packed"}
# A compilation unit: its line numbers at an offset, and its directory as a text, or as an offset into .debug_str of this file, or of a
# supplementary one, in dwz's form and in that of DWARF 5.
FORMS = {"text": b"\x08", "broken": b"\x0e", "alt": b"\xa1\x3e", "sup": b"\x1d"}
ABBREVIATIONS = b"".join(bytes([k]) + b"\x11\0\x10\x06\x1b" + form + b"\0\0" for k, form in enumerate(FORMS.values(), 1)) + b"\0"


def program(shape, address):
    """Two rows and an end."""
    # A copy of the first row would be at line 1 of file 1.
    rows = b"\3\2\1" + b"\2\4\4\2\3\1\1" + b"\2\2"
    return extended(SET_ADDRESS, shape.number(address, shape.address_size)) + rows + END


def tables(version, directory, is_whole):
    entries = b"a.c\0\1\0\0", b"/y/src/b.c\0\0\0\0" if is_whole else b"b.c\0\0\0\0"
    if version < 5:
        return (b"/x\0\0" if is_whole else b"src\0\0") + b"".join(entries) + b"\0"
    files = b"a.c\0\1", b"a.c\0\1", b"b.c\0\0"
    return b"\1\1\x08\2" + directory + b"\0src\0" + b"\2\1\x08\2\x0f\3" + b"".join(files)


def line_unit(shape, directory, address, is_whole):
    """A unit of line numbers."""
    if shape.version == 5:
        return shape.unit(tables(5, directory, is_whole), program(shape, address))
    header = bytes(shape.fields()) + tables(shape.version, directory, is_whole)
    counted = shape.number(shape.version, 2) + shape.number(len(header), shape.offset_size) + header + program(shape, address)
    return shape.frame(counted)


def info_unit(shape, directory, line, form, more):
    """A unit of .debug_info, of version 4 in the 32-bit format, that names the unit of line numbers at an offset."""
    value = directory + b"\0" if form == "text" else shape.number(1 << 20 if form == "broken" else int(directory), 4)
    entry = leb(1 + list(FORMS).index(form)) + shape.number(line, 4) + value
    content = shape.number(4, 2) + shape.number(0, 4) + bytes([shape.address_size]) + entry + bytes(more)
    return shape.number(len(content), 4) + content


def sections(words, order, address_size):
    line, info = b"", b""
    for place, word in enumerate(words, 1):
        version, directory, *odd = word.split(",")
        numbers_of = dict(it.split("=") for it in odd if "=" in it)
        size = int(numbers_of.get("size", address_size))
        directory = unquote_to_bytes(directory)
        base = 10 if version == "2" else 13
        numbers = Numbers(1, 1, 1, -5, 14, base, bytes(STANDARD_LENGTHS[:base - 1]))
        shape = Shape(int(version), order, 8 if "wide" in odd else 4, size, numbers)
        if "alone" not in odd:
            info += info_unit(shape, directory, len(line), next(filter(FORMS.get, odd), "text"), 200000 if "long" in odd else 0)
        line += line_unit(shape, directory, int(numbers_of.get("at", "0x%x000" % place), 0), "whole" in odd)
    return line, info


def main():
    form, out, *words = sys.argv[1:]
    units = [word for word in words if word[:1].isdigit()]
    given = [word for word in words if word not in units and word not in OWN]
    order = "big" if form.endswith("-big") else "little"
    line, info = sections(units, order, 8 if form in ("elf64", "elf64-big", "pe", "macho", "fat") else 4)
    if "cut" in words:
        info = info[: len(info) // 2]
    with tempfile.TemporaryDirectory() as folder:
        for name, content in ((".debug_line", line), (".debug_info", info), (".debug_abbrev", ABBREVIATIONS)):
            place = os.path.join(folder, name[1:])
            with open(place, "wb") as file:
                file.write(content)
            if content:
                given.append("%s=%s" % (name, place))
        named = next((word for word in given if word.startswith(".debug_info=")), "")
        given += [named] * ("twice" in words)
        if "packed" in words or "squeezed" in words:
            given[given.index(named)] = "z:" + named
        given += ["damaged"] * ("packed" in words)
        subprocess.run([sys.executable, IMAGES, form, out, *given], check=True)


main()
