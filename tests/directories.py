"""directories.py COUNT: makes up COUNT files with units of .debug_info in each version, format and byte order, sound and broken, and asks
for the directories of their line units; then changes bytes of them, after which each answer ends within seconds and 64 MB.
directories.py FILE: prints the directories of a program's line units, and what is told of them on standard error."""

import csv
import io
import os
import random
import resource
import signal
import sys

TOP = os.path.dirname(os.path.dirname(os.path.abspath(__file__)))
sys.path.insert(0, os.path.join(TOP, "share"))
from scripts.bounded import Part, Refusal, opened  # noqa: E402
from scripts.object.directories import Directories, section_of  # noqa: E402
from scripts.object.image import LINE, Image, image_of  # noqa: E402

TEXTS = (b"/w", b"/w/src, and more", b'/w/"quoted"', b"/w/line\nfeed", b"rel/ative", b"/\xff\xfe", b"C:\\w", b"/w/" + b"long/" * 300)
STRING, STRP, LINE_STRP, STRX, GNU_INDEX = 0x08, 0x0E, 0x1F, 0x1A, 0x1F02
STRX_SIZES = {0x25: 1, 0x26: 2, 0x27: 3, 0x28: 4}


def leb(value):
    out = b""
    while value >= 0x80:
        out, value = out + bytes([value & 0x7F | 0x80]), value >> 7
    return out + bytes([value])


class File:
    """Sections that grow as units are added."""

    def __init__(self, chance):
        self.chance, self.order = chance, chance.choice(("little", "big"))
        self.info, self.abbrev, self.str, self.line_str, self.offsets, self.line = b"", b"", b"\0", b"x\0", b"", b""
        self.wanted, self.broken = [], 0

    def number(self, value, size):
        return (value % (1 << 8 * size)).to_bytes(size, self.order)

    def line_unit(self):
        """A unit of .debug_line of some version, and its offset."""
        at, version = len(self.line), self.chance.choice((2, 3, 4, 4, 5))
        content = self.number(version, 2) + bytes(self.chance.randrange(30))
        if self.chance.random() < 0.2:
            self.line += self.number(0xFFFFFFFF, 4) + self.number(len(content), 8) + content
        else:
            self.line += self.number(len(content), 4) + content
        return at, version

    def directory(self, version, width, text):
        """The form and the bytes of a directory, and the base of offsets that it needs, if any."""
        forms = [STRING, STRP] + ([LINE_STRP, STRX, *STRX_SIZES] if version == 5 else [GNU_INDEX])
        form = self.chance.choice(forms)
        if form == STRING:
            return form, text + b"\0", None
        if form == LINE_STRP:
            at, self.line_str = len(self.line_str), self.line_str + text + b"\0"
            return form, self.number(at, width), None
        at, self.str = len(self.str), self.str + text + b"\0"
        if form == STRP:
            return form, self.number(at, width), None
        # A table of offsets of its own, in which it is the last of some.
        index = self.chance.randrange(5)
        self.offsets += bytes(-len(self.offsets) % width)
        base = len(self.offsets)
        self.offsets += self.number(0, width) * index + self.number(at, width)
        if form in STRX_SIZES:
            return form, self.number(index, STRX_SIZES[form]), base
        if form == GNU_INDEX:
            return form, leb(index + base // width), None
        return form, leb(index), base

    def other(self, width, version, address):
        """Another attribute, of any form."""
        random_bytes = self.chance.randbytes
        kinds = [(0x05, random_bytes(2)), (0x06, random_bytes(4)), (0x07, random_bytes(8)), (0x0B, random_bytes(1)), (0x0C, b"\1"),
                 (0x19, b""), (0x17, random_bytes(width)), (0x0F, leb(self.chance.randrange(1 << 60))), (0x0D, b"\x80\x7f"),
                 (0x08, b"text\0"), (0x0E, random_bytes(width)), (0x0A, b"\3abc"), (0x03, self.number(2, 2) + b"ab"),
                 (0x04, self.number(1, 4) + b"a"), (0x09, b"\2ab"), (0x18, b"\0"), (0x01, random_bytes(address)),
                 (0x13, random_bytes(4)), (0x20, random_bytes(8)), (0x1F20, random_bytes(width)), (0x16, b"\x0b\1"),
                 (0x10, random_bytes(address if version == 2 else width))]
        if version == 5:
            kinds += [(0x1E, random_bytes(16)), (0x1C, random_bytes(4)), (0x29, b"\1"), (0x1B, b"\1"), (0x22, b"\1"), (0x23, b"\1"),
                      (0x21, b"")]
        return self.chance.choice(kinds)

    def unit(self):
        chance = self.chance
        version, width, address = chance.choice((2, 3, 4, 5)), chance.choice((4, 4, 8)), chance.choice((2, 4, 8))
        at, line_version = self.line_unit()
        text = chance.choice(TEXTS)
        form, content, base = self.directory(version, width, text)
        fault = chance.choice((None,) * 6 + ("form", "abbreviation", "place", "version"))
        if fault == "place" and form in (STRP, LINE_STRP):
            content = self.number(1 << 31, width)
        elif fault == "place":
            fault = None
        listed = [(0x1B, form, content), (0x10, 0x17 if version > 3 else 0x06 if width == 4 else 0x07, self.number(at, width))]
        if base is not None:
            listed.append((0x72, 0x17, self.number(base, width)))
        listed += [(0x2000, *self.other(width, version, address)) for _ in range(chance.randrange(6))]
        if fault == "form":
            listed.append((0x2001, 0x7777, b""))
        has_directory = chance.random() < 0.9
        if not has_directory:
            listed.pop(0)
            fault = None if fault == "place" else fault
        chance.shuffle(listed)
        code, table = chance.choice((1, 1, 2, 300)), len(self.abbrev)
        if code != 1:
            self.abbrev += b"\1\x11\1\x03\x08\x21\x21\x05\0\0"
        self.abbrev += leb(code + (fault == "abbreviation")) + b"\x11\0"
        for name, one, _ in listed:
            self.abbrev += leb(name) + leb(one) + (leb(77) if one == 0x21 else b"")
        self.abbrev += b"\0\0\0"
        entry = leb(code) + b"".join(content for _, _, content in listed)
        self.add_unit(version if fault != "version" else chance.choice((1, 6)), width, address, table, entry)
        names = [name for name, _, _ in listed]
        # Of a unit of line numbers that is of version 5 no directory is wanted, as soon as it is known.
        is_known = fault == "place" or fault == "form" and names.index(0x10) < names.index(0x2001)
        if fault:
            self.broken += line_version < 5 or not is_known
        elif has_directory and line_version < 5:
            self.wanted.append((str(at), text.decode("latin-1")))

    def add_unit(self, version, width, address, table, entry):
        if version == 5:
            kind = self.chance.choice((1, 3, 4))
            head = bytes([kind, address]) + self.number(table, width) + (bytes(8) if kind == 4 else b"")
        else:
            head = self.number(table, width) + bytes([address])
        content = self.number(version, 2) + head + entry + self.chance.randbytes(self.chance.randrange(20))
        length = self.number(len(content), 4) if width == 4 else self.number(0xFFFFFFFF, 4) + self.number(len(content), 8)
        self.info += length + content

    def image(self, change=lambda content: content):
        image = Image("ELF", self.order == "big")
        sections = {".debug_info": self.info, ".debug_abbrev": self.abbrev, ".debug_str": self.str, ".debug_line_str": self.line_str,
                    ".debug_str_offsets": self.offsets, LINE: self.line}
        for name, content in sections.items():
            content = change(content)
            image.add(name, Part(content, 0, len(content)), 0, len(content))
        return image


def answered(image):
    directories = Directories(image, section_of(image, LINE))
    answer = b"".join(directories.records())
    return answer, directories


def tried(seed):
    chance = random.Random(seed)
    file = File(chance)
    for _ in range(chance.randrange(30)):
        file.unit()
    answer, directories = answered(file.image())
    rows = list(csv.reader(io.StringIO(answer.decode("latin-1"), newline="")))
    if rows != [["unit", "directory"], *map(list, file.wanted)]:
        sys.exit("seed %d: %r, and not %r; %s" % (seed, rows, file.wanted, directories.notes()))
    if directories.broken != file.broken or len(directories.notes()) != (file.broken > 0):
        sys.exit("seed %d: %d are broken, and %d are told" % (seed, file.broken, directories.broken))
    return file


def changed(chance):
    def change(content):
        data = bytearray(content)
        for _ in range(chance.randrange(4)):
            if not data:
                break
            at, size = chance.randrange(len(data)), chance.choice((1, 2, 4, 8))
            kind = chance.randrange(4)
            if kind == 0:
                data[at : at + size] = chance.choice((b"\0", b"\xff", b"\x80")) * size
            elif kind == 1:
                data[at : at + size] = chance.randbytes(size)
            elif kind == 2:
                del data[at : chance.choice((at + size, len(data)))]
            else:
                data[at:at] = data[: chance.randrange(40)]
        return bytes(data)

    return change


def late(*_):
    raise TimeoutError


def hostile():
    """Files whose few bytes lead to many others."""
    file = File(random.Random(0))
    file.order = "little"
    long = b"\1\x11\0" + b"\x80\x40\x19" * 100000 + b"\0\0\0"
    many = b"".join(leb(code) + b"\x11\0\0\0" for code in range(2, 200000)) + b"\0"
    for abbrev, codes in ((long, (1,)), (many, range(1, 4000)), (b"\xff" * 900000, (1,)), (b"\1\x11\0\x1b\x08\x10\x17\0\0\0", (1,))):
        file.abbrev, file.info, file.line = abbrev, b"", b""
        for code in codes if len(codes) > 1 else (1,) * 4000:
            file.line_unit()
            file.add_unit(4, 4, 8, 0, leb(code) + b"/w" * 100 + b"\0" + file.number(len(file.line), 4))
        answered(file.image())


def main():
    if not sys.argv[1].isdigit():
        image = image_of(opened(sys.argv[1]), sys.argv[1])
        answer, directories = answered(image)
        sys.stdout.buffer.write(answer)
        for note in directories.notes():
            print(note, file=sys.stderr)
        return
    signal.signal(signal.SIGALRM, late)
    files = [tried(seed) for seed in range(int(sys.argv[1]))]
    with open("/proc/self/statm", "rb") as statm:
        limit = int(statm.read().split()[0]) * resource.getpagesize() + (64 << 20)
    resource.setrlimit(resource.RLIMIT_AS, (limit, limit))
    for seed, file in enumerate(files):
        chance = random.Random(-seed)
        for _ in range(5):
            signal.setitimer(signal.ITIMER_REAL, 5)
            try:
                answered(file.image(changed(chance)))
            except Refusal:
                pass
        signal.setitimer(signal.ITIMER_REAL, 0)
    signal.setitimer(signal.ITIMER_REAL, 120)
    hostile()
    signal.setitimer(signal.ITIMER_REAL, 0)
    print("%d files" % len(files))


main()
