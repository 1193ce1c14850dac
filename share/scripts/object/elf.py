"""ELF files."""

import struct

from scripts.bounded import DAMAGED, Nothing, Part, Refusal, few
from scripts.object.image import OBJECT, Image

ARM, BPF = 40, 247  # machines
LOAD, NOTE = 1, 4  # kinds of segments
FUNCTIONS = (2, 10)  # types of symbols
TEXTS = {".symtab": ".strtab", ".dynsym": ".dynstr"}
MODULE = ("it is a kernel module, whose addresses aren't final before it is loaded: ld -Ttext=ADDRESS --unresolved-symbols=ignore-all "
          "-e 0 -o LINKED FILE makes a file that has them, with ADDRESS of /sys/module/NAME/sections/.text")


def elf_image(data, path):
    (wide, big) = (byte == 2 for byte in data.take(4, 2))
    order = ">" if big else "<"
    image = Image("ELF", big)
    image.sizes = (8,) if wide else image.sizes
    kind, machine = data.numbers(order + "HH", 16)
    (table,) = data.numbers(order + ("Q" if wide else "I"), 40 if wide else 32)
    if table == 0:
        raise Nothing("it has no section headers: they were stripped, and its debug information with them")

    def unpack(name, part):
        from scripts.object import packed

        return packed.from_elf(order, wide, path, name, part)

    for name, section_kind, flags, address, offset, length in few(elf_headers(data, order, wide, table)):
        if flags & 6 == 6:
            image.add_code(address, length)
        if section_kind != 8:  # it has bytes in this file
            image.add(name, data, offset, length, unpack if flags & 0x800 else None)
    if kind == 1:
        image.loose = loose_elf(image, machine)
    elif kind == 4:
        raise Nothing("it is a core file: take the program that it came from")
    image.order = order
    image.identity = build_id(image, order)
    image.note_segments = lambda: note_segments(data, order, wide)
    image.base = lambda: first_byte(data, order, wide)
    image.load_address = lambda: next((address for kind, _, address, _ in segments(data, order, wide) if kind == LOAD), 0)
    # For Arm the lowest bit of a function's address says that it is Thumb code.
    mask = ~1 if machine == ARM else ~0
    image.symbols = lambda: ((address & mask, size, name) for address, size, name in elf_symbols(image, data, order, wide))
    return image


def elf_headers(data, order, wide, table):
    """The name, kind, flags, address, offset and size of each section."""
    layout = order + ("IIQQQQIIQQ" if wide else "IIIIIIIIII")
    size, count, names = data.numbers(order + "HHH", 58 if wide else 46)
    first = data.numbers(layout, table)
    count, names = count or first[5], first[6] if names == 0xFFFF else names
    if size < struct.calcsize(layout):
        raise Refusal(DAMAGED)
    texts = data.numbers(layout, table + size * names)[4]
    for k in range(count):
        name, *numbers = data.numbers(layout, table + size * k)[:6]
        yield (data.name(texts + name), *numbers)


def loose_elf(image, machine):
    if image.is_split:
        return "it is split debug information: the line number section is in the linked program"
    if image.has(".modinfo"):
        return MODULE
    if machine == BPF:
        return "it is a BPF object, which is linked when it is loaded: bpftool prog dump xlated id ID linum prints its lines then"
    return OBJECT


def build_id(image, order):
    """The build id as digits. No known one has more than 64 bytes."""
    if not image.has(".note.gnu.build-id"):
        return None
    note = image.head(".note.gnu.build-id")
    name_size, size, kind = Part(note, 0, len(note)).numbers(order + "III", 0)
    start = 12 + (name_size + 3) // 4 * 4
    return note[start : start + size].hex() if kind == 3 and size <= 64 else None


def segments(data, order, wide):
    """The kind, offset, address and size in the file of each segment."""
    (at,) = data.numbers(order + ("Q" if wide else "I"), 32 if wide else 28)
    size, count = data.numbers(order + "HH", 54 if wide else 42)
    for k in few(range(count)):
        if wide:
            kind, _, offset, address, _, length = data.numbers(order + "IIQQQQ", at + size * k)
        else:
            kind, offset, address, _, length = data.numbers(order + "IIIII", at + size * k)
        yield kind, offset, address, length


def first_byte(data, order, wide):
    """The address of the file's first byte, by the first segment that is loaded."""
    return next((address - offset for kind, offset, address, _ in segments(data, order, wide) if kind == LOAD), 0)


def note_segments(data, order, wide):
    """The bytes of each segment of notes."""
    return (data.part(offset, length) for kind, offset, _, length in segments(data, order, wide) if kind == NOTE)


def elf_symbols(image, data, order, wide):
    """The address, size and name of each function of the symbol table, or of that for the dynamic linker."""
    name = next(filter(image.has, (".symtab", ".dynsym")), None)
    if name is None or not image.has(TEXTS[name]):
        return
    parts = [data.part(*image.sections[section][1:3]) for section in (name, TEXTS[name])]
    layout = struct.Struct(order + ("IBBHQQ" if wide else "IIIBBH"))
    for at in range(0, parts[0].size - layout.size + 1, layout.size):
        if wide:
            text, marks, _, section, address, size = layout.unpack(parts[0].take(at, layout.size))
        else:
            text, address, size, marks, _, section = layout.unpack(parts[0].take(at, layout.size))
        if marks & 15 in FUNCTIONS and section:
            yield address, size, parts[1].name(text, 1 << 12)
