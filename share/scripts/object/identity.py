"""The identifiers of builds: of programs, as makers of symbol files write them, and of symbol files."""

import struct

from scripts.bounded import Refusal, few

NOTE, BUILD_ID = 4, 3  # the kind of a program header, and the type of a note


def guid(content):
    """16 bytes as Breakpad writes them: a GUID, whose first three numbers are turned round."""
    first, second, third = struct.unpack("<IHH", content[:8])
    return "%08X%04X%04X%s" % (first, second, third, content[8:16].hex().upper())


def notes_in(part, order):
    """The owner, the type and the bytes of each note, as far as they are whole."""
    at = 0
    try:
        while at + 12 <= part.size:
            name_size, size, kind = part.numbers(order + "III", at)
            start = at + 12 + -(-name_size // 4) * 4
            yield part.take(at + 12, name_size).rstrip(b"\0"), kind, part.take(start, size)
            at = start + -(-size // 4) * 4
    except Refusal:
        return


def elf_notes(image):
    """The notes of an ELF file: those of its segments, then those of .note.gnu.build-id."""
    for part in few(image.note_segments()):
        yield from notes_in(part, image.order)
    if image.has(".note.gnu.build-id"):
        data, offset, size, _ = image.sections[".note.gnu.build-id"]
        yield from notes_in(data.part(offset, size), image.order)


def text_sum(image):
    """The exclusive or of the 16-byte pieces of the first page of .text, rounded up with the bytes of the file behind it. None if the
    file has no such bytes."""
    if not image.has(".text"):
        return None
    data, offset, size, _ = image.sections[".text"]
    part = data.part(offset, -(-min(size, 4096) // 16) * 16)
    if size == 0 or part.size % 16:
        return None
    value = 0
    for at in range(0, part.size, 16):
        value ^= int.from_bytes(part.take(at, 16), "big")
    return value.to_bytes(16, "big")


def breakpad_identifier(image):
    """The identifier that Breakpad's dump_syms gives a program, or None if it gives none."""
    if image.kind == "ELF":
        found = next((content for _, kind, content in elf_notes(image) if kind == BUILD_ID and content), None) or text_sum(image)
        return guid(found[:16].ljust(16, b"\0")) + "0" if found else None
    if image.kind == "Mach-O":
        return image.identity.upper() + "0" if image.identity else None
    if image.kind == "PE" and image.debug_guid():
        content, age = image.debug_guid()
        return guid(content) + "%X" % age
    return None


def gsym_identifier(image):
    """The identifier that llvm-gsymutil gives a program in hexadecimal digits, or None if it gives none."""
    if image.kind == "ELF":
        return next((content.hex() for owner, kind, content in elf_notes(image) if kind == BUILD_ID and owner == b"GNU"), None)
    return image.identity if image.kind == "Mach-O" else None


def identifier_of(image, kind):
    """The identifier of a program as a symbol file of this kind has it. Without a kind it is that of GSYM, but of a PE file, for which GSYM
    files have none, that of Breakpad."""
    return breakpad_identifier(image) if kind == "breakpad" or kind is None and image.kind == "PE" else gsym_identifier(image)
