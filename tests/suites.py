"""suites.py OUT PACKAGE..: takes each line number section out of source packages, as tests of other projects have them: of object files,
executables and archives, also those that gzip, bzip2 or xz packed by themselves.

For each section that no file before it has, OUT gets N.line, with its texts N.line_str and N.str, and N, an ELF file with nothing else in
it, for tools that read no raw sections. Standard output has a line for each: N, `little` or `big`, the size of addresses, the least and
the greatest version of its units, and the name of the file. The last lines begin with `-`: of files whose sections can't be taken, why."""

import bz2
import gzip
import hashlib
import lzma
import os
import re
import sys
import tarfile
import zlib
from collections import Counter

sys.path[:0] = [os.path.join(os.path.dirname(os.path.dirname(os.path.abspath(__file__))), "share")]

import images
from scripts.bounded import Failure, Part, Refusal
from scripts.object.image import JUDGED, LINE, READERS, image_of
from scripts.object.older import versions

MAGICS = tuple(magic for magic, _ in READERS)
ARCHIVE = b"!<arch>\n"
PACKED = ((b"\x1f\x8b", gzip.decompress), (b"BZh", bz2.decompress), (b"\xfd7zXZ\0", lzma.decompress))
LARGEST = 1 << 28  # bytes of a file that is looked into


def members(content):
    """The files in an archive, by the names that stand in their headers."""
    at = len(ARCHIVE)
    while at + 60 <= len(content):
        name, size = content[at : at + 16].rstrip(), content[at + 48 : at + 58]
        if not size.strip().isdigit():
            return
        at += 60
        yield os.fsdecode(name).rstrip("/") or "/", content[at : at + int(size)]
        at += int(size) + int(size) % 2


def unpacked(name, content):
    """The programs and objects that a file is or has in it."""
    if content.startswith(MAGICS):
        yield name, content
    elif content.startswith(ARCHIVE):
        for inner, member in members(content):
            yield from unpacked("%s(%s)" % (name, inner), member)
    else:
        for magic, unpack in PACKED:
            if content.startswith(magic):
                try:
                    inner = unpack(content)
                except (OSError, EOFError, ValueError, zlib.error, lzma.LZMAError):
                    return
                yield from unpacked(name, inner)


def files(package):
    """Each program and object in a source package."""
    with tarfile.open(package, "r|*") as tar:
        for member in tar:
            if member.isfile() and 16 < member.size < LARGEST:
                file = tar.extractfile(member)
                head = file.read(8)
                if head.startswith(MAGICS + (ARCHIVE, *(magic for magic, _ in PACKED))):
                    yield from unpacked(member.name, head + file.read())


def sections(content):
    """The bytes of the sections that are read of a program, and its image, or None if it has no line number section."""
    image = image_of(Part(content, 0, len(content)), "")
    if not image.has(LINE):
        return None
    for name in JUDGED:
        if name in image.doubled:
            raise Refusal("it has two sections %s" % name)
    return image, [b"".join(image.pieces(name)) if image.has(name) else b"" for name in JUDGED]


def put(out, image, taken):
    """Writes the files of a section."""
    words = []
    for name, kind, content in zip(JUDGED, ("line", "line_str", "str"), taken):
        with open("%s.%s" % (out, kind), "wb") as file:
            file.write(content)
        words.append("%s=%s.%s" % (name, out, kind))
    kind = ("elf64" if image.address_size == 8 else "elf32") + ("-big" if image.big else "")
    with open(out, "wb") as file:
        file.write(images.FORMATS[kind](words))


def main(out, packages):
    seen, reasons, count = set(), Counter(), 0
    for package in packages:
        for name, content in files(package):
            try:
                found = sections(content)
            except (Refusal, Failure) as fault:
                reasons[re.sub("[0-9]+", "N", str(fault))] += 1
                continue
            if found is None or not found[1][0]:
                continue
            image, taken = found
            key = hashlib.sha256(b"".join(b"%d:%s" % (len(part), part) for part in taken) + bytes([image.big])).digest()
            if key in seen:
                continue
            seen.add(key)
            put(os.path.join(out, str(count)), image, taken)
            listed = [version for version, _ in versions(Part(taken[0], 0, len(taken[0])), image.big)] or [0]
            print(count, "big" if image.big else "little", image.address_size, min(listed), max(listed), name)
            count += 1
    for reason, times in sorted(reasons.items()):
        print("- %d file%s: %s" % (times, "" if times == 1 else "s", reason))


if __name__ == "__main__":
    main(sys.argv[1], sys.argv[2:])
