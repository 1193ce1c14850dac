"""Debug information in a file of its own, which is looked for by a build id or a debug link."""

import os

from scripts.bounded import ABSENT, Nothing, Refusal, opened
from scripts.object.image import LINE, image_of
from scripts.telling import shown

APART = "/usr/lib/debug"


def link_of(image):
    """The name and the CRC of a .gnu_debuglink section. A name that leads into another folder isn't followed."""
    if not image.has(".gnu_debuglink"):
        return None
    link = image.head(".gnu_debuglink")[:300]
    name = link.split(b"\0")[0]
    if name in (b"", b".", b"..") or b"/" in name or len(name) > 255:
        raise Refusal("it has no %s, and its .gnu_debuglink isn't the name of a file" % LINE)
    return os.fsdecode(name), int.from_bytes(link[len(name) // 4 * 4 + 4 :][:4], "big" if image.big else "little")


def candidates(path, image, link):
    """Where the debug information of a file may lie: the place, and the CRC that has to be that of the file there."""
    folder = os.path.dirname(os.path.realpath(path))
    # Nothing lies beside a file without a name, which holds what came by a pipe.
    beside = () if path.startswith("/proc/") else (folder, os.path.join(folder, ".debug"), APART + folder)
    if image.kind == "Mach-O":
        name = os.path.basename(path)
        if beside:
            yield os.path.join(folder, name + ".dSYM", "Contents", "Resources", "DWARF", name), None
        return
    if image.identity:
        yield os.path.join(APART, ".build-id", image.identity[:2], image.identity[2:] + ".debug"), None
    if link:
        for place in beside:
            yield os.path.join(place, link[0]), link[1]


def is_of(image, data, found, crc):
    """Whether a file is the debug information of another one: by their build ids, or by its CRC."""
    if image.identity and found.identity:
        return image.identity == found.identity
    if crc is None:
        return False
    import zlib

    sum_of_it = 0
    for piece in data.pieces():
        sum_of_it = zlib.crc32(piece, sum_of_it)
    return sum_of_it == crc


def apart(path, image):
    """The image of the file with the debug information of one that has none."""
    link = link_of(image)
    tried, strangers = [], []
    for place, crc in candidates(path, image, link):
        if place in tried or os.path.realpath(place) == os.path.realpath(path):
            continue
        tried.append(place)
        try:
            data = opened(place)
            found = image_of(data, place)
        except Refusal:
            continue
        except OSError as error:
            if error.errno not in ABSENT:
                raise
            continue
        if not is_of(image, data, found, crc):
            strangers.append(place)
        elif found.has(LINE):
            found.place, found.program = place, image
            return found
    if strangers:
        raise Refusal("it has no %s, and %s, where its debug information should be, belongs to another file"
                      % (LINE, shown(strangers[0])))
    raise Nothing(nothing_found(image, link, tried))


def nothing_found(image, link, tried):
    without = "it has no %s: " % LINE
    if image.kind == "Mach-O":
        return without + "make its dSYM by dsymutil FILE, and take that"
    if image.is_split:
        return without + "it is split debug information; the line number section is in the linked program"
    if link or not image.has(".symtab") and image.identity:
        known = "; its build id is " + image.identity if image.identity else ""
        return without + ("it is stripped, and its debug information isn't in %s; install the package with the debug symbols (Debian: "
                          "-dbgsym or -dbg), or take the file before it was stripped%s" % (" or ".join(map(shown, tried)) or APART, known))
    if image.kind == "PE" and image.is_stripped:
        return without + ("it was stripped, or made by a compiler that writes a PDB, which has no DWARF: take the file before it was "
                          "stripped, or compile with -gdwarf-5 by gcc or clang for mingw")
    if image.kind == "PE":
        return without + "compile with -gdwarf-5 by gcc or clang for mingw; a PDB has no DWARF"
    if image.has(".stab"):
        return without + "its debug information is of the kind stabs; compile it by a compiler that writes DWARF 5"
    return without + "compile and link it with -gdwarf-5, and don't strip it"
