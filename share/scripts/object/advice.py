"""What to do about a section that is refused."""

import itertools
import os

from scripts.bounded import MOST, found_in
from scripts.object.image import STRINGS
from scripts.object.notes import COPIES, DEAD, is_version, twice_held
from scripts.object.older import OLDER, counted, joined, versions
from scripts.object.older_paths import paths
from scripts.telling import shown

# How notes of the program begin that are told here in other words.
TEXTS, UPGRADES = "its text lies in ", "linetab upgrade SECTION --address-size "
SETS = "the operation there sets an address "


# ---- units of another version


def first_path(section, at, big):
    """The path of the first file of the unit of version 2, 3 or 4 there, or nothing."""
    path = os.fsdecode(next(paths(section, at, "big" if big else "little"), b""))
    return path if path.isprintable() else ""


def of_another_version(question):
    """Which units are of a version that isn't read, and what to do. None where no such unit is found."""
    image, section = question.image, question.section()
    units = list(itertools.islice(versions(section, image.big), MOST))
    others = [unit for unit in units if unit[0] not in question.versions]
    if not others:
        return None
    which = counted(len(others), len(units))
    if len(units) == MOST:
        which = "%d of its first %d units" % (len(others), len(units))
    version, at = others[0]
    is_older = version in OLDER
    path = first_path(section, at, image.big) if is_older else ""
    if path:
        which += ", %s %s," % ("of" if len(others) == 1 else "the first of", shown(path))
    is_read = "%s %s of version %s; linetab reads DWARF %s alone: " % (
        which, "is" if len(others) == 1 else "are", joined({number for number, _ in others}),
        "5" if question.versions == (5,) else "2 to 5")
    # What is shipped already comes first.
    if is_older:
        is_read += "%s %s upgraded first; to build it anew: " % (question.upgrading, "it is" if len(others) == 1 else "they are")
    return is_read + compiled_anew(image, version)


# What makes version 5, by what compilers say of themselves in .debug_info, .debug_str and .comment.
PASCAL = b"Free Pascal "
COMPILERS = {
    b"Go cmd/compile": "Go writes version 5 from release 1.25 on",
    b"rustc version": "rustc takes -C dwarf-version=5, and -O -C lto=fat for its standard library, which is of version 4",
    b"ldc version": "ldc takes --dwarf-version=5",
    b"NASM ": "nasm writes none later than 3; GNU as takes --gdwarf-5",
    b"yasm ": "yasm writes none later than 2; GNU as takes --gdwarf-5",
    PASCAL: "Free Pascal writes none later than 4",
    b"Glasgow Haskell": "ghc takes -opta-Wa,--gdwarf-5",
    b"camlStd_exit": "ocamlopt has no option for version 5",
    b"Swift version": "swiftc takes -dwarf-version=5",
}


def compiler_of(image):
    """The first of these compilers that the file names."""
    names = filter(image.has, (".debug_info", ".debug_str", ".comment"))
    said = found_in(itertools.chain.from_iterable(map(image.pieces, names)), COMPILERS)
    return next((mark for mark in COMPILERS if mark in said), None)


def compiled_anew(image, version):
    mark = compiler_of(image)
    if mark:
        return COMPILERS[mark]
    if version < 4:
        return "compile with -gdwarf-5; with gcc also -Wa,--gdwarf-5, since the assembler writes the section (as: --gdwarf-5)"
    return "compile with -gdwarf-5"


# ---- every no


OTHER_SIZE = ("units were upgraded for addresses of %s bytes, and an operation has an operand of another length: if it sets an address of "
              "2, 4 or 8 bytes, linetab-object upgrade --address-size N FILE prints the section for these, which linetab reads")


FILE_0 = ("the unit is of version %d, where files count from 1: its compiler left the file of that row open, and readers answer with none, "
          "with the first file or with the name of the unit; %s")


def naming_no_file(question, unit):
    """What to do where a row of an older unit names file 0, if the unit at this offset is one."""
    version = next((version for version, at in versions(question.section(), question.image.big) if at == unit), None)
    return FILE_0 % (version, compiled_anew(question.image, version)) if version in OLDER else None


def overlapping(address):
    if address == "0x0":
        return "sequences overlap at 0x0; if the linker left those of discarded functions there, --dead 0x0 leaves them out"
    return ("two different copies of an inline function overlap at %s: GNU ld and gold point the line numbers of the copy that they "
            "discard at the one that they keep, and --icf folds functions into one; link with lld or mold and without --icf, or compile "
            "with -flto" % address)


def advice(line, question):
    """What to do where the section is refused by this line, and how the notes of the program begin that say the same."""
    image, address = question.image, twice_held(line)
    missing = [name for name in STRINGS.values() if not image.has(name)]
    if is_version(line):
        text = of_another_version(question)
        return text, (UPGRADES,) if text else ()
    if address:
        return overlapping(address), (DEAD, COPIES) if address == "0x0" else ()
    if line.startswith("no 25 ") and line.endswith(": extended length") and "--address-size" in question.options:
        return OTHER_SIZE % question.options["--address-size"][0], (SETS,)
    if line.startswith("no 30 ") and line.endswith(" file 0"):
        return naming_no_file(question, int(line.split()[5], 16)), ()
    if line.endswith(": zero opcode base") and compiler_of(image) == PASCAL:
        return "Free Pascal leaves the field maximum_operations_per_instruction out of version 4: compile with -gw3", ()
    if line.startswith("no 28 ") and missing:
        without = "; dsymutil 14 leaves it out" if image.kind == "Mach-O" else ""
        return "the file has no %s, in which the text may be%s" % (" and no ".join(missing), without), (TEXTS,)
    if line.startswith("no 28 ") and image.kind == "PE":
        return "clang 14 writes such offsets into PE files; compile by gcc for mingw", ()
    return None, ()
