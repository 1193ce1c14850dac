"""Files in which there is nothing to judge: what each is, by its first bytes, and what to do next."""

from scripts.bounded import Refusal, opened
from scripts.kinds import BREAKPAD, GSYM, HEAD, LINES, LLVM, NAMES, PROGRAM, READELF, TABLE, kind_of
from scripts.object.image import OBJECT
from scripts.telling import shown

UNPACK = "it is compressed by %s: unpack it first"
KINDS = [
    *((magic, OBJECT) for magic in (b"\x4c\x01", b"\x64\x86", b"\xc4\x01", b"\x64\xaa")),  # COFF
    (b"!<arch>\ndebian-binary", "it is a package of Debian: dpkg-deb -x FILE FOLDER unpacks it"),
    (b"!<arch>\n", "it is an archive of relocatable objects: link them"),
    (b"!<thin>\n", "it is an archive of relocatable objects: link them"),
    (b"BC\xc0\xde", "it is LLVM's code before it is compiled (-flto): link it"),
    (b"\xfd7zXZ\0", UNPACK % "xz"),
    (b"\x1f\x8b", UNPACK % "gzip"),
    (b"\x28\xb5\x2f\xfd", UNPACK % "zstd"),
    (b"BZh", UNPACK % "bzip2"),
    (b"\x04\x22\x4d\x18", UNPACK % "lz4"),
    (b"PK\3\4", "it is a zip archive, as APK, JAR and wheel files are: unpack it, and take a program in it"),
    (b"PK\5\6", "it is a zip archive, and has nothing in it"),
    (b"\xed\xab\xee\xdb", "it is an RPM package: rpm2cpio FILE | cpio -idm unpacks it"),
    (b"Microsoft C/C++ MSF", "it is a PDB, which has no DWARF: compile by clang or gcc for mingw"),
    (b"PERFILE2", "it is a recording of perf: perf buildid-list -i FILE lists the programs in it; take one of them"),
    (b"PERFFILE", "it is a recording of perf: perf buildid-list -i FILE lists the programs in it; take one of them"),
    (b"MDMP", "it is a minidump, which has no line numbers: minidump_stackwalk FILE lists the programs in it; take one of them, "
              "or its debug information"),
    (b"#!", "it is a script: take the program that it runs"),
]


COMPARED = "it is %s: linetab-object check PROGRAM FILE compares it with the program that it was made of"
PRINTED = "it is %s: take the program that it was printed of"
TEXTS = {**{kind: COMPARED % NAMES[kind] for kind in (BREAKPAD, GSYM, TABLE)}, **{kind: PRINTED % NAMES[kind] for kind in (LLVM, READELF, LINES)}}


def head_of(data):
    """The first bytes of a file, which tell what it is."""
    part = data.part(0, HEAD)
    return part.take(0, part.size)


def known(data):
    """What a file is that is no program, and what to do, or None if its first bytes don't tell."""
    for magic, text in KINDS:
        if data.has(magic):
            return text
    if data.has(b"ustar", 257):
        return "it is a tar archive: unpack it, and take a program in it"
    return TEXTS.get(kind_of(head_of(data)))


def reason(data):
    if data.size == 0:
        return "it is empty"
    return known(data) or "it is none of ELF, PE, Mach-O and WebAssembly; a raw section is for linetab itself"


# ---- the two files of check


def is_program(path):
    try:
        return kind_of(head_of(opened(path))) == PROGRAM
    except (OSError, Refusal):
        return False


def turned_round(data, name, other):
    """What to do if these bytes are no program, and a program is named behind them; None if it isn't so."""
    if kind_of(head_of(data)) == PROGRAM or not is_program(other):
        return None
    kind = NAMES.get(kind_of(head_of(data)), "no program") if data.size else "empty"
    return "it is %s, and the program comes first: linetab-object check %s %s" % (kind, shown(other), shown(name))


def refuse_other(other, program):
    """Refuses what can't be compared with a program of this name: another program, and nothing at all."""
    if other.is_program():
        raise Refusal("it is a program, and is in the place of its table or symbol file: linetab-object check %s SYMBOLS" % shown(program),
                      other.name)
    if other.data is not None and other.data.size == 0:
        raise Refusal("it is empty: what should have written it failed, or wrote nothing", other.name)
