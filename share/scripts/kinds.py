"""What a file is, by its first bytes: a program, a symbol file, an address table, or a text of which a table can be made."""

from scripts.object.image import READERS

HEAD = 1 << 12  # bytes that tell it

# Those that a maker of linetab-table reads are named as the maker is.
BREAKPAD, GSYM, LLVM, READELF, LINES = "breakpad", "gsym", "llvm-dwarfdump", "readelf", "lines"
PROGRAM, TABLE = "points", "table"
NAMES = {
    BREAKPAD: "a symbol file of Breakpad",
    GSYM: "a GSYM file",
    LLVM: "what llvm-dwarfdump --debug-line prints",
    READELF: "what readelf --debug-dump=decodedline prints",
    LINES: "lines of addresses, paths and line numbers",
    PROGRAM: "a program",
    TABLE: "an address table",
}
MAGICS = ((b"MODULE ", BREAKPAD), (b"MYSG", GSYM), (b"GSYM", GSYM))
PRINTS = ((b".debug_line contents:", LLVM), (b"debug_line[0x", LLVM), (b"Contents of the .debug_line section:", READELF))
A_LINE = r"[ \t]*(?:0[xX])?[0-9a-fA-F]{1,16}[ \t].*[^ \t]:[0-9]{1,19}[ \t]*"
MARK = b"\xef\xbb\xbf"  # of UTF-8
SEPARATORS = ",;\t|"


def kind_of(head):
    """What a file is that begins so, or None."""
    if head.startswith(tuple(magic for magic, _ in READERS)):
        return PROGRAM
    kind = next((kind for magic, kind in MAGICS if head.startswith(magic)), None)
    if kind:
        return kind
    first = first_line(head)
    names = {name.strip().lower() for name in fields(first)}
    if {"low", "high"} <= names and names & {"path", "file"}:
        return TABLE
    kind = next((kind for text, kind in PRINTS if text in head), None)
    if kind:
        return kind
    import re

    return LINES if re.fullmatch(A_LINE, first) else None


def first_line(head):
    """The first line of a text that isn't empty, one character for each byte, without its end."""
    lines = head[:HEAD].removeprefix(MARK).lstrip(b"\r\n").splitlines()
    return lines[0].decode("latin-1") if lines else ""


def separator_of(line):
    """What stands between the fields of a line: a comma, if nothing else stands there more often."""
    return max(SEPARATORS, key=line.count)


def fields(line):
    """The fields of a line."""
    import csv

    try:
        return next(csv.reader([line], delimiter=separator_of(line)), [])
    except csv.Error:
        return [line]


def foreign(maker, head, name):
    """What to do with a file that another maker than this one reads, or None if this one may read it."""
    kind = kind_of(head)
    if kind in (None, maker.removesuffix("-17")):
        return None
    if kind == TABLE:
        return "it is an address table already: linetab-object check PROGRAM %s compares it with a program" % name
    if kind == PROGRAM:
        return "it is a program: " + OF_PROGRAM[maker] % name
    reader = "linetab symbols" if kind in (BREAKPAD, GSYM) else "linetab-table " + kind
    return "it is %s: %s %s" % (NAMES[kind], reader, name)


# What a maker reads of a program.
OF_PROGRAM = {
    "gsym-17": "llvm-gsymutil --convert %s --out-file FILE makes a GSYM file of it",
    "llvm-dwarfdump": "llvm-dwarfdump --debug-line %s | linetab-table llvm-dwarfdump -",
    "readelf": "readelf --wide --debug-dump=decodedline %s | linetab-table readelf -",
    "lines": "linetab-table points addr2line %s asks one about each address of its code",
}
