"""What is the matter with a table that `check` refuses: what was found in place of what."""

import itertools
import re

from scripts.bounded import Part, Refusal
from scripts.kinds import BREAKPAD, HEAD, LINES, LLVM, MARK, NAMES, READELF, fields, first_line, kind_of, separator_of
from scripts.object.tables import LAYOUTS, Unclear, layout_of, records
from scripts.telling import shown

SHOWN = 100  # characters of what was found
MOST = 1 << 20  # records that are read up to the faulty one
FAULT = re.compile(r"no 3([6-9]) table [a-z]+(?: record ([0-9]+)(?: column ([0-9]+))?)?")
# How notes of the program begin that say less.
OURS = re.compile(rb"linetab: note: (the first line has to be |line [0-9]+ of the table: |each record has as many fields |"
                  rb"(?:low|high|low_op|high_op|unit|file|line|column|is_stmt|isa|discriminator) is |each span ends above ).*")
SEPARATORS = {";": "semicolons", "\t": "tabs", "|": "bars"}
BY_PATH = "low,high,path,line"
SYMBOLS = re.compile(rb"(?:FILE [0-9]+|FUNC (?:m )?[0-9a-fA-F]+|PUBLIC (?:m )?[0-9a-fA-F]+|INFO [A-Z_]+|INLINE_ORIGIN [0-9]+) ")
ADDRESS, DECIMAL = "0x and 1 to 16 hexadecimal digits", "1 to 20 decimal digits of a number below 2^64"


def text_of(field):
    """A field as it is told, between quotes, and cut if it is long."""
    cut = field[:SHOWN]
    text = shown(cut.encode("latin-1", "replace"))
    return (text if text[:1] == '"' and text != cut else '"%s"' % text) + " .." * (len(field) > SHOWN)


# ---- the header


def unreadable(head, name):
    """What a file of this name is that is no comma-separated text, and what to do, or None."""
    from scripts.object.others import known

    kind = kind_of(head)
    if head[:2] in (b"\xff\xfe", b"\xfe\xff") or head[:4].count(0) == 2 and head[:2].count(0) == 1:
        return "it is UTF-16, and has to be UTF-8: iconv -f UTF-16 -t UTF-8 %s" % name
    if kind in (LLVM, READELF, LINES):
        return "it is %s: linetab-table %s %s | linetab-object check PROGRAM -" % (NAMES[kind], kind, name)
    if SYMBOLS.match(head):
        return "it is %s without its first line, which begins with MODULE: it is cut" % NAMES[BREAKPAD]
    text = known(Part(head, 0, len(head))) if kind is None else None
    return text or ("it is no text" if b"\0" in head else None)


def nearest(names):
    """The columns of the version that has most of these names, and few others; low,high,path,line if none has half of its own."""
    found = max((layout.columns for layout in LAYOUTS), key=lambda columns: (len(set(names) & set(columns)), -len(columns)))
    return found if 2 * len(set(names) & set(found)) >= len(found) else BY_PATH.split(",")


def is_span(found):
    """Whether these fields are those of a span, and not names."""
    return len(found) > 1 and all(re.fullmatch(r"\s*(0[xX])?[0-9a-fA-F]*[0-9][0-9a-fA-F]*\s*", field) for field in found[:2])


def separated_by(separator):
    """That fields are separated by another character than a comma, if they are."""
    return ["%s in place of commas" % SEPARATORS[separator]] if separator in SEPARATORS else []


def what_differs(found, columns, separator):
    """In what a header differs from one that has the same names, each for itself."""
    bare = [name.strip() for name in found]
    said = separated_by(separator)
    said += ["blanks around names"] * (bare != found)
    said += ["capital letters"] * any(name != name.lower() for name in bare)
    said += ["another order of columns"] * ([name.lower() for name in bare] != columns)
    return said


def header(head):
    """What stands in the place of the header."""
    line = first_line(head)
    separator, found = separator_of(line), fields(line)
    if not line:
        return "it has no record"
    if is_span(found):
        columns = next((layout.columns for layout in reversed(LAYOUTS) if len(layout.columns) == len(found)), BY_PATH.split(","))
        rest = "".join(", and it has " + text for text in separated_by(separator))
        return "it has no header, and begins with a span: its first line has to be %s%s" % (",".join(columns), rest)
    names = [name.strip().lower() for name in found]
    columns = nearest(names)
    told = "its header is %s in place of %s" % (text_of(line), ",".join(columns))
    if sorted(names) == sorted(columns):
        return "%s: %s" % (told, " and ".join(what_differs(found, columns, separator)))
    missing = [name for name in columns if name not in names]
    return told + (": %s %s missing" % (" and ".join(missing), "is" if len(missing) == 1 else "are") if 0 < len(missing) < 3 else "")


# ---- records


def kind_wanted(column):
    return {"low": ADDRESS, "high": ADDRESS, "is_stmt": "0 or 1"}.get(column, DECIMAL)


def wrong_count(layout, record):
    """A record that hasn't as many fields as there are columns."""
    told = "it has %d field%s in place of %d" % (len(record), "s" * (len(record) != 1), len(layout.columns))
    if len(record) > len(layout.columns) and layout.has_paths:
        return told + ": a path with a comma has to be in double quotes"
    return told + "".join(": " + text for text in separated_by(separator_of(record[0])) if len(record) == 1)


def wrong_number(layout, record, column):
    """A field that holds no number of its kind."""
    name, field = layout.columns[column], record[column]
    told = "%s is %s in place of %s" % (name, text_of(field), kind_wanted(name))
    if kind_wanted(name) == ADDRESS and re.fullmatch("[0-9]{1,20}", field):
        return "%s: 0x%s, or 0x%x if it is decimal" % (told, field, int(field))
    if kind_wanted(name) == ADDRESS and re.fullmatch("[0-9a-fA-F]{1,16}", field):
        return "%s: 0x%s" % (told, field)
    if name == "line" and field in ("", "?", "??"):
        return told + ": leave out spans whose line isn't known"
    return told


def places(layout, record):
    """Where a span begins and ends, as it is compared, and as it is told."""
    if layout.has_paths:
        return [(int(record[k], 16), 0) for k in (0, 1)], record[:2]
    numbers = [(int(record[k], 16), int(record[k + 1])) for k in (0, 2)]
    return numbers, ["%s,%s" % (record[k], record[k + 1]) for k in (0, 2)]


def wrong_order(layout, record, before):
    """A span that is empty, or begins below the end of the one before it."""
    (low, high), (low_text, high_text) = places(layout, record)
    if low >= high:
        return "its high is %s, which isn't above its low, %s: high is the first address behind the span" % (high_text, low_text)
    told = "it begins at %s, below the end of the span before, " % low_text
    (last_low, _), (last_text, end_text) = places(layout, before)
    if low < last_low and low_text > last_text:
        return "%s%s: spans have to be in the order of their addresses as numbers, and not as texts" % (told, end_text)
    if low < last_low:
        return "%s%s: spans have to be in the order of their addresses" % (told, end_text)
    return "%s%s: spans may not overlap" % (told, end_text)


def faulty_record(data, number, number_of_fault, column):
    """What is wrong with the record of this number."""
    read = records(data.pieces())
    layout = layout_of(next(read))
    if number > MOST:
        raise Unclear
    before, record = None, None
    for record in itertools.islice(read, number - 1):
        before = record
    record = next(read)
    if number_of_fault == 7:
        return wrong_count(layout, record)
    if number_of_fault == 8:
        return wrong_number(layout, record, column)
    return wrong_order(layout, record, before)


# ---- what is told


def same_as(notes):
    """How those notes of the program begin that say less."""
    found = map(OURS.fullmatch, notes.splitlines())
    return [match[1].decode() for match in found if match]


def notes_to(line, run, name, data):
    """A note of what stands in a table in the place of what, by the line that refuses it, and how the program's own begins."""
    match = FAULT.fullmatch(line)
    same = same_as(run.notes)
    try:
        if match[1] == "6":
            part = data.part(0, HEAD)
            head = part.take(0, part.size)
            return ["%s: %s" % (shown(name), unreadable(head, shown(name)) or header(head))], same
        number, column = int(match[2]), int(match[3] or 0)
        text = faulty_record(data, number, int(match[1]), column)
        place = re.search(rb"linetab: note: (line [0-9]+) of the table: ", run.notes)
        place = place[1].decode() if place else "record %d" % number
        return ["%s of %s: %s" % (place, shown(name), text)], same
    except (Unclear, Refusal, ValueError, LookupError, StopIteration, MemoryError):
        return [], []
