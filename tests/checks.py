"""What `check` has to print, with --partial and without: a slow reference, which compares the two answers between each two borders.

    checks.py check SECTION TABLE [--partial [--at-least P]] [--all [--ends]] [--any-copy] [--big] [--line-str FILE] [--str FILE] [--dead ADDRESS]
            [--skip-copies]
        prints it, with the exit status that the program has to end with
    checks.py make [--partial] [--any-copy] FOLDER COUNT SEED [SECTION..]
        writes so many cases, as tests/cases/README.md has them, of sections that are picked at random and of these: sections and tables,
        the words, and what has to be printed. With --any-copy most sections have copies that answer otherwise. The line strings of a
        section lie beside it, with `_str` after its name
"""

import argparse
import bisect
import os
import random
import re
import sys
from dataclasses import dataclass, replace

from line_section import LINE_STRP, SET_ADDRESS, STRP, No, Section, Span, Strings, decimal, held, records
from line_writer import END, PLAIN, Shape, extended, leb, numbers, picked_unit, write_case

# The columns of a table's versions.
NUMBERS = [b"unit", b"file", b"line", b"column", b"is_stmt"]
PLACES = [b"low", b"low_op", b"high", b"high_op"]
VERSIONS = {
    1: PLACES + NUMBERS,
    2: PLACES + NUMBERS + [b"isa", b"discriminator"],
    3: [b"low", b"high", b"path", b"line", b"column"],
    4: [b"low", b"high", b"path", b"line"],
}
ADDRESSES = {b"low", b"high"}


# ---- the table


def value_of(column, field):
    """What a field tells; none where it isn't of its column's kind."""
    if column in ADDRESSES:
        return int(field, 16) if re.fullmatch(rb"0x[0-9a-fA-F]{1,16}", field) else None
    if column == b"path":
        return field
    if column == b"is_stmt" and field not in (b"0", b"1"):
        return None
    return decimal(field)


def span_of(version, number, record, before):
    """The span of a record, which isn't the header."""
    columns = VERSIONS[version]
    if len(record) != len(columns):
        raise No("no 37 table fields record %d" % number)
    values = [value_of(column, field) for column, field in zip(columns, record)]
    if None in values:
        raise No("no 38 table number record %d column %d" % (number, values.index(None)))
    if version in (1, 2):
        low, high, answer = tuple(values[:2]), tuple(values[2:4]), tuple(values[4:])
    else:
        low, high, answer = (values[0], 0), (values[1], 0), tuple(values[2:])
    if low >= high or before and low < before.high:
        raise No("no 39 table order record %d" % number)
    return Span(low, high, answer)


def table_of(data):
    """The version and the spans of a table."""
    header, *rest = records(data) or [[]]
    version = next((version for version, columns in VERSIONS.items() if columns == header), None)
    if version is None:
        raise No("no 36 table header")
    spans = []
    for number, record in enumerate(rest, 1):
        spans.append(span_of(version, number, record, spans[-1] if spans else None))
    return version, spans


# ---- the answers


def told(section, version, unit, row):
    """The section's answer by a row, as a table of the version tells it."""
    if version == 4:
        return section.path(unit, row.file), row.line
    if version == 3:
        return section.path(unit, row.file), row.line, row.column
    numbers = unit.offset, row.file, row.line, row.column, row.is_stmt
    return numbers if version == 1 else (*numbers, row.isa, row.discriminator)


def told_spans(section, version, spans):
    return [Span(span.low, span.high, told(section, version, *span.answer)) for span in spans]


class Answers:
    """What spans in order answer."""

    def __init__(self, spans):
        self.spans, self.highs = spans, [span.high for span in spans]

    def at(self, position):
        place = bisect.bisect_right(self.highs, position)
        return self.spans[place].answer if place < len(self.spans) and self.spans[place].low <= position else None


@dataclass
class Piece:
    """What both answer between two borders, one behind the other, and what any sequence does that counts there."""

    low: tuple
    high: tuple
    by_table: object
    by_section: object
    by_any: set

    def is_right(self):
        return self.by_table == self.by_section or self.by_table is not None and self.by_table in self.by_any


def pieces(table, section, sequences):
    """The answers of a table and of a section between each two borders, and those of sequences each of which counts."""
    borders = sorted({border for spans in (table, section, *sequences) for span in spans for border in (span.low, span.high)})
    by_table, by_section, by_each = Answers(table), Answers(section), [Answers(spans) for spans in sequences]
    return [Piece(low, high, by_table.at(low), by_section.at(low), {answers.at(low) for answers in by_each})
            for low, high in zip(borders, borders[1:])]


def shown(answer):
    if answer is None:
        return "none"
    return ",".join('"%s"' % quoted(field) if isinstance(field, bytes) else "%d" % field for field in answer)


def quoted(path):
    return "".join(chr(byte) if 0x20 <= byte <= 0x7E and byte not in b'"\\' else "\\x%02x" % byte for byte in path)


def stretches(pieces_of, partial):
    """Each longest run of positions at which the table is wrong and the two answers stay the same two: the first position, the first one
    after it, and the two."""
    found = []
    for piece in pieces_of:
        if piece.is_right() or partial and piece.by_table is None:
            continue
        low, both = piece.low, (piece.by_table, piece.by_section)
        if found and found[-1][1:] == (low, *both):
            low = found.pop()[0]
        found.append((low, piece.high, *both))
    return found


def addresses_in(low, high):
    """How many addresses a there are with (a, 0) from a position on and below another."""
    first, end = (place[0] + (place[1] > 0) for place in (low, high))
    return end - first


def counts(pieces_of):
    """At how many addresses both answer, and at how many the section does."""
    both = whole = 0
    for piece in pieces_of:
        if piece.by_section is not None:
            count = addresses_in(piece.low, piece.high)
            whole += count
            both += count if piece.by_table is not None else 0
    return both, whole


def line_40(stretch, ends):
    low, end, by_table, by_section = stretch
    place = "0x%x,%d" % low + (" up to 0x%x,%d" % end if ends else "")
    return "no 40 differs at %s table %s section %s\n" % (place, shown(by_table), shown(by_section))


@dataclass
class Asked:
    """How a table is compared: at the positions at which it answers alone, at all places, with their ends, with a share that is asked for,
    and with each live sequence as right."""

    partial: bool = False
    all: bool = False
    ends: bool = False
    at_least: int = 0
    any_copy: bool = False


def check(section, table, asked):
    """The lines that are printed of the bytes of a table, and the status. The section is a function, which judges it first."""
    try:
        section = section()
        version, spans = table_of(table)
    except No as no:
        return "%s\n" % no, 1
    sequences = [told_spans(section, version, sequence.spans()) for sequence in (section.live if asked.any_copy else ())]
    compared = pieces(spans, told_spans(section, version, section.spans), sequences)
    found = stretches(compared, asked.partial)
    if found:
        return "".join(line_40(stretch, asked.ends) for stretch in (found if asked.all else found[:1])), 1
    if not asked.partial:
        return "yes\n", 0
    both, whole = counts(compared)
    few = both * 100 < asked.at_least * whole
    return ("no 46 " if few else "yes\n") + "answers %d of %d\n" % (both, whole), int(few)


# ---- sections for cases


@dataclass
class Given:
    """A section with its line strings and its strings, and the words that say how it is to be read."""

    data: bytes
    line: bytes = b""
    general: bytes = b""
    words: tuple = ()

    def section(self):
        dead = next((int(word[7:], 16) for word in self.words if word.startswith("--dead=")), None)
        order = "big" if "--big" in self.words else "little"
        skips = not {"--skip-copies", "--any-copy"}.isdisjoint(self.words)
        return Section(self.data, Strings(self.line, self.general), order, dead, skips)

    def is_good(self):
        try:
            return bool(self.section())
        except No:
            return False


def picked_section(picked, others=False):
    """Some units with some sequences, which are in no order. Some are discarded code, which begins at 0, and some are copies; if others are
    asked for, most are, and answer otherwise."""
    order, address_size = picked.choice(("little", "little", "big")), picked.choice((8, 8, 4, 2))
    places = [0x1000 * place + picked.randrange(16) for place in range(1, 12)]
    picked.shuffle(places)
    dead, again = picked.randrange(5) == 0, picked.randrange(5) == 0 or others
    strings, data = {LINE_STRP: b"\0", STRP: b"\0"}, b""
    for _ in range(picked.randrange(1, 4)):
        shape = Shape(5, order, picked.choice((4, 4, 8)), address_size, numbers(picked))
        taken = [places.pop() for _ in range(picked.choice((0, 1, 1, 2, 3)))] + [0] * (dead and picked.randrange(3))
        data += picked_unit(picked, shape, strings, taken, again, others)
    words = ["--big"] * (order == "big") + ["--skip-copies"] * (again and picked.randrange(8) > 0)
    words += ["--any-copy"] * (others and picked.randrange(8) > 0)
    return Given(data, strings[LINE_STRP], strings[STRP], tuple(words + ["--dead=0x0"] * (dead and picked.randrange(8) > 0)))


def end_of_addresses(picked):
    """A sequence that ends at an operation of the greatest address, or at the first one of it."""
    shape = replace(PLAIN, numbers=replace(PLAIN.numbers, max_ops=4))
    program = extended(SET_ADDRESS, b"\xf0" + b"\xff" * 7) + b"\1\3\1\1"
    ends = (60, 61, 63) if picked.randrange(2) else (7, 60)
    moves, before = b"", 0
    for end in ends:
        moves, before = moves + b"\2" + leb(end - before) + (b"\1" if end != ends[-1] else b""), end
    tables = b"\1\1\x08\1/s\0" + b"\1\1\x08\2a.c\0b.c\0"
    return Given(shape.unit(tables, program + moves + END))


def broken(picked, given):
    """The section with a byte changed, or cut."""
    place = picked.randrange(len(given.data))
    if picked.randrange(4) == 0:
        return replace(given, data=given.data[:place])
    return replace(given, data=given.data[:place] + picked.randbytes(1) + given.data[place + 1:])


# ---- tables for cases

TOP = (1 << 64) - 1


def moved(position, addresses):
    return max(0, min(TOP, position[0] + addresses)), position[1]


def pieces_left_out(picked, spans, at):
    return [span for span in spans if picked.randrange(3)]


def one_alone(picked, spans, at):
    return spans[at:at + 1]


def one_shifted(picked, spans, at):
    by = picked.choice((-2, -1, 1, 3))
    spans[at] = Span(moved(spans[at].low, by), moved(spans[at].high, by), spans[at].answer)
    return spans


def of_another(picked, section, version):
    """Spans of each place by one of the sequences there, or by several of them in turns."""
    places = {}
    for sequence in section.live:
        places.setdefault((sequence.first(), sequence.end()), []).append(sequence.spans())
    spans = []
    for place in places.values():
        cut = picked.choice([span.low for spans_of in place for span in spans_of] or [(0, 0)])
        one, other = picked.choice(place), picked.choice(place)
        spans += [replace(span, high=min(span.high, cut)) for span in one if span.low < cut]
        spans += [replace(span, low=max(span.low, cut)) for span in other if span.high > cut]
    return sorted(told_spans(section, version, spans), key=lambda span: span.low)


def one_wrong(picked, spans, at):
    answer = list(spans[at].answer)
    place = picked.randrange(len(answer))
    answer[place] = answer[place] + b"x" if isinstance(answer[place], bytes) else answer[place] ^ 1
    spans[at] = replace(spans[at], answer=tuple(answer))
    return spans


def one_longer(picked, spans, at):
    """A span that reaches over its end, up to the next one at most, or over its begin."""
    if picked.randrange(3):
        spans[at] = replace(spans[at], high=moved(spans[at].high, picked.choice((1, 2, 0x10, 0x4000))))
    else:
        spans[at] = replace(spans[at], low=moved(spans[at].low, -picked.choice((1, 0x10))))
    return spans


def one_shorter(picked, spans, at):
    spans[at] = replace(spans[at], high=moved(spans[at].high, -picked.randrange(1, 4)))
    return spans


def one_cut_in_two(picked, spans, at):
    (low, _), (high, _) = spans[at].low, spans[at].high
    cut = (picked.randrange(min(low, high), max(low, high) + 1), 0)
    return spans[:at] + [replace(spans[at], high=cut), replace(spans[at], low=cut)] + spans[at + 1:]


def two_as_one(picked, spans, at):
    """A span with the first one's answer up to the end of the next one."""
    return spans[:at] + [replace(spans[at], high=spans[min(at + 1, len(spans) - 1)].high)] + spans[at + 2:]


def one_more(picked, spans, at):
    """A span where the section may answer nothing."""
    low = picked.choice((0, 1, 0x500, spans[at].high[0], spans[-1].high[0] + 7))
    return spans + [Span((min(low, TOP - 1), 0), (min(low + picked.choice((1, 9, TOP)), TOP), 0), spans[at].answer)]


def one_for_all(picked, spans, at):
    return [Span((0, 0), (TOP, 0), spans[at].answer)]


def none_at_all(picked, spans, at):
    return []


CHANGES = [pieces_left_out, pieces_left_out, one_alone, one_shifted, one_wrong, one_wrong, one_longer, one_longer, one_shorter,
           one_cut_in_two, two_as_one, one_more, one_for_all, none_at_all]


def tidied(spans):
    """The spans in order, each from where the one before it ends, and none empty."""
    out, end = [], (0, 0)
    for span in sorted(spans, key=lambda span: span.low):
        low = max(span.low, end)
        if low < span.high:
            out.append(replace(span, low=low))
            end = span.high
    return out


def at_addresses(spans):
    """The spans from their first address and up to that of their end, as tables by path have them."""
    first = lambda position: (position[0] + (position[1] > 0), 0)
    return tidied([Span(first(span.low), first(span.high), span.answer) for span in spans])


def written(field):
    return b'"%s"' % field.replace(b'"', b'""') if re.search(rb'[",\r\n]', field) else field


def record_of(picked, version, span):
    """The fields of a record. Numbers may begin with zeros, and digits may be of either case."""
    places = [span.low, span.high]
    address = lambda place: (b"0x%X" if picked.randrange(30) == 0 else b"0x%x") % place[0]
    fields = [field for place in places for field in (address(place), b"%d" % place[1])] if version < 3 else [*map(address, places)]
    for column, field in zip(VERSIONS[version][len(fields):], span.answer):
        zeros = b"0" * (column != b"is_stmt" and picked.randrange(40) == 0)
        fields.append(written(field) if isinstance(field, bytes) else zeros + b"%d" % field)
    return b",".join(fields)


def faulty(picked, lines):
    """The lines of a table with a fault, or with an empty line, which is none."""
    at = picked.randrange(len(lines))
    change = picked.randrange(5)
    if change == 0:
        lines[at] += b",1"
    elif change == 1:
        lines[at] = lines[at].replace(b",", b",x", picked.randrange(1, 4))
    elif change == 2:
        lines.append(lines[at])
    elif change == 3:
        lines[at] = lines[at].rpartition(b",")[0]
    else:
        lines.insert(at, b"")
    return lines


def picked_table(picked, section, version, others):
    """A table of a version made of the section's own, with some changes, and their names."""
    spans, names = told_spans(section, version, section.spans), []
    if others and picked.randrange(4):
        spans, names = of_another(picked, section, version), ["copies"]
    if version > 2 and picked.randrange(8):
        spans = at_addresses(spans)
    for _ in range(picked.choice((0, 1, 1, 1, 2, 3))):
        if spans:
            change = picked.choice(CHANGES)
            spans, names = change(picked, spans, picked.randrange(len(spans))), [*names, change.__name__]
    if picked.randrange(30):
        spans = tidied(spans)
    lines = [b",".join(VERSIONS[version]), *(record_of(picked, version, span) for span in spans)]
    if picked.randrange(16) == 0:
        lines, names = faulty(picked, lines), [*names, "faulty"]
    end = picked.choice((b"\n",) * 8 + (b"\r\n", b"\r"))
    return end.join(lines) + end * (picked.randrange(6) > 0), names or ["own"]


# ---- cases


def picked_options(picked, is_partial, any_copy):
    """How a table is compared, and the words for it, but for that any copy counts."""
    asked = Asked(all=picked.randrange(2) > 0, any_copy=any_copy)
    words = ["--all"] * asked.all
    if not is_partial:
        return asked, words
    asked.partial, asked.ends = picked.randrange(6) > 0, asked.all and picked.randrange(2) > 0
    at_least = picked.choice((None, None, 0, 1, 50, 99, 100, picked.randrange(101)))
    words += ["--partial"] * asked.partial + ["--ends"] * asked.ends
    if asked.partial and at_least is not None:
        asked.at_least = at_least
        words.append("--at-least=%0*d" % (picked.randrange(1, 4), at_least))
    return asked, words


def made_case(picked, sections, is_partial, others):
    """The name, words and files of a case, what has to be printed, and the status."""
    given = picked.choice(sections) if sections and picked.randrange(3) == 0 else picked_section(picked, others)
    if picked.randrange(12) == 0:
        given = end_of_addresses(picked)
    version = picked.randrange(1, 5)
    try:
        table, names = picked_table(picked, given.section(), version, others)
    except No:
        table, names = b",".join(VERSIONS[version]) + b"\n", ["bad section"]
    if picked.randrange(20) == 0:
        given, names = broken(picked, given), ["broken"]
    asked, words = picked_options(picked, is_partial, "--any-copy" in given.words)
    said, status = check(given.section, table, asked)
    files = {"section.bin": given.data, "table.csv": table}
    words = ["check", "section.bin", "table.csv", *words, *given.words]
    for option, strings in ("--line-str", given.line), ("--str", given.general):
        if strings:
            words.append("%s=%s.bin" % (option, option[2:]))
            files["%s.bin" % option[2:]] = strings
    return "check-v%d-%s" % (version, "-".join(names).replace(" ", "_")), words, files, said, status


def beside(name):
    """A section of a file, with its line strings where they lie beside it, and the words by which it is good, if any."""
    line = held(name + "_str") if os.path.exists(name + "_str") else b""
    found = [Given(held(name), line, words=words) for words in ((), ("--big",), ("--dead=0x0",))]
    return next((given for given in found if given.is_good()), found[0])


def make(folder, count, seed, names, is_partial=False, others=False):
    picked, sections = random.Random(seed), [beside(name) for name in names]
    for number in range(count):
        name, words, files, said, status = made_case(picked, sections, is_partial, others)
        write_case(os.path.join(folder, "%06d-%s" % (number, name)), words, files, said.encode(), status)


# ---- the command


def words():
    parser = argparse.ArgumentParser(prog="checks.py", allow_abbrev=False)
    words = parser.add_subparsers(dest="word", required=True)
    checked = words.add_parser("check", allow_abbrev=False)
    for name in "section", "table":
        checked.add_argument(name)
    checked.add_argument("--at-least", type=int, default=0)
    for name in "--partial", "--all", "--ends", "--any-copy", "--big", "--skip-copies", "--quiet":
        checked.add_argument(name, action="store_true")
    for name in "--line-str", "--str":
        checked.add_argument(name)
    checked.add_argument("--dead", type=lambda word: int(word, 16))
    made = words.add_parser("make", allow_abbrev=False)
    made.add_argument("--partial", action="store_true")
    made.add_argument("--any-copy", action="store_true")
    made.add_argument("folder")
    for name in "count", "seed":
        made.add_argument(name, type=int)
    made.add_argument("sections", nargs="*")
    return parser


def checked(given):
    """What `check` prints with these words, and the status."""
    strings = Strings(*(held(name) if name else b"" for name in (given.line_str, given.str)))
    data, table = held(given.section), held(given.table)
    section = lambda: Section(data, strings, "big" if given.big else "little", given.dead, given.skip_copies or given.any_copy)
    return check(section, table, Asked(given.partial, given.all, given.ends, given.at_least, given.any_copy))


def main():
    given = words().parse_args()
    if given.word == "make":
        make(given.folder, given.count, given.seed, given.sections, given.partial, given.any_copy)
        return
    said, status = checked(given)
    sys.stdout.write(said)
    sys.exit(status)


if __name__ == "__main__":
    main()
