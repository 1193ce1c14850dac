"""The makers, and what the words ask of them."""

import argparse
import errno
import functools
import os
import re
import signal
import sys

from scripts import telling
from scripts.bounded import PIECE, Refusal, reason_of
from scripts.object.program import unnamed
from scripts.table.source import source
from scripts.table.spans import joined, table_of
from scripts.telling import end, escaped, hold_standard_descriptors, put_whole, shown, tell

# ---- makers, each of which is read if it is asked for


def from_gsym(asked):
    from scripts.table.gsym import spans_of

    with source(asked) as file:
        yield from spans_of(file.read())


def from_llvm_dwarfdump(asked):
    from scripts.table.llvm_dwarfdump import from_llvm_dwarfdump

    return from_llvm_dwarfdump(asked)


def from_readelf(asked):
    from scripts.table.readelf import from_readelf

    return from_readelf(asked)


def from_lines(asked):
    from scripts.table.lines import from_lines

    return from_lines(asked)


def from_points(asked):
    from scripts.table.points import from_points

    return from_points(asked)


class Maker:
    """A maker of tables: what it is called with, the options that are its own, and the function that gives spans, as they come."""

    def __init__(self, read, words=("FILE",), options=(), has_columns=lambda asked: False):
        self.read, self.words, self.options, self.has_columns = read, words, options, has_columns


def dialect_of(asked):
    from scripts.table.points import dialect_of

    return dialect_of(asked.command, asked.like)


MAKERS = {
    "gsym-17": Maker(from_gsym),
    "llvm-dwarfdump": Maker(from_llvm_dwarfdump, options=("dead", "skip_copies"), has_columns=lambda asked: True),
    "readelf": Maker(from_readelf, options=("dead", "skip_copies")),
    "lines": Maker(from_lines, has_columns=lambda asked: asked.has_columns),  # as soon as they are read
    "points": Maker(from_points, words=("COMMAND", "FILE"), options=("like",), has_columns=lambda asked: dialect_of(asked).columns),
}


# ---- what is asked


class Words(argparse.ArgumentParser):
    def error(self, message):
        tell(escaped(message))
        sys.exit(2)


def an_address(text):
    if not re.fullmatch("0x[0-9a-fA-F]{1,16}", text):
        raise argparse.ArgumentTypeError("an address is 0x and 1 to 16 hexadecimal digits, and %s isn't" % shown(text))
    return int(text, 16)


def a_dialect(text):
    from scripts.table.points import DIALECTS

    if all(text != dialect.name for dialect in DIALECTS):
        raise argparse.ArgumentTypeError("COMMAND answers like addr2line, eu-addr2line or llvm-symbolizer, and not like %s" % shown(text))
    return text


def asked_for(typed):
    """What the words ask for."""
    # No usage is shown. With these two none is made, for which more modules would be read.
    plain = {"usage": "", "formatter_class": functools.partial(argparse.HelpFormatter, width=80)}
    words = Words(prog="linetab-table", add_help=False, allow_abbrev=False, **plain)
    words.add_argument("words", nargs="*")
    words.add_argument("--paths-of")
    words.add_argument("--dead", type=an_address)
    words.add_argument("--skip-copies", action="store_true")
    words.add_argument("--like", type=a_dialect)
    words.add_argument("--quiet", action="store_true")
    asked = words.parse_intermixed_args(typed)
    asked.maker = asked.words[0] if asked.words else ""
    if asked.maker not in MAKERS:
        words.error("one of %s is wanted first: linetab-table MAKER FILE [OPTIONS..]" % ", ".join(MAKERS))
    maker = MAKERS[asked.maker]
    if len(asked.words) != 1 + len(maker.words):
        words.error("linetab-table %s: no more and no less is wanted" % " ".join([asked.maker, *maker.words]))
    for option in sorted({option for other in MAKERS.values() for option in other.options} - {*maker.options}):
        given = getattr(asked, option)
        if given is not None and given is not False:  # an address may be 0
            takers = [name for name, other in MAKERS.items() if option in other.options]
            words.error("--%s is for %s" % (option.replace("_", "-"), " and ".join(takers)))
    asked.command, asked.file = asked.words[1], asked.words[-1]
    if asked.maker == "points" and not dialect_of(asked):
        words.error("%s: COMMAND is an addr2line, eu-addr2line or llvm-symbolizer, and named so, or --like says which" % shown(asked.command))
    return asked


def put(pieces):
    """Writes to standard output, without a word if the pipe is closed, as `head` does, and gives the exit status."""
    try:
        for piece in pieces:
            put_whole(1, piece)
        return 0
    except OSError as error:
        if not isinstance(error, BrokenPipeError):
            tell("cannot write: %s" % error.strerror)
        return 3


def table_for(asked):
    """The bytes of the table, in pieces."""
    maker = MAKERS[asked.maker]
    if not asked.paths_of:
        return table_of(joined(maker.read(asked)), maker.has_columns(asked))
    from scripts.table.whole import Whole, with_whole_paths

    whole = Whole(asked.paths_of)
    return table_of(joined(with_whole_paths(maker.read(asked), whole)), maker.has_columns(asked))


def put_table(asked):
    """Writes the table, once all of it is made, and gives the exit status. Until then it is in a file without a name, since a short file
    may make a long table."""
    file = unnamed(table_for(asked), "the table")
    os.lseek(file, 0, os.SEEK_SET)
    return put(iter(lambda: os.read(file, PIECE), b""))


# ---- what it says of itself


def part_of(about, heading):
    """The rows of a part of the help: what stands left, and the lines of it."""
    rows = []
    for line in about.partition("\n%s:\n" % heading)[2].partition("\n\n")[0].split("\n"):
        if line.startswith(" " * 10):
            rows[-1][1].append(line)
        else:
            rows.append((line.strip().partition("  ")[0], [line]))
    return rows


def is_of(maker, lines):
    """Whether an option is this maker's: those that aren't every maker's name theirs in parentheses at the end."""
    named = re.search(r"\(([a-z, -]+)\)$", lines[-1])
    return named is None or maker in named[1].split(", ")


def help_of(about, maker):
    """The help of a maker, made of that of all."""
    rows = [lines for left, lines in part_of(about, "Makers") if left.partition(" ")[0] == maker]
    rows_of_it = [lines for left, lines in part_of(about, "Options") if is_of(maker, lines) and "--version" not in left]
    options = [line for lines in rows_of_it for line in lines]
    usage = "usage: linetab-table %s [OPTIONS..]" % " ".join([maker, *MAKERS[maker].words])
    return "%s\n\n%s\n\nOptions:\n%s\n" % ("\n".join(line.strip() for line in rows[0]), usage, "\n".join(options))


def version():
    """Prints the version, which the program linetab knows, and gives the exit status."""
    from scripts.object.program import asked

    status, text, said = asked(["--version"])
    telling.put_error(os.fsencode(said))
    return put([os.fsencode(text.replace("linetab ", "linetab-table ", 1))]) if status == 0 else 3


def begin(about, typed):
    """Does what the words ask for, and gives the exit status."""
    first = typed[0] if typed else ""
    if first in ("--help", "-h", "help"):
        return put([about.lstrip().encode()])
    if first in ("--version", "-V"):
        return version()
    if first in MAKERS and not {"--help", "-h"}.isdisjoint(typed[1:]):
        return put([help_of(about, first).encode()])
    asked = asked_for(typed)
    telling.is_quiet = asked.quiet
    try:
        return put_table(asked)
    except Refusal as refusal:
        tell("%s: %s" % (shown(asked.file), refusal))
    except OSError as error:
        if error.errno == errno.ENOMEM:
            raise
        tell("%s: cannot read it: %s" % (shown(error.filename or asked.file), error.strerror))
    return 3


def main(about):
    hold_standard_descriptors()
    telling.program = "linetab-table"
    signal.signal(signal.SIGINT, signal.SIG_DFL)
    try:
        status = begin(about, sys.argv[1:])
    except Exception as fault:
        reason, status = reason_of(fault)
        tell(reason)
    end(status)
