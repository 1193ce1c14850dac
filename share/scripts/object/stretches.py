"""What `check --all` lists: the stretches at which the two answer otherwise."""

import itertools
import re
from collections import namedtuple

from scripts.object.functions import Functions, Missed
from scripts.object.tables import Unclear, records

LINE = re.compile(rb"no 40 differs at 0x([0-9a-f]+),([0-9]+)( up to 0x([0-9a-f]+),([0-9]+))? table (none)?")
ANSWER = rb'(none|"(?:[^"\\]|\\x[0-9a-f]{2})*"[0-9,]*|[0-9,]+)'
BOTH = re.compile(rb" table %s section %s" % (ANSWER, ANSWER))
HELD = 1 << 16  # answers that are kept as they are read

# A range of addresses, and the table's and the section's answer there, one of which may be None.
Stretch = namedtuple("Stretch", "low high table section")
# A path, one character for each byte, a line, and the other numbers of an answer.
Answer = namedtuple("Answer", "path line rest")


def lines(pieces):
    """Lines, without their ends."""
    rest = b""
    for piece in pieces:
        *whole, rest = (rest + piece).split(b"\n")
        yield from whole


def addresses_of(stretch):
    """The range of addresses whose first operation lies in a stretch, by its line, which has both ends."""
    low, low_op, _, high, high_op, _ = stretch.groups()
    return int(low, 16) + (low_op != b"0"), int(high, 16) + (high_op != b"0")


def without_answer(pieces):
    """The range of addresses of each stretch at which the table has no answer."""
    for line in lines(pieces):
        stretch = LINE.match(line)
        if stretch and stretch[6]:
            yield addresses_of(stretch)


# ---- both answers


def unescaped(text):
    """A path, of which the program printed bytes as \\xNN."""
    if "\\" not in text:
        return text
    return re.sub(r"\\x([0-9a-f]{2})", lambda match: chr(int(match[1], 16)), text)


class Answers(dict):
    """Answers by how they are printed. Those of a table by number have the path that the section lists for unit and file."""

    def __init__(self, path_of=None):
        super().__init__()
        self.path_of = path_of

    def __missing__(self, printed):
        if len(self) == HELD:
            self.clear()
        self[printed] = self.read(printed.decode("latin-1"))
        return self[printed]

    def read(self, text):
        if text == "none":
            return None
        if text[0] == '"':
            path, _, numbers = text[1:].rpartition('",')
            line, *rest = map(int, numbers.split(","))
            return Answer(unescaped(path), line, tuple(rest))
        unit, file, line, *rest = map(int, text.split(","))
        path = self.path_of(unit, file) if self.path_of else "unit %d file %d" % (unit, file)
        return Answer(path, line, (*rest, unit, file))


def stretches(pieces, answers):
    """The stretches of `check --all --ends` that hold an address, by what it prints."""
    for line in lines(pieces):
        ends = LINE.match(line)
        both = BOTH.match(line, ends.end(3)) if ends and ends[3] else None
        if both:
            low, high = addresses_of(ends)
            if low < high:
                yield Stretch(low, high, answers[both[1]], answers[both[2]])


class ListedPaths:
    """The path of each unit and file of a section, as the word `files` lists them, which is asked once it is needed."""

    def __init__(self, question, words):
        self.question, self.words, self.found = question, words, None

    def __call__(self, unit, file):
        if self.found is None:
            self.found = dict(self.listed())
        return self.found.get((unit, file), "unit %d file %d" % (unit, file))

    def listed(self):
        run = self.question.run("files", self.words, taken={"--big", "--line-str", "--str"})
        try:
            for unit, file, path, *_ in itertools.islice(records(run.pieces()), 1, None):
                yield (int(unit), int(file)), path
        except Unclear:  # a path is too long to be shown
            pass
        finally:
            run.end()


def joined(ranges):
    """Stretches of which those that touch are one, with what the first of them has."""
    last = None
    for each in ranges:
        if last and last.high == each.low:
            last = last._replace(high=each.high)
            continue
        if last:
            yield last
        last = each
    if last:
        yield last


# ---- what is listed


def counted(count, what):
    return "%d %s%s" % (count, what, "es" * (count != 1))


class Listing:
    """The lines of `check --all`, as they are passed on: how many stretches these are, and their addresses by functions."""

    def __init__(self, image, most, has_ends, is_counted):
        self.image, self.most = image, most
        self.has_ends = has_ends  # whether the ends of stretches stay in the lines
        self.is_counted = is_counted
        self.count, self.is_more, self.missed = 0, False, None

    def pieces(self, run):
        """The lines that are wanted, in pieces. A run that has more of them is ended."""
        rest = b""
        for piece in run.pieces():
            *whole, rest = (rest + piece).split(b"\n")
            yield b"".join(self.wanted(whole))
            if self.is_more:
                run.stop()
                return
        yield rest

    def wanted(self, whole):
        for line in whole:
            stretch = LINE.match(line)
            if stretch and self.count == self.most:
                self.is_more = True
                return
            if stretch:
                self.add(stretch)
                if not self.has_ends:
                    line = line[: stretch.end(2)] + line[stretch.end(3) :] if stretch[3] else line
            yield line + b"\n"

    def add(self, stretch):
        self.count += 1
        if self.is_counted:
            # The symbols are read if there is one.
            self.missed = self.missed or Missed(Functions(self.image))
            self.missed.add(*addresses_of(stretch))

    def told(self):
        """How many stretches the lines have, and how many addresses by which functions; nothing if there is none."""
        if self.missed is None:
            return ""
        total = self.missed.total()
        which = ": " + self.missed.told() if total else ", as they lie within instructions"
        if self.is_more:
            return "differs in more than %s, where --max ends; %s %s%s" % (
                counted(self.count, "stretch"), "it has" if self.count == 1 else "these have", counted(total, "address"), which)
        return "differs in %s of %s%s" % (counted(self.count, "stretch"), counted(total, "address"), which)
