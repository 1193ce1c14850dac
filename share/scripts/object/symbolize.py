"""The word symbolize: passes a text through, with the path, line and column behind each address in it."""

import itertools
import re

from scripts.bounded import Refusal
from scripts.telling import note, shown, tell

HEX = rb"[0-9A-Fa-f]"
# A number after 0x; a word of digits alone that begins a line, behind the number of a frame; one of eight or more digits.
ADDRESS = re.compile(
    rb"(?<![0-9A-Za-z_.$@/])0[xX](%s{1,16})(?![0-9A-Za-z_])"
    rb"|^[ \t]*(?:#[0-9]+[ \t]+)?(%s{3,16})(?![^\s:,])"
    rb"|(?<![^\s\[\(<{])(%s{8,16})(?![^\s\]\)>}:;,])" % (HEX, HEX, HEX), re.M)
OFFSET = 256  # bytes before an offset in which the name that it is of is looked for
FEW = 512  # addresses that are asked at once
BACKSLASH = rb"\x5c"  # as the program prints one


def blocks(pieces):
    """The lines that the pieces make, as many at once as are whole."""
    held = []
    for piece in pieces:
        end = piece.rfind(b"\n") + 1
        if end:
            yield b"".join(held) + piece[:end]
            held = []
        held.append(piece[end:])
    last = b"".join(held)
    if last:
        yield last


def lines(pieces):
    for block in blocks(pieces):
        yield from block.split(b"\n")[:-1]


def place_in(answer):
    """The path, line and column in an answer, or None where it has none."""
    start, is_known, path = answer.partition(b' path "')
    if not is_known:
        return None
    words = start.split(b" ")
    numbers = dict(zip(words[1::2], words[2::2]))
    # With a character that is escaped, a path stays between its quotes, unless that is the backslash of Windows.
    is_plain = b"\\" not in path.replace(BACKSLASH, b"")
    path = path[:-1].replace(BACKSLASH, b"\\") if is_plain else b'"' + path
    return b"%s:%s:%s" % (path, numbers[b"line"], numbers[b"column"])


def is_alone(block, match):
    """Whether nothing else stands behind in the line."""
    return block[match.end() : match.end() + 1] in (b"\n", b"") or block[match.end() : match.end() + 2] == b"\r\n"


class Lookups:
    """The addresses of a text, and what the program says of them."""

    def __init__(self, run, image, base):
        self.run, self.image = run, image
        self.answers = lines(run.pieces())
        next(self.answers, None)  # to the probe
        # In ELF offsets are addresses, so its headers are asked only where a base is given.
        self.first = 0 if base is None and image.kind == "ELF" else image.base()
        self.taken_away = 0 if base is None else base - self.first
        self.asked = self.inside = 0
        self.has_ended = False  # whether the program ended before it answered, as its status says

    def address_of(self, block, match):
        """The address in the program that is meant, or None where it is none. What stands behind a path or a bracket and a plus is an
        offset in the file; behind another name it is one in a function, which isn't known here. A word of letters alone has to be
        alone in its line."""
        number = int(match[1] or match[2] or match[3], 16)
        if match[2] and match[2].isalpha() and not is_alone(block, match):
            return None
        if not match[1] or block[match.start() - 1 : match.start()] != b"+":
            return number - self.taken_away
        before = block[max(0, match.start() - OFFSET) : match.start() - 1]
        name = before[1 + max(map(before.rfind, (b" ", b"\t", b"\n", b"(", b"[", b"<"))) :]
        if name and b"/" not in name and b"\\" not in name:
            return None
        return number + (0 if self.image.kind == "ELF" else self.first)

    def told_of(self, addresses):
        """What is said of each of these addresses, which are few enough for a pipe, so that neither side waits for the other. Where the
        program ended, nothing is said of the others."""
        told = dict.fromkeys(address for address in addresses if 0 <= address < 1 << 64)
        self.run.feed(b"".join(b"0x%x\n" % address for address in told))
        for address in told:
            answer = next(self.answers, None)
            self.has_ended = answer is None
            if self.has_ended:
                break
            told[address] = place_in(answer)
        return told

    def is_inside(self, address, told):
        return self.image.has_code_at(address) if self.image.code else told.get(address) is not None

    def added(self, block):
        """Some lines, with what is said of the addresses in them."""
        matches, last = ADDRESS.finditer(block), 0
        while not self.has_ended and (some := list(itertools.islice(matches, FEW))):
            found = [(match.end(), self.address_of(block, match)) for match in some]
            found = [(end, address) for end, address in found if address is not None]
            told = self.told_of(address for _, address in found)
            self.asked += len(found)
            self.inside += sum(self.is_inside(address, told) for _, address in found)
            parts = []
            for end, address in found:
                if told.get(address):
                    parts += [block[last:end], b" ", told[address]]
                    last = end
            yield b"".join(parts)
        yield block[last:]


def all_beyond(image, name, base):
    """What to do where no address of the text lies in the program."""
    where = ""
    if image.code:
        where = ", whose code begins at 0x%x and ends below 0x%x" % (min(low for low, _ in image.code), max(high for _, high in image.code))
    if base is None:
        what = "where it was loaded elsewhere, --base ADDRESS takes away the address of its first byte there"
    else:
        what = "0x%x, which --base takes away, isn't where it was loaded" % base
    return "no address of the text lies in %s%s: %s" % (shown(name), where, what)


def left_as_it_is(text, sink, status):
    """Writes what isn't read yet of the text, where nothing can be said of it, and no more if it can't be read."""
    try:
        for piece in text:
            sink.write(piece)
    except Refusal as fault:
        tell(str(fault))
    sink.end(status)


def refused(run, name, given, sink):
    """Writes the text as it is, where the program refused the section or ended, and gives the exit status."""
    line, status = run.no(), run.end()
    if status == 2:  # nothing was asked
        return status
    if line:
        tell("%s: %s" % (shown(name), line))
    left_as_it_is(given.text, sink, status)
    return status


def passed_through(run, image, name, given, sink):
    """Writes the text, and gives the exit status."""
    if run.no() or not run.head:
        return refused(run, name, given, sink)
    base = given.base()
    lookups = Lookups(run, image, base)
    for block in blocks(given.text):
        for piece in lookups.added(block):
            sink.write(piece)
    status = run.end()
    sink.end(status)
    if lookups.asked and not lookups.inside and not given.is_quiet and not lookups.has_ended:
        note(all_beyond(image, name, base))
    return status
