"""What a program is compared with: an address table, or a symbol file, of which a table is made."""

import os
import stat

from scripts.bounded import ABSENT, PIECE, Failure, Refusal, standard_input, stored
from scripts.kinds import BREAKPAD, MAGICS
from scripts.object.image import READERS
from scripts.object.program import Run, unnamed
from scripts.telling import put_whole, shown

GZIP = b"\x1f\x8b"
RATIO = 100  # bytes that a compressed one may stand for, beyond one piece
READ_TWICE = 16 << 20  # bytes of a GSYM file that is also read as older readers do


def kind_of(data):
    """Which kind of symbol file these bytes begin, or None."""
    return next((kind for magic, kind in MAGICS if data.has(magic)), None)


def identifier_in(head, kind):
    """The identifier of a build that a symbol file has which begins so, or None if it has none."""
    if kind == BREAKPAD:
        words = head.split(b"\n", 1)[0].split()
        text = os.fsdecode(words[3]) if len(words) > 3 else ""
    else:
        text = head[28 : 28 + min(head[7], 20)].hex() if len(head) >= 48 else ""
    return text if text.strip("0") else None


def inflated(packed):
    """What gzip packed, in pieces."""
    import zlib

    left = PIECE + RATIO * packed.size
    rest = packed
    try:
        while rest.size:
            unpacker, taken = zlib.decompressobj(31), 0
            for piece in rest.pieces():
                while piece and not unpacker.eof:
                    whole = unpacker.decompress(piece, PIECE)
                    left -= len(whole)
                    if left < 0:
                        raise Refusal("it stands for more than %d times its bytes: gunzip unpacks it" % RATIO)
                    yield whole
                    piece = unpacker.unconsumed_tail
                taken += PIECE
                if unpacker.eof:
                    break
            if not unpacker.eof:
                raise Refusal("it is cut or damaged, as gzip packed it")
            taken = min(taken, rest.size) - len(unpacker.unused_data)
            rest = rest.part(taken, rest.size)
    except zlib.error:
        raise Refusal("it is cut or damaged, as gzip packed it") from None


class Naming:
    """Gives a refusal the name of a file."""

    def __init__(self, name):
        self.name = name

    def __enter__(self):
        return self

    def __exit__(self, _kind, fault, _trace):
        if isinstance(fault, Refusal):
            raise Refusal(str(fault), self.name) from None


class Other:
    """The file behind the program: what it is, its bytes, and the name by which the program linetab opens it."""

    def __init__(self, name):
        self.name, self.opened_as = name, name
        self.kept = []  # files without a name
        try:
            with Naming(self.name):
                self.data = self.whole()
        except OSError as error:
            if error.errno not in ABSENT:
                raise Failure("cannot read it: %s" % error.strerror, name) from None
            self.data = None  # what the program linetab says of it is as good
        if self.data is not None and self.data.has(GZIP):
            with Naming(self.name):
                self.data = self.keep(inflated(self.data))
            self.opened_as = "/proc/self/fd/%d" % self.kept[-1]
        self.kind = None if self.data is None else kind_of(self.data)

    def whole(self):
        """The bytes of it. Of a pipe they are kept in a file, and standard input is that file then."""
        if self.name != "-":
            if os.path.isdir(self.name):
                return None
            descriptor = os.open(self.name, os.O_RDONLY)
            try:
                if stat.S_ISREG(os.fstat(descriptor).st_mode):
                    return stored(descriptor)
                data = self.keep(iter(lambda: os.read(descriptor, PIECE), b""))
            finally:
                os.close(descriptor)
            self.opened_as = "/proc/self/fd/%d" % self.kept[-1]
            return data
        mode = os.fstat(0).st_mode
        if stat.S_ISDIR(mode):
            return None
        if not (stat.S_ISREG(mode) and os.lseek(0, 0, os.SEEK_CUR) == 0):
            self.keep(standard_input())
            os.lseek(self.kept[-1], 0, os.SEEK_SET)
            os.dup2(self.kept[-1], 0)
        return stored(0)

    def keep(self, pieces):
        """Keeps bytes in a file without a name, which programs inherit, and gives them."""
        file = unnamed(pieces)
        os.set_inheritable(file, True)
        self.kept.append(file)
        return stored(file)

    def rewind(self):
        """Lets a second run of the program read it from its first byte on, where it is standard input."""
        if self.opened_as == "-" and self.data is not None:
            os.lseek(0, 0, os.SEEK_SET)

    def close(self):
        for file in self.kept:
            os.close(file)

    def table(self):
        """The bytes of the table, which is made of a symbol file."""
        return stored(self.kept[-1]) if self.is_symbol_file else self.data

    @property
    def is_symbol_file(self):
        return self.kind is not None

    def is_program(self):
        return self.data is not None and any(self.data.has(magic) for magic, _ in READERS)

    def identifier(self):
        """The identifier of the build that it is of, or None if it has none."""
        return identifier_in(self.data.take(0, min(self.data.size, 1 << 12)), self.kind)

    def older_spans(self):
        """The spans of a GSYM file as readers up to LLVM 17 answer, as they come."""
        from scripts.table.gsym import spans_of

        yield from spans_of(self.data.whole)

    def symbols(self, base):
        """A run of the program linetab that prints the table of a symbol file. The addresses in one of Breakpad count from `base`."""
        with Naming(self.name):
            if self.kind == BREAKPAD and self.data.take(self.data.size - 1, 1) not in (b"\n", b"\r"):
                raise Refusal("its last line, %d, has no end: it is cut" % sum(1 for _ in self.data.lines()))
        self.rewind()
        return Run(["symbols", "--quiet", *(["--base", "0x%x" % base] if self.kind == BREAKPAD else []), "--", self.opened_as])

    def put_table(self, spans):
        """Writes a table of spans, which the program linetab opens in place of the symbol file."""
        from scripts.table.spans import joined, table_of

        with Naming(self.name):
            self.put(table_of(joined(spans), False))

    def put(self, pieces):
        """Has these bytes be what the program linetab opens in place of the symbol file."""
        self.keep(pieces)
        self.opened_as = "/proc/self/fd/%d" % self.kept[-1]
