"""The bytes of a file, read within bounds, so that no few bytes of it cost much."""

import errno
import gc
import io
import os
import stat
import struct

PIECE = 1 << 20  # bytes that are read, unpacked and written at once
PAGE = 1 << 14  # bytes that are kept of a file where some of them are read
MOST_PAGES = 64
MOST_OPEN = 100  # files, before those that nothing has any longer are looked for
LONGEST = 64  # bytes that are read of a section's name; those that are asked for have fewer
MOST = 1 << 16  # sections, load commands or units that are gone through
DAMAGED = "its headers reach past the end of the file, or aren't whole: it is cut or damaged"
CUT_MEANWHILE = "it was cut while it was read"
NO_MEMORY = ("map segment", "allocate memory")  # what Python says where no memory is left for a module
# Why there is no file at a place where one may be. Any other reason is the machine's.
ABSENT = {errno.ENOENT, errno.ENOTDIR, errno.ELOOP, errno.ENAMETOOLONG, errno.EACCES}


class Refusal(Exception):
    """What can't be done, and what to do about it; `name` is that of the file, if it isn't the first one."""

    def __init__(self, text, name=None):
        super().__init__(text)
        self.name = name


class Nothing(Refusal):
    """The same, of a file that is as it should be, and has no line numbers with final addresses."""


class Failure(Exception):
    """What the machine couldn't do; `name` is that of the file, if it isn't the first one. It is no Refusal, which is about a file: nothing
    goes on as if the file had less in it."""

    def __init__(self, text, name=None):
        super().__init__(text)
        self.name = name


def failure(text, error):
    """Why the system refused something: that memory ran out, or a text in which its reason stands."""
    return MemoryError() if error.errno == errno.ENOMEM else Failure(text % error.strerror)


def is_of_memory(fault):
    """Whether memory ran out, also for a module of Python's own that is imported late."""
    if isinstance(fault, ImportError):
        return any(text in str(fault) for text in NO_MEMORY)
    return isinstance(fault, MemoryError) or isinstance(fault, OSError) and fault.errno == errno.ENOMEM


def reason_of(fault):
    """Why nothing was answered, and the exit status."""
    if is_of_memory(fault):
        return "out of memory", 4
    if isinstance(fault, (Refusal, Failure)):
        return str(fault), 3
    if isinstance(fault, OSError):
        return "cannot read it: %s" % fault.strerror, 3
    # Python's own status would be 1, which is that of a no.
    return "cannot read it, by a fault of this program: %r" % fault, 3


class Stored:
    """The bytes of an open regular file, read where they are asked for: where the file is cut meanwhile, that is told. A map of it would
    end this program by a signal then."""

    count = 0  # of those that are open

    def __init__(self, descriptor):
        if Stored.count >= MOST_OPEN:
            gc.collect()
        self.descriptor = os.dup(descriptor)
        Stored.count += 1
        self.size, self.pages = os.fstat(self.descriptor).st_size, {}

    def __del__(self):
        if hasattr(self, "descriptor"):
            os.close(self.descriptor)
            Stored.count -= 1

    def __len__(self):
        return self.size

    def __getitem__(self, key):
        if isinstance(key, int):
            return self.page(key // PAGE)[key % PAGE]
        start, end, _ = key.indices(self.size)
        first = start // PAGE
        if start < end <= (first + 1) * PAGE:
            return self.page(first)[start - first * PAGE : end - first * PAGE]
        return self.read(start, end - start) if start < end else b""

    def page(self, number):
        """A page of the file, of which some are kept."""
        found = self.pages.get(number)
        if found is None:
            if len(self.pages) == MOST_PAGES:
                self.pages.clear()
            found = self.pages[number] = self.read(number * PAGE, max(0, min(PAGE, self.size - number * PAGE)))
        return found

    def read(self, at, size):
        """So many bytes, which were there when the file was opened."""
        piece = os.pread(self.descriptor, size, at)
        if len(piece) == size:
            return piece
        pieces = [piece]
        while piece and (size := size - len(piece)):
            at += len(piece)
            piece = os.pread(self.descriptor, size, at)
            pieces.append(piece)
        if size:
            raise Failure(CUT_MEANWHILE)
        return b"".join(pieces)

    def find(self, byte, start, end):
        """Where a byte stands first between two offsets, or -1."""
        while start < end:
            stop = min(end, (start // PAGE + 1) * PAGE)
            found = self[start:stop].find(byte)
            if found >= 0:
                return start + found
            start = stop
        return -1

    def extents(self, start, end):
        """Where the file has bytes between two offsets. All others are zeros, and take no room."""
        while start < end:
            try:
                start = os.lseek(self.descriptor, start, os.SEEK_DATA)
                stop = os.lseek(self.descriptor, start, os.SEEK_HOLE)
            except OSError as error:
                if error.errno == errno.ENXIO:  # there is none behind
                    break
                stop = end
            if start < end:
                yield start, min(stop, end)
            start = stop
        if os.fstat(self.descriptor).st_size < end:
            raise Failure(CUT_MEANWHILE)


class Raw(io.RawIOBase):
    """A part of a file, from which lines can be read."""

    def __init__(self, part):
        super().__init__()
        self.part, self.at = part, 0

    def readable(self):
        return True

    def readinto(self, room):
        piece = self.part.part(self.at, len(room))
        room[: piece.size] = piece.take(0, piece.size)
        self.at += piece.size
        return piece.size


class Part:
    """Bytes that stand one behind another in a file. What would reach past them is refused, and not read."""

    __slots__ = ("whole", "start", "size")

    def __init__(self, whole, start, size):
        self.whole, self.start, self.size = whole, start, size

    def part(self, offset, size):
        """So many of these bytes from an offset on, or as many as there are."""
        offset = min(offset, self.size)
        return Part(self.whole, self.start + offset, min(size, self.size - offset))

    def has(self, content, offset=0):
        """Whether these bytes stand at an offset."""
        part = self.part(offset, len(content))
        return part.take(0, part.size) == content

    def take(self, offset, size):
        """So many bytes at an offset, which have to be there."""
        if offset + size > self.size:
            raise Refusal(DAMAGED)
        return self.whole[self.start + offset : self.start + offset + size]

    def numbers(self, layout, offset):
        return struct.unpack(layout, self.take(offset, struct.calcsize(layout)))

    def name(self, offset, size=LONGEST):
        """The name at an offset, which a zero byte ends, and no more of it than so many bytes."""
        part = self.part(offset, size)
        return os.fsdecode(part.take(0, part.size).split(b"\0")[0])

    def leb(self, offset):
        """A number of at most 35 bits in LEB128 at an offset, and the offset behind it."""
        start = self.start + min(offset, self.size)
        try:
            value, end = leb(self.whole, start, min(start + 5, self.start + self.size))
        except IndexError:
            raise Refusal(DAMAGED) from None
        return value, end - self.start

    def pieces(self):
        """All bytes, in pieces."""
        for offset in range(0, self.size, PIECE):
            yield self.take(offset, min(PIECE, self.size - offset))

    def without_holes(self):
        """The same, but for all but a few of the bytes that take no room in the file, which are zeros."""
        if not isinstance(self.whole, Stored):
            yield from self.pieces()
            return
        for start, end in self.whole.extents(self.start, self.start + self.size):
            first = max(0, start - self.start - LONGEST)
            yield from self.part(first, end - self.start + LONGEST - first).pieces()

    def lines(self):
        """The lines of it, each with its end."""
        return io.BufferedReader(Raw(self), PAGE)


def place_of(status):
    """By what a regular file is known, whatever its names; None if it is no regular file."""
    return (status.st_dev, status.st_ino) if stat.S_ISREG(status.st_mode) else None


# The files that were read here, so that none of them is overwritten.
files_read = set()


def stored(descriptor):
    """The bytes of an open regular file."""
    files_read.add(place_of(os.fstat(descriptor)))
    whole = Stored(descriptor)
    return Part(whole, 0, whole.size)


def opened(path):
    """The bytes of a regular file. No other file is opened: a pipe could be waited for without an end."""
    if not stat.S_ISREG(os.stat(path).st_mode):
        raise Refusal("it isn't a regular file: write its content into one")
    descriptor = os.open(path, os.O_RDONLY)
    try:
        return stored(descriptor)
    finally:
        os.close(descriptor)


def standard_input():
    """Standard input, as it comes."""
    while True:
        try:
            piece = os.read(0, PIECE)
        except OSError as error:
            raise Refusal("standard input can't be read: %s" % error.strerror) from None
        if not piece:
            return
        yield piece


def few(headers):
    """These headers, which are refused where they are more than any program has."""
    for count, header in enumerate(headers):
        if count == MOST:
            raise Refusal("it has more than %d headers of sections or commands, which no program has" % MOST)
        yield header


def found_in(pieces, marks):
    """Which of these marks occur in the bytes that the pieces make together."""
    found, last = set(), b""
    for piece in pieces:
        window = last + piece
        found.update(mark for mark in marks if mark not in found and mark in window)
        last = window[1 - max(map(len, marks)) :]
    return found


def leb(whole, at, end, signed=False):
    """A number in LEB128 that begins at an index of bytes and ends before another one, and the index behind it. Bits from the 70th on
    don't count. IndexError if it doesn't end there."""
    value = shift = 0
    while at < end:
        byte = whole[at]
        at += 1
        if shift < 64:
            value |= (byte & 0x7F) << shift
        shift += 7
        if byte < 0x80:
            return value - (1 << shift) if signed and byte & 0x40 else value, at
    raise IndexError
