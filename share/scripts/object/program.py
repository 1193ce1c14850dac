"""The program linetab, its runs, and the files that it is given."""

import os
import sys

from scripts.bounded import PIECE, Failure, Stored, failure, stored
from scripts.object.image import JUDGED, LINE, STRINGS
from scripts.telling import put_error, put_whole

LINETAB = os.path.join(os.path.dirname(os.path.realpath(sys.argv[0])), "linetab")
IGNORED = (13, 25)  # SIGPIPE and SIGXFSZ, which Python ignores
SAID = 1 << 16  # bytes that are kept of what the program says on standard error


class Run:
    """A run of the program with these words. What it answers is read here, and what it says on standard error, once it has ended. Where
    it is fed, its standard input is written here."""

    def __init__(self, words, said=None, is_fed=False):
        self.input = self.status = None
        self.head = self.notes = b""
        self.output, out = os.pipe()
        self.said = os.memfd_create("notes") if said is None else said
        actions, theirs = [(os.POSIX_SPAWN_DUP2, out, 1), (os.POSIX_SPAWN_DUP2, self.said, 2)], [out]
        if is_fed:
            given, self.input = os.pipe()
            actions.append((os.POSIX_SPAWN_DUP2, given, 0))
            theirs.append(given)
        try:
            self.process = os.posix_spawn(LINETAB, ["linetab-object", *words], os.environ, file_actions=actions, setsigdef=IGNORED)
        except OSError as error:
            self.close()
            raise failure("the program linetab can't be run: %s", error) from None
        finally:
            for descriptor in theirs:
                os.close(descriptor)

    def feed(self, content):
        """Writes to its standard input. Where it reads no more, its answer says why."""
        try:
            if content:
                put_whole(self.input, content)
        except BrokenPipeError:
            pass

    def begin(self):
        """Waits for the first bytes of its answer; where they are a no, for the whole line."""
        while not self.head or b"no ".startswith(self.head[:3]) and b"\n" not in self.head and len(self.head) < PIECE:
            piece = os.read(self.output, PIECE)
            if not piece:
                break
            self.head += piece

    def no(self):
        """The first line of its answer, where that is a no."""
        if self.output is not None:
            self.begin()
        line = self.head.split(b"\n", 1)[0]
        return os.fsdecode(line) if line.startswith(b"no ") else ""

    def pieces(self):
        """Its answer, as it comes."""
        if self.output is not None:
            self.begin()
        if self.head:
            yield self.head
        while self.output is not None:
            piece = os.read(self.output, PIECE)
            if not piece:
                break
            yield piece

    def close(self):
        for descriptor in (self.output, self.input, self.said):
            if descriptor is not None:
                os.close(descriptor)
        self.output = self.input = self.said = None

    def stop(self):
        """Ends it where no more of a no is wanted."""
        os.kill(self.process, 9)
        self.end()
        self.status = 1

    def end(self):
        """Its exit status, or the signal that ended it, below 0."""
        if self.status is None:
            for descriptor in (self.output, self.input):
                if descriptor is not None:
                    os.close(descriptor)
            self.output = self.input = None
            self.status = os.waitstatus_to_exitcode(os.waitpid(self.process, 0)[1])
            if self.said is not None:
                self.notes = os.pread(self.said, SAID, 0)
            self.close()
        return self.status

    def judged(self):
        """Its exit status, which is that of an answer: a run that ends otherwise fails."""
        if self.end() == 4:
            raise MemoryError
        if self.status not in (0, 1):
            raise Failure("the program linetab judged nothing, and ended with %d" % self.status)
        return self.status


def asked(words):
    """A whole run with these words, its answer, and what it says on standard error. Where the program is built first, lines about that
    are told as they come."""
    ours, theirs = os.pipe()
    run = Run(words, said=theirs)
    os.close(theirs)
    run.said, held = None, []
    with open(ours, "rb") as said:
        for line in said:
            if line.startswith(b"linetab: "):
                put_error(line)
            else:
                held.append(line)
    answer = b"".join(run.pieces())
    run.end()
    return run.status, os.fsdecode(answer), os.fsdecode(b"".join(held))


def without_name(folder):
    """A new file without a name."""
    try:
        return os.open(folder, os.O_TMPFILE | os.O_RDWR, 0o600)
    except OSError:
        import tempfile

        with tempfile.TemporaryFile() as file:
            return os.dup(file.fileno())


def written(what, step, *given):
    """What a step gives by which a file without a name is made, and what that has."""
    try:
        return step(*given)
    except OSError as error:
        raise failure(what + " can't be written to a temporary file: %s", error) from None


def unnamed(pieces, what="its sections"):
    """A file with these bytes and without a name, which is gone when no program has it open."""
    file = written(what, without_name, os.environ.get("TMPDIR") or "/tmp")
    try:
        for piece in pieces:
            written(what, put_whole, file, piece)
    except BaseException:
        os.close(file)
        raise
    return file


def copied(part, what="its sections"):
    """A file with these bytes of another one and without a name. What takes no room there takes none here."""
    if not isinstance(part.whole, Stored):
        return unnamed(part.pieces(), what)
    file = unnamed((), what)
    try:
        written(what, os.ftruncate, file, part.size)
        for start, end in part.whole.extents(part.start, part.start + part.size):
            copy_range(part, start - part.start, end - part.start, file, what)
    except BaseException:
        os.close(file)
        raise
    return file


def copy_range(part, start, end, file, what):
    """Copies some bytes of a part of a file to the same place in another file; the system does it, if it can."""
    while start < end:
        try:
            size = os.copy_file_range(part.whole.descriptor, file, end - start, part.start + start, start)
        except OSError:  # also where the files lie in different file systems
            size = 0
        if size == 0:
            piece = part.take(start, min(end - start, PIECE))
            size = written(what, os.pwrite, file, piece, start)
        start += size


class Question:
    """What the program is asked of an image: the sections as files, and the options that hand them over, where the word takes them."""

    def __init__(self, image, taken):
        self.image, self.taken, self.files, self.others = image, taken, {}, []
        self.versions = (5,)  # those of units that are read
        self.upgrading = "with --older"  # how others would be read too
        for name in JUDGED:
            if image.has(name):
                part, unpack = image.part(name)
                self.put(name, unnamed(unpack(name, part)) if unpack else copied(part))
        self.options = {"--big": []} if image.big else {}
        self.options.update((option, [self.name_of(name)]) for option, name in STRINGS.items() if image.has(name))

    def __enter__(self):
        return self

    def __exit__(self, *_):
        for file in [*self.files.values(), *self.others]:
            os.close(file)

    def put(self, section, file):
        """Has a file as a section, in the place of another one, if there is one."""
        before = self.files.get(section)
        os.set_inheritable(file, True)
        self.files[section] = file
        if before is not None:
            os.close(before)

    def kept(self, file):
        """Keeps another file for the program, and gives the name by which that opens it."""
        os.set_inheritable(file, True)
        self.others.append(file)
        return "/proc/self/fd/%d" % file

    def name_of(self, section):
        """The name by which a program that inherits the file opens it."""
        return "/proc/self/fd/%d" % self.files[section]

    def section(self):
        """The bytes of the line number section."""
        return stored(self.files[LINE])

    def run(self, word, words, others=(), taken=None, is_fed=False):
        """A run of a word on the section, with the options that it takes, these words, and others behind the section. That any copy counts is
        a check's; others skip copies."""
        taken = self.taken if taken is None else taken
        if word != "check":
            words = ["--skip-copies" if each == "--any-copy" else each for each in words]
        options = [part for option, value in self.options.items() if option in taken for part in (option, *value)]
        return Run([word, *options, *words, self.name_of(LINE), *others], is_fed=is_fed)

    def verdict(self, *words):
        """The first line about the section itself, and the notes to it."""
        run = self.run("verify", words, taken={"--big", *STRINGS})
        line = b"".join(run.pieces())
        run.judged()
        return os.fsdecode(line).rstrip("\n"), os.fsdecode(run.notes)
