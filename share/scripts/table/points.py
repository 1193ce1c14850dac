"""What a program says of each address that it is asked."""

import errno
import itertools
import os
import re
import subprocess
import tempfile
import threading

from scripts.bounded import Refusal, opened
from scripts.kinds import HEAD
from scripts.object.image import image_of, inside
from scripts.table.source import refuse_foreign
from scripts.table.spans import BEYOND, joined, meant
from scripts.telling import shown


class Dialect:
    """How a program is asked about addresses: its words, and what it says of each after the address. `mark` is in the names of such
    programs."""

    def __init__(self, name, mark, words, answer, columns, closing):
        self.name, self.mark, self.words, self.columns = name, mark, words, columns
        self.answer = re.compile(answer, re.DOTALL)
        self.closing = closing  # whether an empty line ends each answer


DIALECTS = [
    Dialect("llvm-symbolizer", "symbolizer", ["--functions=none", "--no-inlines", "--addresses", "--obj"],
            rb"(.*):([0-9]{1,19}):([0-9]{1,19})", True, True),
    Dialect("eu-addr2line", "eu-addr2line", ["-a", "-e"], rb"(.*?):([0-9]{1,19})(?::([0-9]{1,19}))?", True, False),
    Dialect("addr2line", "addr2line", ["-a", "-e"], rb"(.*):([0-9]{1,19}|\?)(?: \(discriminator [0-9]+\))?", False, False),
]
BLOCK = 4096


def dialect_of(command, like=None):
    """How a command is asked: as the one that it is like, or else by its own name."""
    name = os.path.basename(command)
    return next((dialect for dialect in DIALECTS if (dialect.mark in name if like is None else dialect.name == like)), None)


def code_of(asked):
    """The file that COMMAND is asked about, and the ranges of addresses of its code, in order."""
    path = inside(asked.file)
    data = opened(path)
    refuse_foreign(asked, data.part(0, HEAD).take(0, min(data.size, HEAD)))
    image = image_of(data, path)
    if image.loose:
        raise Refusal(image.loose)
    code, end = [], 0
    for low, high in sorted(image.code):
        low = max(low, end)
        if low < high:
            code.append((low, high))
            end = high
    # Sections whose bytes are in another file are asked about too, but not what no such file has.
    if not code or end > BEYOND or sum(high - low for low, high in code) > 16 * os.path.getsize(path):
        raise Refusal("it has no code, or more than a file of its size has")
    return path, code


class Asked:
    """A program that is asked of one address after the other, in blocks."""

    def __init__(self, command, dialect, path, code):
        self.name, self.dialect, self.code = shown(command), dialect, code
        self.said = tempfile.TemporaryFile()
        words = [command, *dialect.words, path]
        try:
            self.run = subprocess.Popen(words, stdin=subprocess.PIPE, stdout=subprocess.PIPE, stderr=self.said, bufsize=1 << 16)
        except OSError as error:
            if error.errno == errno.ENOMEM:
                raise
            raise Refusal("%s can't be run: %s" % (self.name, error.strerror)) from None
        try:
            threading.Thread(target=self.ask, daemon=True).start()
        except RuntimeError:
            self.run.kill()
            raise MemoryError from None

    def ask(self):
        try:
            for low, high in self.code:
                for first in range(low, high, BLOCK):
                    self.run.stdin.write(b"".join(b"0x%x\n" % address for address in range(first, min(first + BLOCK, high))))
            self.run.stdin.close()
        except OSError:
            pass  # it ended: what reads its answers tells

    def answers(self):
        """Each address, and what is said of it."""
        out, closing = self.run.stdout, self.dialect.closing
        for low, high in self.code:
            for address in range(low, high):
                echo, text = out.readline(), out.readline()
                if not text or int(echo, 16) != address or closing and out.readline() != b"\n":
                    raise ValueError
                yield address, text

    def failed(self):
        """What it said when it failed."""
        self.run.kill()
        self.run.wait()
        self.said.seek(0)
        line = self.said.readline(1000).rstrip(b"\n")
        return Refusal("%s doesn't answer for each address: %s" % (self.name, shown(line) if line else "its answer isn't as it should be"))

    def spans(self):
        """Each longest run of addresses with the same answer."""
        low = high = text = None
        for address, said in itertools.chain(self.answers(), [(None, None)]):
            if said == text and address == high:
                high += 1
                continue
            answer = None if text is None else self.meant(text)
            if answer:
                yield low, high, answer
            low, text = address, said
            high = None if address is None else address + 1

    def meant(self, text):
        """The answer that a line says, or none where nothing is known."""
        match = self.dialect.answer.fullmatch(text.rstrip(b"\n"))
        if not match:
            raise ValueError
        return meant(*match.groups())


def from_points(asked):
    path, code = code_of(asked)
    program = Asked(asked.command, dialect_of(asked.command, asked.like), path, code)
    try:
        yield from joined(program.spans())
    except ValueError:
        raise program.failed() from None
