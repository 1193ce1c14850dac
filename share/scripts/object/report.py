"""An answer as an object of JSON."""

import json
import os
import re
from collections import Counter

from scripts.bounded import PIECE, Refusal
from scripts.object.output import Standard
from scripts.telling import ended_by

NUMBER = re.compile(rb"no ([0-9]+) ")


def text_of(name):
    """A name as it stands in JSON: each byte that isn't UTF-8 is \\x and two digits."""
    return os.fsencode(name).decode("utf-8", "backslashreplace")


class Lines:
    """Lines as an array of JSON, which is kept in a file if it is long."""

    def __init__(self):
        import tempfile

        self.file, self.is_empty = tempfile.SpooledTemporaryFile(PIECE), True

    def add(self, line):
        self.file.write((b"" if self.is_empty else b", ") + json.dumps(text_of(line)).encode())
        self.is_empty = False

    def clear(self):
        self.file.seek(0)
        self.file.truncate()

    def pieces(self):
        yield b"["
        self.file.seek(0)
        yield from iter(lambda: self.file.read(PIECE), b"")
        self.file.close()
        yield b"]"


class Report:
    """An answer about a file, which is kept until it is whole. It takes what is told meanwhile."""

    def __init__(self, given, name):
        self.given, self.name = given, name
        self.rest, self.line = b"", None
        self.notes, self.reasons = [], []
        self.facts = {}
        self.differences = Lines() if "--all" in given.names else None

    # ---- what is written and told

    def write(self, piece):
        *whole, self.rest = (self.rest + piece).split(b"\n")
        for line in whole:
            self.line = line if self.line is None else self.line
            if self.differences and line.startswith(b"no 40 "):
                self.differences.add(line)

    def end(self, status):
        """The answer is whole."""

    def know(self, **facts):
        self.facts.update(facts)

    def note(self, text):
        self.notes.append(text)

    def told(self, text):
        self.reasons.append(text.removeprefix("linetab: "))

    # ---- the object

    def identifier(self):
        """The identifier of the program's build, as symbol files of this kind have it, or else as its format does."""
        from scripts.object.identity import identifier_of

        try:
            return identifier_of(self.facts["image"], getattr(self.facts.get("other"), "kind", None)) if "image" in self.facts else None
        except Refusal:
            return None

    def number(self):
        match = NUMBER.match(self.line or b"")
        return int(match[1]) if match else None

    def missing(self):
        """The bytes of each function that has lines and no answer there. Those between functions stand under an empty name."""
        missed, sizes = self.facts.get("missed"), Counter()
        for name, size in [*missed.listed(), ("", missed.between)] if missed else ():
            sizes[text_of(name)] += size
        return +sizes

    def fields(self, status):
        """The members of the object, but for the differences."""
        is_answer = status in (0, 1) and self.line is not None
        line = text_of(self.line) if is_answer else None
        fields = {"file": text_of(self.name)}
        if self.given.others:
            fields["symbols"] = text_of(self.given.others[0])
        fields.update(identifier=self.identifier(), answer="none" if not is_answer else "yes" if status == 0 else "no")
        fields.update(number=self.number() if is_answer else None, line=line)
        if self.given.others:
            answered, total = self.facts.get("counts") or (None, None)
            fields.update(answered=answered, of=total, missing=self.missing())
        if "summary" in self.facts:
            fields["summary"] = [text_of(line) for line in self.facts["summary"]]
        fields["notes"] = [text_of(note) for note in self.notes]
        if not is_answer:
            reasons = self.reasons + [ended_by(status)] * (status < 0)
            fields.update(reason=text_of("; ".join(reasons)), status=max(status, 3))
        return fields

    def put(self, sink, status):
        """Writes the object."""
        text = json.dumps(self.fields(status)).encode()
        if self.differences:
            sink.write(text[:-1] + b', "differences": ')
            if status not in (0, 1):
                self.differences.clear()
            for piece in self.differences.pieces():
                sink.write(piece)
            text = b"}"
        sink.write(text + b"\n")
        sink.end(status)


def put_lack(program, symbols, line, identifier):
    """Writes the object of a program without a symbol file, or of a symbol file without a program."""
    names = {key: None if name is None else text_of(name) for key, name in (("file", program), ("symbols", symbols))}
    fields = {**names, "identifier": identifier, "answer": "no", "number": None, "line": line, "answered": None, "of": None, "missing": {},
              "notes": []}
    Standard().write(json.dumps(fields).encode() + b"\n")
