"""The word report: a page of HTML about a program and what it is compared with."""

import os
import shlex

from scripts import telling
from scripts.bounded import Refusal
from scripts.object.check import Comparison
from scripts.object.coverage import Coverage, Spread
from scripts.object.html_page import page
from scripts.object.others import refuse_other
from scripts.object.stretches import ListedPaths
from scripts.object.summary import Findings
from scripts.object.symbol_files import Other
from scripts.telling import shown

LONGEST = 4096  # bytes of an answer


class Part:
    """What a page says of one table or symbol file."""

    def __init__(self, name, command, answer, notes, findings=None, coverage=None):
        self.name, self.command, self.answer, self.notes = name, command, answer, notes
        self.findings, self.coverage = findings, coverage

    @property
    def lines(self):
        return self.answer.splitlines()


class Notes:
    """What is told while a part is made."""

    def __init__(self):
        self.texts = []

    def note(self, text):
        self.texts.append(text)

    def told(self, text):
        self.texts.append(text)


def command_of(given, name, other):
    """The command that gives the answer."""
    typed = [part for option in given.options if option != ["--quiet"] for part in option]
    typed += [word for start, to in given.maps for word in ("--map", os.fsdecode(start + b"=" + to))]
    typed += ["--any-build"] * ("--any-build" in given.own)
    typed += ["--base", given.own["--base"]] if "--base" in given.own else []
    return " ".join(["linetab-object check", *map(shlex.quote, [name, other, *typed])])


class Parts:
    """The parts of a page, one for each table or symbol file of a program."""

    def __init__(self, given, name, question):
        self.given, self.name, self.question = given, name, question
        self.coverage = None

    def of(self, name):
        """The part about one of them."""
        other = Other(name)
        heard = telling.listener = Notes()
        try:
            refuse_other(other, self.name)
            return self.compared(Comparison(self.given, self.name, self.question.image, other), heard)
        finally:
            telling.listener = None
            other.close()

    def compared(self, comparison, heard):
        from scripts.object.command import begun_on, common_words, noted

        command = command_of(self.given, self.name, comparison.other.name)
        line = comparison.other_build()
        if line:
            return Part(comparison.other.name, command, os.fsdecode(line), [])
        comparison.prepare()
        run, marker, address = begun_on(self.question, self.given, comparison, comparison.words())
        answer = b"".join(run.pieces())
        status = run.end()
        if len(answer) < LONGEST:
            comparison.read_counts(answer)
        if status not in (0, 1):
            telling.put_error(run.notes)
            return status
        notes, _ = noted(run, self.name, self.question, marker, address, self.given.is_quiet)
        part = Part(comparison.other.name, command, os.fsdecode(answer), comparison.notes + heard.texts + notes)
        words = common_words(self.given, marker, address)
        if answer.startswith((b"yes", b"no 40 ", b"no 46 ")):
            self.add_findings(part, comparison, words)
        else:
            part.notes += comparison.diagnosis(run, self.question, words)[0]
        return part

    def add_findings(self, part, comparison, words):
        tally = Spread(comparison.image, 0)
        if self.coverage is None:
            self.coverage = Coverage(tally.functions, self.question, words, ListedPaths(self.question, words))
        tally.total = self.coverage.total()
        part.coverage = self.coverage
        part.findings = Findings(comparison, self.question, words, tally)


def passed_on(given, name, question, sink):
    """Writes the page, and gives the exit status."""
    from scripts.object.command import misused, of_older_units

    if not given.others:
        return misused(given.word, given)
    run, older = of_older_units(question, given.word, given)
    if run is not None:
        raise Refusal("its units of versions 2 to 4 can't be upgraded: %s" % shown(run.no()))
    parts, made = Parts(given, name, question), []
    for other in given.others:
        part = parts.of(other)
        if not isinstance(part, Part):
            return part
        made.append(part)
    for piece in page(name, made, older):
        sink.write(piece.encode("utf-8", "backslashreplace"))
    sink.end(0)
    return 0
