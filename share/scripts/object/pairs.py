"""check -r: the programs in a folder, and what is in another one, paired by the identifiers of their builds, or by their names."""

import copy
import os
import zlib
from collections import Counter

from scripts.bounded import Failure, Nothing, Refusal, opened
from scripts.kinds import BREAKPAD, GSYM, HEAD, PROGRAM, TABLE, kind_of
from scripts.object.folders import Answers, below, files_below
from scripts.object.identity import breakpad_identifier, gsym_identifier
from scripts.object.image import LINE, image_of, judged
from scripts.object.jobs import Jobs, Work
from scripts.object.output import Named, Standard
from scripts.object.symbol_files import GZIP, identifier_in
from scripts.object.words import Usage
from scripts.telling import shown, tell

# Kinds of what programs are compared with, by their ends, where the first bytes don't tell.
ENDS = {".sym": BREAKPAD, ".gsym": GSYM, ".csv": TABLE}
NO_SYMBOLS, NO_PROGRAM = "no symbol file", "no program"
LACKS_SYMBOLS, LACKS_PROGRAM = 60, 61  # statuses of jobs


# ---- what is in the folders


class Program:
    """A program, and by what it is known."""

    def __init__(self, path, folder):
        self.path, self.place = path, os.path.relpath(path, folder)
        self.identifiers, self.has_lines = {}, False
        self.others = []  # of the same build
        self.symbols = []
        try:
            image = image_of(opened(path), path)
            self.has_lines = image.has(LINE)
            self.identifiers = {BREAKPAD: breakpad_identifier(image), GSYM: gsym_identifier(image)}
        except (Refusal, OSError):  # what is answered about it says so
            pass

    def build(self):
        """By what programs of one build are known."""
        return self.identifiers.get(GSYM) or self.identifiers.get(BREAKPAD) or self.path

    def is_called(self, name):
        """How well a symbol file of this name fits: by the whole name of the program, without its end, or not."""
        own = os.path.basename(self.path)
        return 2 if own == name else 1 if os.path.splitext(own)[0] == name else 0


class Symbols:
    """A table or symbol file, by its first bytes."""

    def __init__(self, path, folder):
        self.path, self.place = path, os.path.relpath(path, folder)
        name = os.path.basename(path)
        with open(path, "rb", buffering=0) as file:
            head = file.read(HEAD)
        if head.startswith(GZIP):
            name, head = name.removesuffix(".gz"), inflated(head)
        self.name, end = os.path.splitext(name)
        kind = kind_of(head)
        self.is_program = kind == PROGRAM
        self.kind = kind if kind in (BREAKPAD, GSYM, TABLE) else ENDS.get(end)
        self.identifier = identifier_in(head, self.kind) if kind in (BREAKPAD, GSYM) else None


def inflated(head):
    """What the first bytes stand for that gzip packed."""
    try:
        return zlib.decompressobj(31).decompress(head, HEAD)
    except zlib.error:
        return b""


def builds(folder, answers):
    """The programs of a folder, in the order of their names. Of those of one build it is the first that has line numbers itself."""
    found = {}
    for path in sorted(below(folder, answers)):
        program = Program(path, folder)
        first = found.setdefault(program.build(), program)
        if first is not program:
            if program.has_lines and not first.has_lines:
                found[program.build()], first, program = program, program, first
                first.others = program.others
            first.others.append(program)
    return sorted(found.values(), key=lambda program: program.path)


def symbols_of(folder, answers):
    """The tables and symbol files of a folder, in the order of their names."""
    for path in sorted(files_below(folder, answers)):
        try:
            symbols = Symbols(path, folder)
        except OSError as error:
            answers.refuse(path, error)
            continue
        if symbols.kind:
            yield symbols
        elif not symbols.is_program:
            answers.passed += 1


# ---- pairs


class Pairing:
    """Programs by their identifiers and names."""

    def __init__(self, programs):
        self.programs, self.by_identifier, self.by_name = programs, {}, {}
        for program in programs:
            for kind, identifier in program.identifiers.items():
                if identifier:
                    self.by_identifier.setdefault((kind, identifier.upper()), program)
            for one in (program, *program.others):
                name = os.path.basename(one.path)
                for each in {name, os.path.splitext(name)[0]}:
                    self.by_name.setdefault(each, []).append((program, one))

    def program_of(self, symbols):
        """The program that these are of, or None."""
        if symbols.identifier:
            found = self.by_identifier.get((symbols.kind, symbols.identifier.upper()))
            return found or self.named(symbols, lambda program: not program.identifiers.get(symbols.kind))
        return self.named(symbols, lambda program: True)

    def named(self, symbols, is_wanted):
        """The one program after which these are named, in the same folder if several are."""
        folder = os.path.dirname(symbols.place)
        found = [((os.path.dirname(one.place) == folder, one.is_called(symbols.name)), program)
                 for program, one in self.by_name.get(symbols.name, ()) if is_wanted(program)]
        best = max((fits for fits, _ in found), default=None)
        chosen = {id(program): program for fits, program in found if fits == best}
        return chosen.popitem()[1] if len(chosen) == 1 else None


# ---- answers


def answer(given, one, program, symbols):
    """The exit status of a check of a pair."""
    asked = copy.copy(given)
    asked.files, asked.others = [program.path], [symbols.path]
    if given.is_json:
        return one(given.word, asked, program.path, Standard())
    names = [program.path] + [symbols.path] * (len(program.symbols) > 1)
    return one(given.word, asked, program.path, Named(*names))


def without_symbols(given, program):
    """Says that a program has no symbol file, unless it has no line numbers either."""
    try:
        judged(opened(program.path), program.path)
    except Nothing:
        return None
    except (Refusal, Failure) as fault:
        tell("%s: %s" % (shown(program.path), fault))
        return 3
    except OSError as error:
        tell("%s: cannot read it: %s" % (shown(program.path), error.strerror))
        return 3
    lack(given, program.path, None, NO_SYMBOLS, program.build() if program.build() != program.path else None)
    return LACKS_SYMBOLS


def without_program(given, symbols):
    lack(given, None, symbols.path, NO_PROGRAM, symbols.identifier)
    return LACKS_PROGRAM


def lack(given, program, symbols, line, identifier):
    """Writes that one lacks its other half."""
    if given.is_json:
        from scripts.object.report import put_lack

        put_lack(program, symbols, line, identifier)
    else:
        sink = Named(program or symbols)
        sink.write(line.encode() + b"\n")


class Counted(Answers):
    """How many pairs there are of each kind of answer, and what lacks its other half."""

    def __init__(self, word, given):
        super().__init__(word, given)
        self.passed, self.lacks = 0, Counter()

    def add(self, status):
        if status is None:
            self.passed += 1
        elif status in (LACKS_SYMBOLS, LACKS_PROGRAM):
            self.lacks[status] += 1
        else:
            self.statuses.append(status)

    def told(self):
        count = len(self.statuses)
        bad = sum(status not in (0, 1) for status in self.statuses)
        return "%d pair%s: %d yes, %d no, %d not judged; %d without a symbol file, %d without a program, %d passed over\n" % (
            count, "s" * (count != 1), self.statuses.count(0), self.statuses.count(1), bad, self.lacks[LACKS_SYMBOLS],
            self.lacks[LACKS_PROGRAM], self.passed)

    def status(self):
        return 1 if self.lacks else super().status()


def works(given, one, programs, alone):
    """What is done, in the order of names."""
    for program in programs:
        for symbols in program.symbols:
            yield Work(answer, given, one, program, symbols)
        if not program.symbols:
            yield Work(without_symbols, given, program)
    for symbols in alone:
        yield Work(without_program, given, symbols)


def all_answers(word, given, one):
    """Compares all, and gives the exit status."""
    if "--output" in given.own:
        raise Usage("--output takes the answer about one FILE")
    if len(given.files) != 1 or len(given.others) != 1:
        raise Usage("check -r wants a folder of programs, and one of tables or symbol files")
    for folder in (given.files[0], given.others[0]):
        if not os.path.isdir(folder):
            tell("%s: it isn't a folder" % shown(folder))
            return 3
    answers = Counted(word, given)
    programs = builds(given.files[0], answers)
    answers.passed = sum(len(program.others) for program in programs)
    pairing, alone = Pairing(programs), []
    for symbols in symbols_of(given.others[0], answers):
        program = pairing.program_of(symbols)
        (program.symbols if program else alone).append(symbols)
    todo = list(works(given, one, programs, alone))
    for job in Jobs(given.jobs(), len(todo)).ended(todo):
        job.pass_on(Standard())
        if job.status == 2:
            return 2
        answers.add(job.status)
    if not given.is_json:
        Standard().write(os.fsencode(answers.told()))
    return answers.status()
