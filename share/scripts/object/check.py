"""The word check: a program is compared with an address table, or with a symbol file."""

import os

from scripts.bounded import Failure, Nothing, Refusal
from scripts.kinds import BREAKPAD, GSYM
from scripts.object.identity import identifier_of
from scripts.object.symbol_files import READ_TWICE
from scripts.telling import shown

COUNTED = ([b"yes"], [b"no", b"46"])  # the words before counts
LONGEST = 4096  # bytes of an answer with counts
SECTION_NO = tuple("no %d " % number for number in range(25, 33))
EMPTY = b"low,high,path,line\n"


def counts_in(answer):
    """How many addresses are answered, and of how many, by an answer that has both; else None."""
    words = answer.split()
    if not answer.endswith(b"\n") or words[:-4] not in COUNTED or (words[-4], words[-2]) != (b"answers", b"of"):
        return None
    return int(words[-3]), int(words[-1])


class Comparison:
    """What stands behind the program in `check`, and how the two are compared."""

    def __init__(self, given, name, image, other):
        self.given, self.name, self.image, self.other = given, name, image, other
        self.counts = None  # how many addresses are answered, and of how many, where the answer has both
        self.is_of_this_build = False  # whether the identifiers of both say so
        self.base = 0  # the address from which a symbol file of Breakpad counts
        self.missed = None  # those that aren't, by functions
        self.listing = None  # the lines of --all
        self.summary = []  # the lines of --summary
        self.refused = ""  # the line by which a symbol file is refused
        self.notes = []

    # ---- before

    def own_identifier(self):
        """The identifier of the program, as symbol files of this kind have it, or None."""
        return identifier_of(self.image.program, self.other.kind)

    def other_build(self):
        """The line that says that the symbol file is of another build, or nothing if it is of this one or if that isn't known."""
        if not self.other.is_symbol_file or "--any-build" in self.given.own:
            return b""
        theirs, ours = self.other.identifier(), self.own_identifier()
        if theirs is None or ours is None:
            without = self.other.name if theirs is None else self.name
            self.notes.append("%s has no identifier of its build, so whether %s was made of %s isn't known" % (
                shown(without), shown(self.other.name), shown(self.name)))
            return b""
        self.is_of_this_build = theirs.upper() == ours.upper()
        if self.is_of_this_build:
            return b""
        return os.fsencode("no other build: %s is of %s, %s is %s\n" % (shown(self.other.name), shown(theirs), shown(self.name), ours))

    def told_other_build(self, line, sink):
        """Writes that line, with the summary, and gives the exit status."""
        sink.write(line)
        if "--summary" in self.given.own:
            self.put_summary(os.fsdecode(line), sink)
        sink.end(1)
        return 1

    def prepare(self):
        """Makes the table of a symbol file."""
        if not self.other.is_symbol_file:
            if self.given.maps:
                self.notes.append("%s is an address table, and --map is for symbol files, so it is passed over" % shown(self.other.name))
            return
        base = self.given.base()
        if self.other.kind == BREAKPAD:
            self.base = self.image.program.load_address() if base is None else base
        elif base is not None:
            self.notes.append("%s has a base of its own, so --base is passed over" % shown(self.other.name))
        self.put_symbols()
        if self.other.kind == GSYM and not self.refused and self.other.data.size <= READ_TWICE:
            self.notes += self.older_readers()

    def put_symbols(self):
        """Makes the table of a symbol file, by the program linetab. If that refuses the file, the table has no record."""
        run = self.other.symbols(self.base)
        self.refused = run.no()
        if self.refused:
            self.other.put([EMPTY])
        elif self.given.maps:
            from scripts.object.tables import spans_in

            self.other.put_table(self.given.mapped(spans_in(run.pieces())))
        else:
            self.other.put(run.pieces())
        run.judged()

    def refusal(self, run):
        """The line that refuses the symbol file, unless the section itself is refused, or nothing."""
        return "" if run.no().startswith(SECTION_NO) else self.refused

    def older_readers(self):
        """A note if readers of GSYM files up to LLVM 17 answer otherwise, as far as that can be told."""
        from scripts.object.tables import Unclear, spans_in
        from scripts.table.spans import first_difference

        try:
            difference = first_difference(spans_in(self.other.table().pieces()), self.given.mapped(self.other.older_spans()))
        except (Refusal, Unclear):
            return []
        if difference is None:
            return []
        address, here, there = difference
        answers = ["%s:%d" % (shown(path), line) for path, line in (there, here)]
        return ["readers of %s up to LLVM 17 answer otherwise at 0x%x, where two rows of a function have one address: %s in place of %s; "
                "linetab-table gsym-17 makes the table of their answers" % (shown(self.other.name), address, *answers)]

    def is_partial(self):
        return "--partial" in self.given.names or self.other.is_symbol_file and "--whole" not in self.given.own

    def gives_partial(self):
        """Whether --partial is given, as it wasn't typed."""
        return self.is_partial() and "--partial" not in self.given.names

    def words(self):
        """The options that are given for the program, beside those that were typed."""
        words = []
        if self.is_partial():
            words += ["--partial"] * self.gives_partial()
            words += ["--at-least", "1"] * ("--at-least" not in self.given.names)
        if "--all" in self.given.names and not self.given.is_quiet:
            words += ["--ends"] * ("--ends" not in self.given.names)
        return words

    def behind(self):
        """What stands behind the section."""
        self.other.rewind()
        return ["--"] * self.given.is_closed + [self.other.opened_as]

    # ---- the answer

    def passed_on(self, run, sink, question, words):
        """Writes the answer, and the summary behind it, and gives the exit status. An answer about no address at all is none."""
        head = b""
        try:
            for piece in self.pieces(run):
                if head is not None:
                    head += piece
                    if len(head) < LONGEST and (b"\nanswers" in head or head.count(b"\n") < 2):
                        continue
                    piece, head = head, None
                sink.write(piece)
        finally:
            status = run.end()
        if head:
            self.read_counts(head)
            sink.write(head)
        if status in (0, 1) and "--summary" in self.given.own:
            self.put_summary(os.fsdecode(run.head.split(b"\n", 1)[0]), sink, question, words)
        if status >= 0:
            sink.end(status)
        return status

    def put_summary(self, line, sink, question=None, words=()):
        """Writes the summary of an answer that begins with this line."""
        from scripts.object import summary

        self.summary, tally = summary.lines_of(self, question, words, line)
        if self.counts:
            self.missed = tally.by_function[summary.MISSING]
        if self.given.is_json:
            sink.know(summary=self.summary)
        else:
            sink.write(b"".join(os.fsencode(each) + b"\n" for each in self.summary))

    def pieces(self, run):
        """The answer as it comes; of --all the lines that are wanted."""
        if "--all" not in self.given.names:
            return run.pieces()
        from scripts.object.stretches import Listing

        self.listing = Listing(self.image, self.given.most(), "--ends" in self.given.names, not self.given.is_quiet)
        return self.listing.pieces(run)

    def read_counts(self, answer):
        counts = counts_in(answer)
        if counts is None:
            return
        self.counts = counts
        if counts[1] == 0:
            raise Nothing("no address of it has a line, so there is nothing to compare")

    # ---- behind it

    def add_notes(self, question, words):
        """Adds notes of what is missing, and of what --all listed. The answer stands without them, but in JSON, which has them in it."""
        try:
            self.notes += self.missing(question, words) + self.differing()
        except (Refusal, Failure, OSError, MemoryError):
            if self.given.is_json:
                raise

    def missing(self, question, words):
        """A note of what the other file has no answer for, by functions."""
        if self.counts is None or self.counts[0] == self.counts[1] or self.summary:
            return []
        from scripts.object.functions import Functions, Missed
        from scripts.object.stretches import without_answer

        missed = Missed(Functions(self.image))
        run = question.run("check", ["--all", "--ends", *words], self.behind())
        for low, high in without_answer(run.pieces()):
            missed.add(low, high)
        run.judged()
        self.missed = missed
        count, total = self.counts[1] - self.counts[0], self.counts[1]
        return ["%d of %d addresses with lines aren't in %s: %s" % (count, total, shown(self.other.name), self.missed.told())]

    def differing(self):
        """A note of what --all listed."""
        told = self.listing.told() if self.listing else ""
        return ["%s %s" % (shown(self.other.name), told)] * bool(told)

    def diagnosis(self, run, question, words):
        """Notes of what is the matter with the other file, and how notes of the program begin that say less."""
        line = run.no()
        if self.summary:
            return [], []
        if line.startswith("no 40 "):
            from scripts.object import diagnosis

            return diagnosis.notes_to(self, question, words), []
        if line[:5] in ("no 36", "no 37", "no 38", "no 39") and self.other.data is not None:
            from scripts.object import faulty

            return faulty.notes_to(line, run, self.other.name, self.other.table())
        return [], []
