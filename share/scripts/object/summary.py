"""What `check --summary` says behind the answer, in some ten lines."""

from scripts.bounded import Failure
from scripts.object import diagnosis, rows
from scripts.object.causes import Causes
from scripts.object.check import counts_in
from scripts.object.diagnosis import beginnings, path_text
from scripts.object.functions import readable, sized
from scripts.object.program import unnamed
from scripts.object.stretches import Answers, ListedPaths, stretches
from scripts.object.tally import EXTRA, MISSING, WRONG, Tally, what_is_so, worst_files, worst_functions
from scripts.telling import shown

LISTED, PLACES, STARTS = 10, 5, 3  # files and functions, places, and beginnings of paths that are told
LONGEST = 120  # characters of a path that are told


class Findings:
    """What differs between a program and what it is compared with, added up, and its cause."""

    def __init__(self, comparison, question, words, tally=None):
        self.name, self.table_name = comparison.name, comparison.other.name
        path_of = ListedPaths(question, words)
        self.tally = tally or Tally(comparison.image, comparison.counts[1] if comparison.counts else total(question, words))
        run = question.run("check", ["--all", "--ends", *words], comparison.behind())
        self.tally.add_all(stretches(run.pieces(), Answers(path_of)))
        run.judged()
        rows.move_kinds(self.tally, question, path_of)
        told = None
        if self.tally.count(WRONG) + self.tally.count(EXTRA):
            told = diagnosis.told_of(comparison, question, words)
        causes = Causes(self.table_name, self.tally, told, comparison.is_of_this_build)
        self.cause, self.remedy = causes.found()

    def counts(self):
        tally = self.tally
        return "%d right, %d wrong, %d missing of %d addresses with a line, and %d extra" % (
            tally.right(), tally.count(WRONG), tally.count(MISSING), tally.total, tally.count(EXTRA))


def total(question, words):
    """How many addresses have a line: an empty table answers none of them."""
    empty = question.kept(unnamed([b"low,high,path,line\n"]))
    run = question.run("check", ["--partial", *words], [empty])
    answer = b"".join(run.pieces())
    run.judged()
    counts = counts_in(answer)
    if counts is None:
        raise Failure("the addresses with a line can't be counted")
    return counts[1]


# ---- texts


def cut_path(path):
    """A path as it is told, without its beginning if it is long."""
    text = path_text(path)
    return text if len(text) <= LONGEST else ".." + text[-LONGEST:]


def answer_text(answer):
    """An answer as it is told."""
    if answer is None:
        return "none"
    return ":".join([cut_path(answer.path), str(answer.line), *map(str, answer.rest[:1])])


def sizes_text(sizes):
    """What is wrong in a file or a function."""
    return " and ".join("%d %s" % (sizes[what], what) for what in (WRONG, MISSING, EXTRA) if sizes[what])


def listed(found, text_of, most=LISTED):
    """The first of these names, each with what is wrong there, and how many others there are."""
    texts = ["%s %s" % (text_of(name), sizes_text(sizes)) for name, sizes in found[:most]]
    return ", ".join(texts + [".. and %d more" % (len(found) - most)] * (len(found) > most))


def kinds_text(tally):
    """The kinds of what differs, the most frequent first."""
    kinds = [("no answer", tally.count(MISSING)), *tally.kinds.most_common(), ("no line in the program", tally.count(EXTRA))]
    return ", ".join("%s %d" % kind for kind in sorted(kinds, key=lambda kind: -kind[1]) if kind[1])


def starts_text(tally):
    """Which beginnings of paths stand for which, or nothing."""
    found = beginnings(set(tally.pairs), set())
    texts = ["%s in place of %s" % tuple(path_text(start) or "nothing" for start in pair) for pair in found[:STARTS]]
    return ", ".join(texts + [".. and %d more" % (len(found) - STARTS)] * (len(found) > STARTS))


def names_text(names):
    """Names of functions as they are told, by what they are in the table of symbols."""
    texts = dict(zip(names, map(shown, readable(names))))
    texts[""] = "between functions"
    return texts


def place_text(stretch, tally):
    """A place with both answers."""
    name, _ = tally.functions.at(stretch.low)
    where = " in %s" % names_text([name])[name] if name else ""
    return "at 0x%x%s, %s %s: %s in place of %s" % (
        stretch.low, where, sized(stretch.high - stretch.low, True), what_is_so(stretch),
        answer_text(stretch.table), answer_text(stretch.section))


def summary(findings):
    """The lines."""
    tally = findings.tally
    yield findings.counts()
    if not tally.worst.count:
        return
    yield "kinds: %s" % kinds_text(tally)
    if starts_text(tally):
        yield "paths: %s" % starts_text(tally)
    yield "files: %s" % listed(worst_files(tally), cut_path)
    found = worst_functions(tally)
    names = names_text([name for name, _ in found[:LISTED]])
    yield "functions: %s" % listed(found, names.get)
    for stretch in tally.worst.largest(PLACES):
        yield place_text(stretch, tally)
    if findings.cause:
        yield "cause: %s" % findings.cause
    if findings.remedy:
        yield "what settles it: %s" % findings.remedy


def lines_of(comparison, question, words, line):
    """The summary of a check whose answer begins with this line; nothing if it compared nothing."""
    if line.startswith("no other build"):
        return ["cause: %s is of another build" % shown(comparison.other.name),
                "what settles it: make it of this one; --any-build compares it all the same"], None
    if not line.startswith(("yes", "no 40 ", "no 46 ")):
        return [], None
    findings = Findings(comparison, question, words)
    return list(summary(findings)), findings.tally
