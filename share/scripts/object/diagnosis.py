"""What the differences between a table and a section have in common: a shift of all addresses, or how paths are written.

It is guessed from the first spans and differences, and told only as a second comparison shows it, with a table that is changed so."""

import bisect
import contextlib
import itertools
import os
import re
import shlex
from collections import Counter

from scripts.bounded import Failure, Refusal
from scripts.kinds import BREAKPAD
from scripts.object.program import unnamed
from scripts.object.stretches import unescaped
from scripts.object.tables import LONGEST, Unclear, layout_of, records, texts
from scripts.paths import is_full
from scripts.table.spans import quoted
from scripts.telling import shown

SPANS, FIRST = 8192, 20000  # spans and differences from which it is guessed
PIECES = 1 << 17  # records in which these spans may stand
PRINTED_LONGEST = 8 * LONGEST  # bytes of a line of the program, which prints two paths, and a byte of them as up to four
MOST = 1 << 18  # records that are compared anew
BLOCK = 1 << 12  # records that are written at once
PAIRS = 512  # of paths from which it is guessed how they begin
MAPS, PRINTED = 64, 4  # beginnings of paths that are tried, and that are told
ROUNDS = 3
HELD = 1 << 14  # paths that are kept as they are changed

TEXT = r'"((?:[^"\\]|\\x[0-9a-f]{2})*)"'
DIFFERENCE = re.compile(r"no 40 differs at 0x[0-9a-f]+,[0-9]+ table (?:none|%s),?([0-9,]*) section (?:none|%s),?([0-9,]*)" % (TEXT, TEXT))


# ---- the first spans


class Head:
    """The first spans of a table: where each answer that occurs once begins, and all paths."""

    def __init__(self, layout, spans):
        self.lows, self.paths = {}, set()
        last, count = None, 0
        for record in itertools.islice(spans, PIECES):
            low, high, answer = record[0], record[layout.high], record[layout.answer :]
            if last != (low, answer):
                count += 1
                if count > SPANS:
                    return
                key = layout.key(record)
                self.lows[key] = None if key in self.lows else int(low, 16)
                if layout.has_paths:
                    self.paths.add(answer[0])
            last = high, answer

    def shift_from(self, other):
        """How much higher most answers of these spans lie than in others, as far as they are in both; 0 if most don't lie so."""
        votes = Counter(low - other.lows[key] for key, low in self.lows.items() if low is not None and other.lows.get(key) is not None)
        for shift, count in votes.most_common(1):
            if count > 1 and 2 * count > sum(votes.values()):
                return shift
        return 0


# ---- what a table is changed by


class Change:
    """By how much addresses are lowered, whether backslashes become slashes, and by what beginnings of paths are replaced."""

    def __init__(self, shift=0, is_turned=False, maps=(), example=None):
        self.shift, self.is_turned, self.maps = shift, is_turned, list(maps)
        self.example = example  # a path of the table, and the section's in its place

    def __bool__(self):
        return bool(self.shift or self.is_turned or self.maps)

    def path(self, path):
        if self.is_turned:
            path = path.replace("\\", "/")
        for start, other in self.maps:
            if path.startswith(start):
                return other + path[len(start) :]
        return path

    def with_paths(self, pairs, right):
        """The same with what the paths of these pairs have in common, each the table's and the section's as this change leaves them,
        or None if there is nothing new. Paths that are right stay as they are."""
        is_turned = not self.maps and any("\\" in ours and "\\" not in theirs for ours, theirs in pairs)
        turned = Change(is_turned=is_turned)
        found = beginnings({(turned.path(ours), theirs) for ours, theirs in pairs}, right)
        if not found and not is_turned or len(found) + len(self.maps) > MAPS:
            return None
        return Change(self.shift, self.is_turned or is_turned, longest_first(found + self.maps), self.example or min(pairs))

    def is_about_relative(self):
        """Whether it makes relative paths full."""
        full = [tuple(is_full(start.encode("latin-1")) for start in pair) for pair in self.maps]
        return set(full) == {(False, True)}

    def pieces(self, layout, spans):
        """The bytes of a table with these spans, changed."""
        yield ",".join(layout.columns).encode() + b"\n"
        paths = Paths(self)
        while some := list(itertools.islice(spans, BLOCK)):
            if self.shift:
                for record in some:
                    record[0] = "0x%x" % (int(record[0], 16) - self.shift)
                    record[layout.high] = "0x%x" % (int(record[layout.high], 16) - self.shift)
            if layout.has_paths:
                for record in some:
                    record[layout.answer] = paths[record[layout.answer]]
            yield "".join([",".join(record) + "\n" for record in some]).encode("latin-1")


class Paths(dict):
    """Paths as a change leaves them, and as they stand in a table."""

    def __init__(self, change):
        super().__init__()
        self.change = change

    def __missing__(self, path):
        if len(self) == HELD:
            self.clear()
        self[path] = quoted(self.change.path(path).encode("latin-1")).decode("latin-1")
        return self[path]


def longest_first(maps):
    """Beginnings in the order in which each is tried before what it begins with."""
    return sorted(dict(maps).items(), key=lambda pair: (-len(pair[0]), pair))


def split(path, other, same):
    """How a path begins and how another one does, before so many last names that both have."""
    names, others = path.split("/"), other.split("/")
    starts = ["/".join(parts[: len(parts) - same]) + "/" if len(parts) > same else "" for parts in (names, others)]
    return (path, other) if same == 0 else tuple(starts)


def same_names(path, other):
    """How many names both end with."""
    names, others = path.split("/")[::-1], other.split("/")[::-1]
    return len(list(itertools.takewhile(lambda pair: pair[0] == pair[1], zip(names, others))))


def beginnings(pairs, right):
    """How the paths of these pairs begin, and how in place of that, in the shortest beginnings that leave alone what is right. None at
    all if a file has another name."""
    right = sorted(right)
    ends = {pair: same_names(*pair) for pair in pairs if pair[0] != pair[1]}
    if 0 in ends.values():
        return []
    while True:
        found = {}
        for pair, same in ends.items():
            start, other = split(*pair, same)
            found.setdefault(start, set()).add(other)
        wrong = {start for start, others in found.items() if len(others) > 1 or is_begun(right, start)}
        if not wrong:
            return longest_first((start, other) for start, others in found.items() for other in others)
        for pair, same in ends.items():
            if split(*pair, same)[0] in wrong:
                ends[pair] = same - 1
        if -1 in ends.values():
            return []


def is_begun(paths, start):
    """Whether any of these paths, which are in order, begins so."""
    at = bisect.bisect_left(paths, start)
    return at < len(paths) and paths[at].startswith(start)


# ---- comparisons


class Differences:
    """The differences that a run of the program prints: how many there are, and the pairs of paths that differ alone."""

    def __init__(self, run, most):
        self.count, self.pairs = 0, set()
        try:
            for line in itertools.islice(texts(run.pieces(), PRINTED_LONGEST), most):
                self.add(line)
        finally:
            run.end()
        if self.count == 0 and run.status != 0:
            raise Unclear

    def add(self, line):
        if not line.startswith("no "):
            return
        match = DIFFERENCE.match(line) if self.count < FIRST and len(self.pairs) < PAIRS else None
        self.count += 1
        if match and None not in match.group(1, 3) and match[2] == match[4] and match[1] != match[3]:
            self.pairs.add((unescaped(match[1]), unescaped(match[3])))


class Diagnosis:
    """A table that answers otherwise than a section, and what is found out about it."""

    def __init__(self, comparison, question, words):
        self.comparison, self.question = comparison, question
        self.words = words + ["--partial"] * comparison.is_partial()
        self.data = comparison.other.table()
        header = next(records(self.data.pieces()), None)
        self.layout = layout_of(header)
        self.is_cut = False  # whether records beyond the first ones are left out

    def spans(self):
        """The records behind the header."""
        read = records(self.data.pieces())
        next(read)
        yield from itertools.islice(read, MOST)
        self.is_cut = next(read, None) is not None

    def heads(self):
        """The first spans of the table and of the section, as far as they are comparable."""
        run = self.question.run("table", self.layout.option + self.words_of_section())
        try:
            return Head(self.layout, self.spans()), Head(self.layout, itertools.islice(records(run.pieces()), 1, None))
        finally:
            run.end()

    def words_of_section(self):
        return [word for word in self.words if word != "--partial"]

    def left(self, change, most=FIRST):
        """The differences that are left after a change, and no more of them than so many."""
        words = ["--all", *self.words]
        if not change:
            return Differences(self.question.run("check", words, self.comparison.behind()), most)
        with changed_file(change.pieces(self.layout, self.spans())) as name:
            words += ["--partial"] * (self.is_cut and "--partial" not in words)
            return Differences(self.question.run("check", words, [name]), most)

    def found(self):
        """What the differences have in common, as far as it leaves few of them, and the first that are left."""
        ours, theirs = self.heads()
        change, right = Change(ours.shift_from(theirs)), ours.paths & theirs.paths
        left = self.left(change)
        for _ in range(ROUNDS):
            more = change.with_paths(left.pairs, right) if left.pairs and self.layout.has_paths else None
            if left.count == 0 or more is None:
                break
            change = more
            left = self.left(change)
        return change, left

    def told(self):
        """What they have in common, and what to do, if it leaves at most half of them; else None."""
        change, left = self.found()
        if not change:
            return None
        rest = "which leaves no difference"
        if left.count:
            count, total = (self.left(which, None).count for which in (change, Change()))
            if 2 * count > total:
                return None
            rest = "which leaves %d of %d stretches that differ" % (count, total)
        if self.is_cut:
            rest += " in its first %d records" % MOST
        return what_is_so(change, self.comparison), "%s, %s" % (" and ".join(what_to_do(change, self.comparison)), rest)


@contextlib.contextmanager
def changed_file(pieces):
    """The name by which the program opens a file with these bytes, which is gone afterwards."""
    file = unnamed(pieces)
    try:
        os.set_inheritable(file, True)
        yield "/proc/self/fd/%d" % file
    finally:
        os.close(file)


# ---- what is told


def path_text(text):
    return shown(text.encode("latin-1"))


def what_is_so(change, comparison):
    """What all differences have in common."""
    name, said = shown(comparison.other.name), []
    if change.shift:
        said.append("each record of %s lies 0x%x too %s" % (name, abs(change.shift), "high" if change.shift > 0 else "low"))
    ways = ["have backslashes in place of slashes"] * change.is_turned
    if change.is_about_relative():
        ways.append("are relative, as %s in place of %s" % tuple(map(path_text, change.example)))
    elif change.maps:
        texts_of = ["%s in place of %s" % tuple(path_text(start) or "nothing" for start in pair) for pair in change.maps[:PRINTED]]
        more = len(change.maps) - PRINTED
        ways.append("begin with " + ", or with ".join(texts_of) + ", .. and %d more" % more * (more > 0))
    if ways:
        said.append("%s %s" % ("its paths" if said else "paths in " + name, " and ".join(ways)))
    return ", and ".join(said)


def what_to_do(change, comparison):
    """What to do about it, for each thing."""
    given, other = comparison.given, comparison.other
    options, others = [], []
    if change.shift and other.kind == BREAKPAD and 0 <= comparison.base - change.shift < 1 << 64:
        base = comparison.base - change.shift
        options.append("without --base" if base == comparison.image.program.load_address() else "with --base 0x%x" % base)
    elif change.shift and other.is_symbol_file:
        others.append("make it of the program as it is linked")
    elif change.shift:
        others.append("%s 0x%x %s each address in it" % (("subtract", change.shift, "from") if change.shift > 0 else
                                                         ("add", -change.shift, "to")))
    if change.maps and given.maps:
        others.append("correct --map")
    elif change.maps and other.is_symbol_file and not change.is_turned and len(change.maps) <= PRINTED:
        options.append("with " + " ".join("--map %s" % option_text(pair) for pair in change.maps))
    elif change.is_turned or change.maps:
        by_maker = ", as linetab-table --paths-of %s does" % shown(comparison.name) if change.is_about_relative() else ""
        others.append("write them as linetab-object files %s lists them%s" % (shown(comparison.name), by_maker))
    return ["check it %s" % " and ".join(options)] * bool(options) + others


def option_text(pair):
    """The value of --map, as it is typed."""
    return shlex.quote(path_text("=".join(pair)))


def told_of(comparison, question, words):
    """What the differences have in common, and what to do about it, or None if nothing is found. The answer stands without it."""
    try:
        return Diagnosis(comparison, question, words).told()
    except (Unclear, Refusal, Failure, OSError, ValueError, LookupError, MemoryError):
        return None


def notes_to(comparison, question, words):
    """A note of that."""
    told = told_of(comparison, question, words)
    return ["%s: %s" % told] if told else []
