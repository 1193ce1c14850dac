"""The one cause of most of what differs between a table and a section, if there is one, and what would settle it."""

import posixpath

from scripts.object.diagnosis import path_text
from scripts.object.tally import COLUMN, COPY, EXTRA, FILE, FIRST, LINE, MISSING, PATH, WRONG
from scripts.telling import shown

SHARE = 0.75  # of the addresses that differ


class Causes:
    """What is known of a table and its differences, by which their cause is named."""

    def __init__(self, name, tally, diagnosed, is_of_this_build=False):
        self.name, self.tally = shown(name), tally
        self.diagnosed = diagnosed  # what all differences have in common, and what to do, or None
        self.is_of_this_build = is_of_this_build  # by its identifier
        self.answered = tally.count(WRONG) + tally.count(EXTRA)

    def is_most(self, size):
        return size > 0 and size >= SHARE * self.answered

    def found(self):
        """The cause, and what to do about it, or nothing; each of both may be empty."""
        if self.answered + self.tally.count(MISSING) == 0:
            return "", ""
        for cause in (self.dots, self.common, self.declared, self.copies, self.first, self.columns, self.shifted_lines, self.missing,
                      self.relative, self.of_another_build):
            found = cause()
            if found:
                return found
        return "", ""

    # ---- each cause

    def dots(self):
        """Paths that are the same but for `.` and `..`."""
        alike = {pair: size for pair, size in self.tally.pairs.items() if normal(pair[0]) == normal(pair[1])}
        if not self.is_most(sum(alike.values())):
            return None
        ours, theirs = max(alike, key=alike.get)
        with_dots = self.name if len(ours) > len(theirs) else "the section"
        told = "paths differ by . and .. alone, which those of %s have: %s in place of %s" % (with_dots, path_text(ours), path_text(theirs))
        return told, self.diagnosed[1] if self.diagnosed else ""

    def common(self):
        return self.diagnosed

    def declared(self):
        names = self.tally.declared.names()
        if not self.is_most(sum(self.tally.wrong_in[name] for name in names)):
            return None
        return "%s one line throughout, though no line is at the start: %s the declaration's, as llvm-gsymutil writes it" % (
            counted(len(names), "function has", "functions have"), "it is" if len(names) == 1 else "they are"), ""

    def copies(self):
        if not self.is_most(self.tally.kinds[COPY]):
            return None
        return ("the linker kept one of several copies of a function, and %s answers by another one than the first" % self.name,
                "check it with --any-copy")

    def first(self):
        if not self.is_most(self.tally.kinds[FIRST]):
            return None
        return ("%s answers by the first of two rows at an address, as readers of GSYM files up to LLVM 17 do" % self.name,
                "read it with a newer reader")

    def columns(self):
        if not self.is_most(self.tally.kinds[COLUMN]):
            return None
        way, size = self.tally.columns.most_common(1)[0]
        how = {"0": "are 0", "cut to 16 bits": "are cut to 16 bits"}.get(way, "differ %s" % way)
        return ("columns alone are wrong%s" % (": they %s" % how if self.is_most(size) else ""),
                "a table low,high,path,line is compared without them")

    def shifted_lines(self):
        for by, size in self.tally.by_lines.most_common(1):
            if self.is_most(size) and len(self.tally.first_wrong) > 2:
                return "lines alone are wrong: they differ by %+d" % by, ""
        return None

    def missing(self):
        missing = self.tally.count(MISSING)
        if self.answered or not missing:
            return None
        return "%s has no answer for %d of %d addresses, and is right elsewhere" % (self.name, missing, self.tally.total), ""

    def relative(self):
        pairs = {pair: size for pair, size in self.tally.pairs.items() if pair[1].endswith("/" + pair[0].removeprefix("./"))}
        if not self.is_most(sum(pairs.values())):
            return None
        return "paths in %s are relative, as %s in place of %s" % (self.name, *map(path_text, max(pairs, key=pairs.get))), \
            "linetab-table --paths-of makes them whole"

    def of_another_build(self):
        wrong = sum(self.tally.kinds[kind] for kind in (LINE, FILE, PATH)) + self.tally.count(EXTRA)
        right = self.tally.right()
        if self.is_of_this_build or not self.is_most(wrong) or right >= wrong:
            return None
        return "more answers are wrong than right, by nothing that they have in common: %s may be of another build" % self.name, \
            "make it of this one"


def normal(path):
    return posixpath.normpath(path.replace("//", "/"))


def counted(count, one, several):
    return "%d %s" % (count, one if count == 1 else several)
