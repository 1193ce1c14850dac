"""What differs between a table and a section, added up: by kinds, files and functions, and where it is worst."""

import heapq
from collections import Counter

from scripts.object.functions import Functions, Missed
from scripts.object.tables import name_of

WRONG, MISSING, EXTRA = "wrong", "missing", "extra"
# Kinds of wrong answers.
LINE, FILE, PATH, COLUMN, OTHERS, COPY, FIRST = (
    "another line", "another file", "the path alone", "another column", "another is_stmt, isa, discriminator or number of the file",
    "another copy's answer", "the first of two rows at an address")
PAIRS = 1 << 14  # pairs of paths that are counted
MOST = 1000  # places that are kept
LOOKED_AT = 1 << 14  # wrong places of which it is asked where their answers come from


def what_is_so(stretch):
    """Whether the table's answer in a stretch is wrong, missing or extra."""
    return MISSING if stretch.table is None else EXTRA if stretch.section is None else WRONG


def has_columns(answer):
    """Whether an answer has a column: one by path and line alone has none."""
    return len(answer.rest) > 0


def kind_of(table, section):
    """In what two answers differ."""
    if table.path == section.path:
        if table.line != section.line:
            return LINE
        return COLUMN if has_columns(table) and table.rest[0] != section.rest[0] else OTHERS
    if name_of(table.path) != name_of(section.path):
        return FILE
    return LINE if table.line != section.line else PATH


class Worst:
    """The largest of all stretches, wrong ones before missing ones, in the order of their addresses."""

    def __init__(self, most):
        self.most, self.heap, self.count = most, [], 0

    def add(self, stretch):
        self.count += 1
        entry = (stretch.table is not None, stretch.high - stretch.low, -stretch.low), stretch
        if len(self.heap) < self.most:
            heapq.heappush(self.heap, entry)
        elif entry > self.heap[0]:
            heapq.heapreplace(self.heap, entry)

    def largest(self, count):
        return [stretch for _, stretch in heapq.nlargest(count, self.heap)]

    def in_order(self):
        return sorted(stretch for _, stretch in self.heap)


class Declared:
    """Functions in which the table has one answer throughout, from a start on at which the section has none."""

    def __init__(self):
        self.answers = {}  # by functions: the table's one answer, or None if it has several

    def add(self, name, starts_here, stretch):
        if name in self.answers:
            if self.answers[name] != stretch.table:
                self.answers[name] = None
        else:
            self.answers[name] = stretch.table if starts_here and stretch.section is None else None

    def names(self):
        return {name for name, answer in self.answers.items() if answer}


class Tally:
    """Stretches, added up. The addresses that have a line are `total`."""

    def __init__(self, image, total, most=MOST):
        self.functions, self.total = Functions(image), total
        self.by_function = {what: Missed(self.functions) for what in (WRONG, MISSING, EXTRA)}
        self.by_file = {what: Counter() for what in (WRONG, MISSING, EXTRA)}
        self.kinds, self.pairs, self.columns = Counter(), Counter(), Counter()
        self.worst, self.declared = Worst(most), Declared()
        self.wrong_in = Counter()  # addresses with a wrong answer or one too many, by functions
        self.by_lines = Counter()  # by how much lines are wrong
        self.first_wrong = []  # the first stretches with another line or file

    def count(self, what):
        return self.by_function[what].total()

    def right(self):
        return self.total - self.count(WRONG) - self.count(MISSING)

    def add(self, stretch):
        what, size = what_is_so(stretch), stretch.high - stretch.low
        self.by_function[what].add(stretch.low, stretch.high)
        self.by_file[what][(stretch.section or stretch.table).path] += size
        self.worst.add(stretch)
        if what != MISSING:
            self.add_answered(stretch)
        if what == WRONG:
            kind = kind_of(stretch.table, stretch.section)
            self.kinds[kind] += size
            self.add_details(kind, stretch, size)

    def move(self, stretch, kind):
        """Counts a stretch of another line or file as of another kind."""
        size = stretch.high - stretch.low
        self.kinds[kind_of(stretch.table, stretch.section)] -= size
        self.kinds[kind] += size

    def add_answered(self, stretch):
        low = stretch.low
        for name, size in self.functions.pieces(stretch.low, stretch.high):
            if name is not None:
                self.declared.add(name, self.functions.begins_at(low), stretch)
                self.wrong_in[name] += size
            low += size

    def add_details(self, kind, stretch, size):
        ours, theirs = stretch.table, stretch.section
        if kind == PATH and (len(self.pairs) < PAIRS or (ours.path, theirs.path) in self.pairs):
            self.pairs[ours.path, theirs.path] += size
        if kind in (LINE, FILE) and len(self.first_wrong) < LOOKED_AT:
            self.first_wrong.append(stretch)
        if kind == LINE:
            self.by_lines[ours.line - theirs.line] += size
        if kind == COLUMN:
            way = "cut to 16 bits" if ours.rest[0] == theirs.rest[0] & 0xFFFF else "by %+d" % (ours.rest[0] - theirs.rest[0])
            self.columns["0" if ours.rest[0] == 0 else way] += size

    def add_all(self, stretches):
        for stretch in stretches:
            self.add(stretch)
        return self


# ---- by functions and files, the worst first


class Ranked:
    """Names, the worst first, and of each how many addresses are wrong, missing and extra. These are put together as they are asked for,
    since each stretch may have a name of its own. What has no name is `between`."""

    def __init__(self, counts, between=None):
        self.counts, self.between, totals = counts, +Counter(between), Counter()
        for sizes in counts.values():
            totals.update(sizes)
        if self.between:
            totals[""] += sum(self.between.values())
        self.names = sorted(totals, key=lambda name: (-totals[name], name))

    def __len__(self):
        return len(self.names)

    def __iter__(self):
        return map(self.pair, self.names)

    def __getitem__(self, places):
        return list(map(self.pair, self.names[places]))

    def pair(self, name):
        found = Counter({what: sizes[name] for what, sizes in self.counts.items() if name in sizes})
        return name, found + self.between if name == "" else found


def worst_functions(tally):
    """Names of functions and what is wrong in each; what lies between functions has no name."""
    missed = tally.by_function
    return Ranked({what: missed[what].sizes for what in missed}, {what: missed[what].between for what in missed})


def worst_files(tally):
    return Ranked(tally.by_file)
