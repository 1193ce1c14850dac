"""What a section answers, by functions, files and addresses, beside what of it differs."""

from bisect import bisect_right
from collections import Counter

from scripts.object.functions import Missed
from scripts.object.tables import records
from scripts.object.tally import Tally, what_is_so

COLUMNS = 240  # of a strip over the code


class Spread(Tally):
    """A tally that keeps the ranges of what differs, those that touch as one."""

    def __init__(self, image, total):
        super().__init__(image, total)
        self.ranges = []
        self.places = Counter()

    def add(self, stretch):
        super().add(stretch)
        what, last = what_is_so(stretch), self.ranges[-1] if self.ranges else None
        self.places[what] += 1
        if last and last[1] == stretch.low and last[2] == what:
            last[1] = stretch.high
        else:
            self.ranges.append([stretch.low, stretch.high, what])


class Coverage:
    """The addresses at which a section answers: how many of each function and file, and their ranges."""

    def __init__(self, functions, question, words, path_of):
        self.by_function, self.by_file, self.ranges = Missed(functions), Counter(), []
        run = question.run("table", words, taken={"--big", "--line-str", "--str"})
        numbers = Counter()
        read = records(run.pieces())
        next(read, None)
        for low, low_op, high, high_op, unit, file, *_ in read:
            ends = int(low, 16) + (low_op != "0"), int(high, 16) + (high_op != "0")
            self.add(*ends)
            numbers[unit, file] += ends[1] - ends[0]
        run.judged()
        for (unit, file), size in numbers.items():
            self.by_file[path_of(int(unit), int(file))] += size

    def add(self, low, high):
        self.by_function.add(low, high)
        if self.ranges and self.ranges[-1][1] == low:
            self.ranges[-1][1] = high
        elif low < high:
            self.ranges.append([low, high])

    def total(self):
        return self.by_function.total()


class Axis:
    """Ranges of addresses without the gaps between them."""

    def __init__(self, ranges):
        self.lows, self.starts, self.size, end = [], [], 0, -1
        for low, high in sorted(ranges):
            low = max(low, end)
            if low > end or not self.lows:
                self.lows.append(low)
                self.starts.append(self.size)
            if high > low:
                self.size += high - low
                end = high

    def place(self, address):
        """How many addresses of these lie below one that is among them."""
        k = bisect_right(self.lows, address) - 1
        return self.starts[k] + address - self.lows[k]

    def address(self, place):
        k = bisect_right(self.starts, place) - 1
        return self.lows[k] + place - self.starts[k]


class Column:
    """A part of a strip: its addresses, and how many of them are what."""

    def __init__(self, low, high, size):
        self.low, self.high, self.size, self.counts = low, high, size, Counter()

    def right(self):
        return self.size - sum(self.counts.values())


def columns(covered, differing):
    """A strip over the code in so many columns, or one for each address if there are fewer."""
    axis = Axis([(low, high) for low, high, *_ in [*covered, *differing]])
    count = min(COLUMNS, axis.size)
    borders = [k * axis.size // count for k in range(count + 1)] if count else []
    found = [Column(axis.address(a), axis.address(b - 1) + 1, b - a) for a, b in zip(borders, borders[1:])]
    for low, high, what in differing:
        at, end = axis.place(low), axis.place(low) + high - low
        while at < end:
            k = bisect_right(borders, at) - 1
            to = min(end, borders[k + 1])
            found[k].counts[what] += to - at
            at = to
    return found
