"""The sequences of rows that a text lists in any order. Their spans are held until all have come, in a few bytes each."""

from array import array

from scripts.bounded import Refusal


class Sequences:
    """The spans of sequences, without those that were discarded and, where copies are skipped, those of copies."""

    def __init__(self, asked):
        self.asked, self.seen = asked, set()
        self.lows, self.highs, self.places, self.numbers = array("Q"), array("Q"), array("L"), array("Q")
        self.known = {}  # the number of each path, by its parts
        self.runs = array("L")  # the first span of each run, in which each begins where the one before it ends
        self.first = self.row = None  # of a sequence that is begun its first address, and its last row
        self.width = 1  # how many numbers a row has beside its path

    def add(self, address, answer):
        """Takes the next row, which answers from its address on: by the parts of a path, and numbers. At an end there is no answer."""
        if self.first is None:
            self.first, self.start, self.first_run = address, len(self.lows), len(self.runs)
        elif self.row[0] < address:
            self.put(self.row[0], address, *self.row[1])
        self.row = address, answer
        if answer is None:
            self.end(address)

    def put(self, low, high, parts, *numbers):
        """Takes a span; one that touches the one before it, and answers the same, is part of that."""
        place, self.width = self.known.setdefault(parts, len(self.known)), len(numbers)
        if len(self.lows) == self.start or self.highs[-1] != low:
            self.runs.append(len(self.lows))
        elif self.places[-1] == place and tuple(self.numbers[-self.width :]) == numbers:
            self.highs[-1] = high
            return
        self.lows.append(low)
        self.highs.append(high)
        self.places.append(place)
        self.numbers.extend(numbers)

    def end(self, address):
        """Ends the sequence, and leaves it out where that is asked for."""
        extent = self.first, address
        if self.first == self.asked.dead or self.asked.skip_copies and extent in self.seen:
            for kept in self.lows, self.highs, self.places:
                del kept[self.start :]
            del self.numbers[self.start * self.width :]
            del self.runs[self.first_run :]
        elif self.asked.skip_copies:
            self.seen.add(extent)
        self.first = None

    def in_order(self):
        """The first span of each run and the one behind its last, in the order of addresses."""
        ends = self.runs[1:]
        ends.append(len(self.lows))
        order, end = sorted(range(len(self.runs)), key=lambda k: self.lows[self.runs[k]]), 0
        for k in order:
            first = self.runs[k]
            if self.lows[first] < end:
                raise Refusal("sequences overlap in it at 0x%x: --skip-copies leaves out copies, and --dead ADDRESS those that the linker "
                              "discarded" % self.lows[first])
            end = self.highs[ends[k] - 1]
            yield first, ends[k]

    def spans(self, path_of):
        """All spans in their order, with the paths that are made of their parts. Sequences that overlap are refused."""
        parts, last, path = list(self.known), None, b""
        for k in (k for start, end in self.in_order() for k in range(start, end)):
            if self.places[k] != last:
                last = self.places[k]
                path = path_of(parts[last])
            yield self.lows[k], self.highs[k], (path, *self.numbers[k * self.width : (k + 1) * self.width])


def spans_of(rows, asked, path_of):
    """The spans of rows, whose last one is an end."""
    sequences = Sequences(asked)
    for address, answer in rows:
        sequences.add(address, answer)
    if sequences.first is not None:
        raise Refusal("it ends within a sequence: it is cut")
    return sequences.spans(path_of)
