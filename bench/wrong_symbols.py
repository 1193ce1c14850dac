"""Symbol files that aren't right any more: of a right one, one without a function, or with one line number that is one more."""

import struct

BLOCKS = (b"FUNC ", b"PUBLIC ", b"STACK ")
LINE_TABLE = 1  # a part of what a GSYM file has of a function


class Breakpad:
    """A symbol file of Breakpad, as its lines."""

    def __init__(self, data):
        self.lines = data.split(b"\n")

    def function(self, name):
        """Where the lines of a function begin and end, or nothing if it has none."""
        starts = [k for k, line in enumerate(self.lines) if line.startswith(BLOCKS)]
        for start, end in zip(starts, [*starts[1:], len(self.lines) - 1]):
            words = self.lines[start].removeprefix(b"FUNC m ").removeprefix(b"FUNC ").split(b" ", 3)
            if self.lines[start].startswith(b"FUNC ") and words[3].split(b"(")[0] == name:
                return start, end
        return None

    def without(self, name):
        start, end = self.function(name) or (0, 0)
        return b"\n".join(self.lines[:start] + self.lines[end:])

    def with_line_changed(self):
        k = next(k for k, line in enumerate(self.lines) if line[:1] in b"0123456789abcdef" and line.count(b" ") == 3)
        low, size, number, file = self.lines[k].split(b" ")
        changed = b" ".join([low, size, b"%d" % (int(number) + 1), file])
        return b"\n".join(self.lines[:k] + [changed] + self.lines[k + 1 :])


class Gsym:
    """A GSYM file: its tables of addresses and of what it has of each."""

    def __init__(self, data):
        self.data = data
        self.order = {b"MYSG": "<", b"GSYM": ">"}[data[:4]]
        _, _, width, _, _, count, self.strings, _ = self.numbers("IHBBQIII", 0)
        self.kind = {1: "B", 2: "H", 4: "I", 8: "Q"}[width]
        self.starts = self.numbers("%d%s" % (count, self.kind), 48)
        at = -(-(48 + width * count) // 4) * 4
        self.infos = self.numbers("%dI" % count, at)
        self.files = at + 4 * count

    def numbers(self, layout, at):
        return struct.unpack_from(self.order + layout, self.data, at)

    def name(self, info):
        at = self.strings + self.numbers("I", info + 4)[0]
        return self.data[at : self.data.index(b"\0", at)]

    def without(self, name):
        """All else stays where it is, but for the list of files, which is behind the tables."""
        kept = [k for k, info in enumerate(self.infos) if self.name(info) != name]
        end = self.files + 4 + 8 * self.numbers("I", self.files)[0]
        head = self.data[:16] + struct.pack(self.order + "I", len(kept)) + self.data[20:48]
        head += struct.pack("%s%d%s" % (self.order, len(kept), self.kind), *(self.starts[k] for k in kept))
        head += bytes(-len(head) % 4) + struct.pack("%s%dI" % (self.order, len(kept)), *(self.infos[k] for k in kept))
        head += self.data[self.files : end]
        return head.ljust(end, b"\0") + self.data[end:]

    def line_table(self, info):
        """Where the line table of a function begins, or nothing."""
        at = info + 8
        while True:
            kind, size = self.numbers("II", at)
            if kind in (0, LINE_TABLE):
                return at + 8 if kind else None
            at += 8 + size

    def with_line_changed(self):
        """The first line of a line table is one more, where that has as many bytes."""
        for at in filter(None, map(self.line_table, self.infos)):
            for _ in range(2):
                while self.data[at] & 0x80:
                    at += 1
                at += 1
            if self.data[at] & 0x7F != 0x7F:
                return self.data[:at] + bytes([self.data[at] + 1]) + self.data[at + 1 :]
        raise ValueError("no line is changed in place")
