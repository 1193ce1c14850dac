"""A place in bytes, which is read from on."""

from scripts.bounded import leb


class Broken(Exception):
    """Why something can't be read that stands in a section."""


class Cursor:
    """A place in bytes, which is read from on."""

    __slots__ = ("whole", "at", "end", "order")

    def __init__(self, part, at, size, order):
        self.whole, self.order = part.whole, order
        self.at = part.start + min(at, part.size)
        self.end = part.start + min(at + size, part.size)

    def end_after(self, size):
        """Ends what is read so many bytes on, if it didn't end before."""
        self.end = min(self.end, self.at + size)

    def bytes(self, size):
        at = self.at
        if size > self.end - at:
            raise Broken("it is cut")
        self.at = at + size
        return self.whole[at : self.at]

    def skip(self, size):
        if size > self.end - self.at:
            raise Broken("it is cut")
        self.at += size

    def number(self, size):
        return int.from_bytes(self.bytes(size), self.order)

    def leb(self):
        """A number in LEB128, of which those of more than 64 bits are read too."""
        try:
            value, self.at = leb(self.whole, self.at, self.end)
        except IndexError:
            raise Broken("it is cut") from None
        return value

    def to_zero(self):
        """Goes behind the next zero byte."""
        end = self.whole.find(b"\0", self.at, self.end)
        if end < 0:
            raise Broken("it is cut")
        self.at = end + 1

    def text(self):
        """The bytes before the next zero byte, behind which it goes."""
        start = self.at
        self.to_zero()
        return self.whole[start : self.at - 1]
