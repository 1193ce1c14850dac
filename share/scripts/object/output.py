"""Where answers are written."""

import os

from scripts.telling import put_whole, shown


class Unwritten(Exception):
    """What was to be written couldn't be."""


class Overwriting(Exception):
    """What was to be written would be in the place of a file that is read."""


class Standard:
    """Standard output."""

    def write(self, piece):
        try:
            put_whole(1, piece)
        except OSError as error:
            raise Unwritten("" if isinstance(error, BrokenPipeError) else "cannot write") from None

    def end(self, status):
        """The answer is whole."""

    def know(self, **facts):
        """Takes what is known of the answer beside its lines."""


class Named(Standard):
    """Standard output, where answers about several files stand one behind another: each line has its file's name before it."""

    def __init__(self, *names):
        self.name = os.fsencode("".join(shown(name) + ": " for name in names))
        self.is_between = True  # whether no line is begun

    def write(self, piece):
        if not piece:
            return
        begun = piece.removesuffix(b"\n")
        named = (self.name if self.is_between else b"") + begun.replace(b"\n", b"\n" + self.name)
        self.is_between = len(begun) < len(piece)
        super().write(named + b"\n" * self.is_between)

    def end(self, status):
        if not self.is_between:
            self.write(b"\n")
