"""What the tests of the scripts share: images that are made in memory, and an ear for what is told."""

import contextlib

import images
from scripts import telling
from scripts.bounded import Part


def part(content):
    """Bytes as those of a file."""
    return Part(content, 0, len(content))


def made(kind, *words):
    """The bytes of a program of a format, by the words of tests/images.py."""
    return part(images.FORMATS[kind](list(words)))


class Heard:
    """What is told meanwhile."""

    def __init__(self):
        self.notes, self.lines = [], []

    def note(self, text):
        self.notes.append(text)

    def told(self, text):
        self.lines.append(text)


@contextlib.contextmanager
def heard():
    """Has all that is told in one place, and not on standard error."""
    telling.listener = Heard()
    try:
        yield telling.listener
    finally:
        telling.listener = None
