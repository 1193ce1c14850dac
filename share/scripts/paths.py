"""Paths of files, as compilers write them on any system: when one is full, and how two are joined (docs/LINES.md)."""

import re

FULL = rb"/|[A-Za-z]:[/\\]|\\\\"
BEGINS_FULL = re.compile(FULL)
# A full path behind what ends with /; of several the last one.
BEHIND = re.compile(rb".*/(?=%s)" % FULL, re.DOTALL)


def is_full(path):
    """Whether no directory belongs before a path: it begins with /, with a letter, a colon and then / or \\, or with two backslashes."""
    return BEGINS_FULL.match(path) is not None


def within(directory, name):
    """The path of a name in a directory. One / stands between them, unless the directory is empty or ends with one."""
    if is_full(name) or not directory:
        return name
    return directory + (b"" if directory.endswith(b"/") else b"/") + name


def behind(path):
    """The full path that stands in another one behind a directory, or that path where there is none."""
    match = BEHIND.match(path)
    return path[match.end() :] if match else path
