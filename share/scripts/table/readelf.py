"""What `readelf --wide --debug-dump=decodedline` prints."""

import re

from scripts.bounded import Refusal
from scripts.table.source import source
from scripts.table.sequences import spans_of

ADDRESS = re.compile(rb"(0x[0-9a-f]{1,16}|0)(?:\[[0-9]+\])?")
NUMBER = re.compile(rb"[0-9]{1,19}")


def decoded(line):
    """The name, the line (none at an end) and the address of a row that readelf prints."""
    words = line.rsplit(None, 4)
    behind = len(words)
    if words[-1:] == [b"x"]:  # a statement begins there
        words.pop()
    if words and NUMBER.fullmatch(words[-1]) and words[-1] != b"0":  # the view, which is left out where it is 0
        words.pop()
    behind -= len(words)
    if len(words) < 3 or not ADDRESS.fullmatch(words[-1]) or not (words[-2] == b"-" or NUMBER.fullmatch(words[-2])):
        return None
    name = line.rsplit(None, behind + 2)[0]
    return name, None if words[-2] == b"-" else int(words[-2]), int(words[-1].partition(b"[")[0], 16)


def path_of_row(name, heading):
    """The path that stands above the rows, where it is that of their name."""
    return heading if heading == name or heading.endswith(b"/" + name) else name


def decoded_rows(lines):
    """The rows that readelf prints, with the paths that stand above them."""
    unit = heading = None
    for line in lines:
        line = line.rstrip(b"\r\n")
        row = decoded(line) if heading is not None else None
        if row:
            name, number, address = row
            yield address, None if number is None else (path_of_row(name, heading), number)
            if number is None:
                heading = unit
        elif line.startswith(b"CU: ") and line.endswith(b":"):
            unit = heading = line[4:-1]
        elif line.endswith((b":", b":[++]")) and not line.startswith(b"Contents of "):
            if unit is None:
                raise Refusal("names are cut in it: let readelf print it with --wide")
            heading = line[: line.rindex(b":")]
    if unit is None:
        raise Refusal("it isn't what readelf --wide --debug-dump=decodedline prints of a program with a line number section")


def from_readelf(asked):
    with source(asked) as file:
        return spans_of(decoded_rows(file), asked, bytes)
