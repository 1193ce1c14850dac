"""The paths in units of versions 2 to 4."""

from array import array

from scripts.object.cursor import Broken, Cursor
from scripts.paths import within


def paths(section, at, order):
    """The path of each file of the unit of version 2, 3 or 4 at an offset, as its header has it, up to where that is cut."""
    try:
        yield from paths_in(header_of(section, at, order))
    except Broken:
        pass


def header_of(section, at, order):
    """A place before the directories of a unit, which ends where its header does."""
    cursor = Cursor(section, at, section.size, order)
    length, width = cursor.number(4), 4
    if length == 0xFFFFFFFF:
        length, width = cursor.number(8), 8
    cursor.end_after(length)
    version = cursor.number(2)
    cursor.end_after(cursor.number(width))
    cursor.skip(5 if version >= 4 else 4)
    cursor.skip(max(cursor.number(1), 1) - 1)  # the lengths of standard opcodes
    return cursor


def paths_in(cursor):
    folders = array("Q")
    while True:
        folders.append(cursor.at)
        if not cursor.text():
            break
    while name := cursor.text():
        number, _, _ = cursor.leb(), cursor.leb(), cursor.leb()
        folder = b""
        if 0 < number < len(folders):
            start = folders[number - 1]
            folder = cursor.whole[start : folders[number] - 1]
        yield within(folder, name)
