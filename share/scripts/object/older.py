"""Units of versions 2 to 4, which the program upgrades to version 5."""

import os
import struct

from scripts.bounded import Refusal
from scripts.object.image import LINE
from scripts.object.program import unnamed

OLDER = (2, 3, 4)
TAKEN = {"--big", "--address-size", "--directories"}


def versions(section, big):
    """The version of each unit and where it begins, as far as lengths separate units."""
    short, long = (struct.Struct((">" if big else "<") + layout) for layout in ("IH", "4xQH"))
    at = 0
    while at + 6 <= section.size:
        length, version = short.unpack(section.take(at, 6))
        start = at + 4
        if length == 0xFFFFFFFF and at + 14 <= section.size:
            length, version = long.unpack(section.take(at, 14))
            start = at + 12
        yield version, at
        at = start + length


def counted(count, total):
    """So many of its units."""
    whole = "its unit" if total == 1 else "its %d units" % total
    return whole if count == total else "%d of %s" % (count, whole)


def joined(numbers):
    """At most four numbers, in their order."""
    return " and ".join(map(str, sorted(numbers)[:4]))


def prepared(question):
    """Adds what `upgrade` takes to the options of a question: the size of addresses, which is that of the units of .debug_info where all
    have one, and else that of the file; and a file with the directories of units. Gives what is to be told of these, and the size, if it
    isn't one of several that the file may have."""
    from scripts.object.directories import Directories

    image, size = question.image, None
    try:
        directories = Directories(image, question.section())
        question.options["--directories"] = [question.kept(unnamed(directories.records()))]
        size, told = directories.address_size(), directories.notes()
    except Refusal as fault:
        told = ["no compilation directory can be read, so each is left empty: %s" % fault]
    question.options["--address-size"] = [str(size or image.address_size)]
    return told, size or (image.address_size if len(image.sizes) == 1 else None)


def to_upgrade(question, given):
    """Prepares the word itself, with what the options that were typed leave to it, and gives what is to be told."""
    question.versions += OLDER
    told, size = prepared(question)
    told = [] if "--directories" in given.names else told
    other = given.value_of("--address-size")
    if size and other in ("2", "4", "8") and other != str(size):
        told.append("addresses have %d bytes there, and not %s, as --address-size says: in what is printed, operations that set one are "
                    "refused" % (size, other))
    return told


def upgraded(question):
    """Puts the upgraded section in the place of one with older units. Gives the run of the program that ended otherwise, if it did, and
    what is to be told."""
    question.versions += OLDER
    counts = {}
    for version, _ in versions(question.section(), question.image.big):
        counts[version] = counts.get(version, 0) + 1
    found = [version for version in OLDER if version in counts]
    if not found:
        return None, []
    told, _ = prepared(question)
    run = question.run("upgrade", [], taken=TAKEN)
    try:
        file = unnamed(run.pieces())
    finally:
        run.end()
    if run.status == 0:
        question.put(LINE, file)
        count = sum(counts[version] for version in found)
        return None, ["%s of version %s %s upgraded to version 5: offsets of units are those of the upgraded section, which linetab-object "
                      "upgrade prints" % (counted(count, sum(counts.values())), joined(found), "was" if count == 1 else "were")] + told
    os.close(file)
    if run.status != 1:
        run.head = b""  # no part of a section is an answer
    if run.status == 2:
        raise Refusal("the program linetab beside this one is of another version, and can't upgrade it")
    return run, []
