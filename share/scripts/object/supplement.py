"""The supplementary file of a program, to which `dwz -m` moves what several programs have in common. It is looked for as gdb does."""

import os

from scripts.bounded import ABSENT, Failure, Part, Refusal, opened
from scripts.object.cursor import Broken, Cursor
from scripts.object.image import image_of
from scripts.telling import shown

APART = "/usr/lib/debug"
LINK, SUP = ".gnu_debugaltlink", ".debug_sup"
LONGEST = 1 << 13  # bytes that are read of a section that names a file: no system takes a longer name


def start_of(image, name):
    """A place at the beginning of a section that is there."""
    if name in image.doubled:
        raise Broken("it has two sections %s, and nothing says which one is meant" % name)
    try:
        start = image.head(name)[:LONGEST]
    except Refusal as fault:
        raise Broken(str(fault)) from None
    return Cursor(Part(start, 0, len(start)), 0, len(start), "big" if image.big else "little")


def sup_of(image):
    """What a .debug_sup section says (DWARF 5, 7.3.6): whether its file is a supplementary one, the name of that, and its identifier."""
    cursor = start_of(image, SUP)
    cursor.skip(2)
    is_supplementary, name = cursor.number(1) != 0, cursor.text()
    return is_supplementary, name, cursor.bytes(cursor.leb()).hex()


def named_by(image):
    """The name of the supplementary file of a program, and the identifier that it has to have. None where no section names one."""
    if image.has(LINK):
        cursor = start_of(image, LINK)
        return os.fsdecode(cursor.text()), cursor.bytes(cursor.end - cursor.at).hex()
    if image.has(SUP):
        _, name, identity = sup_of(image)
        return os.fsdecode(name), identity
    return None


def candidates(path, name, identity):
    """Where the file of this name and identifier may lie, which the file at a path names."""
    # Nothing lies beside a file without a name, which holds what came by a pipe.
    if os.path.isabs(name) or not path.startswith("/proc/"):
        yield os.path.realpath(os.path.join(os.path.dirname(os.path.realpath(path)), name))
    _, is_below, rest = name.partition("/.dwz/")
    yield os.path.join(APART, ".dwz", rest if is_below else os.path.basename(name))
    yield os.path.join(APART, ".build-id", identity[:2], identity[2:] + ".debug")


def has_identifier(image, identity):
    if image.has(SUP):
        is_supplementary, _, own = sup_of(image)
        if is_supplementary and own == identity:
            return True
    return identity != "" and image.identity == identity


def supplement_of(image):
    """The image of the supplementary file of a program. Broken says why it isn't there."""
    named = named_by(image)
    if named is None:
        raise Broken("it is in a supplementary file, and no section names that")
    tried, strangers = [], []
    for place in candidates(image.path, *named):
        if place in tried:
            continue
        tried.append(place)
        try:
            found = image_of(opened(place), place)
            if has_identifier(found, named[1]):
                return found
            strangers.append(place)
        except (Refusal, Broken):
            strangers.append(place)
        except OSError as error:
            if error.errno not in ABSENT:
                raise Failure("the supplementary file %s can't be read: %s" % (shown(place), error.strerror)) from None
    if strangers:
        raise Broken("it is in the supplementary file of build id %s, and %s is another one" % (named[1], shown(strangers[0])))
    raise Broken("it is in the supplementary file of build id %s, which isn't in %s" % (named[1], " or ".join(map(shown, tried))))
