"""What is left out of a section, because the linker discarded it, and the notes beside an answer."""

import os

from scripts.bounded import found_in
from scripts.telling import shown

# How notes of the program begin that are given here in other words.
NONE = "no sequence begins at %s,"
DEAD, COPIES = "sequences begin at ", "the two hold the same positions"


# ---- discarded code


def discarded(section, image):
    """The addresses at which linkers leave discarded code, where bytes of an operation that sets one are in the section, and the file has
    no code there."""
    marks = {bytes([0, size + 1, 2]) + digit * size: digit * size for size in image.sizes for digit in (b"\0", b"\xff")}
    found = found_in(section.without_holes(), marks)
    for mark, digits in marks.items():
        address = int.from_bytes(digits, "big")
        if mark in found and not image.has_code_at(address):
            yield "0x%x" % address


def marker_of(question):
    """The address at which the linker may have left sequences of discarded functions. The bytes of an operation that sets it may
    stand in another operand as well. Where no sequence begins there, --dead leaves nothing out, so of one address the program needn't
    be asked."""
    markers = list(dict.fromkeys(discarded(question.section(), question.image)))
    for marker in markers[:-1]:
        if NONE % marker not in question.verdict("--dead", marker)[1]:
            return marker
    return markers[-1] if markers else None


def is_version(line):
    """Whether a section is refused by this line because of a unit of another version."""
    return line.startswith("no 25 ") and line.rpartition(" ")[0].endswith(" version")


def is_left_out(marker, line, run, question, copies):
    """Whether --dead with this marker left anything out: by the program's own notes, and where it doesn't come to them, by whether
    the section is refused otherwise without it. For a version that is refused whatever is left out there is none."""
    if is_version(line):
        return False
    if line[:5] in ("no 25", "no 26", "no 27", "no 28", "no 29"):
        return question.verdict(*copies)[0] != line
    of_section = run.status == 0 or line[:5] in ("no 30", "no 31", "no 32")
    notes = os.fsdecode(run.notes) if of_section else question.verdict("--dead", marker, *copies)[1]
    return NONE % marker not in notes


# ---- copies


def twice_held(line):
    """The first address that two sequences hold, where a section is refused because of it."""
    return line.rpartition(" at ")[2].partition(",")[0] if line.startswith("no 32 ") else None


def begun(question, word, words, others, first=b""):
    """A run of a word on a section, which has begun to answer; `first` is what it is fed, where it is. Where sequences overlap, and one
    is a copy of the other, copies are left out; of these the first address is given. Where they overlap at 0x0, it is more likely that
    both are discarded."""
    run = question.run(word, words, others, is_fed=bool(first))
    run.feed(first)
    address = twice_held(run.no())
    if "--skip-copies" not in question.taken or address in (None, "0x0"):
        return run, None
    run.end()
    if os.fsencode(COPIES) not in run.notes:
        return run, None
    run = question.run(word, ["--skip-copies", *words], others, is_fed=bool(first))
    run.feed(first)
    return run, address


# ---- all notes


def notes_to(run, name, question, marker, address):
    """The notes to a run of the program, and how its own notes begin that say the same."""
    line = run.no() if run.status == 1 else ""
    notes, same = [], [NONE % marker] if marker else []
    copies = ["--skip-copies"] if address else []
    if marker and run.status in (0, 1) and is_left_out(marker, line, run, question, copies):
        notes.append("sequences begin at %s, where %s has no code: the linker left those of discarded functions there; "
                     "--dead %s leaves them out" % (marker, shown(name), marker))
        same.append(DEAD)
    if address:
        notes.append("sequences of %s hold the same positions, the first of them %s: the linker kept one of several copies of a function, "
                     "or folded functions into one (--icf); --skip-copies leaves out the others" % (shown(name), address))
    if line:
        from scripts.object.advice import advice

        text, ours = advice(line, question)
        return notes + [text] * (text is not None), same + list(ours)
    return notes, same
