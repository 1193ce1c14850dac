"""Rows of a section by which it doesn't answer: those of copies of a function that are left out, and of two at one address the first."""

import itertools
from bisect import bisect_left

from scripts.object.stretches import lines
from scripts.object.tally import COPY, FIRST

MOST = 1 << 21  # lines of `dump --rows` that are read


def rows(pieces):
    """The unit, the address, the file, the line and the column of each row, and whether it ends a sequence."""
    unit = 0
    for line in itertools.islice(lines(pieces), MOST):
        if line.startswith(b"row "):
            _, _, address, _, file, number, column, _, flags, *_ = line.split(b" ")
            yield unit, int(address, 16), int(file), int(number), int(column), b"e" in flags
        elif line.startswith(b"unit "):
            unit = int(line.split(b" ")[1], 16)


def others(found, wanted):
    """Of these addresses, which are in order, those that a row holds, or at which it is the first of two: the address, the kind, and
    the row."""
    last = None
    for row in found:
        unit, address, *_, is_end = row
        if last and last[0] == unit and last[1] <= address:
            kind, high = (FIRST, address + 1) if last[1] == address else (COPY, address)
            k = bisect_left(wanted, last[1])
            while k < len(wanted) and wanted[k] < high:
                yield wanted[k], kind, last
                k += 1
        last = None if is_end else row


def is_of(answer, row, path_of):
    """Whether an answer is that of a row, as far as it tells."""
    unit, _, file, line, column, _ = row
    if answer.line != line or answer.rest[:1] not in ((), (column,)):
        return False
    return answer.path == path_of(unit, file)


def move_kinds(tally, question, path_of):
    """Has the tally count wrong answers that are those of other rows as such."""
    by_low = {stretch.low: stretch for stretch in tally.first_wrong}
    if not by_low:
        return
    run = question.run("dump", ["--rows"], taken={"--big"})
    try:
        for low, kind, row in others(rows(run.pieces()), sorted(by_low)):
            if low in by_low and is_of(by_low[low].table, row, path_of):
                tally.move(by_low.pop(low), kind)
    finally:
        run.end()
