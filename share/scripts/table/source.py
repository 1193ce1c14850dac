"""The file that a maker reads."""

import os

from scripts.bounded import Refusal
from scripts.kinds import HEAD, foreign
from scripts.telling import shown

CUT = "it is cut or damaged"


def source(asked):
    """The open file, unless it is another maker's."""
    file = os.fdopen(0, "rb", closefd=False) if asked.file == "-" else open(asked.file, "rb")
    refuse_foreign(asked, file.peek(HEAD)[:HEAD])
    return file


def refuse_foreign(asked, head):
    """Refuses a file that begins so, if it is another maker's."""
    text = foreign(asked.maker, head, shown(asked.file))
    if text:
        raise Refusal(text)
