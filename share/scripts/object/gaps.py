"""The word gaps: where a program has lines, and what it is compared with has no answer."""

import os

from scripts.object.stretches import Answers, ListedPaths, joined, stretches
from scripts.object.functions import Functions
from scripts.object.tally import MISSING, what_is_so
from scripts.table.spans import quoted
from scripts.telling import shown

HEADER = b"low,high,bytes,function,path,line\n"


class Gaps:
    """The gaps of a table, as they are written."""

    def __init__(self, comparison):
        self.comparison = comparison

    def passed_on(self, run, sink, question, words):
        """Writes them, and gives the exit status: that of the run only if nothing could be compared."""
        line = run.no()
        if line and not line.startswith("no 40 "):
            return self.comparison.passed_on(run, sink, question, words)
        answers = Answers(ListedPaths(question, words))
        found = (each for each in stretches(run.pieces(), answers) if what_is_so(each) == MISSING)
        functions = Functions(self.comparison.image)
        sink.write(HEADER)
        for gap in joined(found):
            sink.write(record(gap, functions.at(gap.low)[0], os.isatty(1) and "--output" not in self.comparison.given.own))
        if run.end() in (0, 1):
            sink.end(0)
            return 0
        return run.status


def record(gap, function, is_seen):
    """A line. On a terminal control characters aren't written as they are."""
    texts = [os.fsencode(function or ""), gap.section.path.encode("latin-1")]
    if is_seen:
        texts = [os.fsencode(shown(text)) for text in texts]
    name, path = map(quoted, texts)
    return b"0x%x,0x%x,%d,%s,%s,%d\n" % (gap.low, gap.high, gap.high - gap.low, name, path, gap.section.line)
