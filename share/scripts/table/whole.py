"""Paths that are completed to those of a program."""

import bisect
import csv
import io
import itertools
import os
import subprocess
import sys

from scripts.bounded import Refusal
from scripts.paths import behind, is_full
from scripts.telling import note, shown

OBJECT = os.path.join(os.path.dirname(os.path.realpath(sys.argv[0])), "linetab-object")


class Whole:
    """The paths that linetab lists of a program, and to which of them others are completed."""

    def __init__(self, program):
        self.program, self.found = program, {}
        self.paths = set(self.listed())
        # In their order two paths that end alike stand side by side.
        self.backwards = sorted(path[::-1] for path in self.paths)

    def listed(self):
        done = subprocess.run([OBJECT, "files", self.program, "--skip-copies", "--older"], stdout=subprocess.PIPE, check=False)
        if done.returncode != 0:
            said = done.stdout.decode("utf-8", "surrogateescape").splitlines()[-1:]
            raise Refusal("linetab-object files %s: %s" % (shown(self.program), shown(said[0]) if said else "it lists no paths"))
        csv.field_size_limit(1 << 30)
        records = csv.reader(io.StringIO(done.stdout.decode("latin-1"), newline=""))
        return [record[2].encode("latin-1") for record in itertools.islice(records, 1, None)]

    def ends(self, path):
        """How many paths end so, of which 2 is any number above 1, and one of them."""
        end = (b"/" + path)[::-1]
        at = bisect.bisect_left(self.backwards, end)
        found = [other for other in self.backwards[at : at + 2] if other.startswith(end)]
        return len(found), found[0][::-1] if found else None

    def completed(self, path):
        count, whole = self.ends(path)
        if count == 0 and path.startswith(b"./"):
            count, whole = self.ends(path[2:])
        if count == 1:
            return whole
        note("%s stays as it is: %s of %s ends so" % (shown(path), "no path" if count == 0 else "more than one path", shown(self.program)))
        return path

    def of(self, path):
        if path in self.paths:
            return path
        if is_full(path):
            # readelf writes the directory before names that are full too.
            name = behind(path)
            return name if name in self.paths else path
        if path not in self.found:
            self.found[path] = self.completed(path)
        return self.found[path]


def with_whole_paths(spans, whole):
    for low, high, (path, *numbers) in spans:
        yield low, high, (whole.of(path), *numbers)
