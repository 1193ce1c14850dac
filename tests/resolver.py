"""resolver.py PROGRAM FOLDER: compares the tables that `PROGRAM symbols` prints of the symbol files of FOLDER with what the formats' own
readers answer (tests/resolver/README.md). The last line is 'N passed, M failed'."""

import bisect
import csv
import glob
import io
import os
import subprocess
import sys


def table_of(program, name):
    """The lows of the spans, and the spans."""
    printed = subprocess.run([program, "symbols", name], stdout=subprocess.PIPE, check=True).stdout
    records = list(csv.reader(io.StringIO(printed.decode("latin-1"), newline="\n")))[1:]
    spans = [(int(low, 16), int(high, 16), "%s|%s" % (path, line)) for low, high, path, line in records]
    return [low for low, _, _ in spans], spans


def answer(lows, spans, address):
    at = bisect.bisect_right(lows, address) - 1
    return spans[at][2] if at >= 0 and address < spans[at][1] else "-"


def main():
    program, folder = sys.argv[1:]
    passed = failed = 0
    for name in sorted(glob.glob(os.path.join(folder, "*sym"))):
        lows, spans = table_of(program, name)
        with open(os.path.splitext(name)[0] + ".answers", encoding="latin-1") as answers:
            for line in answers:
                address, _, wanted = line.rstrip("\n").partition(" ")
                given = answer(lows, spans, int(address, 16))
                if given == wanted or (given, wanted) == ("|0", "-"):
                    passed += 1
                    continue
                failed += 1
                print("failed: %s at %s: %s, and should be %s" % (os.path.basename(name), address, given, wanted))
    print("%d passed, %d failed" % (passed, failed))
    sys.exit(1 if failed or not passed else 0)


main()
