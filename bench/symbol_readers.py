"""The table of `linetab symbols`, beside the answers of a format's own reader."""

import bisect
import csv
import io
import os
import subprocess
import sys
import tempfile

PROGRAM = os.path.join(os.path.dirname(os.path.dirname(os.path.abspath(__file__))), "linetab")


def answers_of_table(name, addresses):
    printed = subprocess.run([PROGRAM, "symbols", name], stdout=subprocess.PIPE, check=True).stdout
    records = list(csv.reader(io.StringIO(printed.decode("latin-1"), newline="\n")))[1:]
    spans = [(int(low, 16), int(high, 16), "%s|%s" % (path, line)) for low, high, path, line in records]
    lows = [low for low, _, _ in spans]
    for address in addresses:
        at = bisect.bisect_right(lows, address) - 1
        yield spans[at][2] if at >= 0 and address < spans[at][1] else "-"


def compared(about, name, make, answers_of_reader):
    """Makes as many files as the words of the command say, by make(SEED), which have bytes() and addresses(), and prints what the table
    and the reader answer differently. An empty path and line 0 may be no answer. Gives the exit status."""
    if len(sys.argv) != 2 or not sys.argv[1].isdigit():
        print(about, file=sys.stdout if {"-h", "--help"} & set(sys.argv) else sys.stderr)
        return 0 if {"-h", "--help"} & set(sys.argv) else 64
    alike = different = 0
    with tempfile.TemporaryDirectory() as folder:
        name = os.path.join(folder, name)
        for seed in range(int(sys.argv[1])):
            made = make(seed)
            with open(name, "wb") as file:
                file.write(made.bytes())
            addresses = made.addresses()
            for address, ours, theirs in zip(addresses, answers_of_table(name, addresses), answers_of_reader(name, addresses)):
                if ours == theirs or (ours, theirs) == ("|0", "-"):
                    alike += 1
                    continue
                different += 1
                print("file %d at 0x%x: %s, and the reader %s" % (seed, address, ours, theirs))
    print("%d alike, %d different" % (alike, different))
    return 1 if different else 0
