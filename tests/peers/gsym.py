#!/usr/bin/env python3
"""gsym.py TOOL GSYM TABLE LEAST: asks TOOL, an llvm-gsymutil, of each address about the spans of TABLE, which was made of GSYM, and prints where the two differ. Less than LEAST answered addresses are a failure too."""

import bisect
import csv
import re
import subprocess
import sys

ANSWER = re.compile(r"0x0*([0-9a-f]+): (.*)")
PLACE = re.compile(r".* @ (.*):([0-9]+)(?: \[inlined\])?")


def said(tool, gsym, addresses):
    """What the tool says of each address: the path and the line, or nothing."""
    lines = "".join("0x%x %s\n" % (address, gsym) for address in addresses)
    out = subprocess.run([tool, "--addresses-from-stdin"], input=lines, stdout=subprocess.PIPE, stderr=subprocess.DEVNULL, text=True,
                         check=True).stdout
    found = {}
    for line in out.splitlines():
        # Lines of the functions that code was inlined into begin with blanks.
        answer = ANSWER.match(line)
        if answer:
            place = PLACE.fullmatch(answer[2])
            found[int(answer[1], 16)] = (place[1], place[2]) if place else None
    return found


def main():
    tool, gsym, table, least = sys.argv[1:]
    with open(table, newline="") as file:
        spans = [(int(low, 16), int(high, 16), (path, line)) for low, high, path, line in list(csv.reader(file))[1:]]
    lows = [low for low, _, _ in spans]
    addresses = sorted({at for low, high, _ in spans for at in range(max(0, low - 40), min(high + 40, low + 5000))})
    theirs = said(tool, gsym, addresses)
    answered = 0
    for address in addresses:
        at = bisect.bisect_right(lows, address) - 1
        ours = spans[at][2] if at >= 0 and address < spans[at][1] else None
        if ours != theirs.get(address):
            print("at 0x%x the table has %s and the tool says %s" % (address, ours, theirs.get(address)))
        answered += ours is not None
    if answered < int(least):
        print("%d addresses are answered, of %d asked" % (answered, len(addresses)))


main()
