"""For gsym_cases.py and breakpad_cases.py: symbol files, odd ones and broken ones, and whether `PROGRAM symbols` prints of each what a slow
reader says, which was written from the documents."""

import random
import subprocess
import sys
from concurrent.futures import ThreadPoolExecutor

from checks import written

TOP = (1 << 64) - 1
HEADER = b"low,high,path,line\n"


def table_of(borders, answer):
    """The table of what is answered, which changes at these borders alone: a path and a line, or nothing."""
    borders = sorted({border for border in borders if border <= TOP} | {TOP})
    spans = []
    for low, high in zip(borders, borders[1:]):
        said = answer(low)
        if said and spans and spans[-1][1:] == [low, said]:
            spans[-1][1] = high
        elif said:
            spans.append([low, high, said])
    return HEADER + b"".join(b"0x%x,0x%x,%s,%d\n" % (low, high, written(path), line) for low, high, (path, line) in spans)


def broken(picked, data):
    """The same with a byte changed, left out or put in, or cut."""
    place, change = picked.randrange(len(data)), picked.randrange(5)
    if change == 0:
        return data[:place]
    if change == 1:
        return data[:place] + picked.randbytes(1) + data[place:]
    if change == 2:
        return data[:place] + data[place + 1:]
    return data[:place] + bytes([picked.choice((0, 1, 127, 128, 255, picked.randrange(256)))]) + data[place + 1:]


def case(program, data, wanted):
    """Whether the program prints what it should."""
    run = subprocess.run([program, "symbols", "--quiet", "-"], input=data, stdout=subprocess.PIPE, stderr=subprocess.PIPE)
    return (run.stdout, run.returncode, run.stderr) == (*wanted(data), b"")


def tried(picked_file, wanted):
    """Tries the cases that the words of the command ask for: PROGRAM COUNT SEED."""
    program, count, picked = sys.argv[1], int(sys.argv[2]), random.Random(int(sys.argv[3]))
    files = []
    for _ in range(count):
        data = picked_file(picked)
        files.append(data if picked.randrange(4) == 0 else broken(picked, data))
    with ThreadPoolExecutor() as pool:
        found = list(pool.map(lambda data: case(program, data, wanted), files))
    for data in [data for data, is_right in zip(files, found) if not is_right][:5]:
        print("failed: %s" % data.hex())
    print("%d passed, %d failed" % (found.count(True), found.count(False)))
    sys.exit(found.count(False) > 0)
