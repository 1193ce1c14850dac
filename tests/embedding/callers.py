"""callers.py PROGRAM [--caller 'COMMAND']... SOURCE..: asks PROGRAM and each caller of the library, which is a command as of
examples/c/lookup.c, for the same addresses in each section, and compares what they print. Where all is alike, it says nothing.

SOURCE is a folder that has sections, at any depth, or a .tar.xz with such a folder: `NAME.debug_line` and `NAME.debug_line_str`;
or in a folder of their own `debug_line` or `line.bin`, with `debug_line_str`, `debug_str` and `about`, or `line_str.bin` and
`str.bin`; or generated cases. Each is read as it is, with a marker of dead code at 0, without copies, and with both. Where it isn't
good, each caller has to say no too. Of a section above a megabyte a few addresses are asked for, else some 150: where spans begin
and end, and one below each end."""

import argparse
import os
import random
import shlex
import subprocess
import sys
import tempfile
from multiprocessing import Pool

READINGS = [[], ["--dead", "0x0"], ["--skip-copies"], ["--dead", "0x0", "--skip-copies"]]
# What is in a printed path only where something of it is quoted.
QUOTED = b"\\"


def read(name):
    if not os.path.exists(name):
        return b""
    with open(name, "rb") as file:
        return file.read()


def sections_in(folder):
    """The name of each section's file, with those of its strings and whether it is big-endian."""
    for at, _, names in sorted(os.walk(folder)):
        path = lambda name: os.path.join(at, name)
        words = read(path("args")).decode(errors="replace").splitlines()
        if "args" in names and words[:1] == ["verify"] and len(words) > 1:
            texts = dict(zip(words, words[1:]))
            yield path(words[1]), path(texts.get("--line-str", "none")), path(texts.get("--str", "none")), "--big" in words
            continue
        is_big = b"order=big" in read(path("about"))
        for name in sorted(names):
            if name.endswith(".debug_line"):
                yield path(name), path(name + "_str"), path("none"), name.startswith("powerpc")
            elif name == "debug_line":
                yield path(name), path("debug_line_str"), path("debug_str"), is_big
            elif name == "line.bin":
                yield path(name), path("line_str.bin"), path("str.bin"), is_big


def addresses_of(table, size):
    """Where spans of an address table begin and end, and the addresses below their ends; some of these, the same each time."""
    records = [line.split(b",") for line in table.splitlines()[1:]]
    ends = {int(field, 16) for record in records for field in (record[0], record[2])}
    ends = sorted(ends | {end - 1 for end in ends if end > 0})
    return sorted(random.Random(11).sample(ends, min(len(ends), 12 if size > 1000000 else 150)))


def ran(command):
    done = subprocess.run(command, stdin=subprocess.DEVNULL, capture_output=True)
    return done.returncode, done.stdout


def compared(job):
    """How many answers were compared, and what is wrong with those of some caller."""
    program, callers, (line, line_str, text, is_big), reading = job
    line_str = line_str if os.path.exists(line_str) else os.devnull
    options = (["--str", text] if os.path.exists(text) else []) + ["--big"] * is_big + reading
    ours = [line, "--line-str", line_str, *options, "--quiet"]
    status, table = ran([program, "table", *ours])
    words = ["0x%x" % at for at in addresses_of(table, os.path.getsize(line))] if status == 0 else ["0x0"]
    wanted = ran([program, "lookup", *ours[:1], *words, *ours[1:]])
    if wanted[0] not in (0, 1) or QUOTED in wanted[1]:
        return 0, []
    wrong = []
    for caller in callers:
        given = ran([*caller, line, line_str, *options, *words])
        if given[0] != wanted[0] or wanted[0] == 0 and given[1] != wanted[1]:
            wrong.append("%s: %s %s: status %d, wanted %d" % (caller[-1], line, " ".join(options), given[0], wanted[0]))
    return len(words) if wanted[0] == 0 else 0, wrong


def main():
    words = argparse.ArgumentParser(usage=__doc__)
    words.add_argument("program")
    words.add_argument("--caller", action="append", type=shlex.split, default=[])
    words.add_argument("--count", action="store_true", help="print how many sections, readings and answers there were")
    words.add_argument("source", nargs="+")
    said = words.parse_args()
    with tempfile.TemporaryDirectory() as room:
        folders = []
        for source in said.source:
            found = [source] if source.endswith(".tar.xz") else [
                os.path.join(at, name) for at, _, names in os.walk(source) for name in names if name.endswith(".tar.xz")
            ]
            folders += [source] if os.path.isdir(source) else []
            for archive in found:
                folders.append(tempfile.mkdtemp(dir=room))
                subprocess.run(["tar", "xJf", archive, "-C", folders[-1]], check=True)
        sections = sorted({section for folder in folders for section in sections_in(folder)})
        jobs = [(os.path.abspath(said.program), said.caller, section, reading) for section in sections for reading in READINGS]
        with Pool() as pool:
            done = list(pool.imap(compared, jobs))
    wrong = [text for _, texts in done for text in texts]
    print("".join(text + "\n" for text in wrong[:20]), end="")
    if said.count:
        counts = [count for count, _ in done if count > 0]
        print("%d sections, %d readings of good ones, %d answers" % (len(sections), len(counts), sum(counts)))
    if not any(count for count, _ in done):
        sys.exit("no good section was there")
    sys.exit(1 if wrong else 0)


main()
