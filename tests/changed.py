"""changed.py COUNT FILE..: does as linetab-object does with each FILE, COUNT times with some bytes that are others, with --older and
without. Each run ends with a status or a refusal, within a second of processor time, a minute in all, and 64 MB. Anything else is told.
The program isn't started: its answers are made up."""

import importlib
import os
import random
import resource
import signal
import sys
import tempfile

TOP = os.path.dirname(os.path.dirname(os.path.abspath(__file__)))
EXTREMES = (0, 1, 2, 0x7F, 0x80, 0xFF, 0xFFFF, 0x7FFFFFFF, 0x80000000, 0xFFFFFFFE, 0xFFFFFFFF, 1 << 63, (1 << 64) - 1)
LINES = (
    b"yes\n",
    b"no 25 malformed at 0x4: version 4\n",
    b"no 25 malformed at 0x0: truncated\n",
    b"no 28 string outside unit 0x0 directories entry 0\n",
    b"no 32 overlap 0x0:0 0xa0:0 at 0x1129,0\n",
)
NOTES = (b"", b"linetab: note: no sequence begins at 0x0,\n", b"linetab: note: the two hold the same positions, as where\n")


class Late(BaseException):
    """A run takes too long."""


def late(*_):
    raise Late


def changed(whole, chance):
    """The file with one to four changes: other bytes, a number that is an extreme, a part moved, doubled, left out or cut off."""
    data = bytearray(whole)
    for _ in range(chance.randint(1, 4)):
        kind, at, size = chance.randrange(8), chance.randrange(len(data)), chance.choice((1, 2, 4, 8, 40, 64, 80))
        if kind < 3:
            data[at] = chance.choice((0, 1, 0x7F, 0x80, 0xFF, chance.randrange(256)))
        elif kind < 5:
            width = chance.choice((2, 4, 8))
            number = chance.choice(EXTREMES + (len(data), len(data) - 1, chance.randrange(len(data))))
            data[at : at + width] = (number % (1 << 8 * width)).to_bytes(width, chance.choice(("little", "big")))
        elif kind == 5:
            other = chance.randrange(len(data))
            data[at : at + size] = data[other : other + size]
        elif kind == 6:
            data[at:at] = chance.choice((data[at : at + size], b"\xff" * size, b"\x80" * size))
        else:
            del data[at : chance.choice((at + size, len(data)))]
        data = data or bytearray(1)
    return bytes(data)


HELP = "Tells whether\n\nUsage: linetab verify [OPTIONS] <SECTION>\n\nArguments:\n  <SECTION>  It\n\nOptions:\n" + "".join(
    "      %s  It\n" % option for option in ("--big", "--dead <A>", "--line-str <F>", "--str <F>", "--skip-copies"))


def loaded(chance):
    """The function by which linetab-object answers about a file, without its program and what it tells."""
    sys.path.insert(0, os.path.join(TOP, "share"))
    folder = os.listdir(os.path.join(sys.path[0], "scripts", "object"))
    names = [name[:-3] for name in folder if name.endswith(".py") and name != "__init__.py"]
    modules = {name: importlib.import_module("scripts.object." + name) for name in names}

    class Made(modules["program"].Run):
        def __init__(self, *_, **__):
            self.output = self.input = self.said = None
            self.head, self.notes = chance.choice(LINES), chance.choice(NOTES)
            self.status = int(self.head != b"yes\n")

    modules["program"].Run = Made
    os.dup2(os.open(os.devnull, os.O_WRONLY), 2)
    words = modules["words"]
    word = words.Word("verify", HELP)
    given = [words.Given(word, typed) for typed in ([], ["--older"])]
    from scripts.bounded import Refusal

    return Refusal, lambda path: modules["command"].answer(word, chance.choice(given), path, Nowhere())


class Nowhere:
    """What is written there is lost."""

    def write(self, piece):
        pass

    def end(self, status):
        pass

    def know(self, **facts):
        pass


def tried(refusal, answer, path, seed):
    """Runs a word on the file."""
    signal.setitimer(signal.ITIMER_PROF, 1)
    signal.alarm(60)
    try:
        answer(path)
    except refusal:
        pass
    except BaseException as error:
        print("%s, seed %d: %r" % (sys.argv[2], seed, error))
        raise
    finally:
        signal.setitimer(signal.ITIMER_PROF, 0)
        signal.alarm(0)


def main():
    chance = random.Random()
    refusal, answer = loaded(chance)
    for number in (signal.SIGPROF, signal.SIGALRM):
        signal.signal(number, late)
    with open("/proc/self/statm", "rb") as statm:
        limit = int(statm.read().split()[0]) * resource.getpagesize() + (64 << 20)
    resource.setrlimit(resource.RLIMIT_AS, (limit, limit))
    for name in sys.argv[2:]:
        with open(name, "rb") as file:
            whole = file.read()
        with tempfile.TemporaryDirectory() as folder:
            for seed in range(int(sys.argv[1])):
                chance.seed(seed)
                path = os.path.join(folder, "file")
                with open(path, "wb") as file:
                    file.write(changed(whole, chance))
                tried(refusal, answer, path, seed)
    print("%d files" % (int(sys.argv[1]) * len(sys.argv[2:])))


main()
