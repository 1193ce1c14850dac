"""cases.py PROGRAM FOLDER: runs PROGRAM, which is calls.c, on the generated cases of the words that it has, and compares what it prints
with what is wanted. It leaves out words and options that it hasn't, and paths that are printed quoted. Where all is as wanted, it says nothing."""

import os
import subprocess
import sys
from multiprocessing import Pool

# What is in a printed path only where something of it is quoted.
QUOTED = b"\\"


def held(folder, name):
    """The bytes of a file of a case, or none where it isn't there."""
    path = os.path.join(folder, name)
    if not os.path.exists(path):
        return b""
    with open(path, "rb") as file:
        return file.read()


def words_of(words):
    """The words for calls.c that ask the same, or none."""
    words = [part for word in words for part in (word.split("=", 1) if word.startswith("--") else [word])]
    word, options, names, op, k = words[0], [], [], "0", 1
    while k < len(words):
        if words[k] in ("--line-str", "--str", "--dead"):
            options += words[k : k + 2]
            k += 1
        elif words[k] in ("--big", "--skip-copies"):
            options.append(words[k])
        elif words[k] == "--op" and k + 1 < len(words):
            op = words[k + 1]
            k += 1
        elif words[k] == "--wide":
            word = "wide"
        elif words[k] == "--partial":
            word = "part"
        elif words[k] == "--quiet":
            pass
        elif words[k].startswith("-") and words[k] != "-":
            return None
        else:
            names.append(words[k])
        k += 1
    wanted = {"check": 2, "part": 2, "lookup": 2, "verify": 1, "table": 1, "wide": 1}.get(word)
    if len(names) != wanted:
        return None
    more = [names[1]] if word in ("check", "part") else ["%s:%s" % (names[1], op)] if word == "lookup" else []
    return [word, *more, names[0], *options]


def tried(job):
    """Whether a case was run, and what is wrong with the answer."""
    program, folder = job
    words, status, wanted = held(folder, "args").decode().splitlines(), int(held(folder, "status")), held(folder, "stdout")
    given = words_of(words)
    if given is None or status not in (0, 1) or QUOTED in wanted:
        return False, None
    done = subprocess.run([program, *given], cwd=folder, input=held(folder, "stdin"), capture_output=True)
    if (done.returncode, done.stdout) == (status, wanted):
        return True, None
    title = "%s: %s" % (os.path.basename(folder), " ".join(given))
    said = done.stderr[-300:].decode(errors="replace")
    return True, "%s: status %d, %r, wanted %d, %r %s" % (title, done.returncode, done.stdout[:200], status, wanted[:200], said)


def main():
    program, top = os.path.abspath(sys.argv[1]), sys.argv[2]
    folders = sorted(os.path.join(top, name) for name in os.listdir(top))
    jobs = [(program, folder) for folder in folders if os.path.exists(os.path.join(folder, "args"))]
    with Pool() as pool:
        done = list(pool.imap(tried, jobs, 8))
    wrong = [text for _, text in done if text]
    print("".join(text + "\n" for text in wrong[:20]), end="")
    ran = sum(is_run for is_run, _ in done)
    if ran < 500:
        print("only %d cases were run" % ran)
    sys.exit(1 if wrong or ran < 500 else 0)


main()
