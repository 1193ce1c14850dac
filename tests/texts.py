"""texts.py COUNT LINETAB_OBJECT FILE: symbolizes COUNT texts that are made up of addresses and of what looks like them, each with what has
to come of it, by lookups of the same addresses."""

import random
import subprocess
import sys

CODE = range(0x1000, 0x1200)


def said(program, file):
    """What lookups say of each address of CODE, as it is written behind one."""
    done = subprocess.run([program, "lookup", file, *map(hex, CODE)], check=True, stdout=subprocess.PIPE)
    answers = {}
    for address, line in zip(CODE, done.stdout.decode().splitlines()):
        words = line.split()
        if words[1] != "none":
            path = line.partition(' path "')[2][:-1]
            answers[address] = " %s:%s:%s" % (path, words[words.index("line") + 1], words[words.index("column") + 1])
    return answers


def number(chance):
    return chance.choice((chance.choice(CODE), chance.randrange(1 << 16), chance.randrange(1 << 64)))


def part(chance, answers, is_first):
    """A word of a text, and the same as it has to be."""
    address = number(chance)
    told = answers.get(address, "")
    digits = chance.choice(("%x", "%X", "%016x", "%010x")) % address
    kind = chance.randrange(9)
    if kind == 0:
        text = "0x" + digits.lstrip("0")[:16] if address else "0x0"
        return text, text + told
    if kind == 1:
        return "[0x%s]" % digits, "[0x%s%s]" % (digits, told)
    if kind == 2:
        return "(+0x%s)" % digits, "(+0x%s%s)" % (digits, told)
    if kind == 3:
        return "/a/b+0x%s" % digits, "/a/b+0x%s%s" % (digits, told)
    if kind == 4:
        return ("name+0x%s" % digits,) * 2
    if kind == 5:
        return ("<%s>" % digits, "<%s%s>" % (digits, told if len(digits) >= 8 else ""))
    if kind == 6 and is_first:
        is_one = len(digits) >= 3 and not digits.isalpha()
        return digits, digits + (told if is_one else "")
    if kind == 7:
        return ("pid=%s" % digits,) * 2
    return (chance.choice(("word", "-", "é", "=>", "10.5", "a:b")),) * 2


def text_of(chance, answers):
    given, wanted = [], []
    for _ in range(chance.randrange(40)):
        parts = [part(chance, answers, k == 0) for k in range(chance.randrange(6))]
        given.append(" ".join(text for text, _ in parts))
        wanted.append(" ".join(text for _, text in parts))
    end = chance.choice(("", "\n", "\r\n"))
    return "\n".join(given) + end, "\n".join(wanted) + end


def main():
    count, program, file = int(sys.argv[1]), *sys.argv[2:]
    answers = said(program, file)
    chance, given, wanted = random.Random(1), "", ""
    for _ in range(count):
        one, other = text_of(chance, answers)
        given, wanted = given + one + "\n", wanted + other + "\n"
    done = subprocess.run([program, "symbolize", file], check=True, input=given.encode(), stdout=subprocess.PIPE)
    for before, line, right in zip(given.split("\n"), done.stdout.decode().split("\n"), wanted.split("\n")):
        if line != right:
            sys.exit("%r gives %r, and not %r" % (before, line, right))
    if done.stdout.decode() != wanted:
        sys.exit("the text ends otherwise")
    print("%d texts" % count)


main()
