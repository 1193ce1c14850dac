#!/usr/bin/env bash
# docs/NUMBERS.md and the code give each number to the same reason: beside the variants of the types, in the lines that are printed, in
# the texts of reasons, and in what C gets.
cd "$(dirname "$(readlink -f -- "$0")")/.." || exit 1
top=$PWD
. ./sources.bash
tell_help tests/numbers.sh "$@"
exec python3 - <<'END'
import collections
import glob
import re
import sys

passed, faults = 0, []


def judge(is_so, text):
    global passed
    passed += bool(is_so)
    if not is_so:
        faults.append(text)


def read(name):
    with open(name, encoding="utf-8") as file:
        return file.read()


def skeleton(text):
    """A text with an asterisk in place of each number and word that is put into it."""
    return re.sub(r"\{[^}]*\}|\b[A-Z]+\b|(?<=0x)[A-Z]", "*", text)


def covers(general, text):
    """Whether a text is another one with something in place of each asterisk."""
    return re.fullmatch(re.escape(general).replace(r"\*", ".+"), text)


# Of each number the name, other names of it, and the texts in code font on its row of the page.
names, others, texts = {}, collections.defaultdict(list), {}
for numbers, name, more, text in re.findall(r"(?m)^\| (\d[\d, ]*)(?: `(\w+)`((?:, `\w+`)*))? \| (.*?) \|", read("docs/NUMBERS.md")):
    name = name or (re.match(r"`(?:\w+::)?(\w+)`", text) or ["", ""])[1]
    for number in map(int, numbers.split(", ")):
        names.setdefault(number, name)
        others[number] += re.findall(r"\w+", more)
        texts.setdefault(number, [skeleton(it) for it in re.findall(r"`(.*?)`", text)] or [""])
judge(set(range(1, max(names) + 1)) == set(names), "the numbers of docs/NUMBERS.md have gaps")

tests = "crates/lnt_tests/"
sources = {name: read(name) for name in sorted(glob.glob("crates/*/src/**/*.rt", recursive=True)) if not name.startswith(tests)}
named = collections.defaultdict(set)
for source, text in sources.items():
    for number, name in re.findall(r"/// (\d+): (?:.*\n +///)*.*\n +(\w+)(?=[,( {])", text):
        named[int(number)].add(name)
        judge(names.get(int(number)) in (name, "") or name in others[int(number)], "%s: %s is %s, which docs/NUMBERS.md doesn't call so" % (source, number, name))
    for number, line in re.findall(r'"no (\d+) ([^"]*)"', text):
        line, rows = skeleton("no %s %s" % (number, line)), texts.get(int(number), [])
        judge(any(covers(line, row) or covers(row, line) for row in rows), "%s: %r isn't one of %r" % (source, line, rows))
# The types whose variants are 42 and 45 have no numbers, and 46 is no variant, since callers of the library get the two counts.
judge(set(names) - set(named) == {42, 45, 46}, "the code has the numbers %s" % sorted(named))

reasons = re.findall(r'Reason::(\w+)[^=]*=> \{?\s*(?:f.write_str\(|write!\(f, )"(.*?)"', sources["crates/lnt_wire/src/fault.rt"])
reason = re.search(r"(?ms)^pub enum Reason \{$.*?^\}$", sources["crates/lnt_wire/src/fault.rt"])[0]
judge(len(reasons) == len(re.findall(r"/// \d+: ", reason)), "not each reason has a text")
for name, text in reasons:
    number = next((number for number in range(1, 16) if names[number] == name), 0)
    judge(number == 15 or skeleton(text) == texts.get(number, [""])[0], "the text of %s, %r, isn't that of docs/NUMBERS.md" % (name, text))

told = re.findall(
    r"\b(?:Reason|RunFault|Stop|No|TableNo)::(\w+)[^=]*=> (?:\(|(?:FlatVerdict \{[^}]*?\.\.)?(?:numbered|placed|at)\((?:position, )?)(\d+)",
    sources["crates/lnt_ffi/src/verdict.rt"],
)
# The numbers of each type that C gets, and those that lnt_ffi gives, by a variant's name or in a function of its own.
kinds = "Reason|RunFault|Stop|No|TableNo"
enums = re.findall(r"(?ms)^pub enum (?:%s) \{$.*?^\}$" % kinds, "\n".join(sources.values()))
wanted = {int(number) for enum in enums for number in re.findall(r"/// (\d+): ", enum)}
given = {int(number) for _, number in told} | set(map(int, re.findall(r"\b(?:placed\(|at\(position, )(\d+)", sources["crates/lnt_ffi/src/verdict.rt"])))
judge(len(enums) == 5 and given == wanted, "lnt_ffi gives the numbers %s in place of %s" % (sorted(given), sorted(wanted)))
for name, number in told:
    judge(names[int(number)] == name, "lnt_ffi gives %s the number %s" % (name, number))
print("\n".join(faults + ["%d passed, %d failed" % (passed, len(faults))]))
sys.exit(bool(faults))
END
