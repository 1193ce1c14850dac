"""Finds the definitions that the contract of `lnt_cli::run` leads to for a `check`, name by name, and compares their files with those
of docs/TRUSTED.md: which they are, that each stands after those that it needs, and how many lines they have, also of a Yes alone, with
its printed line, and with `--partial`. The same for `upgrade`, for `symbols`, for `check --all` and for the whole contract, of whose files the page
lists those that aren't above. And looks whether each file of specs/ begins with a sentence that says what it defines, which
`docs/list definitions` prints."""

import functools
import glob
import os
import re
import sys

TOP = os.path.dirname(os.path.dirname(os.path.abspath(__file__)))
CONTRACT = "crates/lnt_cli/src/program.rt", "run"
# The clause of the contract that answers come by, what it says of a check, and what that says where the answer is `yes`.
CLAUSE = ("Rattle.lnt_cli.specs.Runs", "AnswersWords")
ASKED = ("Rattle.lnt_words.specs.Words", "IsAskedBy")
CHECK = [ASKED, ("Rattle.lnt_cli.specs.Answered", "IsOfFile"), ("Rattle.lnt_cli.specs.Answered", "IsChecked")]
YES = [
    ASKED,
    ("Rattle.lnt_cli.specs.Answered", "AreTextsOf"),
    ("Rattle.lnt_cli.specs.Answered", "options_in"),
    ("Rattle.lnt_table.specs.Headline", "AnswersRight"),
    ("Rattle.lnt_lines.specs.Good", "IsGood"),
    ("Rattle.lnt_csv.specs.Records", "BeginsWith"),
    ("Rattle.lnt_records.specs.Table", "column_names"),
    ("Rattle.lnt_compare.specs.Comparisons", "IsTableWhere"),
    ("Rattle.lnt_records.specs.PathTables", "by_path"),
    ("Rattle.lnt_records.specs.PathSpans", "path_spans"),
    ("Rattle.lnt_table.specs.AnyVersion", "told_paths"),
]
PRINTED = [("Rattle.lnt_answers.specs.Verdicts", "checked_line"), ("Rattle.lnt_answers.specs.Verdicts", "checked_status")]
PARTIAL = [("Rattle.lnt_table.specs.AnyVersion", "IsRightOf")]
ALL = [ASKED, ("Rattle.lnt_cli.specs.Questions", "AreTableStretchesPrinted")]
UPGRADE = [
    ASKED,
    ("Rattle.lnt_cli.specs.Answered", "AnswersUpgrade"),
    ("Rattle.lnt_words.specs.Words", "size_bytes"),
]
SYMBOLS = [ASKED, ("Rattle.lnt_cli.specs.Answered", "AnswersSymbols")]
COUNTS = r"(\d+) lines of definitions in (\d+) files"
COUNTS_OF_YES = r"(\d+) lines in (\d+) files for a Yes"
COUNTS_OF_PRINTED = r"(\d+) in (\d+) with its line"
COUNTS_OF_PARTIAL = r"(\d+) in (\d+) for one with `--partial`"
COUNTS_OF_UPGRADE = r"stands on (\d+) lines in (\d+) files, of which (\d+) aren't above"
COUNTS_OF_SYMBOLS = r"rests on (\d+) lines in (\d+) files, of which (\d+) aren't above"
COUNTS_OF_ALL = r"leads to (\d+) lines in (\d+) files, of which (\d+) aren't above"
COUNTS_OF_CONTRACT = r"The whole contract leads to (\d+) lines in (\d+) files"
WORDS = r"(?:(?:abbrev|unfoldable|opaque|pub|record|data) )+"
WORDS_OF_DATA = r"(?:pub )?data "


def file_of(module):
    crate, _, path = module.removeprefix("Rattle.").partition(".specs.")
    return "crates/%s/specs/%s.antt" % (crate, path.replace(".", "/"))


@functools.cache
def read(module):
    """The names that a file of specs/ brings in, each with its module and its name there; the lines of its definitions; and its
    constructors, each with its data."""
    brought, defined, made, name = {}, {}, {}, None
    with open(os.path.join(TOP, file_of(module)), encoding="utf-8") as file:
        for line in file.read().split("\n"):
            use = re.fullmatch(r"(?:pub )?use (Rattle\.lnt_\w+\.specs\.[\w.+-]+)\.\{(.*)\}", line)
            alias = re.fullmatch(r"(?:pub )?use (Rattle\.lnt_\w+\.specs\.[\w.+-]+) as \w+", line)
            head = re.match(WORDS + r"(\S+)", line)
            if alias and ".declared." not in alias[1]:
                sys.exit("%s brings in %s under another name, which isn't followed here" % (file_of(module), alias[1]))
            if use:
                place, _, data = use[1].rpartition(".")
                constructors = not os.path.exists(os.path.join(TOP, file_of(use[1])))
                for word in use[2].split(","):
                    original, _, short = word.strip().partition(" as ")
                    brought[short or original] = (place, data) if constructors and ".declared." not in use[1] else (use[1], original)
            elif head:
                name = head[1]
            if re.match("use |pub use |--", line):
                name = name if line.startswith("--") else None
            elif name and line.strip():
                defined.setdefault(name, []).append(re.sub("--.*", "", line))
                constructor = re.match(r"  (\w+) : ", line)
                if constructor and re.match(WORDS_OF_DATA, defined[name][0]):
                    made[constructor[1]] = name
    return brought, defined, made


def origin(module, name):
    """The module that defines a name, and its name there: a module may pass on what another one defines."""
    while ".declared." not in module:
        brought, defined, made = read(module)
        if made.get(name, name) in defined or name not in brought:
            break
        module, name = brought[name]
    return module, name


def is_named(name, words):
    """Whether the words have the name, or each part of the operator that it is."""
    return all(part in words for part in name.split("◌") if part)


def contract():
    """The definitions that the clauses of the contract name, each with its module."""
    with open(os.path.join(TOP, CONTRACT[0]), encoding="utf-8") as file:
        text = file.read()
    head = re.search(r"(?ms)^pub fn %s\b.*?^\{$" % CONTRACT[1], text)[0]
    words = set(re.split(r"[\s(){},.;:]+", re.sub(r"(?m)^ *//.*", "", head[head.index("    ensures ") :])))
    uses = re.findall(r"(?m)^ghost use (Rattle\.lnt_\w+\.specs\.[\w.]+)\.\{(.*)\};", text)
    named = [(place, name.strip()) for place, names in uses for name in names.split(",")]
    return [(place, name) for place, name in named if ".declared." not in place and name in words]


def closure(starts):
    """The files that some definitions lead to, each with the number of its lines that they need, and with the files that these name;
    and all names that they lead to."""
    seen, left, lines, needs = set(), list(starts), {}, {}
    while left:
        module, name = left.pop()
        if ".declared." in module:
            continue
        brought, defined, made = read(module)
        name = made.get(name, name)
        if (module, name) in seen:
            continue
        seen.add((module, name))
        if name not in defined:
            sys.exit("%s has no definition of %s" % (file_of(module), name))
        place = file_of(module)
        lines[place] = lines.get(place, 0) + len(defined[name])
        words = set(re.split(r"[\s(){},;:]+", " ".join(defined[name])))
        words |= {word.partition(".")[0] for word in words}
        others = [origin(*place_of) for other, place_of in brought.items() if is_named(other, words)]
        needs.setdefault(place, set()).update(file_of(other) for other, _ in others if ".declared." not in other)
        left += others + [(module, other) for other in defined if other != name and is_named(other, words)]
    return lines, needs, seen


def said(page, pattern, lines, *more):
    """What is wrong with the numbers that the page has: the lines of files, how many files these are, and others."""
    found = re.search(pattern, page)
    true = [str(number) for number in (sum(lines.values()), len(lines), *more)]
    return [] if found and list(found.groups()) == true else ["it has to say %s: %s" % (", ".join(true), pattern)]


def undescribed():
    """How many files of specs/ begin with a sentence, but for the lists of a crate's files, and those that don't."""
    files = glob.glob(os.path.join(TOP, "crates", "*", "specs", "**", "*.antt"), recursive=True)
    files = {os.path.relpath(name, TOP) for name in files if not name.endswith("/Lib.antt")}
    wrong = set()
    for name in files:
        with open(os.path.join(TOP, name), encoding="utf-8") as file:
            head = re.match(r"(-- .*\n)*", file.read())[0].replace("\n-- ", " ")
            if not re.match(r"-- \w.*\.(\s|$)", head):
                wrong.add(name)
    return len(files - wrong), ["%s doesn't begin with a sentence that says what it defines" % name for name in sorted(wrong)]


def leads():
    """Whether the contract leads to what is said of a check, and that to what is said of a yes."""
    of_contract = contract()
    if CLAUSE not in of_contract:
        return ["the contract of %s names no %s" % (CONTRACT[1], CLAUSE[1])]
    _, _, named = closure([CLAUSE])
    _, _, of_check = closure(CHECK)
    needed = CHECK + UPGRADE + SYMBOLS + ALL
    return ["%s doesn't lead to %s" % (CLAUSE[1], name) for module, name in needed if (module, name) not in named] + [
        "nothing that is said of a check leads to %s" % name for module, name in YES + PRINTED + PARTIAL if (module, name) not in of_check
    ]


def misplaced(listed, before, lines, needs):
    """What is wrong with the files that a part of the page lists: all of those that are needed, each once and after those that it needs,
    of which some stand before this part."""
    wrong = ["%s isn't listed, or twice" % name for name in lines if name not in before and listed.count(name) != 1]
    wrong += ["%s is listed, and nothing leads to it" % name for name in listed if name not in lines]
    for at, name in enumerate(listed):
        late = [other for other in needs.get(name, ()) if other != name and other not in before + listed[:at]]
        wrong += ["%s stands before %s, which it needs" % (name, other) for other in sorted(late)]
    return wrong


def files_in(page, head):
    """The files of specs/ that a part of the page lists, by links or by crate."""
    part = page.partition("\n## %s\n" % head)[2].partition("\n## ")[0]
    by_crate = re.findall(r"(?m)^\| `(lnt_\w+)` \| (.*) \|$", part)
    names = ["crates/%s/specs/%s.antt" % (crate, name) for crate, listed in by_crate for name in listed.split(", ")]
    return re.findall(r"\]\(\.\./(crates/\w+/specs/[\w/]+\.antt)\)", part) + names


def main():
    lines, needs, _ = closure(CHECK)
    of_upgrade, upgrade_needs, _ = closure(UPGRADE)
    of_symbols, symbols_needs, _ = closure(SYMBOLS)
    of_all, all_needs, _ = closure(ALL)
    of_contract, contract_needs, _ = closure(contract())
    with open(os.path.join(TOP, "docs", "TRUSTED.md"), encoding="utf-8") as file:
        page = file.read()
    heads = "The definitions", "`check --all`", "`upgrade`", "`symbols`", "The command"
    listed, of_places, added, of_files, others = [files_in(page, head) for head in heads]
    above = listed + of_places + added + of_files
    passed = sum((above + others).count(name) == 1 for name in of_contract)
    wrong = leads() + misplaced(listed, [], lines, needs) + misplaced(of_places, listed, of_all, all_needs)
    wrong += misplaced(added, listed + of_places, of_upgrade, upgrade_needs)
    wrong += misplaced(of_files, listed + of_places + added, of_symbols, symbols_needs)
    wrong += misplaced(others, above, of_contract, contract_needs)
    wrong += said(page, COUNTS, lines) + said(page, COUNTS_OF_CONTRACT, of_contract)
    for pattern, starts in ((COUNTS_OF_YES, YES), (COUNTS_OF_PRINTED, YES + PRINTED), (COUNTS_OF_PARTIAL, YES + PARTIAL)):
        wrong += said(page, pattern, closure(starts)[0])
    wrong += said(page, COUNTS_OF_ALL, of_all, len(of_all.keys() - lines.keys()))
    wrong += said(page, COUNTS_OF_UPGRADE, of_upgrade, len(of_upgrade.keys() - lines.keys() - of_all.keys()))
    before = lines.keys() | of_all.keys() | of_upgrade.keys()
    wrong += said(page, COUNTS_OF_SYMBOLS, of_symbols, len(of_symbols.keys() - before))
    described, unsaid = undescribed()
    for text in ["docs/TRUSTED.md: " + text for text in wrong] + unsaid:
        print("failed: " + text)
    crates = {name.split("/")[1] for name in lines}
    names = ", ".join(name for _, name in CHECK)
    print("%s lead to %d lines in %d files of %d crates" % (names, sum(lines.values()), len(lines), len(crates)))
    print("%d passed, %d failed" % (passed + described, len(wrong) + len(unsaid)))
    sys.exit(1 if wrong or unsaid else 0)


main()
