"""The words that are typed, by what the help of the program says of each word, and the texts that say how they are used."""

import os
import sys

from scripts.bounded import standard_input
from scripts.object.program import LINETAB, asked
from scripts.telling import put_error, shown

FILE = "A program, its debug information apart, a .dSYM folder, or - for standard input"
OUTPUT = ("-o, --output <FILE>", "Writes the answer to a file: all of it if the status is 0, else nothing")
# The words that are about the bytes of a section, so that units of versions 2 to 4 are upgraded for them only if that is asked for.
OF_BYTES = ("units", "dump", "convert", "verify")
OLDER = ("--older", "Upgrades units of versions 2 to 4 to version 5 first; offsets of units are then those of the upgraded section")
NO_OLDER = ("--no-older", "Takes units of versions 2 to 4 as they are; this is the default")
UNASKED = ("--older", "Upgrades units of versions 2 to 4 to version 5 first; this is the default")
REFUSED = ("--no-older", "Refuses units of versions 2 to 4; without it they are upgraded to version 5 first, and offsets of units are "
                         "those of the upgraded section")
ANYWAY = ("--older", "Changes nothing: units of versions 2 to 4 are upgraded anyway")
# What `upgrade` of the program has to be given, and isn't here.
GIVEN = {
    "--address-size": "How many bytes an address has in units of versions 2 to 4, in place of what .debug_info or the kind of the file says",
    "--directories": "A file with the compilation directories of these units, in place of those of .debug_info, or - for standard input",
}
RECURSIVE = ("-r, --recursive", "Takes all programs in the folders among FILEs, and skips what has no line numbers")
PAIRS = ("-r, --recursive", "Compares the programs in a folder with what is in the folder SYMBOLS, paired by identifiers, or by names")
JOBS = ("-j, --jobs <N>", "Takes N files at a time; by default as many as there are processors")
BASE = ("--base <ADDRESS>", "The address at which the program was loaded; it is subtracted from each address")
JSON = ("--json", "Writes a JSON object on a line for each answer, with its notes, instead of the answer")
SYMBOLS = ("<SYMBOLS>", "An address table, a symbol file of Breakpad or a GSYM file, or - for standard input")
CHECK = [
    ("--any-build", "Compares a symbol file of another build too"),
    ("--whole", "Compares a symbol file at all addresses, also those where it has no answer"),
    ("--base <ADDRESS>", "The address from which a symbol file of Breakpad counts, in place of that at which the program is loaded"),
    ("--map <FROM=TO>", "Replaces FROM by TO at the beginning of each name in a symbol file; can be given several times"),
    ("--max <N>", "With --all: lists at most N places where the two differ"),
    ("--summary", "Adds how many addresses are right, what differs, where it is worst, and the cause"),
    JSON,
]
# The words that are of this program alone, but for symbolize: what they do, and the options that they have of those of check.
OF_ANSWERS = {"--partial", "--at-least", "--all", "--ends", "--any-copy"}
OF_BOTH = ("--any-build", "--base", "--map")
GAPS = ("gaps", "Prints as CSV where a program has lines and its table or symbol file has no answer")
REPORT = ("report", "Writes a page of HTML about a program and its tables or symbol files")
SYMBOLIZE = ("symbolize", "Copies a text, with the path, line and column after each address in it")
MORE = "\nFor more information, try '--help'.\n"


# Options that some words take, and what is said of the others.
ELSEWHERE = {
    "--json": "%s takes %s, and no --json, which is for check and verify",
    "--max": "%s takes %s, and no --max, which is for check --all",
    "--summary": "%s takes %s, and no --summary, which is for check",
    **dict.fromkeys(("-r", "--recursive"), "%s takes %s, and no folders, which -r is for"),
}


APART = "symbols"  # the word of linetab that isn't about a program
EXCLUDING = [("--older", "--no-older"), ("--whole", "--partial")]


class Usage(Exception):
    """Words that ask for nothing that is done here."""


def rows(text, heading):
    """The rows of a part of a help: what stands left, and the text at its right."""
    _, _, part = text.partition("\n%s:\n" % heading)
    found = []
    for line in part.split("\n"):
        if not line.startswith(" "):
            break
        left, _, right = line.strip().partition("  ")
        found.append((left, right.strip()))
    return found


def table_of(heading, listed):
    """The part of a help that has these rows."""
    width = max(len(left) for left, _ in listed)
    return "\n%s:\n%s" % (heading, "".join("  %s  %s\n" % (left.ljust(width), right) for left, right in listed))


def names_of(left):
    """The names of an option."""
    return [name for name in left.partition("<")[0].replace(",", " ").split() if name.startswith("-")]


class Word:
    """A word of the program, by its help, or of this one."""

    def __init__(self, name, text):
        self.name, self.text = name, text
        self.usage = text.partition("\nUsage: ")[2].partition("\n")[0]
        self.arguments = rows(text, "Arguments")
        # Its answer is bytes, and not lines, where it prints a section.
        self.takes_many = name not in ("convert", "upgrade") and len(self.arguments) == 1
        self.upgrades = name not in OF_BYTES  # without being asked
        self.own = self.of_older() + [OUTPUT] + [RECURSIVE, JOBS] * self.takes_many + [JSON] * (name == "verify")
        self.options = [(left, GIVEN.get(names_of(left)[-1], right)) for left, right in rows(text, "Options")]
        # What the program is asked in its place, with what else, and what it is fed first.
        self.engine, self.added, self.probe = name, [], b""
        self.refused = set()  # options that it could take, and doesn't
        self.taken = {name for left, _ in self.options for name in names_of(left)}

    def of_older(self):
        """Its options about older units."""
        if self.name == "upgrade":
            return [ANYWAY]
        return [UNASKED, REFUSED] if self.upgrades else [OLDER, NO_OLDER]

    def first(self):
        """What is called for first."""
        return "<FILE>..." if self.takes_many else "<FILE>"

    def used(self):
        """How it is called, as it is here."""
        return "linetab-object " + without_size(self.usage.replace("<SECTION>", self.first())).partition(" ")[2]

    def taken_by_it(self):
        """What stands behind it, in words."""
        others = [left.strip("<>[].") + ".." * left.endswith("...") for left, _ in self.arguments[1:]]
        return " and ".join([("FILEs" if self.takes_many else "one FILE"), *others])

    def help(self):
        """Its help, as it is here."""
        arguments = [(self.first(), FILE)] + self.arguments[1:]
        options = [(left if left.startswith("-") and left[1] != "-" else "    " + left, right) for left, right in self.options]
        options[-1:-1] = [(left if left[1] != "-" else "    " + left, right) for left, right in self.own]
        rest = self.text.partition("\nOptions:\n")[2].partition("\n\n")[2]
        return "%s\n\nUsage: %s\n%s%s%s" % (
            self.text.partition("\n")[0], self.used(), table_of("Arguments", arguments), table_of("Options", options),
            "\n" + rest if rest else "")


class Check(Word):
    """The word check, which takes symbol files too."""

    def __init__(self, text):
        super().__init__("check", text.replace("<TABLE>", SYMBOLS[0]))
        self.arguments[1:] = [SYMBOLS]
        self.own += [PAIRS, JOBS, *CHECK]

    def words_for(self, comparison):
        """The options that are given for the program beside those that were typed."""
        return comparison.words()

    def passed_on(self, comparison):
        """What writes the answer."""
        return comparison.passed_on


class Differing(Check):
    """A word of this program alone about what `check` finds. It takes what that takes, but for what changes its answer."""

    def __init__(self, named, text):
        name, about = named
        super().__init__(text)
        self.name, self.engine = name, "check"
        self.text = about + "\n" + self.text.partition("\n")[2]
        self.usage = self.usage.replace(" check ", " %s " % name)
        self.options = [row for row in self.options if names_of(row[0])[-1] not in OF_ANSWERS]
        self.taken, self.refused = self.taken - OF_ANSWERS, OF_ANSWERS
        self.own = [*self.of_older(), OUTPUT, *(row for row in CHECK if names_of(row[0])[0] in OF_BOTH)]
        if name == REPORT[0]:
            self.usage = self.usage.replace(SYMBOLS[0], SYMBOLS[0] + "...")
            self.arguments[1] = (SYMBOLS[0] + "...", SYMBOLS[1])

    def words_for(self, comparison):
        return ["--all", "--ends"]

    def passed_on(self, comparison):
        from scripts.object import gaps

        return gaps.Gaps(comparison).passed_on


class Symbolize(Word):
    """The word that is of this program alone. It takes what lookups take, but for addresses."""

    def __init__(self, lookup):
        super().__init__("symbolize", lookup.text.replace(" lookup ", " symbolize ").replace(" [ADDRESS]...", " <TEXT"))
        self.text = SYMBOLIZE[1] + "\n" + self.text.partition("\n")[2]
        self.takes_many = False
        self.arguments = self.arguments[:1]
        self.own = [*self.of_older(), BASE, OUTPUT]
        self.engine, self.added, self.probe = "lookup", ["--addresses", "-"], b"0x0\n"
        self.options = [row for row in self.options if names_of(row[0])[-1] not in ("--addresses", "--op")]
        self.taken -= {"--addresses", "--op"}


class Given:
    """The words that were typed behind the first one."""

    def __init__(self, word, typed):
        self.files, self.others, self.options = [], [], []
        self.own, self.names = {}, set()  # those of this program, and the names of all
        self.maps = []  # pairs of beginnings of paths
        self.is_closed = False  # whether -- stands among them
        self.word = word
        valued = {name: "<" in left for left, _ in word.options + word.own for name in names_of(left)}
        own = {name: names_of(left)[-1] for left, _ in word.own for name in names_of(left)}
        typed = iter(typed)
        for each in typed:
            if self.is_closed or each == "-" or not each.startswith("-"):
                self.files.append(each)
            elif each == "--":
                self.is_closed = True
            else:
                self.add_option(each, typed, valued, own)
        if not word.takes_many:
            self.files, self.others = self.files[:1], self.files[1:]
        for one, other in EXCLUDING:
            if {one, other} <= self.names:
                raise Usage("%s and %s exclude one another" % (one, other))
        self.upgrades = "--older" in self.names or word.upgrades and "--no-older" not in self.names
        self.text = standard_input()  # what symbolize passes through
        self.is_quiet = "--quiet" in self.names
        self.is_several = word.takes_many and len(self.files) > 1 or "--recursive" in self.own
        self.is_json = "--json" in self.own
        self.base()
        self.most()
        self.jobs()

    def add_option(self, each, typed, valued, own):
        name, equals, value = each.partition("=")
        if each[:2] in own and each[1] != "-" and len(each) > 2:
            name, equals, value = each[:2], "=", each[2:]
        parts = [each]
        if valued.get(name) and not equals:
            value = next(typed, None)
            parts += [value] * (value is not None)
        elif name in own and equals and not valued[name]:
            raise Usage("%s takes no value" % name)
        elif name in ELSEWHERE and name not in own:
            raise Usage(ELSEWHERE[name] % (self.word.name, self.word.taken_by_it()))
        elif name in self.word.refused:
            raise Usage("%s takes %s, and no %s, which is for check" % (self.word.name, self.word.taken_by_it(), name))
        if name in own and valued[name] and not value:
            raise Usage("%s wants a value" % name)
        self.names.add(own.get(name, name))
        if name == "--map":
            self.add_map(value)
        elif name in own:
            self.own[own[name]] = value
        else:
            self.options.append(parts)

    def add_map(self, text):
        start, is_there, other = text.partition("=")
        if not is_there:
            raise Usage("--map wants FROM=TO, and not %s" % shown(text))
        self.maps.append((os.fsencode(start), os.fsencode(other)))

    def mapped(self, spans):
        """Spans, in whose paths the beginnings are changed that --map names: the first of them that fits."""
        def changed(path):
            for start, other in self.maps:
                if path.startswith(start):
                    return other + path[len(start) :]
            return path

        if not self.maps:
            return spans
        return ((low, high, (changed(path), *rest)) for low, high, (path, *rest) in spans)

    def words_of_section(self):
        """The options for the program that are about the section."""
        of_table = ("--partial", "--at-least", "--all", "--ends", "--quiet")
        return [part for option in self.options if option[0].partition("=")[0] not in of_table for part in option]

    def base(self):
        """The address at which the program was loaded, if it is given."""
        text = self.own.get("--base")
        if text is None:
            return None
        digits = text[2:] if text[:2] in ("0x", "0X") else text
        if not 0 < len(digits) <= 16 or not set(digits) <= set("0123456789abcdefABCDEF"):
            raise Usage("--base wants 1 to 16 hexadecimal digits, and not %s" % shown(text))
        return int(digits, 16)

    def value_of(self, name):
        """What was typed behind an option of the program, where it was."""
        for first, *value in self.options:
            start, equals, joined = first.partition("=")
            if start == name:
                return joined if equals else "".join(value)
        return None

    def most(self):
        """How many places are listed at most where the two answer differently, or None if all are."""
        text = self.own.get("--max")
        if text is None:
            return None
        if "--all" not in self.names:
            raise Usage("--max is for check --all")
        return number_from_one("--max", text)

    def jobs(self):
        """How many files are taken at a time."""
        text = self.own.get("--jobs")
        return len(os.sched_getaffinity(0)) if text is None else number_from_one("--jobs", text)

    def inputs(self):
        """The names of the files that are read, as far as they are typed; - is standard input."""
        of_files = {name for left, _ in self.word.options if left.endswith("<FILE>") for name in names_of(left)}
        named = [option[0].split("=", 1) + option[1:] for option in self.options]
        values = [option[1] for option in named if option[0] in of_files and len(option) > 1]
        return [*self.files, *(self.others if self.word.engine == "check" else ()), *values, *["-"] * bool(self.word.probe)]

    def words(self):
        """The options for the program, without --quiet: its notes are left out here."""
        return [part for option in self.options if option != ["--quiet"] for part in option]

    def behind(self):
        """What stands behind the section."""
        return ["--"] * (self.is_closed and bool(self.others)) + self.others


def number_from_one(name, text):
    """The number that an option is given."""
    if not (text.isascii() and text.isdigit() and len(text) <= 20 and int(text)):
        raise Usage("%s wants a number from 1 on, and not %s" % (name, shown(text)))
    return int(text)


def without_size(usage):
    """How a word is used, without the size of addresses, which is given here."""
    start, is_there, rest = usage.partition(" --address-size <")
    return start + rest.partition(">")[2] if is_there else usage


def renamed(text):
    """A text of the program about how it is used, as it is here."""
    text = without_size(text.replace("Usage: linetab ", "Usage: linetab-object "))
    return text.replace("'linetab'", "'linetab-object'").replace("<SECTION>", "<FILE>").replace("<TABLE>", SYMBOLS[0])


def put_usage(text):
    put_error(os.fsencode(text))


def misused(word, given, needed=()):
    """Tells what the program says of these words, without those that are given for it but for those that they need, and gives its
    status."""
    words = [*needed, *(part for option in given.options for part in option)]
    if word.name == "upgrade" and "--address-size" not in given.names:
        words += ["--address-size", "8"]
    status, _, said = asked([word.engine, *words, *word.added, *given.files[:1], *given.behind()])
    said = renamed(said)
    if word.name != word.engine:
        said = said.replace("linetab-object %s " % word.engine, "linetab-object %s " % word.name).replace(" [ADDRESS]...", "")
    put_usage(said)
    return status


ENGINES = {SYMBOLIZE[0]: "lookup", GAPS[0]: "check", REPORT[0]: "check"}


def help_of(name):
    """What the program answers if it is asked for its help of a word: the exit status, the help, and what is said on standard error. An
    installed tree has the help in a file, which holds unless the program is newer."""
    if name.isalnum():
        try:
            with open(os.path.join(sys.path[0], "words", name), "rb", buffering=0) as file:
                if os.fstat(file.fileno()).st_mtime >= os.stat(LINETAB).st_mtime:
                    return 0, os.fsdecode(file.read()), ""
        except OSError:  # there is none
            pass
    return asked([name, "--help"])


def known(name):
    """The exit status of the program's help of a word, and the word of this name, where there is one."""
    if name == APART:
        put_usage("error: linetab %s FILE reads a symbol file, and no program\n%s" % (APART, MORE))
        return 2, None
    status, text, said = help_of(ENGINES.get(name, name))
    put_usage(renamed(said))
    if status != 0:
        return status, None
    if name == "check":
        return status, Check(text)
    if name in (GAPS[0], REPORT[0]):
        return status, Differing(GAPS if name == GAPS[0] else REPORT, text)
    word = Word(name, text)
    return status, Symbolize(word) if name == SYMBOLIZE[0] else word


def commands():
    """The part of the help that lists the words."""
    listed = [row for row in rows(asked(["--help"])[1], "Commands") if row[0] != APART]
    listed[-1:-1] = [SYMBOLIZE, GAPS, REPORT] if listed else []
    return table_of("Commands", listed) if listed else ""
