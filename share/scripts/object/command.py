"""The words that are run on files."""

import os
import stat
import sys

from scripts import telling
from scripts.bounded import Failure, Nothing, Refusal, opened, reason_of, standard_input, stored
from scripts.object.image import inside, judged
from scripts.object.notes import begun, marker_of, notes_to
from scripts.object.output import Overwriting, Standard, Unwritten
from scripts.object.program import LINETAB, Question, asked, unnamed
from scripts.telling import end, hand_on, hold_standard_descriptors, note, shown, tell
from scripts.object.words import MORE, Given, Usage, commands, known, misused, put_usage

USED = "a word of linetab and a file are wanted\n\nusage: linetab-object WORD [OPTIONS] FILE.."


# ---- a file


def source(name):
    """The bytes of a file, or of standard input, and the path where they lie."""
    if name == "-":
        return kept_input()
    path = inside(name)
    return opened(path), path


def kept_input():
    """The bytes of standard input, which are kept in a file, where it is none."""
    if stat.S_ISREG(os.fstat(0).st_mode) and os.lseek(0, 0, os.SEEK_CUR) == 0:
        return stored(0), os.path.realpath("/proc/self/fd/0")
    file = unnamed(standard_input())
    return stored(file), "/proc/%d/fd/%d" % (os.getpid(), file)


def told_of(run, same, is_quiet, of):
    """Hands on what the program said on standard error, without the notes that begin so; `of` is put before others."""
    left_out = tuple(os.fsencode("linetab: note: " + start) for start in ([""] if is_quiet else same))
    for line in run.notes.splitlines(keepends=True):
        if not line.startswith(left_out):
            hand_on(line, of)


def noted(run, name, question, marker, address, is_quiet):
    """The notes to a run, and how the program's own begin that say the same."""
    if is_quiet:
        return [], []
    try:
        return notes_to(run, name, question, marker, address)
    except (Refusal, Failure, OSError, MemoryError):  # the answer stands without them
        return [], []


def passed_on(run, sink):
    """Writes all of an answer, and gives the exit status."""
    try:
        for piece in run.pieces():
            sink.write(piece)
    finally:
        status = run.end()
    if status >= 0:
        sink.end(status)
    return status


def of_older_units(question, word, given):
    """Has units of versions 2 to 4 upgraded, unless they are to be taken as they are. Gives the run of the program that refused to, if it
    did, and what is to be told."""
    if word.name == "upgrade":
        from scripts.object import older

        return None, older.to_upgrade(question, given)
    if given.upgrades:
        from scripts.object import older

        return older.upgraded(question)
    if word.upgrades:
        question.upgrading = "without --no-older"
    return None, []


def judged_first(word, given, name, data, path):
    """The image of the file that is named first. If what stands behind it is the program, and not this one, that is what is told."""
    try:
        return judged(data, path)
    except Refusal:
        if word.engine == "check" and len(given.others) == 1:
            from scripts.object.others import turned_round

            text = turned_round(data, name, given.others[0])
            if text:
                raise Refusal(text) from None
        raise


def answer(word, given, name, sink):
    """Runs a word of the program on a file, and gives its exit status."""
    if name == "-" and (word.probe or "-" in given.others + [part for option in given.options for part in option]):
        raise Refusal("standard input is read once")
    data, path = source(name)
    image = judged_first(word, given, name, data, path)
    image.big = image.big or "--big" in given.names  # also where directories are read, and units are counted
    sink.know(image=image.program)
    with Question(image, word.taken - given.names) as question:
        if image.place and not given.is_quiet:
            note("the debug information of %s is in %s" % (shown(name), shown(image.place)))
        if word.name == "report":
            from scripts.object import pages

            return pages.passed_on(given, name, question, sink)
        if word.engine == "check" and len(given.others) == 1:
            return compared(word, given, name, question, sink)
        run, older = of_older_units(question, word, given)
        marker = address = None
        if run is None:
            marker = marker_of(question) if "--dead" in question.taken else None
            words = (["--dead", marker] if marker else []) + given.words()
            run, address = begun(question, word.engine, words + word.added, given.behind(), word.probe)
        if word.probe:
            from scripts.object import symbolize

            status = symbolize.passed_through(run, image, name, given, sink)
        else:
            status = passed_on(run, sink)
        if status == 2:
            return misused(word, given)
        tell_notes(run, name, given, noted(run, name, question, marker, address, given.is_quiet), older)
        return status


def compared(word, given, name, question, sink):
    """Runs the word check or gaps, and gives the exit status."""
    from scripts.object.check import Comparison
    from scripts.object.others import refuse_other
    from scripts.object.symbol_files import Other

    other = Other(given.others[0])
    try:
        refuse_other(other, name)
        comparison = Comparison(given, name, question.image, other)
        sink.know(other=other)
        line = comparison.other_build()
        if line:
            return comparison.told_other_build(line, sink)
        comparison.prepare()
        run, older = of_older_units(question, word, given)
        marker = address = None
        if run is None:
            run, marker, address = begun_on(question, given, comparison, word.words_for(comparison))
        line = comparison.refusal(run)
        if line:
            run.stop()
            return refused(line, sink)
        common = common_words(given, marker, address)
        status = word.passed_on(comparison)(run, sink, question, common)
        if status == 2:
            return misused(word, given, ["--partial"] * (comparison.gives_partial() and "--at-least" in given.names))
        notes = noted(run, name, question, marker, address, given.is_quiet)
        if not given.is_quiet or given.is_json:
            comparison.add_notes(question, common)
        if not given.is_quiet:
            told, same = comparison.diagnosis(run, question, common)
            notes = notes[0] + told, notes[1] + same
        sink.know(counts=comparison.counts, missed=comparison.missed)
        tell_notes(run, name, given, notes, older + comparison.notes)
        return status
    finally:
        other.close()


def refused(line, sink):
    """Writes the line by which a symbol file is refused, and gives the exit status."""
    sink.write(os.fsencode(line) + b"\n")
    sink.end(1)
    return 1


def begun_on(question, given, comparison, words):
    """A run of check with these words, which has begun to answer; the marker of discarded code, and the first address of copies."""
    marker = marker_of(question) if "--dead" in question.taken else None
    words = (["--dead", marker] if marker else []) + given.words() + words
    run, address = begun(question, "check", words, comparison.behind())
    return run, marker, address


def common_words(given, marker, address):
    """The options about the section of all runs."""
    return (["--dead", marker] if marker else []) + (["--skip-copies"] if address else []) + given.words_of_section()


def tell_notes(run, name, given, noted, others):
    """Hands on the notes of the program, but for those that are told in other words, and tells these and others."""
    notes, same = noted
    of = shown(name) + ": " if given.is_several and not given.is_json else ""
    told_of(run, same, given.is_quiet, of)
    for text in notes + (others if not given.is_quiet else []):
        note(text if shown(name) in text else of + text)


# ---- all files


def tried(word, given, name, sink, is_found=False):
    """The same as `answer`; where nothing can be answered, that is told, unless the file was found in a folder, and has nothing to
    judge."""
    try:
        return answer(word, given, name, sink)
    except (Unwritten, Overwriting):
        raise
    except Exception as fault:
        if is_found and isinstance(fault, Nothing):
            raise
        reason, status = reason_of(fault)
        name = getattr(fault, "name", None) or name
    tell(reason if status == 4 else "%s: %s" % (shown(name), reason))
    if word.probe and given.files != ["-"]:
        from scripts.object import symbolize

        symbolize.left_as_it_is(given.text, sink, status)
    return status


def reported(word, given, name, sink, is_found=False):
    """The same as `tried`, with the answer as an object of JSON that has all that is told else."""
    from scripts.object.report import Report

    report = telling.listener = Report(given, name)
    try:
        status = answer(word, given, name, report)
    except (Unwritten, Overwriting):
        raise
    except Exception as fault:
        if is_found and isinstance(fault, Nothing):
            raise
        reason, status = reason_of(fault)
        other = getattr(fault, "name", None)
        report.told("%s: %s" % (shown(other), reason) if other else reason)
    finally:
        telling.listener = None
    if status != 2:
        report.put(sink, status)
    return status


def run(name, typed):
    """Runs a word as it was typed, and gives the exit status."""
    status, word = known(name)
    if word is None:
        return status
    if not {"-h", "--help"}.isdisjoint(typed):
        return print_text(word.help())
    try:
        given = Given(word, typed)
        if word.probe and (given.others or not given.files):
            raise Usage("one FILE is wanted")
        if not given.files:
            return misused(word, given)
        return answered(word, given)
    except Usage as fault:
        put_usage("error: %s\n\nUsage: %s\n%s" % (fault, word.used(), MORE))
    except Overwriting as fault:
        tell(str(fault))
    return 2


def answered(word, given):
    """Answers about all files, and gives the exit status."""
    telling.is_quiet = given.is_quiet
    one = reported if given.is_json else tried
    if word.name == "check" and given.is_several:
        from scripts.object import pairs

        return pairs.all_answers(word, given, one)
    if given.is_several:
        from scripts.object import folders

        return folders.all_answers(word, given, one)
    output = given.own.get("--output")
    if output is None:
        return one(word, given, given.files[0], Standard())
    from scripts.object.whole_file import Whole

    sink = Whole(output, word.name == "md5")
    sink.keep_off(given.inputs())
    return one(word, given, given.files[0], sink)


# ---- this program


def print_text(text):
    sink = Standard()
    sink.write(os.fsencode(text))
    return 0


def help_text(about):
    """The help of the program, with the words, where the program is here."""
    start, _, rest = about.strip().partition("\n\nFILE ")
    listed = commands() if os.access(LINETAB, os.X_OK) else ""
    return "%s\n%s\nFILE %s\n" % (start, listed, rest)


def version():
    status, text, _ = asked(["--version"])
    if status != 0:
        return status
    return print_text(text.replace("linetab ", "linetab-object ", 1))


def begin(about, typed):
    """Does what the words ask for."""
    if typed[:1] == ["help"] and len(typed) > 1:
        typed = [typed[1], "--help"]
    first = typed[0] if typed else ""
    if first in ("--help", "-h", "help"):
        return print_text(help_text(about))
    if not typed or first.startswith("-") and first not in ("-V", "--version"):
        tell(USED)
        return 2
    if not os.access(LINETAB, os.X_OK):
        tell("the program linetab has to be beside this one, and %s isn't there" % shown(LINETAB))
        return 3
    if first.startswith("-"):
        return version()
    return run(first, typed[1:])


def main(about):
    hold_standard_descriptors()
    try:
        end(begin(about, sys.argv[1:]))
    except Unwritten as fault:
        if str(fault):
            tell(str(fault))
        status = 3
    except KeyboardInterrupt:
        status = -2
    except Exception as fault:
        reason, status = reason_of(fault)
        tell(reason)
    end(status)
