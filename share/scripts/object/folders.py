"""Answers about several files, and about all programs in folders."""

import os

from scripts.bounded import Nothing
from scripts.object.image import READERS
from scripts.object.jobs import Jobs, Work
from scripts.object.output import Named, Standard
from scripts.telling import ended_by, shown, tell
from scripts.object.words import Usage


def is_program(path):
    """Whether a file begins as a program does."""
    with open(path, "rb", buffering=0) as file:
        return file.read(4).startswith(tuple(magic for magic, *_ in READERS))


class Answers:
    """How many files there are of each kind of answer, and the exit status of all."""

    def __init__(self, word, given):
        self.word, self.given, self.statuses, self.passed = word, given, [], None

    def refuse(self, path, error):
        """Tells that a file can't be read, and counts it."""
        reason = "cannot read it: %s" % error.strerror
        if self.given.is_json:
            from scripts.object.report import Report

            report = Report(self.given, path)
            report.told(reason)
            report.put(Standard(), 3)
        else:
            tell("%s: %s" % (shown(path), reason))
        self.statuses.append(3)

    def told(self):
        """The last line."""
        count = len(self.statuses)
        good = "yes" if self.word.name == "verify" else "done"
        bad = sum(status not in (0, 1) for status in self.statuses)
        return "%d file%s: %d %s, %d no, %d not judged%s\n" % (
            count, "s" * (count != 1), self.statuses.count(0), good, self.statuses.count(1), bad,
            "" if self.passed is None else ", %d passed over" % self.passed)

    def status(self):
        """A no comes before what couldn't be judged, and that before what could."""
        return 1 if 1 in self.statuses else max(self.statuses, default=3)


def below(folder, answers):
    """The programs in a folder and in those in it, by their names. What can't be read is reported, and counted."""
    for path in files_below(folder, answers):
        yield from program_at(path, answers)


def files_below(folder, answers):
    """The regular files in a folder and in those in it, by their names."""
    waiting = [folder]
    while waiting:
        place = waiting.pop()
        inner = []
        try:
            entries = sorted(os.scandir(place), key=lambda entry: entry.name)
        except OSError as error:
            answers.refuse(place, error)
            continue
        for entry in entries:
            if entry.is_dir(follow_symlinks=False):
                inner.append(entry.path)
            elif entry.is_file(follow_symlinks=False):
                yield entry.path
        waiting += reversed(inner)


def program_at(path, answers):
    try:
        if is_program(path):
            yield path
        else:
            answers.passed += 1
    except OSError as error:
        answers.refuse(path, error)


def named(given, answers):
    """The files that are named, and the programs in the folders among them: each with whether it was found there."""
    is_deep = "--recursive" in given.own
    for name in given.files:
        is_folder = is_deep and os.path.isdir(name)
        for path in below(name, answers) if is_folder else [name]:
            yield path, is_folder


def all_answers(word, given, tried):
    """Runs a word on each file, and gives the exit status of all."""
    if "--output" in given.own:
        raise Usage("--output takes the answer about one FILE")
    answers = Answers(word, given)
    if "--recursive" in given.own:
        answers.passed = 0
    works = (Work(one_answer, word, given, path, tried, is_found) for path, is_found in named(given, answers))
    for job in Jobs(1 if given.files.count("-") > 1 else given.jobs()).ended(works):
        job.pass_on(Standard())
        if job.status == 2:
            return job.status
        if job.status is None:
            answers.passed += 1
        else:
            answers.statuses.append(job.status)
    if not given.is_json:
        Standard().write(os.fsencode(answers.told()))
    return answers.status()


def one_answer(word, given, path, tried, is_found):
    """The exit status of the word on one file; None where that was found, and has nothing to judge."""
    try:
        sink = Standard() if given.is_json else Named(path)
        status = tried(word, given, path, sink, is_found)
    except Nothing:
        return None
    if status >= 0:
        return status
    if not given.is_json:
        sink.end(status)
        tell("%s: %s" % (shown(path), ended_by(status)))
    return 3
