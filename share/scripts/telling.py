"""What is written to standard error."""

import os


# The program that tells, and whether it gives no notes.
program = "linetab-object"
is_quiet = False
# What takes notes, and lines that aren't notes, in place of standard error: it has the methods `note` and `told`. None if nothing does.
listener = None


def shown(name):
    """A name as it may reach a terminal: between quotes if it has control characters."""
    name = os.fsdecode(name)
    return name if is_plain(name) else '"%s"' % escaped(name)


def is_plain(text):
    """Whether a terminal is told nothing by a text but what it shows."""
    return all(character.isprintable() or "\udc80" <= character <= "\udcff" for character in text)


def escaped(text):
    """A text as it may reach a terminal: with digits in the place of control characters."""
    if is_plain(text):
        return text
    return "".join(c if c.isprintable() else "".join("\\x%02x" % byte for byte in os.fsencode(c)) for c in text)


def put_error(content):
    """Writes to standard error. Where that can't be written, nothing else changes."""
    try:
        os.write(2, content)
    except OSError:
        pass


def tell(text):
    put_error(os.fsencode("%s: %s\n" % (program, text)))


def note(text):
    """Tells what isn't an error, unless no notes are wanted."""
    if is_quiet:
        return
    if listener is not None:
        listener.note(text)
    else:
        tell("note: " + text)


def hand_on(line, of):
    """Tells a line of the program linetab. If it is a note, `of` stands before its text."""
    mark = b"linetab: note: "
    if listener is None:
        put_error(line.replace(mark, mark + os.fsencode(of), 1))
    elif line.startswith(mark):
        listener.note(os.fsdecode(line[len(mark) :].rstrip(b"\n")))
    else:
        listener.told(os.fsdecode(line.rstrip(b"\n")))


def hold_standard_descriptors():
    """Opens a folder in the place of each standard stream that this process lacks, so that no file that is opened later gets its
    number. A folder can neither be read nor written. The programs that are run here don't inherit it, and lack the stream too."""
    descriptor = 0
    while descriptor <= 2:
        descriptor = os.open("/", os.O_RDONLY)
    os.close(descriptor)


def put_whole(descriptor, content):
    """Writes all of these bytes."""
    content = memoryview(content)
    while content:
        content = content[os.write(descriptor, content) :]


def ended_by(status):
    """What is told of a run of the program that didn't end by itself."""
    return "signal %d ended the program" % -status


def end(status):
    """Ends as the program did: with its status, or by the signal that ended it. Nothing is left to be written then, so Python's own end,
    a tenth of the time of a short run, is left out."""
    if status < 0:
        import signal

        try:
            signal.signal(-status, signal.SIG_DFL)
        except (OSError, ValueError):  # no process may set this one
            pass
        os.kill(os.getpid(), -status)
    os._exit(status)
