"""Files that are written whole, or not at all."""

import contextlib
import errno
import os
import signal
import stat

from scripts import bounded
from scripts.bounded import PIECE, place_of
from scripts.object.output import Overwriting, Standard, Unwritten
from scripts.object.program import without_name
from scripts.telling import end, put_whole, shown

ENDING = signal.SIGTERM, signal.SIGHUP, signal.SIGINT


class Whole(Standard):
    """A file that is written whole, or not at all. What is no answer goes to standard output."""

    def __init__(self, path, names_inputs=False):
        self.path = path
        self.names_inputs = names_inputs  # whether the answer names files that the program read for it
        self.place = os.path.realpath(path)
        try:
            folder = os.path.dirname(self.place)
            os.stat(folder)
            if os.path.isdir(self.place):
                raise IsADirectoryError(errno.EISDIR, os.strerror(errno.EISDIR))
            self.file = without_name(folder)
        except OSError as error:
            raise self.unwritten(error) from None

    def keep_off(self, names):
        """Refuses to write onto one of these files, or onto one that was read. Either may have other names, as by a link."""
        places = {place_named(name) for name in names} | bounded.files_read
        if place_named(self.place) in places - {None}:
            raise Overwriting("-o would write onto %s, which is read: give another file" % shown(self.path))

    def unwritten(self, error):
        return Unwritten("%s: cannot write it: %s" % (shown(self.path), error.strerror))

    def write(self, piece):
        try:
            put_whole(self.file, piece)
        except OSError as error:
            raise self.unwritten(error) from None

    def pieces(self):
        os.lseek(self.file, 0, os.SEEK_SET)
        while piece := os.read(self.file, PIECE):
            yield piece

    def end(self, status):
        if status != 0:
            for piece in self.pieces():
                super().write(piece)
            return
        self.keep_off(listed_in(b"".join(self.pieces())) if self.names_inputs else ())
        try:
            self.put()
        except OSError as error:
            raise self.unwritten(error) from None

    def put(self):
        """Puts the file in its place. What stands there is the file before or the whole new one, unless it is no regular file."""
        mode = 0o666 & ~umask()
        try:
            there = os.stat(self.place)
        except FileNotFoundError:
            pass
        else:
            if not stat.S_ISREG(there.st_mode):
                self.copy(os.open(self.place, os.O_WRONLY))
                return
            mode = stat.S_IMODE(there.st_mode)
        new = "%s.%d.new" % (self.place, os.getpid())
        if not self.named(new, mode):
            with removed_where_ended(new):
                self.copy(os.open(new, os.O_WRONLY | os.O_CREAT | os.O_EXCL, 0o600), mode)
                os.rename(new, self.place)

    def named(self, new, mode):
        """Gives the file itself its name, if it lies in the same folder. No signal ends this process between the two names."""
        before = signal.pthread_sigmask(signal.SIG_BLOCK, ENDING)
        try:
            os.fchmod(self.file, mode)
            # By the descriptor the link is followed; the path is whole, so nothing is looked for in it.
            os.link("/proc/self/fd/%d" % self.file, new, src_dir_fd=self.file, follow_symlinks=True)
            os.rename(new, self.place)
            return True
        except OSError:
            remove(new)
            return False
        finally:
            signal.pthread_sigmask(signal.SIG_SETMASK, before)

    def copy(self, descriptor, mode=None):
        try:
            for piece in self.pieces():
                put_whole(descriptor, piece)
            if mode is not None:
                os.fchmod(descriptor, mode)
        finally:
            os.close(descriptor)


@contextlib.contextmanager
def removed_where_ended(path):
    """Removes a file where what is done meanwhile fails, and where a signal ends this process."""

    def ended(number, _):
        remove(path)
        end(-number)

    handlers = {number: signal.signal(number, ended) for number in ENDING[:2] if signal.getsignal(number) != signal.SIG_IGN}
    try:
        yield
    except BaseException:
        remove(path)
        raise
    finally:
        for number, handler in handlers.items():
            signal.signal(number, handler)


def listed_in(answer):
    """The paths of the files that `md5` read, by its answer."""
    import re

    same = re.findall(rb'^unit [0-9]+ file [0-9]+ same "(.*)"$', answer, re.M)
    return [re.sub(rb"\\x([0-9a-f]{2})", lambda it: bytes([int(it[1], 16)]), path) for path in same]


def place_named(name):
    """By what the regular file of a name is known, or None if there is none. The name - is that of standard input."""
    try:
        return place_of(os.fstat(0) if name == "-" else os.stat(name))
    except OSError:
        return None


def remove(path):
    try:
        os.unlink(path)
    except OSError:
        pass


def umask():
    """The umask, which can't be read alone."""
    mask = os.umask(0o77)
    os.umask(mask)
    return mask
