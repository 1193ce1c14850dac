"""Answers of which several are made at a time, each in a process of its own, and which are written in their order."""

import os
from collections import deque

from scripts.bounded import PIECE, Failure
from scripts.object.output import Unwritten
from scripts.object.program import unnamed
from scripts.telling import put_error

END = 15  # SIGTERM
AHEAD = 8  # answers that may wait for the one before them, for each process
NOTHING, UNWRITTEN, ENDED = 100, 101, 102  # statuses of processes that aren't those of answers


class Work:
    """A function and what it is given. It writes to the standard streams, and gives an exit status, or None if there is nothing to say."""

    def __init__(self, function, *given):
        self.function, self.given = function, given

    def done(self):
        """The status of the process."""
        try:
            status = self.function(*self.given)
            return NOTHING if status is None else status
        except Unwritten:
            return UNWRITTEN
        except KeyboardInterrupt:
            return ENDED


class Job:
    """A process that does a work, and the files that it writes to."""

    def __init__(self, work):
        self.out, self.said = unnamed(()), unnamed(())
        self.status, self.is_done = None, False
        self.process = os.fork()
        if self.process == 0:
            self.be(work)

    def be(self, work):
        """Does the work, and ends this process."""
        status = ENDED
        try:
            os.dup2(self.out, 1)
            os.dup2(self.said, 2)
            status = work.done()
        finally:
            os._exit(status)

    def end(self, status):
        """The process has ended so."""
        self.is_done, self.status = True, os.waitstatus_to_exitcode(status)

    def pass_on(self, sink):
        """Writes what it wrote."""
        put_error(os.pread(self.said, os.fstat(self.said).st_size, 0))
        os.lseek(self.out, 0, os.SEEK_SET)
        while piece := os.read(self.out, PIECE):
            sink.write(piece)
        self.close()
        if self.status == UNWRITTEN:
            raise Failure("an answer can't be written to a temporary file")
        if self.status == ENDED or self.status < 0:
            raise Failure("a process that answers was ended")
        self.status = None if self.status == NOTHING else self.status

    def close(self):
        os.close(self.out)
        os.close(self.said)


class Progress:
    """A line on a terminal that says how far it is, and is written anew."""

    def __init__(self, total=None):
        self.total, self.is_seen, self.is_shown = total, os.isatty(2), False

    def show(self, count):
        if self.is_seen:
            put_error(b"\r\x1b[K%d%s done" % (count, b"" if self.total is None else b" of %d" % self.total))
            self.is_shown = True

    def hide(self):
        if self.is_shown:
            put_error(b"\r\x1b[K")
            self.is_shown = False


class Jobs:
    """Processes, no more than so many at a time."""

    def __init__(self, most, total=None):
        self.most, self.running, self.order = most, {}, deque()
        self.count, self.progress = 0, Progress(total)

    def ended(self, works):
        """The jobs that do these works, in their order, each when it has ended."""
        works = iter(works)
        try:
            while self.begin(works) or self.order:
                if self.order[0].is_done:
                    self.progress.hide()
                    yield self.order.popleft()
                    continue
                self.progress.show(self.count)
                self.wait()
        finally:
            self.progress.hide()
            self.stop()

    def begin(self, works):
        """Begins as many as may be, and gives whether any is there."""
        while len(self.running) < self.most and len(self.order) < AHEAD * self.most:
            work = next(works, None)
            if work is None:
                break
            job = Job(work)
            self.running[job.process] = job
            self.order.append(job)
        return bool(self.running)

    def wait(self):
        """Waits for one of them."""
        process, status = os.wait()
        self.running.pop(process).end(status)
        self.count += 1

    def stop(self):
        for process in self.running:
            os.kill(process, END)
            os.waitpid(process, 0)
        self.running.clear()
