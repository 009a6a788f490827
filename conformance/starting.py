"""Starts a store, passes it a schedule, and reads its output.

`Store` starts the store once for each schedule. keeping.py has a store that stays alive.
"""
import contextlib
import dataclasses
import errno
import os
import selectors
import signal
import subprocess
import tempfile
import threading
import time

# In bytes. No schedule that the program accepts has a longer output.
LONGEST_ANSWER = 1 << 26
KEPT_ANSWER = 1 << 20  # bytes that are kept of an output that is too long
KEPT_COMPLAINT = 1 << 12  # bytes that are kept of standard error, at its beginning and at its end
FIRST_SAID, LAST_SAID = 8, 12  # lines of standard error that are shown, at most


@dataclasses.dataclass
class Ended:
    """How a store ended. `status` is None if it was stopped because it took too long or printed too much. `said` are
    the first and the last lines of standard error. `problem` says what is wrong with the answer of a store that stays
    alive."""
    status: int
    text: str
    said: list
    seconds: float
    is_flood: bool = False
    problem: str = None


class CannotStart(OSError):
    """A store cannot be started. The text says why."""


class Ends:
    """The first and the last bytes of a stream."""

    def __init__(self):
        self.first, self.last = bytearray(), bytearray()
        self.lines_lost, self.is_cut = 0, False

    def extend(self, part):
        room = KEPT_COMPLAINT - len(self.first)
        self.first += part[:room]
        self.last += part[room:]
        lost = self.last[:-KEPT_COMPLAINT]
        if lost:
            self.is_cut = True
            self.lines_lost += lost.count(b"\n")
            del self.last[:len(lost)]

    def lines(self):
        """The first and the last lines. If others are left out, a mark between them says how many."""
        if not self.is_cut:
            return without_middle(self.text(self.first + self.last))
        # The first and the last bytes usually end and begin inside a line.
        first, last = self.text(self.first), self.text(self.last)
        lost = self.lines_lost - 1 + max(len(first) - FIRST_SAID, 0) + max(len(last) - LAST_SAID, 0)
        return first[:FIRST_SAID] + [mark_of(lost)] + last[-LAST_SAID:]

    @staticmethod
    def text(data):
        lines = text_of(data).split("\n")
        return lines if lines[-1] else lines[:-1]


def without_middle(lines):
    lost = len(lines) - FIRST_SAID - LAST_SAID
    return lines if lost <= 0 else lines[:FIRST_SAID] + [mark_of(lost)] + lines[-LAST_SAID:]


def mark_of(lost):
    return f"({lost} lines are left out)" if lost > 0 else "(a part of the line is left out)"


def text_of(data):
    return data.decode(errors="replace")


class Children:
    """The processes that run now. `stop_all` ends them from another thread."""

    def __init__(self):
        self.lock, self.running, self.is_stopping = threading.Lock(), set(), False

    def start(self, words, **streams):
        """Starts a process. Raises CannotStart if that fails."""
        with self.lock:
            if self.is_stopping:
                raise CannotStart("the search has ended")
            try:
                child = subprocess.Popen(words, stdout=subprocess.PIPE, stderr=subprocess.PIPE, start_new_session=True,
                                         **streams)
            except OSError as error:
                raise CannotStart(why_not(words[0], error)) from None
            self.running.add(child)
            return child

    def stop(self, child):
        """Ends the child and all processes that it started."""
        end_group(child)
        child.wait()
        for stream in (child.stdin, child.stdout, child.stderr):
            if stream:
                with contextlib.suppress(OSError):
                    stream.close()
        with self.lock:
            self.running.discard(child)

    @contextlib.contextmanager
    def stopping(self):
        """Ends all processes, and starts no other process inside the block."""
        with self.lock:
            self.is_stopping = True
            for child in self.running:
                end_group(child)
        try:
            yield
        finally:
            self.is_stopping = False


def end_group(child):
    with contextlib.suppress(ProcessLookupError):
        os.killpg(child.pid, signal.SIGKILL)


def why_not(name, error):
    """Says why a store cannot be started, and what to do."""
    advice = {
        errno.ENOENT: "" if os.path.exists(name) else " A program of this folder begins with ./",
        errno.EACCES: f" To make it executable: chmod +x {name}",
        errno.ENOEXEC: " Let its first line name its language, such as #!/usr/bin/env python3",
    }.get(error.errno, "")
    if error.errno == errno.ENOENT and os.path.exists(name):
        return f"cannot start {name}: the program that its first line names does not exist."
    return f"cannot start {name}: {error.strerror}.{advice}"


class Store:
    """The command line of a store, and the most seconds that it may take for a schedule."""
    is_kept = False

    def __init__(self, words, seconds):
        self.words, self.seconds = words, seconds
        self.children = Children()

    def run(self, schedule, seconds, is_new=False):
        """Starts the store with a scenario on standard input, and stops it after `seconds`. Raises CannotStart if the
        store cannot be started."""
        begin = time.monotonic()
        with tempfile.TemporaryFile() as scenario:
            scenario.write(schedule.text().encode())
            scenario.seek(0)
            child = self.children.start(self.words, stdin=scenario)
        try:
            end = begin + seconds
            printed, complaint, whole = read_both(child, end)
            status = await_end(child, end) if whole else None
        finally:
            self.children.stop(child)
        is_flood = len(printed) > LONGEST_ANSWER
        if is_flood:
            del printed[KEPT_ANSWER:]
        return Ended(status, text_of(printed), complaint.lines(), time.monotonic() - begin, is_flood)

    def stopping(self):
        """Ends all processes of the store at the beginning of a block, and starts no other ones inside the block."""
        return self.children.stopping()

    abandoning = stopping


def read_both(child, end):
    """The output of the child until it closes both streams, and whether it closed them within the limits of time and
    length."""
    printed, complaint = bytearray(), Ends()
    with selectors.DefaultSelector() as selector:
        selector.register(child.stdout, selectors.EVENT_READ, printed)
        selector.register(child.stderr, selectors.EVENT_READ, complaint)
        while selector.get_map():
            left = end - time.monotonic()
            if left <= 0 or len(printed) > LONGEST_ANSWER:
                return printed, complaint, False
            for key, _ in selector.select(left):
                part = os.read(key.fd, 1 << 16)
                if not part:
                    selector.unregister(key.fileobj)
                key.data.extend(part)
    return printed, complaint, True


def await_end(child, end):
    """The child's status, or None if it is still running after it has closed its output."""
    try:
        return child.wait(max(end - time.monotonic(), 0.01))
    except subprocess.TimeoutExpired:
        return None
