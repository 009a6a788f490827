"""Passes schedules to a store that stays alive (`compare --keep`). docs/TESTING_A_STORE.md describes the protocol.

The store reads a JSON object from each line of standard input, with an `id` and a `scenario`. It answers with one line,
a JSON object with the same `id` and with its output as a list `lines`. In place of `lines`, it may give an `error`.
"""
import contextlib
import json
import os
import selectors
import threading
import time

from starting import KEPT_ANSWER, LONGEST_ANSWER, Children, Ended, Ends, await_end, text_of


class KeptStore:
    """The command line of a store that stays alive. Each process of it works on one schedule at a time."""
    is_kept = True

    def __init__(self, words, seconds):
        self.words, self.seconds = words, seconds
        self.children = Children()
        self.idle, self.lock, self.last = [], threading.Lock(), 0

    def run(self, schedule, seconds, is_new=False):
        """Passes a schedule to an idle process of the store, or to a new one. Raises CannotStart if the store cannot
        be started."""
        begin = time.monotonic()
        with self.lock:
            process = self.idle.pop() if self.idle and not is_new else None
            self.last += 1
            number = self.last
        process = process or Process(self.children.start(self.words, stdin=-1))
        try:
            ended = process.ask(number, schedule, begin + seconds)
        except BaseException:
            self.children.stop(process.child)
            raise
        ended.seconds = time.monotonic() - begin
        if ended.status == 0 and ended.problem is None and not self.children.is_stopping:
            with self.lock:
                self.idle.append(process)
        else:
            self.children.stop(process.child)
        return ended

    def stopping(self):
        """Ends all processes of the store at the beginning of a block, and starts no other ones inside the block."""
        return self.children.stopping()

    def abandoning(self):
        """A process that works on a schedule ends it, and can then take another one. So none is ended."""
        return contextlib.nullcontext()


class Process:
    """A process of the store, with its output that was read but not yet used."""

    def __init__(self, child):
        self.child, self.printed = child, bytearray()
        os.set_blocking(child.stdin.fileno(), False)

    def ask(self, number, schedule, end):
        """Passes a schedule, and reads the answer until the time `end`."""
        line = json.dumps({"id": number, "scenario": json.loads(schedule.text())}).encode() + b"\n"
        complaint, is_open = self.exchange(line, end)
        answer, feed, rest = self.printed.partition(b"\n")
        if feed:
            self.printed = rest
            return read_answer(number, bytes(answer), complaint.lines())
        text = text_of(self.printed[:KEPT_ANSWER])
        if is_open:
            return Ended(None, text, complaint.lines(), 0, len(self.printed) > LONGEST_ANSWER)
        status = await_end(self.child, end)
        problem = "the store ended without an answer" if status == 0 else None
        return Ended(status, text, complaint.lines(), 0, problem=problem)

    def exchange(self, line, end):
        """Writes the line, and reads until the answer is whole. Returns standard error, and whether standard output is
        still open."""
        complaint, is_open = Ends(), True
        with selectors.DefaultSelector() as selector:
            selector.register(self.child.stdout, selectors.EVENT_READ, self.printed)
            selector.register(self.child.stderr, selectors.EVENT_READ, complaint)
            selector.register(self.child.stdin, selectors.EVENT_WRITE)
            while is_open and b"\n" not in self.printed[-(1 << 16):] and len(self.printed) <= LONGEST_ANSWER:
                left = end - time.monotonic()
                if left <= 0:
                    break
                for key, _ in selector.select(left):
                    if key.data is None:
                        line = self.write(line)
                        if not line:
                            selector.unregister(key.fileobj)
                        continue
                    part = os.read(key.fd, 1 << 16)
                    key.data.extend(part)
                    if not part:
                        selector.unregister(key.fileobj)
                        is_open = is_open and key.data is complaint
            if not is_open and self.child.stderr in selector.get_map():
                read_rest(self.child.stderr, complaint, end)
        return complaint, is_open

    def write(self, line):
        """Writes a part of the line, and returns the rest. If the store no longer reads, there is no rest."""
        try:
            return line[os.write(self.child.stdin.fileno(), line[:1 << 16]):]
        except BrokenPipeError:
            return b""


def read_rest(stream, complaint, end):
    """Reads standard error of a store that has closed its output, until it closes this too."""
    with selectors.DefaultSelector() as selector:
        selector.register(stream, selectors.EVENT_READ)
        while selector.select(max(min(end - time.monotonic(), 1), 0)):
            part = os.read(stream.fileno(), 1 << 16)
            if not part:
                return
            complaint.extend(part)


def read_answer(number, line, said):
    """The output in the answer to the schedule with this number."""
    shown = text_of(line[:KEPT_ANSWER])
    try:
        answer = json.loads(line)
    except ValueError:
        problem = "the answer of the store is not JSON" if line.strip() else "the answer of the store is an empty line"
        return Ended(0, shown, said, 0, problem=problem)
    if not isinstance(answer, dict) or answer.get("id") != number:
        return Ended(0, shown, said, 0, problem=f"the answer of the store is not an object with the id {number}")
    if "error" in answer:
        return Ended(0, str(answer["error"]), said, 0, problem="the store answered with an error")
    lines = answer.get("lines")
    if not isinstance(lines, list) or not all(isinstance(text, str) for text in lines):
        return Ended(0, shown, said, 0, problem="the answer of the store has no list `lines` of texts")
    return Ended(0, "\n".join(lines), said, 0)
