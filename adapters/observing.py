"""Keeps the log of a store in a file, and has `mencius judge` judge the log while it grows.

An adapter drives a store, and tells an `Observing` what its clients and servers do:

    with Observing("store.log") as log:
        server = log.new_server("10.0.0.1:2379")
        log.submit("1.0", "set", "a key", "x")
        log.execute(server, "1.0")
        log.reply("1.0", None)
        log.wait(30)
        text, status = log.finish()
    tell(text)

docs/TESTING_A_STORE.md says when each line must be written. These methods write a line:

    submit(id, operation, key, *texts)   a client is about to send a command
    execute(server, id)                  a server executes a command
    reply(id, answer)                    a client got a reply: None, a text, OK or FAILED
    unknown(id)                          a client gave up a command, which may still take effect
    lookup(reader, key, answer)          a reader found None or a text
    told(reader, server)                 from now on, the reader must see what this server has
    settled(server)                      a server should have all acknowledged commands by now
    restore(server, source, count)       a server begins with the first commands of another server
    remark(text)                         a line for people

`new_server(name)` returns the next number of a server. Call it again for a server that starts anew. A name, a key, a
text and the identity of a command may be any `str` or `bytes`, and a reader may also be a number. The log has words of
its own for what does not fit into it. A remark in the log explains each such word, and `finish` shows the original.

`wait(seconds)` waits for that long. It returns True as soon as the test should stop. Then `violation` is the text of the
broken promise, or it is None because the judge or the disk failed. `finish()` returns the verdict with its explanation,
and an exit status: 0 for `ok`, 1 for a violation or `unjudged`, 2 if there is no verdict.

`tell(text)` prints a text, and does not fail if nobody reads it.

All methods may be called by several threads and by coroutines. Only `wait` and `finish` block. From a coroutine, call
`await asyncio.to_thread(log.wait, 30)`. `with log.lock:` keeps lines of other threads from coming between two lines.
"""
import contextlib
import itertools
import json
import os
import re
import subprocess
import sys
import threading

TOP = os.path.dirname(os.path.dirname(os.path.realpath(__file__)))
JUDGE = [os.path.join(TOP, "mencius"), "judge"]

sys.path.append(os.path.join(TOP, "conformance"))

from operations import OPERATIONS

# The answers of a store that does not return the former text.
OK, FAILED = object(), object()

# Made words begin with `_`, and made identities and readers with MADE. What looks like a made word gets one of its own.
MADE = 1_000_000
MADE_ID = f"{MADE}.{{}}"
LITERAL = re.compile(r"[A-Za-z0-9.-][A-Za-z0-9_.-]*")
IDENTITY = re.compile(r"(0|[1-9][0-9]{0,8})\.(0|[1-9][0-9]{0,8})")
MADE_WORD = re.compile(rf"(?<![A-Za-z0-9_.-])(_[0-9]+|{MADE}\.[0-9]+)")
READER = re.compile(r"\b(?:[Rr]eader|lookup|told) ([0-9]+)")
# The number is not the first half of an identity, as in "must execute 1.0".
SERVER = re.compile(r"\b(?:[Ss]erver|execute|settled|restore) ([0-9]+)(?!\.?[0-9])")
OTHER_SERVER = re.compile(r"\b(?:told|restore) [0-9]+ ([0-9]+)")
# The most characters of an original in a remark and in an explanation.
LONG, SHORT = 900, 120


class Trouble(Exception):
    """Something that the user must know, in one line."""


def tell(text, stream=None):
    """Prints a text, unless the reader of the stream has ended."""
    stream = stream or sys.stdout
    try:
        print(text, file=stream, flush=True)
    except OSError:
        # Otherwise the end of the program would try to print it again.
        os.dup2(os.open(os.devnull, os.O_WRONLY), stream.fileno())


def text_of(value):
    """A key, a text or an identity as a `str`. Bytes that are not UTF-8 become surrogates."""
    return value.decode("utf-8", "surrogateescape") if isinstance(value, bytes) else str(value)


def shown(text, most):
    quoted = json.dumps(text)
    return quoted if len(quoted) <= most else quoted[:most] + '.."'


class Words:
    """The words of the log for keys, texts, identities and readers, and the originals of the made words."""

    def __init__(self):
        self.made, self.originals, self.remarks = {}, {}, []
        self.counts = {"_{}": itertools.count(), MADE_ID: itertools.count(), "{}": itertools.count(MADE)}

    def make(self, form, text):
        """The made word of this form for a text. A new word gets a remark."""
        if (form, text) not in self.made:
            word = form.format(next(self.counts[form]))
            self.made[form, text] = word
            self.originals[word] = text
            self.remarks.append(f"# {word} is {shown(text, LONG)}")
        return self.made[form, text]

    def word(self, value, least, most):
        """The word for a key or a text of `least` to `most` characters."""
        text = text_of(value)
        if text == "" and least == 0:
            return text
        if len(text) <= most and LITERAL.fullmatch(text) and not text.startswith(f"{MADE}."):
            return text
        return self.make("_{}", text)

    def key(self, value):
        return self.word(value, 1, 64)

    def text(self, value):
        return self.word(value, 0, 256)

    def id(self, value):
        text = text_of(value)
        if IDENTITY.fullmatch(text) and not text.startswith(f"{MADE}."):
            return text
        return self.make(MADE_ID, text)

    def reader(self, value):
        is_number = isinstance(value, int) and 0 <= value < MADE
        return str(value) if is_number else self.make("{}", text_of(value))

    def answer(self, value):
        return "none" if value is None else "=" + self.text(value)

    def reply(self, value):
        return "ok" if value is OK else "failed" if value is FAILED else self.answer(value)

    def explained(self, text):
        """The explanation of a verdict, with the originals instead of the made words."""
        return MADE_WORD.sub(lambda found: shown(self.originals.get(found[0], found[0]), SHORT), text)


class Observing:
    """A log that is kept, and judged while it grows."""

    def __init__(self, path, judge=None):
        """Begins an empty log at this path. `judge` is the list of the words that start the judge."""
        self.path, self.lock = path, threading.RLock()
        self.grown = threading.Condition(self.lock)
        self.words, self.servers = Words(), []
        self.size, self.is_full, self.is_closed = 0, False, False
        self.trouble, self.said = None, "it said nothing"
        self.is_over, self.verdict, self.status = threading.Event(), None, None
        self.call = judge or JUDGE
        try:
            self.file, self.copy = open(path, "wb"), open(path, "rb", buffering=0)
        except OSError as error:
            raise Trouble(f"{path} can't be written: {error.strerror}. Name another file for the log.") from error
        self.judge = self.start()
        self.threads = [threading.Thread(target=work, daemon=True) for work in (self.feed, self.hear, self.listen)]
        for thread in self.threads:
            thread.start()

    def start(self):
        # Ctrl-C ends the test, and the judge must outlive it to give its verdict.
        try:
            return subprocess.Popen(self.call, stdin=subprocess.PIPE, stdout=subprocess.PIPE, stderr=subprocess.PIPE,
                                    start_new_session=True)
        except OSError as error:
            raise Trouble(f"the judge {self.call[0]} can't be started: {error.strerror}") from error

    def __enter__(self):
        return self

    def __exit__(self, *_):
        self.finish()

    # ---- lines

    def new_server(self, name):
        with self.lock:
            self.servers.append(text_of(name))
            number = len(self.servers) - 1
            start = self.servers.count(self.servers[number])
            self.remark(f"server {number} is {shown(self.servers[number], LONG)}, start {start}")
            return number

    def submit(self, id, operation, key, *texts):
        if operation not in OPERATIONS or OPERATIONS[operation].texts != len(texts):
            raise ValueError(f"{operation} with {len(texts)} texts is not an operation")
        with self.lock:
            self.write("submit", self.words.id(id), operation, self.words.key(key), *map(self.words.text, texts))

    def execute(self, server, id):
        with self.lock:
            self.write("execute", server, self.words.id(id))

    def reply(self, id, answer):
        with self.lock:
            self.write("reply", self.words.id(id), self.words.reply(answer))

    def unknown(self, id):
        with self.lock:
            self.remark(f"unknown {self.words.id(id)}")

    def lookup(self, reader, key, answer):
        with self.lock:
            self.write("lookup", self.words.reader(reader), self.words.key(key), self.words.answer(answer))

    def told(self, reader, server):
        with self.lock:
            self.write("told", self.words.reader(reader), server)

    def settled(self, server):
        self.write("settled", server)

    def restore(self, server, source, count):
        self.write("restore", server, source, count)

    def remark(self, text):
        line = " ".join(text.splitlines()).encode("ascii", "backslashreplace").decode()
        self.write("#", line[:LONG])

    def write(self, *words):
        """Writes a line, with the remarks on new words before it. After `finish`, it writes nothing."""
        with self.lock:
            if self.is_closed or self.is_full:
                return
            lines = [*self.words.remarks, " ".join(map(str, words))]
            self.words.remarks.clear()
            data = "".join(line + "\n" for line in lines).encode("ascii")
            try:
                self.file.write(data)
                self.file.flush()
            except OSError as error:
                self.trouble, self.is_full = f"{self.path} can't be written: {error.strerror}", True
                self.is_over.set()
            else:
                self.size += len(data)
            self.grown.notify_all()

    # ---- the judge

    def feed(self):
        """Passes the log to the judge. It reads the file again, so a slow judge holds up nobody and needs no memory."""
        sent = 0
        try:
            with self.copy as log, self.judge.stdin as pipe:
                while True:
                    with self.grown:
                        self.grown.wait_for(lambda: self.size > sent or self.is_closed or self.is_full)
                        left = self.size - sent
                    piece = log.read(min(left, 1 << 16))
                    if not piece:
                        return
                    pipe.write(piece)
                    pipe.flush()
                    sent += len(piece)
        except OSError:
            # The judge ended before the log did. Its verdict says why.
            pass

    def hear(self):
        """Passes on what the judge writes to standard error, such as the progress of its build."""
        for line in self.judge.stderr:
            self.said = text_of(line).rstrip("\n")
            tell(self.said, sys.stderr)

    def listen(self):
        """Waits for the verdict."""
        printed = text_of(self.judge.stdout.read())
        status = self.judge.wait()
        self.threads[1].join(1)
        with self.lock:
            if status in (0, 1) and printed:
                self.verdict, self.status = self.explain(printed), status
            else:
                end = f"status {status}" if status >= 0 else f"signal {-status}"
                self.trouble = self.trouble or f"the judge {self.call[0]} ended with {end}: {self.said}"
            self.is_over.set()

    def explain(self, printed):
        """The verdict as the judge printed it, then its explanation with originals, and the names of the servers."""
        verdict, _, text = printed.partition("\n")
        lines = [verdict, *self.words.explained(text).splitlines()]
        if text:
            numbers = sorted({int(number) for number in [*SERVER.findall(printed), *OTHER_SERVER.findall(printed)]})
            lines += [f"Server {number} is {self.name(number)}." for number in numbers if number < len(self.servers)]
            readers = sorted({number for number in READER.findall(printed) if number in self.words.originals})
            lines += [f"Reader {number} is {shown(self.words.originals[number], SHORT)}." for number in readers]
        return "\n".join(lines)

    def name(self, number):
        name = self.servers[number]
        starts = self.servers[:number + 1].count(name)
        return shown(name, SHORT) + (f" after its start {starts}" if starts > 1 else "")

    @property
    def violation(self):
        return self.verdict if (self.verdict or "").startswith("violation") else None

    def wait(self, seconds):
        """Waits for that long, or until the test should stop. Returns whether it should stop."""
        return self.is_over.wait(seconds)

    def finish(self):
        """Ends the log, and waits for the verdict. Returns it with its explanation, and the exit status."""
        with self.lock:
            self.is_closed = True
            self.grown.notify_all()
        for thread in self.threads:
            thread.join()
        with self.lock, contextlib.suppress(OSError):
            # If the disk is full, closing fails too.
            self.file.close()
        if self.trouble:
            return f"no verdict: {self.trouble}", 2
        return self.verdict, self.status
