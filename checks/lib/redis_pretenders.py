"""Programs that pretend to be Redis servers, for tests of the adapter."""
import os
import socket
import sys
import threading

from shared import TOP, fail

sys.path.insert(0, os.path.join(TOP, "adapters"))

from redis_client import encoded

SECONDS = 10


def bulk(text):
    return f"${len(text)}\r\n{text}\r\n".encode()


class Pretender:
    """A server that sends the same bytes to everybody who sends something."""

    def __init__(self, reply):
        self.reply, self.server = reply, socket.create_server(("127.0.0.1", 0))
        self.address = f"127.0.0.1:{self.server.getsockname()[1]}"
        threading.Thread(target=self.serve, daemon=True).start()

    def serve(self):
        try:
            while True:
                with self.server.accept()[0] as peer:
                    self.talk(peer)
        except OSError:
            # The test is over.
            pass

    def talk(self, peer):
        if peer.recv(1024):
            peer.sendall(self.reply)

    def __enter__(self):
        return self

    def __exit__(self, *_):
        # Otherwise the thread would wait for a peer for ever.
        self.server.shutdown(socket.SHUT_RDWR)
        self.server.close()


# ---- a replication stream with cuts

MARKS = "test:done"


def transaction(identity):
    return b"".join(map(encoded, [["MULTI"], ["RPUSH", MARKS, identity], ["SET", "test:a", "x"], ["EXEC"]]))


PING = encoded(["ping"])
# A transaction whose end is missing.
PART = transaction("1.1")[:-5]
# The offset of the first connection, and the offset at which the snapshot of the third connection ends.
BEGIN, SNAPSHOT = 100, 5000
HISTORIES = "a" * 40, "b" * 40
# For each connection: the history and the first byte that it must request, what it gets, and the state of the server.
FIRST = transaction("1.0") + PING
CONNECTIONS = [
    (f"PSYNC {HISTORIES[0]} {BEGIN + 1}", f"\n+CONTINUE {HISTORIES[0]}\r\n".encode() + FIRST + PART),
    (f"PSYNC {HISTORIES[0]} {BEGIN + len(FIRST) + 1}", f"+CONTINUE {HISTORIES[0]}\r\n".encode() + transaction("1.1")),
    (f"PSYNC {HISTORIES[0]} {BEGIN + len(FIRST) + len(transaction('1.1')) + 1}",
     f"\n+FULLRESYNC {HISTORIES[1]} {SNAPSHOT}\r\n\n$5\r\nREDIS".encode() + transaction("1.2")
     + encoded(["RPUSH", MARKS, "1.3"])),
    # The server has 1.2 when it is asked, so the stream may be read from there.
    (f"PSYNC {HISTORIES[1]} {SNAPSHOT + len(transaction('1.2') + encoded(['RPUSH', MARKS, '1.3'])) + 1}",
     f"+CONTINUE {HISTORIES[1]}\r\n".encode() + encoded(["DEL", "test:a"]) + transaction("1.4")),
]
MOMENTS = [([], HISTORIES[0], BEGIN), (["1.0", "1.1", "1.2"], HISTORIES[1], SNAPSHOT + len(transaction("1.2")))]
STREAM_CALLS = ["begin", "execute 1.0", "execute 1.1", "begin 1.0 1.1 1.2", "execute 1.3", "execute 1.4",
                "stranger DEL test:a"]


class Streaming(Pretender):
    """A server that lets a stream go on as CONNECTIONS says."""

    def __init__(self):
        self.connections, self.moments, self.problem = list(CONNECTIONS), list(MOMENTS), None
        super().__init__(b"")

    def talk(self, peer):
        with peer.makefile("rb") as file:
            while head := file.readline():
                words = [file.read(int(file.readline()[1:]) + 2)[:-2].decode() for _ in range(int(head[1:]))]
                if words[0] == "PSYNC":
                    return self.stream(peer, " ".join(words))
                peer.sendall(self.exec() if words[0] == "EXEC" else b"+OK\r\n")

    def exec(self):
        identities, history, offset = self.moments.pop(0) if len(self.moments) > 1 else self.moments[0]
        about = f"# Replication\r\nmaster_replid:{history}\r\nmaster_repl_offset:{offset}\r\n"
        return b"*2\r\n" + encoded(identities) + bulk(about)

    def stream(self, peer, request):
        if self.connections:
            wanted, reply = self.connections.pop(0)
            if request != wanted:
                self.problem = f"the stream requests {request} instead of {wanted}"
            peer.sendall(reply)


class Seen:
    """Keeps the calls of a stream."""

    def __init__(self, count):
        self.calls, self.count, self.is_whole = [], count, threading.Event()

    def begin(self, _, identities):
        self.add("begin", *identities)

    def execute(self, _, identity):
        self.add("execute", identity)

    def add(self, *words):
        self.calls.append(" ".join(words))
        if len(self.calls) == self.count:
            self.is_whole.set()


def follow_stream(make):
    """Lets a stream follow the pretended server. Returns the calls of the stream, and what it reports of others."""
    with Streaming() as server:
        seen = Seen(sum(not call.startswith("stranger") for call in STREAM_CALLS))
        stream = make(server.address, "test:", MARKS, seen)
        stream.start()
        seen.is_whole.wait(SECONDS)
        stream.stop()
        if server.problem:
            fail(server.problem)
        return [*seen.calls, *(f"stranger {text}" for text in stream.strangers)]
