"""Reads what a Redis server executes from its replication stream.

Every command of the test appends its identity to the list `marks`, in the transaction that has its effect. A server
sends this transaction to its replicas when it has executed it. A `Stream` connects as a replica and sees the identities
in the server's order. It never acknowledges what it reads, so WAIT does not count it.

Offsets count the bytes of a replication history. If a connection is cut, the next one continues at the offset that was
reached. If the server refuses, its data may have been replaced. This is a full resync. The server's own list `marks`
then says which commands it has.
"""
import threading
import time

from redis_client import STRANGE, Connection, ErrorReply, moment, reason

PAUSE = 0.1  # seconds before the next attempt to connect
SILENCE = 30.0  # seconds without a byte after which the connection is made anew
CHUNK = 1 << 16


class Stream(threading.Thread):
    """Follows one server until `stop` is called. `reader` has two methods, and this thread calls them:

    begin(address, identities)   the server begins with these commands, as at the start or after a full resync
    execute(address, identity)   the server has executed this command next
    """

    def __init__(self, address, keys, marks, reader):
        super().__init__(daemon=True)
        self.address, self.keys, self.marks, self.reader = address, keys.encode(), marks.encode(), reader
        self.history, self.offset = None, 0  # the place up to which everything is known
        self.known = 0  # `begin` reported everything up to this offset
        self.connection, self.is_over = None, False
        self.trouble = "no connection yet"
        self.strangers = []  # writes to the keys of the test that no command of the test has made
        self.inside, self.identities = False, []  # the transaction that is being read
        self.started = threading.Event()

    def run(self):
        while not self.is_over:
            try:
                self.follow()
            except (OSError, ErrorReply, LookupError, ValueError) as error:
                self.trouble = reason(error)
            finally:
                self.close()
            time.sleep(PAUSE)

    def stop(self):
        self.is_over = True
        self.close()

    def close(self):
        connection = self.connection
        if connection:
            try:
                connection.socket.shutdown(2)
            except OSError:
                pass

    def has(self, history, offset):
        """Whether everything up to this place has been read."""
        return self.history == history and self.offset >= offset

    # ---- a connection

    def follow(self):
        """Connects and reads until the connection is cut."""
        first = None if self.history else moment(self.address, self.marks)
        history, offset = (self.history, self.offset) if self.history else (first.history, first.offset)
        with Connection(self.address) as self.connection:
            self.connection.ask("REPLCONF", "capa", "psync2")
            self.connection.send("PSYNC", history, offset + 1)
            words = self.reply().split()
            if words[0] == b"+CONTINUE":
                if first:
                    self.begin(first)
                self.history, place = (words[1].decode() if len(words) > 1 else history), offset
            else:
                place = self.full_resync(words)
            self.trouble = None
            self.started.set()
            self.connection.socket.settimeout(SILENCE)
            self.inside, self.identities = False, []
            while not self.is_over:
                place = self.step(place)

    def reply(self):
        """The reply to PSYNC. Empty lines before it keep the connection alive."""
        line = b""
        while not line:
            line = self.connection.line()
        if line.startswith(b"-"):
            raise ErrorReply(line[1:].decode(errors="replace"))
        return line

    def full_resync(self, words):
        """Skips the snapshot, and reads from the server itself which commands it has. Returns the snapshot's offset."""
        if words[0] != b"+FULLRESYNC" or len(words) != 3:
            raise OSError(STRANGE)
        self.connection.socket.settimeout(SILENCE)
        self.skip_snapshot(self.reply())
        now = moment(self.address, self.marks)
        if now.history != words[1].decode() or now.offset < int(words[2]):
            raise OSError("the server changed its history in the meantime")
        self.begin(now)
        return int(words[2])

    def skip_snapshot(self, head):
        """The length of the snapshot is in front of it. Only replicas that say so get the form without a length."""
        left = int(head[1:])
        while left:
            left -= len(self.connection.bytes(min(left, CHUNK)))

    def begin(self, now):
        # `has` must not return True before the reader knows these commands.
        self.reader.begin(self.address, now.identities)
        self.history, self.offset, self.known = now.history, now.offset, now.offset

    # ---- the commands of the stream

    def step(self, place):
        """Reads a command that ends at some place of the stream, and returns this place."""
        head = self.connection.line()
        size, words = len(head) + 2, []
        if not head.startswith(b"*"):
            raise OSError(STRANGE)
        for _ in range(int(head[1:])):
            length = self.connection.line()
            words.append(self.connection.bytes(int(length[1:]) + 2)[:-2])
            size += len(length) + 2 + len(words[-1]) + 2
        place += size
        if place > self.known:
            self.take(words)
        if not self.inside and place > self.offset:
            self.offset = place
        return place

    def take(self, words):
        name = words[0].upper()
        if name == b"MULTI":
            self.inside = True
        elif name == b"RPUSH" and words[1] == self.marks:
            self.identities += words[2:]
        elif not self.identities and (name in (b"FLUSHALL", b"FLUSHDB") or words[1:2] and
                                      words[1].startswith(self.keys)):
            self.strangers.append(b" ".join(words[:2]).decode(errors="replace"))
        if name == b"EXEC":
            self.inside = False
        if not self.inside:
            for identity in self.identities:
                self.reader.execute(self.address, identity.decode())
            self.identities = []
