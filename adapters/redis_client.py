"""A connection to a Redis server, and the facts that a server states about itself.

    from redis_client import Connection, fields_of
    connection = Connection("127.0.0.1:7000")
    fields_of(connection.ask("INFO", "server"))["redis_version"]

A reply is bytes, a text for a status such as OK, a number, None, or a list of replies. A reply that reports an error
raises ErrorReply. Everything that goes wrong on the way to the server raises OSError. The password is the value of
REDISCLI_AUTH, as for redis-cli.
"""
import os
import re
import socket
from typing import NamedTuple

ADDRESS = re.compile(r"(?:\[([0-9A-Fa-f:.]+)\]|([^:\[\]\s]+)):([1-9][0-9]{0,4})")
SECONDS = 2.0  # the most for a reply
STRANGE = "the server does not speak the protocol of Redis"


class ErrorReply(Exception):
    """The server received a command and replied with an error. The text begins with its kind, such as READONLY."""

    @property
    def kind(self):
        return str(self).partition(" ")[0]


def reason(error):
    """The first sentence of an error, without the number that the system gives it."""
    return (isinstance(error, OSError) and error.strerror or str(error)).split(". ")[0].rstrip(".")


def host_and_port(address):
    """The parts of HOST:PORT, or None if it is not an address."""
    found = ADDRESS.fullmatch(address)
    return (found[1] or found[2], int(found[3])) if found and int(found[3]) < 1 << 16 else None


def encoded(words):
    """A command as the protocol of Redis writes it."""
    parts = [word if isinstance(word, bytes) else str(word).encode() for word in words]
    return b"*%d\r\n" % len(parts) + b"".join(b"$%d\r\n%s\r\n" % (len(part), part) for part in parts)


class Connection:
    def __init__(self, address, seconds=SECONDS):
        self.socket = socket.create_connection(host_and_port(address), timeout=seconds)
        self.file = self.socket.makefile("rb")
        try:
            self.socket.setsockopt(socket.IPPROTO_TCP, socket.TCP_NODELAY, 1)
            if os.environ.get("REDISCLI_AUTH"):
                self.ask("AUTH", os.environ["REDISCLI_AUTH"])
        except BaseException:
            self.close()
            raise

    def send(self, *words):
        self.socket.sendall(encoded(words))

    def line(self):
        """The next line without its end."""
        line = self.file.readline()
        if not line.endswith(b"\n"):
            raise OSError("the server closed the connection")
        return line.rstrip(b"\r\n")

    def bytes(self, count):
        data = self.file.read(count)
        if len(data) < count:
            raise OSError("the server closed the connection")
        return data

    def receive(self):
        line = self.line()
        kind, rest = line[:1], line[1:]
        if kind == b"+":
            return rest.decode(errors="replace")
        if kind == b"-":
            raise ErrorReply(rest.decode(errors="replace"))
        if kind in (b":", b"$", b"*") and re.fullmatch(rb"-?[0-9]+", rest):
            number = int(rest)
            if kind == b":":
                return number
            if number < 0:
                return None
            return self.bytes(number + 2)[:-2] if kind == b"$" else [self.receive() for _ in range(number)]
        raise OSError(STRANGE)

    def ask(self, *words):
        self.send(*words)
        return self.receive()

    def close(self):
        self.file.close()
        self.socket.close()

    def __enter__(self):
        return self

    def __exit__(self, *_):
        self.close()


def fields_of(info):
    """The fields that INFO reports."""
    if not isinstance(info, bytes):
        raise OSError(STRANGE)
    lines = info.decode(errors="replace").split("\r\n")
    return dict(line.split(":", 1) for line in lines if ":" in line and not line.startswith("#"))


class Moment(NamedTuple):
    """The state of a server at one moment. `identities` are the commands of this test that it has executed, in its
    order. `offset` counts the bytes of the replication history `history`."""
    identities: list
    history: str
    offset: int


def moment(address, marks):
    """What a server has executed, with its place in the replication stream. A transaction reads both at once."""
    with Connection(address) as connection:
        for words in (("MULTI",), ("LRANGE", marks, 0, -1), ("INFO", "replication")):
            connection.ask(*words)
        identities, info = connection.ask("EXEC")
    fields = fields_of(info)
    return Moment([word.decode() for word in identities], fields["master_replid"], int(fields["master_repl_offset"]))
