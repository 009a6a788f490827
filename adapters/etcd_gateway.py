"""Calls a member of an etcd cluster through its JSON gateway, which is at /v3 since etcd 3.4."""
import base64
import http.client
import json
import socket
import urllib.parse

from observing import Trouble

OLDEST = (3, 4)


class Lost(Exception):
    """There is no reply. A command of the request may take effect."""


class Compacted(Exception):
    """The member has only the events after the revision `revision`."""

    def __init__(self, revision):
        super().__init__(f"compacted up to {revision}")
        self.revision = revision


def coded(text):
    return base64.b64encode(text.encode()).decode()


def decoded(word):
    """A key or a text. The gateway leaves out an empty one."""
    return base64.b64decode(word or "").decode("utf-8", "surrogateescape")


def range_of(prefix):
    """All keys that begin with an ASCII prefix."""
    return {"key": coded(prefix), "range_end": coded(prefix[:-1] + chr(ord(prefix[-1]) + 1))}


def parsed(endpoint):
    """The host and the port of an endpoint, with or without `http://`."""
    try:
        parts = urllib.parse.urlsplit(endpoint if "://" in endpoint else "http://" + endpoint)
        host, port = parts.hostname, parts.port
    except ValueError:
        host = port = None
    if not host or not port or parts.scheme != "http" or parts.path.strip("/"):
        raise Trouble(f"{endpoint} is not an endpoint. Write HOST:PORT or http://HOST:PORT, without TLS.")
    return host, port


def words_of(error):
    return getattr(error, "strerror", None) or str(error) or type(error).__name__


class Gateway:
    """One connection to a member. It is for one thread."""

    def __init__(self, endpoint, seconds):
        self.endpoint, self.address, self.seconds = endpoint, parsed(endpoint), seconds
        self.connection = None

    def close(self):
        if self.connection:
            self.connection.close()
            self.connection = None

    def request(self, method, path, body, seconds):
        """Sends a request, and returns the beginning of its reply."""
        try:
            if not self.connection:
                self.connection = http.client.HTTPConnection(*self.address, timeout=seconds)
                self.connection.connect()
            self.connection.request(method, path, json.dumps(body) if body is not None else None)
            return self.connection.getresponse()
        except (OSError, http.client.HTTPException) as error:
            self.close()
            raise Lost(words_of(error)) from error

    def read(self, method, path, body=None):
        """The JSON object that a member replies."""
        reply = self.request(method, path, body, self.seconds)
        try:
            found = json.loads(reply.read())
        except (OSError, http.client.HTTPException) as error:
            self.close()
            raise Lost(words_of(error)) from error
        except ValueError:
            found = None
        if not isinstance(found, dict):
            raise Lost(f"its reply has the HTTP status {reply.status} and is not a JSON object")
        if reply.status != 200:
            raise Lost(str(found.get("error") or found.get("message") or f"the HTTP status {reply.status}"))
        return found

    def call(self, path, body):
        return self.read("POST", "/v3/" + path, body)

    def check(self):
        """Refuses a member that this adapter can't use. Returns the numbers of its cluster and of the member."""
        try:
            version = str(self.read("GET", "/version").get("etcdserver", "of an unknown version"))
        except Lost as error:
            raise Trouble(f"{self.endpoint} does not answer like a member of etcd: {error}. Start the member, or"
                          " correct the endpoint.") from error
        numbers = version.split(".")
        if not all(number.isdecimal() for number in numbers[:2]) or tuple(map(int, numbers[:2])) < OLDEST:
            raise Trouble(f"{self.endpoint} is etcd {version}. This adapter needs etcd 3.4 or later.")
        try:
            header = self.status()["header"]
            return header["cluster_id"], header["member_id"]
        except (Lost, KeyError, TypeError) as error:
            raise Trouble(f"{self.endpoint} does not report its status: {error}. Name the member's address for"
                          " clients.") from error

    def status(self):
        return self.call("maintenance/status", {})

    def watch(self, prefix, first):
        """The events from a revision on, as a list of (revision, events) for each message. An event is the kind, the
        key without the prefix, and the text."""
        wish = {"create_request": {**range_of(prefix), "start_revision": str(first)}}
        reply = self.request("POST", "/v3/watch", wish, self.seconds)
        try:
            self.wait_for_ever()
            for line in reply:
                message = json.loads(line)
                result = message.get("result", {})
                if int(result.get("compact_revision", 0)):
                    raise Compacted(int(result["compact_revision"]))
                if "error" in message or result.get("canceled"):
                    raise Lost(str(message.get("error") or result.get("cancel_reason") or "canceled"))
                yield list(events_of(result, len(prefix)))
        except (OSError, http.client.HTTPException, ValueError, AttributeError, KeyError) as error:
            raise Lost(words_of(error)) from error
        finally:
            self.close()
        raise Lost("the member ended it")

    def wait_for_ever(self):
        """A watch is silent as long as nobody writes. The system notices if the other machine is gone."""
        connection = self.connection.sock
        if not connection:
            raise Lost("the member closes its connections")
        connection.settimeout(None)
        connection.setsockopt(socket.SOL_SOCKET, socket.SO_KEEPALIVE, 1)
        # In seconds, and the number of trials. Some systems lack these options.
        for name, value in (("TCP_KEEPIDLE", 5), ("TCP_KEEPINTVL", 5), ("TCP_KEEPCNT", 4)):
            if hasattr(socket, name):
                connection.setsockopt(socket.IPPROTO_TCP, getattr(socket, name), value)


def events_of(result, length):
    """The events of a message of a watch, in the order of their revisions."""
    revisions = {}
    for event in result.get("events", []):
        kv = event["kv"]
        revisions.setdefault(int(kv["mod_revision"]), []).append(
            (event.get("type", "PUT"), decoded(kv["key"])[length:], decoded(kv.get("value"))))
    yield from sorted(revisions.items())
