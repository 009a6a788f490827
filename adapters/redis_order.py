"""Decides when the log says that a Redis server has executed a command.

A Redis primary executes a command at once, and loses it if a replica without it becomes the primary. Redis promises
nothing about a command that has no reply yet. So the log names a command only once two conditions hold. Its client has
the reply, or the client of a later command in the same server's order has one. And a second server has the command. The
log then contains no command that a correct failover may roll back.
"""
import collections
import threading


class Order:
    """Receives what streams and clients see, in any thread, and writes `execute`, `restore` and `settled` lines."""

    def __init__(self, log, addresses):
        self.log, self.lock = log, threading.Lock()
        self.replied = set()
        self.holders = collections.defaultdict(set)  # the servers that have executed a command
        # The numbers of the log begin with the places on the command line.
        self.servers = {address: Server(log.new_server(address)) for address in addresses}
        self.begun = set()
        # The longest history of the log, and the number of its server.
        self.longest, self.longest_number = [], None

    def begin(self, address, identities):
        with self.lock:
            if address in self.begun:
                self.servers[address] = Server(self.log.new_server(address))
            self.begun.add(address)
            server = self.servers[address]
            common = common_length(identities, self.longest)
            if common:
                self.log.restore(server.number, self.longest_number, common)
                server.count = common
            for identity in identities:
                self.holders[identity].add(address)
            for identity in identities[common:]:
                server.add(identity)
            self.write(server, self.last(server, self.is_due))

    def execute(self, address, identity):
        with self.lock:
            self.holders[identity].add(address)
            self.servers[address].add(identity)
            self.write_if_due(identity)

    def reply(self, identity):
        """A client has the reply. Its line is in the log already."""
        with self.lock:
            self.replied.add(identity)
            self.write_if_due(identity)

    def settle(self, addresses):
        """These servers have everything, so no other server must confirm what they have executed."""
        with self.lock:
            for address in addresses:
                server = self.servers[address]
                self.write(server, self.last(server, self.replied.__contains__))
                self.log.settled(server.number)

    # ---- with the lock

    def is_due(self, identity):
        return identity in self.replied and len(self.holders[identity]) > 1

    def write_if_due(self, identity):
        if self.is_due(identity):
            for server in self.servers.values():
                if identity in server.names:
                    self.write(server, identity)

    def last(self, server, is_wanted):
        """The last command that waits at a server and is wanted, or None."""
        return next((identity for identity in reversed(server.waiting) if is_wanted(identity)), None)

    def write(self, server, end):
        """Writes the commands that wait at a server, up to this one."""
        while end in server.names:
            identity = server.take()
            self.log.execute(server.number, identity)
            server.count += 1
            if server.count > len(self.longest):
                self.longest.append(identity)
                self.longest_number = server.number


class Server:
    """A server under one number of the log, with the commands that it has executed and the log does not name yet."""

    def __init__(self, number):
        self.number, self.count = number, 0
        self.waiting, self.names = collections.deque(), set()

    def add(self, identity):
        self.waiting.append(identity)
        self.names.add(identity)

    def take(self):
        identity = self.waiting.popleft()
        self.names.discard(identity)
        return identity


def common_length(left, right):
    pairs = enumerate(zip(left, right))
    return next((place for place, pair in pairs if pair[0] != pair[1]), min(len(left), len(right)))
