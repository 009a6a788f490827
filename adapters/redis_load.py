"""The clients of a test of Redis. Each sends one command after another to the primary."""
import itertools
import random
import threading
import time

from redis_client import Connection, ErrorReply

OPERATIONS = {"set": 3, "get": 3, "del": 1, "cas": 3}  # how often a client chooses each
WAIT_MS = 1000  # the most that WAIT waits
PAUSE = 0.02

# Appends the identity to the list of all identities, and executes the operation. Returns the former text.
SCRIPT = """\
redis.call('RPUSH', KEYS[1], ARGV[1])
local former = redis.call('GET', KEYS[2])
if ARGV[2] == 'set' then redis.call('SET', KEYS[2], ARGV[3])
elseif ARGV[2] == 'del' then redis.call('DEL', KEYS[2])
elseif ARGV[2] == 'cas' and former == ARGV[3] then redis.call('SET', KEYS[2], ARGV[4]) end
return former"""


class Client(threading.Thread):
    """Works until the test is over. It never sends a command again, because the first attempt may still take effect."""

    def __init__(self, test, number):
        super().__init__(daemon=True)
        self.test, self.number = test, number
        self.chance = random.Random(f"{test.options.seed} {number}")
        self.connection, self.address = None, None
        self.texts = {}  # the last text of each key that this client knows
        self.unknown = 0

    def run(self):
        interval = self.test.options.clients / self.test.options.rate
        due = time.monotonic() + self.chance.random() * interval
        for count in itertools.count():
            if self.test.over.wait(max(0.0, due - time.monotonic())):
                break
            self.request(f"{self.number}.{count}", *self.choose(count))
            due = max(due + interval, time.monotonic())
        self.close()

    def choose(self, count):
        operation = self.chance.choices([*OPERATIONS], OPERATIONS.values())[0]
        key, text = self.chance.choice(self.test.keys), f"t{self.number}.{count}"
        texts = {"set": [text], "cas": [self.texts.get(key) or "t", text]}
        return operation, key, *texts.get(operation, [])

    def request(self, identity, operation, key, *texts):
        """Sends a command, and logs it. Returns whether it had its reply."""
        if not self.connect():
            return False
        log = self.test.log
        log.submit(identity, operation, key, *texts)
        try:
            former = self.connection.ask("EVAL", SCRIPT, 2, self.test.marks, self.test.prefix + key,
                                         identity, operation, *texts)
            is_kept = self.is_kept()
        except (OSError, ErrorReply) as error:
            self.trouble(error)
            is_kept = False
        if not is_kept:
            self.unknown += 1
            log.unknown(identity)
            return False
        former = None if former is None else former.decode("utf-8", "surrogateescape")
        log.reply(identity, former)
        self.test.order.reply(identity)
        self.texts[key] = text_after(former, operation, *texts)
        return True

    def is_kept(self):
        """Whether so many replicas have the last command as the user wants."""
        wanted = self.test.options.wait
        return not wanted or self.connection.ask("WAIT", wanted, WAIT_MS) >= wanted

    def connect(self):
        """Connects to the primary. Returns whether there is a connection."""
        primary = self.test.servers.primary
        if self.address != primary:
            self.close()
        if self.connection is None and primary is not None:
            self.address = primary
            try:
                self.connection = Connection(primary)
            except (OSError, ErrorReply) as error:
                self.trouble(error)
        return self.connection is not None

    def trouble(self, error):
        self.test.trouble(self.address, error)
        self.close()
        if not self.test.over.wait(PAUSE):
            self.test.servers.find_primary()

    def close(self):
        if self.connection:
            self.connection.close()
        self.connection = None


def text_after(former, operation, *texts):
    """What a key holds after an operation, or None."""
    if operation == "set" or operation == "cas" and former == texts[0]:
        return texts[-1]
    return None if operation == "del" else former
