"""Places the commands of a store by revisions, and logs what each of its members executes.

In such a store, each change has a number, its *revision*. Its reply and the watches of all members show it. A command
that changed nothing has the revision of the last change before it. So it belongs after that change and before the next
one, on every member. Here, such a command is called a read.

A member's watch reports its changes in order. A change is logged for a member only if no read can be placed before it
any more. So it waits until all requests have ended that were under way when some watch first reported it. A read that
is sent later must find this change, because it was visible already. If it does not, it is logged after all changes that
were logged before, where its reply is wrong.
"""
import bisect
import collections
from typing import NamedTuple, Optional


class Life:
    """What one watch reports of a member. If the watch begins again, the member gets another life and another number,
    because it may have started anew."""

    def __init__(self, name, base):
        self.name, self.number = name, None
        # The last revision that was logged, and how many of its reads.
        self.at, self.reads = base, 0
        # The changes that were reported and not logged yet: (revision, id).
        self.waiting = collections.deque()
        # A snapshot that the life begins with: (revision, texts by key).
        self.snapshot = None


class Lookup(NamedTuple):
    """What a reader found at a revision."""
    reader: str
    key: str
    answer: Optional[str]
    revision: int


class Revisions:
    """The order of all commands after the revision `base`. Its methods may be called by several threads."""

    def __init__(self, log, base):
        self.log, self.base = log, base
        # All changes that any watch reported: their revisions, and the requests that were under way then.
        self.changes, self.before = [], {}
        # The reads after each change, and those whose change no watch has reported yet.
        self.reads, self.early = {}, []
        self.lookups = []
        self.under_way = set()
        self.lives = {}
        # The highest revision that was logged, and the last revision of each number.
        self.front, self.ends = base, {}

    @property
    def last(self):
        return self.changes[-1] if self.changes else self.base

    # ---- requests

    def begin(self, id):
        """A request that may be a read is about to be sent."""
        with self.log.lock:
            self.under_way.add(id)

    def end(self, id, revision=None):
        """The request has ended. It was a read if it has a revision."""
        with self.log.lock:
            self.under_way.discard(id)
            if revision is not None:
                self.early.append((revision, id))
                self.place()
            self.advance()

    def look_up(self, reader, key, answer, revision):
        with self.log.lock:
            self.lookups.append(Lookup(reader, key, answer, revision))
            self.advance()

    def change_at(self, revision):
        """The last change up to this revision, or None if a watch may still report it."""
        if revision > self.last:
            return None
        place = bisect.bisect_right(self.changes, revision)
        return self.changes[place - 1] if place else self.base

    def place(self):
        left = []
        for revision, id in self.early:
            change = self.change_at(revision)
            if change is None:
                left.append((revision, id))
            else:
                self.reads.setdefault(max(change, self.front), []).append(id)
        self.early = left

    # ---- watches

    def join(self, name):
        """A watch of this member begins at the first change, or after a snapshot."""
        with self.log.lock:
            self.lives[name] = Life(name, self.base)
            return self.lives[name]

    def begin_with(self, life, revision, texts):
        """The life begins with all changes up to this revision. The member had these texts then."""
        with self.log.lock:
            life.snapshot = revision, texts
            self.advance()

    def report(self, life, changes):
        """The watch reports changes: pairs of a revision and an identity."""
        with self.log.lock:
            for revision, _ in changes:
                if revision > self.last:
                    self.changes.append(revision)
                    self.before[revision] = set(self.under_way)
                    self.place()
            life.waiting += changes
            self.advance()

    # ---- the log

    def advance(self):
        """Logs everything that may be logged by now."""
        for life in self.lives.values():
            if life.snapshot is None or self.restore(life):
                self.follow(life)
        # The lookups of one reader keep their order.
        left, readers = [], set()
        for lookup in self.lookups:
            change = self.change_at(lookup.revision)
            if change is None or change > self.front or lookup.reader in readers:
                left.append(lookup)
                readers.add(lookup.reader)
            else:
                self.log.lookup(lookup.reader, lookup.key, lookup.answer)
        self.lookups = left

    def tell(self, reader):
        """From now on, the reader must see everything that any member has executed."""
        with self.log.lock:
            for number, end in self.ends.items():
                if end == self.front:
                    self.log.told(reader, number)
                    return

    def follow(self, life):
        while True:
            reads = self.reads.get(life.at, [])
            for id in reads[life.reads:]:
                self.execute(life, id)
            life.reads = len(reads)
            if not life.waiting or not self.before.get(life.waiting[0][0], set()).isdisjoint(self.under_way):
                return
            revision, id = life.waiting.popleft()
            self.execute(life, id)
            self.arrive(life, revision)

    def execute(self, life, id):
        if life.number is None:
            life.number = self.log.new_server(life.name)
        self.log.execute(life.number, id)

    def arrive(self, life, revision):
        life.at, life.reads = revision, 0
        # The other members need not wait for these requests, because all of them have ended.
        self.before.pop(revision, None)
        self.ends[life.number] = revision
        self.front = max(self.front, revision)

    def restore(self, life):
        """Logs that the life takes over the commands of another number, once one has them. Returns whether it did."""
        revision, texts = life.snapshot
        change = self.change_at(revision)
        if change is None or change > self.front:
            return False
        life.snapshot = None
        if change > self.base:
            source = next(number for number, end in self.ends.items() if end >= change)
            life.number = self.log.new_server(life.name)
            self.log.restore(life.number, source, self.count(change))
            self.arrive(life, change)
            # The member shows that it has what it took over.
            reader = f"{life.name}, for server {life.number}"
            self.log.told(reader, life.number)
            for key, text in texts.items():
                self.log.lookup(reader, key, text)
        return True

    def count(self, change):
        """The number of commands up to a change, without the reads after it."""
        before = self.changes[:bisect.bisect_left(self.changes, change)]
        return len(before) + 1 + sum(len(self.reads.get(revision, [])) for revision in [self.base, *before])

    # ---- the end

    def lost_up_to(self):
        """The revision of a snapshot if no watch reported all changes before it, or None."""
        with self.log.lock:
            return next((life.snapshot[0] for life in self.lives.values() if life.snapshot), None)

    def is_done(self, name):
        """Whether everything that is known is logged for this member."""
        with self.log.lock:
            life = self.lives.get(name)
            return (life is not None and life.at == self.last and not life.waiting and life.snapshot is None
                    and life.reads == len(self.reads.get(life.at, [])))

    def settle(self, name):
        """If all is logged, logs that the member should have all acknowledged commands. Returns whether it did."""
        with self.log.lock:
            if not self.is_done(name) or self.lives[name].number is None:
                return False
            self.log.settled(self.lives[name].number)
            return True
