"""Searches for an order of operations that explains all replies.

This is the search of Wing and Gong with the memory of Lowe. It takes one operation after another from those that may
come next, and goes back when none fits. An operation may come next if no other operation that is left ended before it
began. If replies have versions, operations with smaller versions come first.

Four rules keep the search short, and leave out no order that matters:

- An operation that changes nothing, and fits, is taken at once.
- An operation with an unknown outcome is taken only if the next operation on its key needs its effect. In any other
  order it can move to a later place, or has no effect that anybody sees.
- Unknown operations with the same effect are taken in the order in which they began.
- If the search comes to a state a second time, it goes back. It also does so if it has used more unknown operations.

Operations that saw the same version of a key saw the same text. So such an operation is taken only if the text fits all
of them, and no unknown operation comes between them.
"""
import collections
import random
from typing import NamedTuple

from history import UNKNOWN

FOUND, NONE, LIMIT = "found", "none", "limit"
# The number of steps back after which a search gives up, and after which it first tries a simpler question.
LIMIT_OF_STEPS, FEW_STEPS = 300_000, 10_000


class Sequence:
    """Operations in the order of their versions. Those with equal ranks may come in any order."""

    def __init__(self, rank_of):
        self.rank_of = rank_of
        self.ranks = sorted(set(rank_of.values()))
        self.left = collections.Counter(rank_of.values())
        self.place = 0

    def allows(self, operation):
        return operation not in self.rank_of or self.rank_of[operation] == self.ranks[self.place]

    def take(self, operation):
        if operation in self.rank_of:
            self.left[self.rank_of[operation]] -= 1
            while self.place < len(self.ranks) and not self.left[self.ranks[self.place]]:
                self.place += 1

    def give_back(self, operation):
        if operation in self.rank_of:
            self.left[self.rank_of[operation]] += 1
            # Only operations of the current rank are taken, so this one has the rank that is now the first.
            while self.place and self.left[self.ranks[self.place - 1]]:
                self.place -= 1


def number_of(operation):
    """The version that orders an operation among those of its key, or UNKNOWN."""
    return operation.version if operation.version is not UNKNOWN else operation.key_version


def sequences(operations):
    """The orders that versions ask for. A write comes before a read of its version."""
    store = {op: (op.version, op.changed is False) for op in operations if op.version is not UNKNOWN}
    found = [Sequence(store)] if store else []
    by_key = {op.key: {} for op in operations if op.key_version is not UNKNOWN}
    for operation in operations:
        is_write = operation.version is not UNKNOWN and operation.changed is not False
        if operation.key in by_key and (is_write or operation.key_version is not UNKNOWN):
            by_key[operation.key][operation] = number_of(operation), not is_write
    return found + [Sequence(rank_of) for rank_of in by_key.values()]


class KeyVersions(NamedTuple):
    """What versions say about the next operation on a key, first for versions of the store, then for those of the key.

    `last` are the greatest versions of the operations so far, and `floor` those before the latest unknown operation. An
    unknown operation gives its key another version. So it cannot come between two operations with the same version.
    """
    last: tuple = (-1, -1)
    floor: tuple = (-1, -1)

    def allows(self, operation):
        return all(version is None or version > floor for version, floor in zip(versions_of(operation), self.floor))

    def has_room(self, operation):
        """Whether an unknown operation may come now, and this one after it."""
        return KeyVersions(self.last, self.last).allows(operation)

    def after(self, operation):
        versions = versions_of(operation)
        return self._replace(last=tuple(last if version is None else max(last, version)
                                        for last, version in zip(self.last, versions)))


def versions_of(operation):
    """The version of the store and that of the key. A change is the last change of its key."""
    known = [None if version is UNKNOWN else version for version in (operation.version, operation.key_version)]
    return (known[0], known[0]) if operation.changed is not False else tuple(known)


class Group:
    """Unknown operations of one key with the same effect, in the order in which they began."""

    def __init__(self, members, shift):
        self.members, self.weight, self.used = members, 1 << shift, 0
        self.key, self.kind, self.texts = members[0].key, members[0].kind, members[0].texts

    def is_open(self, deadline):
        return self.used < len(self.members) and self.members[self.used].begin < deadline

    def take(self, number):
        """Uses the next member, or gives it back. Returns how much the number of used members changes."""
        self.used += number
        return number * self.weight

    def fits(self, text):
        return self.members[0].fits(text)

    def after(self, text):
        return self.members[0].after(text)


class EndlessGroup(Group):
    """A group whose first member may be used any number of times."""

    def take(self, _):
        return 0


def groups_of(operations, make_group):
    """The groups of each key, and the guards. A number has a field of bits for the used members of each group. The
    guards are the bits after each field, so two such numbers can be compared field by field."""
    members = collections.defaultdict(list)
    for operation in operations:
        members[operation.key, operation.kind, operation.texts].append(operation)
    groups, shift, guards = collections.defaultdict(list), 0, 0
    for name, its in members.items():
        groups[name[0]].append(make_group(its, shift))
        shift += len(its).bit_length() + 1
        guards |= 1 << (shift - 1)
    return groups, guards


def siblings_of(operations):
    """For each operation that changes nothing, the numbers of those that saw the same version of its key."""
    groups = collections.defaultdict(list)
    for number, operation in enumerate(operations):
        if operation.changed is False and number_of(operation) is not UNKNOWN:
            groups[operation.key, versions_of(operation)].append(number)
    return {number: its for its in groups.values() if len(its) > 1 for number in its}


class Search:
    """A search for an order of all operations with the outcome "ok", with some of those with an unknown outcome.

    `order` is the order that was found. If there is none, it is the longest one that the search came upon.
    """

    def __init__(self, operations, initial=None, limit=LIMIT_OF_STEPS, make_group=Group):
        self.must = [op for op in operations if op.outcome == "ok"]
        unknown = [op for op in operations if op.outcome == "unknown" and op.kind != "get"]
        self.groups, self.guards = groups_of(unknown, make_group)
        self.initial, self.limit = initial, limit
        self.sequences = sequences(self.must)
        self.versions, self.siblings = {}, siblings_of(self.must)
        # A list of the operations that are left, as the numbers after and before each. Its head has the number -1.
        self.after = [*range(1, len(self.must)), -1, 0] if self.must else [-1]
        self.before = [*range(-1, len(self.must) - 1), len(self.must) - 1] if self.must else [-1]
        self.texts, self.order, self.trail, self.longest = {}, [], [], (-1, [])
        # The number of operations that are taken and have the outcome "ok", their numbers as bits, the used members of
        # the groups as a number, and a number for the texts of all keys.
        self.count, self.done, self.used, self.mark = 0, 0, 0, 0
        self.is_taken = [False] * len(self.must)
        # The key of an unknown operation whose effect the next operation must need.
        self.needed = None
        self.chance, self.marks, self.seen = random.Random(0), {}, collections.defaultdict(list)

    def run(self):
        """Returns FOUND, NONE or LIMIT."""
        steps_back, stack = 0, []
        while self.count < len(self.must):
            stack.append(iter(self.options()))
            step = next(stack[-1], None)
            while step is None:
                stack.pop()
                self.keep_longest()
                if not stack:
                    self.order = self.longest[1]
                    return NONE
                if steps_back >= self.limit:
                    self.order = self.longest[1]
                    return LIMIT
                steps_back += 1
                self.undo()
                step = next(stack[-1], None)
            self.take(step)
        return FOUND

    def keep_longest(self):
        if self.count > self.longest[0]:
            self.longest = self.count, list(self.order)

    # ---- the operations that may come next

    def options(self):
        """The numbers of operations, and the groups, that may come next."""
        numbers, deadline = self.candidates()
        fitting = [number for number in numbers if self.suits(number, self.text(self.must[number].key))]
        for number in fitting:
            if self.must[number].changed is False:
                return [number]
        if self.is_seen():
            return []
        if self.needed is not None:
            text, before = self.text(self.needed), self.trail[-1][3]
            readers = [number for number in fitting if self.must[number].key == self.needed
                       and not self.suits(number, before)]
            return readers + [group for group in self.groups[self.needed] if group.kind == "cas"
                              and group.is_open(deadline) and group.fits(text)]
        waiting = collections.defaultdict(list)
        for number in numbers:
            operation = self.must[number]
            if number not in fitting and self.versions_at(operation.key).has_room(operation):
                waiting[operation.key].append(number)
        fitting.sort(key=lambda number: self.must[number].end)
        return fitting + [group for key, its in waiting.items() for group in self.useful(key, its, deadline)]

    def candidates(self):
        """The numbers of the operations that may come next, and the first end of an operation that is left."""
        numbers, deadline, number = [], float("inf"), self.after[-1]
        while number != -1 and self.must[number].begin < deadline:
            deadline = min(deadline, self.must[number].end)
            if all(sequence.allows(self.must[number]) for sequence in self.sequences):
                numbers.append(number)
            number = self.after[number]
        return numbers, deadline

    def useful(self, key, waiting, deadline):
        """The groups of a key whose effect lets a waiting operation, or another unknown one, fit."""
        text = self.text(key)
        for group in self.groups.get(key, ()):
            if not group.is_open(deadline) or not group.fits(text) or group.after(text) == text:
                continue
            result = group.after(text)
            if any(self.fits_with_siblings(number, result) for number in waiting) or any(
                    other.kind == "cas" and other.fits(result) for other in self.groups[key]):
                yield group

    def suits(self, number, text):
        """Whether an operation may come next if its key holds this text."""
        operation = self.must[number]
        return self.versions_at(operation.key).allows(operation) and self.fits_with_siblings(number, text)

    def fits_with_siblings(self, number, text):
        """Whether the reply fits, along with all replies that are left and saw the same version of the key."""
        return self.must[number].fits(text) and all(
            self.is_taken[other] or self.must[other].fits(text) for other in self.siblings.get(number, ()))

    def versions_at(self, key):
        return self.versions.get(key, KeyVersions())

    def text(self, key):
        return self.texts.get(key, self.initial)

    def is_seen(self):
        """Whether the search was here before, with no more used members in any group. If not, it remembers this."""
        low = max(self.after[-1], 0)
        seen = self.seen[low, self.done >> low, self.mark, self.needed]
        guarded = self.used | self.guards
        if any((guarded - used) & self.guards == self.guards for used in seen):
            return True
        seen.append(self.used)
        return False

    # ---- taking an operation, and giving it back

    def take(self, step):
        is_group = isinstance(step, Group)
        operation = step.members[step.used] if is_group else self.must[step]
        versions = self.versions_at(operation.key)
        self.trail.append((step, self.needed, self.mark, self.text(operation.key), versions))
        self.order.append(operation)
        if is_group:
            self.used += step.take(1)
            self.versions[operation.key] = versions._replace(floor=versions.last)
            self.mark ^= self.mark_of(operation.key, versions.floor) ^ self.mark_of(operation.key, versions.last)
        else:
            after, before = self.after[step], self.before[step]
            self.after[before], self.before[after] = after, before
            self.done |= 1 << step
            self.is_taken[step] = True
            self.versions[operation.key] = versions.after(operation)
            self.count += 1
            for sequence in self.sequences:
                sequence.take(operation)
        self.needed = operation.key if is_group else None
        self.put(operation.key, operation.after(self.text(operation.key)))

    def undo(self):
        step, self.needed, self.mark, text, versions = self.trail.pop()
        operation = self.order.pop()
        self.texts[operation.key], self.versions[operation.key] = text, versions
        if isinstance(step, Group):
            self.used += step.take(-1)
        else:
            self.after[self.before[step]] = self.before[self.after[step]] = step
            self.done ^= 1 << step
            self.is_taken[step] = False
            self.count -= 1
            for sequence in self.sequences:
                sequence.give_back(operation)

    def put(self, key, text):
        self.mark ^= self.mark_of(key, self.text(key)) ^ self.mark_of(key, text)
        self.texts[key] = text

    def mark_of(self, key, text):
        """A random number for a text at a key. The texts of all keys have the exclusive or of their numbers."""
        if (key, text) not in self.marks:
            self.marks[key, text] = self.chance.getrandbits(128)
        return self.marks[key, text]


def find_order(operations, initial, limit):
    """Searches for an order. Returns FOUND, NONE or LIMIT, and the order, or the longest one if there is none.

    If the search takes long, it first asks whether there is an order if unknown operations may happen several times.
    That question has far fewer states. If it has no order, the operations have none either."""
    search = Search(operations, initial, min(limit, FEW_STEPS))
    result = search.run()
    if result == LIMIT:
        if Search(operations, initial, limit, EndlessGroup).run() == NONE:
            result = NONE
        elif limit > FEW_STEPS:
            search = Search(operations, initial, limit)
            result = search.run()
    return result, search.order


def with_the_rest(operations, order):
    """An order that begins with this one, and the other operations with the outcome "ok". These follow their versions,
    or the places at which they began. Because no order explains all replies, a reply does not fit the whole order."""
    order = list(order)
    while order and order[-1].outcome == "unknown":
        order.pop()
    taken = set(order)
    rest = [op for op in operations if op.outcome == "ok" and op not in taken]
    if any(number_of(op) is not UNKNOWN for op in operations):
        numbers = numbers_of(operations)
        rest.sort(key=lambda op: (numbers[op], op.changed is False, op.begin))
        if fits_in_time(order + rest):
            # Only the versions of unknown operations contradict this order. Without them, a reply does not fit.
            order = [op for op in order if op.outcome == "ok"]
    return order, rest


def fits_in_time(order):
    """Whether all replies fit this order, and it keeps the order in time."""
    texts, point = {}, 0
    for operation in order:
        point = max(point, operation.begin)
        if point > operation.end or not operation.fits(texts.get(operation.key)):
            return False
        texts[operation.key] = operation.after(texts.get(operation.key))
    return True


def numbers_of(operations):
    """A number like a version for each operation. If the reply has none, it is the greatest one that was known when the
    operation began."""
    events = sorted([(op.begin, 0, op) for op in operations] + [(op.end, 1, op) for op in operations if
                    op.outcome == "ok"], key=lambda event: event[:2])
    greatest, numbers = 0, {}
    for _, is_end, operation in events:
        number = number_of(operation)
        if is_end and number is not UNKNOWN:
            greatest = max(greatest, number)
        elif not is_end:
            numbers[operation] = greatest if number is UNKNOWN else number
    return numbers
