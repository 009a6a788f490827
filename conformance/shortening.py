"""Shortens a schedule that shows a difference until no event can be left out, and makes it simpler.

If an event is left out, later messages get new numbers. So a delivery or a loss names its message by the event that
sent it, by its kind, and by the place among the messages of this kind and event. If that event is left out, so are
these deliveries and losses.
"""
import collections
import dataclasses
import itertools

import reference
import simplifying

PAIRS = 16  # in a schedule with at most so many events, each pair of events is left out, too


class TimeIsUp(Exception):
    """The time to shorten a schedule is up."""


@dataclasses.dataclass
class Item:
    """An event of the schedule. For a `deliver` or a `lose`, `message` says which message it is: the place of the event
    that sent it, its kind, and its place among the messages of this kind. It is None for all other events, and if no
    message with the number was sent. `sent` is the number of messages that were sent before."""
    place: int
    text: str
    message: tuple = None
    sent: int = 0


def names_of(place, sent):
    """The name of each message that the event at this place sent."""
    counts = collections.Counter()
    for message in sent:
        yield place, message.kind, counts[message.kind]
        counts[message.kind] += 1


def name_messages(schedule):
    """The events of a schedule as items."""
    cluster = reference.Cluster(schedule.members)
    names, items = [], []
    for place, text in enumerate(schedule.events):
        item = Item(place, text, sent=len(names))
        word, *words = text.split(" ")
        if word in ("deliver", "lose") and int(words[0]) < len(names):
            item.message = names[int(words[0])]
        items.append(item)
        _, sent = cluster.step(text)
        names += names_of(place, sent)
    return items


def number_messages(items, of, name):
    """The schedule of the items with the members `of`. Items whose message is no longer sent are left out."""
    cluster = reference.Cluster(of)
    numbers, texts = {}, []
    for item in items:
        text = item.text
        if item.message is not None:
            number = numbers.get(item.message)
            if number is None:
                continue
            word, _, server = text.split(" ")
            text = f"{word} {number} {server}"
        texts.append(text)
        _, sent = cluster.step(text)
        numbers.update(zip(names_of(item.place, sent), (message.number for message in sent)))
    return reference.Schedule(name, of, texts)


class Shortening:
    """A schedule that gets shorter. `first_like` gets schedules, and returns the index of the first one that shows the
    difference, or None. `best` is the shortest schedule so far that shows it."""

    def __init__(self, schedule, first_like):
        self.first_like = first_like
        self.take(schedule)

    def take(self, schedule):
        self.best, self.items = schedule, name_messages(schedule)

    def run(self):
        size = len(self.items) // 2
        while size > 1:
            self.leave_out(size)
            size //= 2
        self.leave_out_single_events()
        while self.make_simpler() or self.leave_out_pairs():
            self.leave_out_single_events()

    def takes_one(self, variants):
        """Keeps the first of the variants that shows the difference. A variant is a list of items with members. Returns
        the index of the variant, or None."""
        tried = []

        def schedules():
            for items, members in variants:
                tried.append(number_messages(items, members, self.best.name))
                yield tried[-1]

        index = self.first_like(schedules())
        if index is not None:
            self.take(tried[index])
        return index

    def leave_out_single_events(self):
        """Leaves out single events until none can be left out."""
        length = None
        while length != len(self.items):
            length = len(self.items)
            self.leave_out(1)

    def leave_out(self, size):
        """Leaves out parts of this size, beginning at the end. Each part is tried once."""
        start = len(self.items) - size
        while start > -size:
            starts = range(start, -size, -size)
            items, members = self.items, self.best.members
            index = self.takes_one((items[:max(begin, 0)] + items[begin + size:], members) for begin in starts)
            if index is None:
                return
            start = min(starts[index], len(self.items)) - size

    def leave_out_pairs(self):
        """Leaves out two events that can only be left out together. Returns whether there were such events."""
        items, members = self.items, self.best.members
        if len(items) > PAIRS:
            return False
        pairs = itertools.combinations(range(len(items)), 2)
        return self.takes_one(([item for place, item in enumerate(items) if place not in pair], members)
                              for pair in pairs) is not None

    def make_simpler(self):
        """Tries simpler variants. Returns whether some of them still show the difference."""
        is_simpler = False
        for variants_of in simplifying.STEPS:
            while self.takes_one(variants_of(self.items, self.best.members)) is not None:
                is_simpler = True
        return is_simpler
