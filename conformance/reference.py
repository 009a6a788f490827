"""The expected output of a store, from store.py or from a program `mencius`."""
import dataclasses
import json

import answers
import calling
import driver
import members
import store
from operations import version_of


@dataclasses.dataclass
class Schedule:
    """A scenario of `mencius replay` with a name, its members (the fields of members.py) and its events."""
    name: str
    members: dict
    events: list

    def version(self):
        """The least version that contains all operations of the events."""
        return version_of(self.events)

    def front(self, count):
        """The schedule with only the first `count` events."""
        return Schedule(self.name, self.members, self.events[:count])

    def text(self):
        """The scenario as JSON, with one event in each line."""
        head = {"version": self.version(), **members.written(self.members)}
        events = ",\n  ".join(json.dumps(event) for event in self.events)
        return json.dumps(head)[:-1] + ', "events": [' + (f"\n  {events}\n" if events else "") + "]}\n"


def schedule_of(name, scenario):
    """The schedule of a parsed scenario."""
    return Schedule(name, members.members_of(scenario), scenario["events"])


@dataclasses.dataclass
class Sent:
    """A message. `to` is a server, or None for all servers. The instance of a Skip is the first one that it covers."""
    number: int
    kind: str
    source: int
    to: int
    instance: int


class Cluster:
    """A cluster of store.py with these members. The caller steps it event by event."""

    def __init__(self, of):
        self.driver = store.replay({**of, "events": []})

    def step(self, event):
        """Steps through an event. Returns the name of its refusal, or None, and the messages that it sent."""
        first = len(self.driver.messages)
        try:
            self.driver.step(event.split(" "))
            name = None
        except driver.Refused as refusal:
            name = str(refusal)
        return name, [sent_of(number, message) for number, message in enumerate(self.driver.messages[first:], first)]


def sent_of(number, message):
    """A message of store.py as `Sent`."""
    to = None if message.to == "all" else message.to
    return Sent(number, message.kind, message.source, to, message.says.get("instance", message.says.get("first")))


class StoreReference:
    """Expects the output of store.py: the report, and these kinds of lines of the trace."""
    kinds = frozenset({"event", "sent"})

    def expect(self, schedule):
        replayed = store.replay({**schedule.members, "events": schedule.events})
        return answers.read_texts("\n".join(replayed.trace + replayed.report()))


class ProgramFailed(Exception):
    """The program that gives the expected output failed."""


class ProgramReference:
    """Expects the output of a program `mencius`: the report, and these kinds of lines of the trace. `call` is a way of
    calling.py."""

    def __init__(self, call, kinds=answers.TRACE_KINDS | {"server", "unheard"}):
        self.call, self.kinds = call, kinds

    def expect(self, schedule):
        texts = answers.read_texts(self.printed("trace", schedule) + self.printed("replay", schedule))
        return dataclasses.replace(texts, events=[self.of_kinds(lines) for lines in texts.events],
                                   closing=self.of_kinds(texts.closing))

    def of_kinds(self, lines):
        return [line for line in lines if answers.kind_of(line) in self.kinds]

    def printed(self, task, schedule):
        status, printed = self.call([task], schedule.text().encode())
        if status != 0:
            raise ProgramFailed(f"mencius {task} ended with status {status}")
        return printed.decode()


def choose(program):
    """The source of the expected output. If the user names a program, its whole output is expected. Otherwise only the
    kinds of lines that store.py prints are expected. They come from the proved code if it can be called without
    starting the program, and from store.py if not."""
    if program:
        return ProgramReference(calling.choose(program))
    call = calling.at_once()
    return ProgramReference(call, StoreReference.kinds) if call else StoreReference()
