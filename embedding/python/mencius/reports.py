"""The tasks replay, trace and check, which return their texts as objects. docs/FORMATS.md describes these texts."""
import json
import re
from dataclasses import dataclass
from typing import Any, Dict, Mapping, Optional, Tuple, Union

from .library import text_of

Scenario = Union[str, bytes, Mapping[str, Any]]


@dataclass(frozen=True)
class Refusal:
    """An event that the cluster refused. `event` is its index."""
    event: int
    name: str


@dataclass(frozen=True)
class ServerReport:
    """A server after the schedule: its front, the number of instances that it executed, and its history."""
    front: int
    done: int
    history: Tuple[str, ...]


@dataclass(frozen=True)
class Report:
    """The report of a schedule. A reply is `none`, `pending` or `=TEXT`. `text` is the whole report."""
    servers: Tuple[ServerReport, ...]
    messages: int
    events: int
    refusals: Tuple[Refusal, ...]
    replies: Dict[str, str]
    text: str


@dataclass(frozen=True)
class Step:
    """An event of a trace with the lines of its effects. `refusal` is the name of its refusal, or None."""
    event: str
    lines: Tuple[str, ...]
    refusal: Optional[str]


@dataclass(frozen=True)
class Trace:
    """The trace of a schedule. `closing` has the lines after the last event. `text` is the whole trace."""
    servers: int
    steps: Tuple[Step, ...]
    closing: Tuple[str, ...]
    text: str


@dataclass(frozen=True)
class Checked:
    """A valid scenario. `events` is None for a scenario of a run. `workers`, `turns` and `commands`, the number of
    commands of each server, are None for a scenario of events."""
    servers: int
    events: Optional[int]
    workers: Optional[int]
    turns: Optional[int]
    commands: Optional[Tuple[int, ...]]
    text: str


def bytes_of(scenario: Scenario) -> bytes:
    if isinstance(scenario, str):
        return scenario.encode("utf-8", "surrogatepass")
    return scenario if isinstance(scenario, bytes) else json.dumps(scenario).encode()


def replay(scenario: Scenario) -> Report:
    """Replays a schedule, and returns its report."""
    text = text_of(["replay"], bytes_of(scenario))
    refusals, servers, replies, counts = [], [], {}, (0, 0)
    for line in text.splitlines():
        word = line.split(" ")
        if word[0] == "refused":
            refusals.append(Refusal(int(word[1]), word[2]))
        elif word[0] == "servers":
            counts = int(word[3]), int(word[5])
        elif word[0] == "server":
            history = () if word[7] == "-" else tuple(word[7:])
            servers.append(ServerReport(int(word[3]), int(word[5]), history))
        else:
            replies[word[1]] = word[2]
    return Report(tuple(servers), *counts, tuple(refusals), replies, text)


def trace(scenario: Scenario) -> Trace:
    """Replays a schedule, and returns the effects of each event."""
    text = text_of(["trace"], bytes_of(scenario))
    first, *lines = text.splitlines()
    steps, closing = [], []
    for line in lines:
        if re.match(r"event \d+ ", line):
            steps.append((line.split(" ", 2)[2], []))
        elif closing or re.match(r"server \d+ front \d+ executed ", line):
            closing.append(line)
        else:
            steps[-1][1].append(line)
    made = tuple(Step(event, tuple(lines), refusal_of(lines)) for event, lines in steps)
    return Trace(int(first.split(" ")[1]), made, tuple(closing), text)


def refusal_of(lines):
    return lines[0].split(" ")[1] if lines and lines[0].startswith("refused ") else None


def check(scenario: Scenario) -> Checked:
    """Checks a scenario without running it. Raises Fault with the first mistake if there is one."""
    text = text_of(["check"], bytes_of(scenario))
    word = text.split()
    if word[3] == "events":
        return Checked(int(word[2]), int(word[4]), None, None, None, text)
    return Checked(int(word[2]), None, int(word[4]), int(word[6]), tuple(map(int, word[8:])), text)
