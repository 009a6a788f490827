"""Draws small histories of a map, writes them in the formats of the importers, and says whether an order explains them.

The answer comes from a search through all orders. It is slow on purpose, and shares no code with the importers.
"""
import json
import math
from dataclasses import dataclass, field
from typing import Optional

KEYS = ["a", "key two"]
VALUES = ["0", "nil", "a b"]


@dataclass(eq=False)
class Request:
    """A request and its result. `seen` is the value before it, as its client would see it."""
    process: int
    kind: str
    key: str
    values: tuple
    begin: int
    end: float = math.inf
    outcome: str = "info"
    seen: Optional[str] = None
    is_change: bool = False
    version: Optional[int] = None
    key_version: Optional[int] = None
    is_done: bool = field(default=False, repr=False)


class Map:
    """A map with versions, which counts its changes as etcd and ZooKeeper do."""

    def __init__(self, initial):
        self.initial, self.values, self.versions, self.version = initial, {}, {}, 1

    def execute(self, request):
        value = request.seen = self.values.get(request.key, self.initial)
        request.is_change = is_change(request, value)
        if request.is_change:
            self.version += 1
            self.versions[request.key] = self.version
            self.values[request.key] = value_after(request, value)
        request.version, request.key_version = self.version, self.versions.get(request.key)
        request.is_done = True


def is_change(request, value):
    return {"get": False, "set": True, "del": value is not None,
            "cas": request.kind == "cas" and value == request.values[0]}[request.kind]


def value_after(request, value):
    """The value of the key after a request that changes it."""
    return {"get": value, "del": None}.get(request.kind, request.values[-1] if request.values else None)


class Drawing:
    """A drawn history. Its requests overlap, and each takes effect between its call and its result, or not at all."""

    def __init__(self, chance, kinds, initial, count):
        self.chance, self.kinds, self.initial = chance, kinds, initial
        self.map, self.requests, self.open, self.time = Map(initial), [], {}, 0
        self.lost = []
        self.keys, self.values = KEYS[:chance.choice([1, 1, 2])], VALUES[:chance.choice([2, 3])]
        self.processes = chance.randint(2, 6)
        self.has_null, self.lost_share = chance.random() < 0.2, chance.choice([0.05, 0.15, 0.3])
        while len(self.requests) < count or self.open:
            self.time += 1
            process = chance.randrange(self.processes)
            if process in self.open:
                self.go_on(process)
            elif len(self.requests) < count:
                self.call(process)
            # A request without a result may take effect much later.
            if self.lost and chance.random() < 0.2:
                self.map.execute(self.lost.pop())

    def call(self, process):
        kind = self.chance.choice(self.kinds)
        values = [self.chance.choice(self.values) for _ in range({"set": 1, "cas": 2}.get(kind, 0))]
        if kind == "cas" and self.has_null and self.chance.random() < 0.5:
            values[self.chance.randrange(2)] = None
        # A process whose request has no result is never used again, as in Jepsen.
        lost = sum(other.outcome == "info" and other.process % self.processes == process for other in self.requests)
        key = self.chance.choice(self.keys)
        request = Request(process + self.processes * lost, kind, key, tuple(values), self.time)
        self.requests.append(request)
        self.open[process] = request

    def go_on(self, process):
        request, draw = self.open[process], self.chance.random()
        if draw < self.lost_share:
            if not request.is_done:
                self.lost.append(request)
        elif request.is_done:
            request.outcome, request.end = "ok", self.time
        elif draw < self.lost_share + 0.05:
            request.outcome, request.end = "fail", self.time
        else:
            self.map.execute(request)
            return
        del self.open[process]

    def spoil(self):
        """Makes one result wrong, or perhaps only other than it was."""
        done = [request for request in self.requests if request.outcome == "ok"]
        if not done:
            return
        request = self.chance.choice(done)
        if self.chance.random() < 0.3:
            request.version = max(1, request.version + self.chance.choice([-2, -1, 1, 2]))
        elif request.kind == "get":
            request.seen = self.chance.choice([*self.values, None])
        elif request.kind in ("cas", "del"):
            request.is_change = not request.is_change
        else:
            request.outcome = "fail"


# ---- whether an order explains a history

def fits(request, value):
    if request.outcome == "info":
        return is_change(request, value) or request.kind in ("set", "del")
    if request.kind == "get":
        return request.seen == value
    return request.kind == "set" or is_change(request, value) == request.is_change


def ranks(request, mode):
    """The places of a request by its versions, each with the name of the order that it belongs to."""
    if request.outcome != "ok" or mode == "none" or request.version is None:
        return
    if mode == "store":
        yield "store", (request.version, not request.is_change)
    elif request.is_change:
        yield "store", (request.version, False)
        yield request.key, (request.version, False)
    elif request.key_version is not None:
        yield request.key, (request.key_version, True)


def is_explained(requests, initial, mode="none"):
    """Whether an order in real time explains all results. It contains each request with the outcome ok, and some of
    those with the outcome info. With a mode, it must also keep the order of versions."""
    rest = [request for request in requests if request.outcome == "ok"
            or (request.outcome == "info" and request.kind != "get")]
    return goes_on(rest, {}, initial, mode, [])


def leaves_room(before, request, mode):
    """Whether no lost request took effect between this one and an earlier one with the same version of the key."""
    same_key = [other for other in before if other.key == request.key]
    lost = max((place for place, other in enumerate(same_key) if other.outcome == "info"), default=0)
    return not any(number is not None and number == other_number for other in same_key[:lost]
                   for number, other_number in zip(versions(request, mode), versions(other, mode)))


def versions(request, mode):
    """The version of the store and that of the key, if the result has them."""
    if request.outcome != "ok" or mode == "none":
        return None, None
    if request.is_change:
        return request.version, request.version
    return (request.version, None) if mode == "store" else (None, request.key_version)


def goes_on(rest, values, initial, mode, before):
    must = [request for request in rest if request.outcome == "ok"]
    if not must:
        return True
    for request in rest:
        value = values.get(request.key, initial)
        later = [other for other in rest if other is not request]
        if any(other.end < request.begin for other in must) or not fits(request, value):
            continue
        if not leaves_room(before, request, mode):
            continue
        if any(name == other_name and other_rank < rank for name, rank in ranks(request, mode)
               for other in later for other_name, other_rank in ranks(other, mode)):
            continue
        after = value_after(request, value) if request.outcome == "info" or request.is_change else value
        if goes_on(later, {**values, request.key: after}, initial, mode, [*before, request]):
            return True
    return False


# ---- the formats

def events(requests):
    """Each call and each result of a history, in the order of time."""
    called = [(request.begin, "invoke", request) for request in requests]
    ended = [(request.end, request.outcome, request) for request in requests if request.end < math.inf]
    return sorted(called + ended, key=lambda event: event[0])


def as_versions(requests, mode):
    rows = []
    for _, kind, request in events(requests):
        row = {"type": kind, "process": request.process}
        if kind == "invoke":
            row.update(f=request.kind, key=request.key)
            if request.values:
                row["value"] = request.values[0] if request.kind == "set" else list(request.values)
        elif kind == "ok":
            if request.kind == "get":
                row["value"] = request.seen
            if request.kind in ("cas", "del"):
                row["changed"] = request.is_change
            if mode == "store":
                row["version"] = request.version
            elif mode == "key":
                # A change is the last change of its key, so both names have the same version.
                name = "version" if request.is_change and request.process % 2 else "key_version"
                row[name] = request.version if request.is_change else request.key_version
        rows.append(json.dumps(row))
    return "".join(row + "\n" for row in rows)


def as_jepsen(requests, write):
    """The history in one of the two notations of Jepsen. `write` writes a value."""
    rows = []
    for _, kind, request in events(requests):
        value = {"get": request.seen if kind == "ok" else None, "cas": list(request.values)}.get(
            request.kind, request.values[0] if request.values else None)
        name = {"get": "read", "set": "write", "cas": "cas"}[request.kind]
        rows.append(write({"type": kind, "f": name, "value": [request.key, value], "process": request.process}))
    return "".join(row + "\n" for row in rows)


def edn(value):
    """A value in EDN, with keywords for the names of fields, types and operations."""
    if isinstance(value, dict):
        return "{" + ", ".join(f":{name} {':' + word if name in ('type', 'f') else edn(word)}"
                               for name, word in value.items()) + "}"
    if isinstance(value, list):
        return "[" + " ".join(map(edn, value)) + "]"
    return "nil" if value is None else json.dumps(value)


def as_porcupine(requests):
    rows = []
    for request in requests:
        if request.outcome == "fail":
            continue
        given = {"op": {"get": "read", "set": "write", "cas": "cas"}[request.kind], "key": request.key}
        if request.values:
            given["value"] = request.values[0] if request.kind == "set" else list(request.values)
        row = {"ClientId": request.process, "Call": request.begin, "Return": None, "Input": given, "Output": None}
        if request.outcome == "ok":
            row["Return"] = request.end
            row["Output"] = {"get": {"value": request.seen}, "cas": {"ok": request.is_change}}.get(request.kind, {})
        rows.append(json.dumps(row))
    return "".join(row + "\n" for row in rows)
