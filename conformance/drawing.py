"""Draws schedules that cause the situations that stores get wrong:
- servers suspect each other in turn at the same few instances;
- messages arrive late, twice or never;
- servers are cut off for a while;
- commands lose their instances and are suggested again.

A seed always gives the same schedule. The seed also draws the rates and the size of the cluster, unless they are given.
So some schedules have many events of a kind, and others have none. Every tenth schedule is calm: it causes none of these
situations, so that each server executes many commands.
"""
import dataclasses
import random

import data
import members
import plots
import reference

# For each name, the text of its option, and the rates that are drawn if the option is not given. Rates are in percent,
# except `burst`, which is a number of commands.
RATES = {
    "submissions": ("how many of 100 events start to submit commands", (2, 5, 10)),
    "burst": ("at most N commands in a row at one server", (1, 2, 3)),
    "suspicion": ("how many of 100 events start rounds of suspicions of a server", (10, 30, 50)),
    "retry": ("how many of 100 events suggest a waiting command again", (2, 10)),
    "loss": ("how many of 100 messages on their way to a server are lost", (0, 0, 0, 5, 15)),
    "repeats": ("how many of 100 deliveries are repeated", (0, 5, 15)),
    "delay": ("how many of 100 messages on their way to a server are late", (0, 10, 30)),
    "cuts": ("how many of 100 events cut a server off for a while", (0, 0, 2, 4)),
    "refusals": ("how many of 100 events are meant to be refused", (3, 10, 15)),
}
CALM_DIGIT = 7  # the schedule of a seed with this last digit is calm, unless rates are given
CALM_RATES = {"suspicion": 0, "retry": 0, "loss": 0, "repeats": 0, "delay": 0, "cuts": 0, "refusals": 0}
CALM_SERVERS = (2, 2, 2, 3, 3, 4)
LATE = 60  # a late message is on its way for fewer events than this
# With a great beta, a suspicion sends thousands of messages. Only the first and the last of them are delivered, and no
# server suspects another one after so many messages.
ENDS, MANY_MESSAGES = 4, 3_000


class Dice:
    """Random numbers of a seed. They use `random()` only, which gives the same numbers in each version of Python."""

    def __init__(self, seed):
        self.source = random.Random(seed)

    def below(self, count):
        return int(self.source.random() * count)

    def chance(self, rate):
        return self.source.random() * 100 < rate

    def pick(self, values):
        return values[self.below(len(values))]

    def order(self, values):
        values = list(values)
        places = sorted((self.source.random(), place) for place in range(len(values)))
        return [values[place] for _, place in places]


@dataclasses.dataclass
class Wish:
    """The required properties of the schedules. `members` and `rates` contain the fields of the cluster and the rates
    that are given. All others are drawn."""
    events: int
    members: dict = dataclasses.field(default_factory=dict)
    has_cas: bool = True
    has_refusals: bool = True
    rates: dict = dataclasses.field(default_factory=dict)


def draw(seed, wish):
    """The schedule of a seed."""
    drawing = Drawing(seed, wish)
    while len(drawing.events) < wish.events:
        drawing.draw_event()
    return reference.Schedule(f"seed {seed}", drawing.members, drawing.events[:wish.events])


class Drawing:
    """A schedule that grows, and the state of its messages."""

    def __init__(self, seed, wish):
        self.dice = Dice(seed)
        drawn = {name: self.dice.pick(field.drawn) for name, field in members.FIELDS.items()}
        self.rates = {name: wish.rates.get(name, self.dice.pick(rates)) for name, (_, rates) in RATES.items()}
        self.is_calm_from_the_start = seed % 10 == CALM_DIGIT and not wish.rates
        if self.is_calm_from_the_start:
            self.rates.update(CALM_RATES)
            drawn["servers"] = self.dice.pick(CALM_SERVERS)
        self.members = {**drawn, **wish.members}
        self.count = self.members["servers"]
        self.majority = self.count // 2 + 1
        if self.count == 1:
            # A single server never decides an instance whose message was lost. Without such trouble, it executes many
            # commands, so that bugs in data show.
            self.rates = {**self.rates, "loss": 0, "delay": 0, "repeats": 3, **wish.rates}
        self.wish = wish
        self.words = data.Words(self.dice, 90 if self.count == 1 else 30)
        self.calm_from = 0 if self.is_calm_from_the_start else wish.events * self.dice.pick((50, 60, 70, 80)) // 100
        self.cluster = reference.Cluster(self.members)
        self.events, self.messages = [], []
        self.identities = []  # (home, identity) of each command
        self.on_way = {}  # for a (message, receiver) on its way, the index of the first event at which it may arrive
        self.heard, self.lost = [], []
        self.known = set()  # (server, instance) if the server heard or sent a Learn of that instance
        self.room = self.count * self.dice.pick((2, 4, 8))  # with more messages on their way, no commands are submitted
        self.cut = {}  # for a server, the index of the event at which its cut ends
        self.victim = None  # the server that the others suspect
        # A generator that adds an event in each step. Some schedules begin with a plot.
        is_plotted = not self.is_calm_from_the_start and self.dice.chance(80)
        self.plot = plots.choose(self) if is_plotted else iter(())

    def attempt(self, event, refusal_rate=0):
        """Adds the event if the cluster accepts it. A refused event is added in `refusal_rate` of 100 cases. Returns
        whether the event was added."""
        if event.startswith("suspect ") and len(self.messages) > MANY_MESSAGES:
            return False
        refusal, sent = self.cluster.step(event)
        if refusal and not (self.wish.has_refusals and self.dice.chance(refusal_rate)):
            return False
        self.events.append(event)
        self.messages += sent
        for message in sent if len(sent) <= 2 * ENDS else sent[:ENDS] + sent[-ENDS:]:
            if message.kind == "Learn":
                self.known.add((message.source, message.instance))
            if self.count == 1 and message.kind == "Learn" and self.dice.chance(70):
                continue  # the server has learned it already
            receivers = range(self.count) if message.to is None else [message.to]
            for receiver in receivers:
                late = self.dice.below(LATE) if self.dice.chance(self.rates["delay"]) else 0
                self.on_way[message.number, receiver] = len(self.events) + late
        return True

    def draw_event(self):
        """Adds one event or several events."""
        if self.is_calm_from_the_start and len(self.on_way) <= self.count and self.submit_at_all():
            return
        if not self.is_calm() and self.dice.chance(self.rates["repeats"]) and self.repeat():
            return
        if self.dice.chance(95) and self.go_on():
            return
        if self.dice.chance(self.rates["refusals"] / 2) and self.attempt(self.refused_event(), 100):
            return
        if not self.is_calm() and self.disturb() or self.settle():
            return
        self.cut.clear()
        if not self.submit(self.dice.below(self.count)):
            self.repeat() or self.attempt(self.refused_event(), 100)

    def is_calm(self):
        """Whether the last part of the schedule has begun. It adds no new trouble, so that earlier faults can show."""
        return len(self.events) >= self.calm_from

    def go_on(self):
        """Adds the next event of the plot. Returns whether it had one."""
        before = len(self.events)
        for _ in self.plot:
            if len(self.events) > before:
                return True
        return False

    def disturb(self):
        """Adds trouble to the schedule. Returns whether that added an event."""
        before = len(self.events)
        if self.dice.chance(self.rates["cuts"]):
            self.victim = self.dice.below(self.count)
            self.cut[self.victim] = before + 10 + self.dice.below(40)
        if self.dice.chance(self.rates["refusals"]):
            return self.attempt(self.refused_event(), 100)
        if self.dice.chance(self.rates["suspicion"]):
            self.plot = self.fight() if self.dice.chance(50) else plots.choose(self)
        elif self.dice.chance(self.rates["submissions"]) and len(self.on_way) <= self.room:
            self.plot = self.submit_burst(self.dice.below(self.count))
        elif self.dice.chance(self.rates["retry"]):
            self.retry()
        return len(self.events) > before or self.go_on()

    def settle(self):
        """Continues work that was begun. Returns whether that added an event."""
        if self.dice.chance(40) and self.anywhere("execute"):
            return True
        if self.is_calm() and self.dice.chance(15) and self.retry():
            return True
        return self.deliver() or self.anywhere("execute") or self.retry() or self.is_calm() and self.unblock()

    def anywhere(self, word):
        """Adds an `execute` or a `retry` at a server that accepts it."""
        rate = self.rates["refusals"] / 2
        return any(self.attempt(f"{word} {server}", rate) for server in self.dice.order(range(self.count)))

    def retry(self):
        """Adds a `retry`. Sometimes adds a second one, at a server where perhaps no command waits any more."""
        if not self.anywhere("retry"):
            return False
        if self.dice.chance(30):
            self.attempt(self.events[-1], 100)
        return True

    # ---- commands

    def submit_burst(self, server):
        for _ in range(1 + self.dice.below(self.rates["burst"])):
            self.submit(server)
            yield

    def submit_at_all(self):
        """Submits a command at each server, so that no server skips an instance. Returns whether that added an event."""
        return any([self.submit(server) for server in range(self.count)])

    def submitted_at(self, server):
        return sum(home == server for home, _ in self.identities)

    def submit(self, server):
        identity = self.words.identity(server, self.submitted_at(server))
        self.identities.append((server, identity))
        return self.attempt(f"submit {server} {identity} {self.words.operation(self.wish.has_cas)}")

    # ---- suspicions

    def fight(self):
        """Rounds of suspicions of one server, usually the same server as before. A small part of the servers takes part
        in each round, and chance decides how far it gets. So votes and promises of several ballots exist together."""
        if self.victim is None or self.dice.chance(25):
            self.victim = self.dice.below(self.count)
        others = [server for server in range(self.count) if server != self.victim]
        if not others:
            return
        first = len(self.messages)
        if self.dice.chance(60):
            yield from self.submit_burst(self.victim)
        for message in self.messages[first:]:
            yield from self.spread(message, self.dice.below(self.majority))
        # Most servers that accepted the suggestion do not take part in the first round, so that a no-op may win it.
        left_out = {server for number, server in self.heard if number >= first and self.dice.chance(70)}
        is_whole = self.dice.chance(30)
        server = self.dice.pick(others)
        for _ in range(self.dice.pick((1, 2, 3, 3, 4))):
            server = server if self.dice.chance(40) else self.dice.pick(others)
            first = len(self.messages)
            if not self.suspect(server):
                self.submit(server)
                yield
                first = len(self.messages)
                if not self.suspect(server):
                    continue
            yield
            prepares = self.messages[first:]
            for prepare in prepares[:3] if self.dice.chance(40) else prepares[:1]:
                yield from self.take_round(prepare, is_whole, left_out)
            left_out = set()

    def front(self, server):
        return self.cluster.driver.servers[server].front

    def suspect(self, server):
        return self.attempt(f"suspect {server} {self.victim}", 4 * self.rates["refusals"])

    def take_round(self, prepare, is_whole, left_out):
        """Delivers the messages that follow a Prepare, up to the Learns or up to an earlier point."""
        first = len(self.messages)
        yield from self.spread(prepare, self.majority + self.dice.below(2), left_out)
        for kind in ("Promise", "Propose", "Accepted", "Learn"):
            sent = [message for message in self.messages[first:]
                    if message.kind == kind and message.instance == prepare.instance]
            first = len(self.messages)
            if kind == "Accepted" and not is_whole and self.dice.chance(70):
                return
            for message in self.dice.order(sent):
                yield from self.spread(message, self.count if is_whole else 1 + self.dice.below(self.majority))

    def spread(self, message, count, last=()):
        """Delivers a message to `count` of its remaining receivers. Servers in `last` are taken only if others are too
        few."""
        receivers = self.dice.order(pair for pair in self.on_way if pair[0] == message.number)
        for pair in sorted(receivers, key=lambda pair: pair[1] in last)[:count]:
            if pair in self.on_way:
                self.hand_over(pair)
                yield

    def unblock(self):
        """Lets a server suspect another one, so that open instances can be decided."""
        pairs = [(one, other) for one in range(self.count) for other in range(self.count) if one != other]
        return any(self.attempt(f"suspect {one} {other}") for one, other in self.dice.order(pairs))

    # ---- messages

    def deliver(self):
        """Delivers or loses a message."""
        self.forget(40 if self.is_calm() else 10)
        pairs = [pair for pair in self.on_way if self.is_calm() or self.reaches(pair)]
        if not pairs:
            return False
        ready = [pair for pair in pairs if self.on_way[pair] <= len(self.events)]
        if not ready:
            pair = min(pairs, key=lambda pair: self.on_way[pair])
        else:
            pair = self.dice.pick(ready) if self.dice.chance(50) else ready[0]
        self.hand_over(pair)
        return True

    def hand_over(self, pair):
        """Delivers or loses a message that is on its way."""
        del self.on_way[pair]
        if not self.is_calm() and self.dice.chance(self.rates["loss"]):
            self.lost.append(pair)
            self.attempt(f"lose {pair[0]} {pair[1]}")
            return
        self.heard.append(pair)
        message = self.messages[pair[0]]
        if message.kind == "Learn":
            self.known.add((pair[1], message.instance))
        self.attempt(f"deliver {pair[0]} {pair[1]}")
        if message.kind == "Prepare" and message.instance % self.count == pair[1]:
            self.attempt(f"retry {pair[1]}", 2 * self.rates["refusals"])

    def forget(self, rate):
        """Drops messages about instances that their receiver has learned, `rate` of 100, because they rarely show a
        fault. A Learn to the owner of its instance stays, because the owner's command may wait. A calm schedule drops
        all of them, so that it has room for more commands."""
        for pair in list(self.on_way):
            message = self.messages[pair[0]]
            if (pair[1], message.instance) in self.known and message.kind not in ("Suggest", "Skip"):
                is_for_owner = message.kind == "Learn" and message.instance % self.count == pair[1]
                if self.is_calm_from_the_start or not is_for_owner and self.dice.chance(rate):
                    del self.on_way[pair]
                    self.heard.append(pair)

    def repeat(self):
        """Delivers a message again that was heard, usually a recent one."""
        recent = self.heard[-20:] if self.dice.chance(70) else self.heard
        if not recent:
            return False
        number, server = self.dice.pick(recent)
        return self.attempt(f"deliver {number} {server}")

    def reaches(self, pair):
        """Whether neither the sender nor the receiver is cut off."""
        ends = (self.messages[pair[0]].source, pair[1])
        return all(self.cut.get(end, 0) <= len(self.events) for end in ends)

    # ---- refusals

    def refused_event(self):
        """An event that is usually refused. It often has two causes, and the refusal must name the first."""
        server = self.dice.below(self.count)
        beyond = data.server_beyond(self.dice, self.count)
        somebody = self.dice.pick((server, server, beyond))
        number = self.dice.below(len(self.messages) + 2)
        unsent = data.message_beyond(self.dice, len(self.messages))
        private = self.dice.pick([message.number for message in self.messages if message.to is not None] or [number])
        lost = self.dice.pick(self.lost or [(number, server)])
        _, identity = self.dice.pick(self.identities or [(0, "1.0")])
        if somebody == beyond and len(self.events) % 2:
            # A bad server refuses the command, and a server of the cluster may still accept it later.
            identity = self.words.next_identity(server, self.submitted_at(server))
        return self.dice.pick((
            f"submit {somebody} {identity} {self.words.operation(self.wish.has_cas)}",
            f"deliver {number} {somebody}",
            f"deliver {private} {somebody}",
            f"deliver {unsent} {somebody}",
            f"lose {number} {somebody}",
            f"lose {private} {somebody}",
            f"lose {unsent} {somebody}",
            f"deliver {lost[0]} {lost[1]}",
            f"lose {lost[0]} {lost[1]}",
            f"suspect {somebody} {server}",
            f"suspect {server} {self.dice.pick((server, beyond))}",
            f"suspect {beyond} {beyond}",
            f"retry {somebody}",
            f"execute {somebody}",
        ))
