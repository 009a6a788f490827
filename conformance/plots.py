"""Plots of drawn schedules. Each leads to a situation that chance alone rarely brings about, and that stores get wrong.

A plot is a generator. It adds an event to a `Drawing` in each step, and other events may come in between. It gives up
if the cluster refuses an event that it needs.
"""


class Stage:
    """A drawing, with a victim and the other servers in an order that chance decides. They suspect the victim."""

    def __init__(self, drawing):
        self.drawing, self.count, self.majority = drawing, drawing.count, drawing.majority
        self.chance, self.order = drawing.dice.chance, drawing.dice.order
        self.victim = drawing.victim = drawing.dice.below(drawing.count)
        self.others = self.order(server for server in range(self.count) if server != self.victim)
        self.instance = None  # the instance that the plot is about

    def begin(self, least_others=1):
        """Submits a command at the victim if there are enough other servers. Returns the Suggest in a list, which is
        empty if there is none."""
        suggests = self.submit(self.victim) if len(self.others) >= least_others else []
        self.instance = suggests[0].instance if suggests else None
        return suggests

    def submit(self, server):
        return self.sent("Suggest", lambda: self.drawing.submit(server))

    def suspect(self, server):
        """Adds a suspicion. Returns its Prepare for the instance in a list, which is empty if there is none. First
        submits commands at the server if the instance is above its front."""
        for _ in range(3):
            if self.instance is not None and self.drawing.front(server) < self.instance:
                self.drawing.submit(server)
        prepares = self.sent("Prepare", lambda: self.drawing.suspect(server))
        return [prepare for prepare in prepares if prepare.instance == self.instance]

    def sent(self, kind, act):
        """The messages of this kind that an act sends."""
        first = len(self.drawing.messages)
        act()
        return [message for message in self.drawing.messages[first:] if message.kind == kind]

    def since(self, first, kind, instance=None):
        """The messages of this kind about the instance, from number `first` on, in an order that chance decides."""
        instance = self.instance if instance is None else instance
        return self.order(message for message in self.drawing.messages[first:]
                          if message.kind == kind and message.instance == instance)

    def pass_on(self, messages, servers):
        """Delivers each message to each of these servers to which it is on its way."""
        for message in messages:
            for server in servers:
                if (message.number, server) in self.drawing.on_way:
                    self.drawing.hand_over((message.number, server))
                    yield

    def repeat(self, messages, server):
        """Delivers messages again."""
        for message in messages:
            self.drawing.attempt(f"deliver {message.number} {server}")
            yield

    def go_on(self, kinds, first, servers, instance=None):
        """Delivers the messages of these kinds, from number `first` on."""
        for kind in kinds:
            yield from self.pass_on(self.since(first, kind, instance), servers)

    def without(self, *left_out):
        """A majority without these servers, in an order that chance decides."""
        return self.order(server for server in range(self.count) if server not in left_out)[:self.majority]

    def most(self, *included):
        """A majority that includes these servers."""
        return [*included, *self.without(*included)][:max(self.majority, len(included))]


def duel(drawing):
    """Two servers try ballots of the same round. One promises or accepts the greater ballot of the other, and still
    continues its own ballot, which the others no longer accept."""
    stage = Stage(drawing)
    suggests = stage.begin(2)
    if not suggests:
        return
    yield from stage.pass_on(suggests, stage.others[:drawing.dice.below(2)])
    first = len(drawing.messages)
    low, high = sorted(stage.others[:2])
    own, other = stage.suspect(low), stage.suspect(high)
    if not own or not other:
        return
    yield
    voters = stage.most(low) if stage.chance(50) else stage.most()
    yield from stage.pass_on(own, voters)
    promises = stage.since(first, "Promise")
    if stage.chance(40):  # the greater ballot goes ahead
        yield from stage.pass_on(other, stage.most(low, high))
        yield from stage.go_on(["Promise"], first, [high])
        yield from stage.go_on(["Propose"], first, [low])
        yield from stage.pass_on(promises, [low])
    else:
        yield from stage.pass_on(other, [low])
        yield from stage.pass_on(promises, [low])
        yield from stage.pass_on(other, voters)
    yield from stage.go_on(("Propose", "Accepted", "Promise", "Propose", "Accepted"), first, stage.most(low, high))


def late_promises(drawing):
    """A server gets the promises that it asked for only after it learned the instance. So it must not propose."""
    stage = Stage(drawing)
    suggests = stage.begin()
    if not suggests:
        return
    yield
    server, first = stage.others[0], suggests[0].number
    yield from stage.pass_on(suggests, stage.most(server))
    yield from stage.pass_on(stage.suspect(server), stage.most())
    promises = stage.since(first, "Promise")
    yield from stage.go_on(["Accepted"], first, [stage.victim])
    yield from stage.go_on(["Learn"], first, [server])
    yield from stage.pass_on(promises, [server])


def stale_vote(drawing):
    """A server tries a second ballot, and then gets a promise of its first ballot, with a vote."""
    stage = Stage(drawing)
    suggests = stage.begin(2)
    if not suggests:
        return
    server, voter = stage.others[:2]
    first = len(drawing.messages)
    yield from stage.pass_on(suggests, [voter])
    # Either nothing is proposed at the first ballot, or the value of the vote.
    is_late = stage.chance(50)
    yield from stage.pass_on(stage.suspect(server), [voter] if is_late else stage.most(voter))
    stale = stage.since(first, "Promise")
    if not is_late:
        yield from stage.pass_on(stale, [server])
    prepares = stage.suspect(server)
    yield
    voters = stage.without(voter)
    yield from stage.pass_on(prepares, voters)
    yield from stage.pass_on(stale, [server])
    yield from stage.go_on(("Promise", "Propose", "Accepted", "Learn"), first, [server, *voters])


def split_votes(drawing):
    """Two servers have votes of different ballots. Another server hears the promises with these votes, some of them
    twice."""
    stage = Stage(drawing)
    suggests = stage.begin(2)
    if not suggests:
        return
    one, voter, server = (stage.others + stage.others[1:])[:3]
    yield from stage.pass_on(suggests, [voter])
    first = len(drawing.messages)
    voters = stage.without(voter)
    yield from stage.pass_on(stage.suspect(one), voters)
    yield from stage.go_on(["Promise"], first, [one])
    accepter = drawing.dice.pick(voters)
    yield from stage.go_on(["Propose"], first, [accepter])
    first = len(drawing.messages)
    yield from stage.pass_on(stage.suspect(server), stage.most(voter, accepter))
    for promise in sorted(stage.since(first, "Promise"), key=lambda promise: promise.source not in (voter, accepter)):
        yield from stage.pass_on([promise], [server])
        if stage.chance(80):
            yield from stage.repeat([promise], server)
    yield from stage.go_on(("Propose", "Accepted"), first, stage.most(server))


def other_value_decided(drawing):
    """A server has accepted a command, and has a no-op decided by others before it hears its own proposal. Or it hears
    the suggestion of the command while it waits for promises."""
    stage = Stage(drawing)
    suggests = stage.begin(2)
    if not suggests:
        return
    server = stage.others[0]
    is_early = stage.chance(50)
    yield from stage.pass_on(suggests, [server] if is_early else [])
    voters = stage.without(server)
    first = len(drawing.messages)
    yield from stage.pass_on(stage.suspect(server), voters)
    yield from stage.pass_on(suggests, [server])
    yield from stage.go_on(["Promise"], first, [server])
    yield from stage.go_on(["Propose"], first, voters)
    yield from stage.go_on(["Accepted"], first, [server])
    yield from stage.go_on(["Learn"], first, stage.order(range(stage.count)))
    drawing.attempt(f"retry {server}", 50)
    yield


def brawl(drawing):
    """Several servers revoke an instance, and hear messages about it in any order."""
    stage = Stage(drawing)
    suggests = stage.begin(2)
    if not suggests:
        return
    yield from stage.pass_on(suggests, stage.others[:drawing.dice.below(3)])
    for _ in range(15 + drawing.dice.below(15)):
        pairs = [pair for pair in drawing.on_way if drawing.messages[pair[0]].instance == stage.instance]
        if not pairs or stage.chance(12):
            stage.suspect(drawing.dice.pick(stage.others[:3]))
        else:
            drawing.hand_over(drawing.dice.pick(pairs))
        yield


def lost_commands(drawing):
    """Several commands of a server lose their instances, which it learns in any order. It suggests some of them again,
    and these lose again."""
    stage = Stage(drawing)
    if not stage.others:
        return
    server, voter = stage.others[0], stage.others[-1]
    for submitter in stage.order([stage.victim, stage.victim, server, server]):
        suggests = stage.submit(submitter)
        yield
        if submitter == stage.victim and voter != server and stage.chance(50):
            yield from stage.pass_on(suggests, [voter])
    voters = [server, *stage.order(one for one in range(stage.count) if one not in (server, voter)), voter]
    for _ in range(2):
        first = len(drawing.messages)
        prepares = stage.order(stage.sent("Prepare", lambda: drawing.suspect(server))[:3])
        for prepare in prepares:
            yield from stage.pass_on([prepare], voters[:stage.majority])
            yield from stage.go_on(("Promise", "Propose", "Accepted"), first, voters[:stage.majority], prepare.instance)
        learns = stage.order(message for message in drawing.messages[first:] if message.kind == "Learn")
        yield from stage.pass_on(learns, [stage.victim, voter])
        if learns and stage.chance(30):
            yield from stage.repeat(learns[:1], stage.victim)
        for retrier in stage.order([voter, stage.victim])[:1 + drawing.dice.below(2)]:
            drawing.attempt(f"retry {retrier}", 100)
        stage.submit(server)
        yield


def skip_of_known_instances(drawing):
    """A server hears a Skip of instances after it learned the first of them."""
    stage = Stage(drawing)
    if not stage.others:
        return
    server = stage.others[0]
    suggests = [message for _ in range(2 + drawing.dice.below(2)) for message in stage.submit(server)]
    yield
    first = len(drawing.messages)
    for prepare in stage.sent("Prepare", lambda: drawing.suspect(server))[:drawing.dice.pick((1, 1, 3))]:
        voters = stage.most(server)
        yield from stage.pass_on([prepare], voters)
        yield from stage.go_on(("Promise", "Propose", "Accepted"), first, voters, prepare.instance)
        yield from stage.go_on(["Learn"], first, [stage.victim], prepare.instance)
    yield from stage.pass_on(suggests[-1:], [stage.victim])
    skips = [message for message in drawing.messages[first:]
             if message.kind == "Skip" and message.source == stage.victim]
    yield from stage.pass_on(skips, [server, *stage.others[1:]])
    drawing.attempt(f"suspect {server} {stage.victim}", 100)
    yield


def last_instances(drawing):
    """Suspicions that reach the last instance, because beta is great."""
    stage = Stage(drawing)
    for victim in stage.order(range(stage.count)):
        drawing.victim = victim
        for server in stage.order(range(stage.count))[:2]:
            drawing.suspect(server)
            yield


def choose(drawing):
    """Begins a plot. Some are drawn more often than others, because they show more, or need luck."""
    if drawing.members["beta"] > 1_000:
        return last_instances(drawing)
    often = [duel, brawl, lost_commands] + [split_votes] * (2 if drawing.count == 3 else 6)
    others = [duel, brawl, lost_commands, late_promises, stale_vote, other_value_decided, skip_of_known_instances]
    return drawing.dice.pick(often + others)(drawing)
