"""Writes the operations of a history as a log for `mencius judge`, or for `mencius judge --clients`.

For `mencius judge`, the log has one server, which executes the operations in the order that a search found. If the
search gave up, the operations of its key are at the end of the log, and no server executes them. So the verdict is not
`ok`. For `mencius judge --clients`, the log has only submissions and replies, because that judge searches for an order
itself.
"""
import json
import re

from history import UNKNOWN
from search import FOUND, LIMIT, LIMIT_OF_STEPS, find_order, number_of, with_the_rest

KEY, TEXT, CLIENT = r"[A-Za-z0-9_.-]{1,64}", r"[A-Za-z0-9_.-]{0,256}", r"0|[1-9][0-9]{0,8}"
# The most characters of a key or a text in a comment. A line of a log has at most 1,024 bytes.
SHOWN = 300


class Words:
    """Words of the log for texts with any characters. A text that is already a word of the log stays as it is."""

    def __init__(self, kind, pattern, texts, prefix=""):
        self.kind, self.prefix = kind, prefix
        self.words = {text: text for text in texts if text is not None and re.fullmatch(pattern, text)}
        self.taken, self.number, self.changed = set(self.words), 0, []

    def __getitem__(self, text):
        if text not in self.words:
            word = {None: "nil", UNKNOWN: "some"}.get(text) if self.prefix else None
            while word is None or word in self.taken:
                word = f"{self.prefix}{self.number}"
                self.number += 1
            self.taken.add(word)
            self.words[text] = word
            self.changed.append(text)
        return self.words[text]

    def comments(self):
        for text in self.changed:
            meaning = "the importer" if text is None and self.kind == "client" else shown(text)
            yield f"# {self.kind} {self.words[text]} is {meaning}"


def shown(text):
    """A text as a comment or a message shows it, in ASCII."""
    if text is None or text is UNKNOWN:
        return "no text" if text is None else "a text that the history does not have"
    quoted = json.dumps(text)
    return quoted if len(quoted) <= SHOWN else quoted[:SHOWN] + " .."


class Log:
    """The log of a history. Each part of the history is a list of operations that get an order by themselves. Without
    parts, no operation gets an order."""

    def __init__(self, operations, parts, initial, limit):
        self.initial, self.is_ordered = initial, bool(parts)
        # The map of the judge is empty at first, and its `cas` needs a text. So if a key begins with a text, or if a
        # `cas` names no text, a word stands for each text, and for none, and a first command sets it.
        operands = [text for op in operations for text in op.texts]
        self.has_first = initial is not None or None in operands
        formers = [op.former for op in operations if op.former is not UNKNOWN]
        self.keys = Words("key", KEY, [op.key for op in operations], "key")
        self.texts = Words("text", TEXT, [*operands, *formers, initial], "text")
        self.clients = Words("client", CLIENT, [op.process for op in operations])
        self.ids, self.counts = {}, {}
        for operation in operations:
            self.ids[operation] = self.fresh_id(operation.process)
        self.orders, self.undecided, self.notes, self.remarks = [], [], [], []
        for part in parts:
            self.search(part, limit)
        self.executed = executions(self.orders)
        self.held = held_before(self.executed, initial)

    def fresh_id(self, process):
        self.counts[process] = self.counts.get(process, -1) + 1
        return f"{self.clients[process]}.{self.counts[process]}"

    def search(self, part, limit):
        result, order = find_order(part, self.initial, limit)
        count = sum(op.outcome == "ok" for op in part)
        keys = sorted({op.key for op in part})
        name = f"key {shown(keys[0])}" if len(keys) == 1 else f"the {len(keys)} keys"
        if result == LIMIT:
            self.undecided.append(part)
            self.notes.append(f"{name}: the search for an order gave up after {limit:,} steps back, so the replies to "
                              f"its {count} operations are open. Raise --limit, or judge a shorter history")
        elif result == FOUND:
            self.orders.append(order)
        else:
            order, rest = with_the_rest(part, order)
            self.orders.append(order + rest)
            by_version = " by version" if any(number_of(op) is not UNKNOWN for op in part) else ""
            remark = (f"{name}: no order{by_version} explains all {count} replies. In the order of the log, the reply to "
                      f"the request of line {rest[0].line} is the first that does not fit")
            self.notes.append(remark)
            self.remarks.append("# " + remark)

    # ---- the lines

    def lines(self):
        undecided = {op for part in self.undecided for op in part}
        events = [event for op in self.ids if op not in undecided for event in self.events(op)]
        events += [(point, 1, number, f"execute 0 {self.ids[op]}")
                   for number, (point, op) in enumerate(self.executed)]
        body = [*self.first_lines(), *(event[-1] for event in sorted(events))]
        for part in self.undecided:
            body += self.open_lines(part)
        comments = [*self.remarks, *self.clients.comments(), *self.keys.comments(), *self.texts.comments()]
        return comments + body

    def first_lines(self):
        """The commands that set the first text of each key."""
        if self.has_first:
            for key in dict.fromkeys(op.key for op in self.ids):
                name = self.fresh_id(None)
                yield f"submit {name} set {self.keys[key]} {self.texts[self.initial]}"
                if self.is_ordered:
                    yield f"execute 0 {name}"
                yield f"reply {name} ok"

    def open_lines(self, part):
        """The lines of operations that no server executes. They come last, because otherwise each later operation would
        have to come after them."""
        yield "# The search for an order of the next operations gave up, so no server executes them."
        yield from (event[-1] for event in sorted(event for op in part for event in self.events(op)))
        if all(self.reply(op) == "failed" for op in part if op.outcome == "ok"):
            # The word `failed` leaves nothing open, so one more command does.
            name = self.fresh_id(None)
            yield f"submit {name} get {self.keys[part[0].key]}"
            yield f"reply {name} ok"

    def events(self, operation):
        """The submission and the reply of an operation, each with its place."""
        name, kind, texts = self.ids[operation], operation.kind, operation.texts
        if kind == "del" and self.has_first:
            kind, texts = "set", [None]
        words = [kind, self.keys[operation.key], *(self.texts[text] for text in texts)]
        yield operation.begin, 0, 0, " ".join(["submit", name, *words])
        if operation.outcome != "unknown":
            yield operation.end, 0, 0, f"reply {name} {self.reply(operation)}"

    def reply(self, operation):
        """The reply in words of the log. Some replies only say that the key did not hold a text, or that it held one.
        Then it is the text that the key holds in the order of the log, if that fits."""
        if operation.outcome == "failed":
            return "failed"
        if operation.former is not UNKNOWN:
            return self.answer(operation.former)
        text = self.held.get(operation, UNKNOWN)
        if operation.kind == "cas" and not operation.changed:
            return "failed" if text is UNKNOWN or not operation.fits(text) else self.answer(text)
        if operation.kind == "del" and operation.changed is True:
            return "=" + self.texts[UNKNOWN] if text in (UNKNOWN, None) else self.answer(text)
        return "ok"

    def answer(self, text):
        return "none" if text is None and not self.has_first else "=" + self.texts[text]


def executions(orders):
    """The operations of all orders in one order, each with its place. An operation gets the earliest place that its own
    order and its beginning allow. So the places keep the order in time between all keys."""
    placed = []
    for order in orders:
        point = 0
        for number, operation in enumerate(order):
            point = max(point, operation.begin)
            placed.append((point, number, operation))
    placed.sort(key=lambda row: row[:2])
    return [(point, operation) for point, _, operation in placed]


def held_before(executed, initial):
    """The text that the key of each operation holds before it, if a map executes them in this order."""
    texts, held = {}, {}
    for _, operation in executed:
        text = held[operation] = texts.get(operation.key, initial)
        if operation.kind == "cas":
            text = operation.texts[1] if text == operation.texts[0] else text
        elif operation.kind != "get":
            text = operation.texts[0] if operation.kind == "set" else None
        texts[operation.key] = text
    return held


def parts_by_key(operations):
    parts = {}
    for operation in operations:
        parts.setdefault(operation.key, []).append(operation)
    return list(parts.values())


def log_of(operations, initial=None, limit=LIMIT_OF_STEPS, by_key=True):
    """The lines of the log, and the notes for the user. The operations are in the order in which they began."""
    log = Log(operations, parts_by_key(operations) if by_key else [operations], initial, limit)
    return log.lines(), log.notes


def log_of_clients(operations, initial=None):
    """The lines of the log for `mencius judge --clients`, and no notes."""
    return Log(operations, [], initial, 0).lines(), []
