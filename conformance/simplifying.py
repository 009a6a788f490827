"""Simpler variants of a schedule: fewer servers, a smaller beta, simpler commands and lower numbers.

Each function yields variants of a list of items (shortening.py) and members. Each variant is a little simpler than the
list, so that repeated steps come to an end.
"""
import dataclasses
import itertools

import members
from operations import OPERATIONS

# For each event, the places of its servers among its words.
SERVERS = {"submit": (1,), "deliver": (2,), "lose": (2,), "suspect": (1, 2), "retry": (1,), "execute": (1,)}
# Simple operations come first, and simple texts too. Texts that are not in the list come later, short ones first.
WORDS = sorted(OPERATIONS, key=lambda word: (OPERATIONS[word].texts, word != "get"))
TEXTS = ("x", "y", "")
KEYS = ("a",)


def with_text(item, text):
    return dataclasses.replace(item, text=text)


# ---- servers and members

def fewer_servers(items, of):
    """Leaves out a server or two, with all events at them. Two are left out together because a majority of three
    servers has as many servers as a majority of two. Then lets one server take over the events of those above it."""
    servers = of["servers"]
    for count in (2, 1):
        for gone in itertools.combinations(reversed(range(servers)), count):
            if count < servers:
                yield without_servers(items, gone), {**of, "servers": servers - count}
    for count in range(1, servers):
        yield merged_servers(items, count, servers), {**of, "servers": count}


def without_servers(items, gone):
    """The items without these servers. The servers above them get lower numbers."""
    kept = []
    for item in items:
        words = item.text.split(" ")
        places = SERVERS[words[0]]
        numbers = [int(words[place]) for place in places]
        if not set(numbers) & set(gone):
            for place, number in zip(places, numbers):
                words[place] = str(number - sum(other < number for other in gone))
            kept.append(with_text(item, " ".join(words)))
    return kept


def merged_servers(items, count, servers):
    """The items with so many of the servers. The last one takes over the events of the servers above it."""
    merged = []
    for item in items:
        words = item.text.split(" ")
        for place in SERVERS[words[0]]:
            if count <= int(words[place]) < servers:
                words[place] = str(count - 1)
        merged.append(with_text(item, " ".join(words)))
    return merged


def smaller_members(items, of):
    for smaller in members.smaller(of):
        yield items, smaller


# ---- commands

def simpler_commands(items, of):
    """Simplifies all commands in the same way, or else a single command."""
    commands = {item.text.split(" ", 3)[3] for item in items if item.text.startswith("submit ")}
    for command in sorted(commands):
        for simpler in simpler_operations(command):
            yield [with_operation(item, command, simpler) for item in items], of
    for place, item in enumerate(items):
        if item.text.startswith("submit "):
            command = item.text.split(" ", 3)[3]
            for simpler in simpler_operations(command):
                yield [*items[:place], with_operation(item, command, simpler), *items[place + 1:]], of


def with_operation(item, command, simpler):
    """The item. If it submits this command, it now submits the simpler one."""
    words = item.text.split(" ", 3)
    return with_text(item, " ".join([*words[:3], simpler])) if words[0] == "submit" and words[3] == command else item


def simpler_operations(command):
    """Operations that are simpler than this one. The simplest is the first."""
    word, key, *texts = command.split(" ")
    for other in WORDS[:WORDS.index(word)]:
        yield " ".join([other, key, *texts[:OPERATIONS[other].texts]])
    for other in simpler_texts(key, KEYS):
        yield " ".join([word, other, *texts])
    for place, text in enumerate(texts):
        for other in simpler_texts(text, TEXTS):
            yield " ".join([word, key, *texts[:place], other, *texts[place + 1:]])


def simpler_texts(text, simple):
    """Texts that are simpler than this one: those of the list `simple`, and the first half or all but the last byte."""
    if text in simple:
        return simple[:simple.index(text)]
    shorter = {text[:len(text) // 2], text[:-1]} - {""}
    return [*simple, *sorted(shorter - set(simple), key=len)]


# ---- numbers

def lower_identities(items, of):
    """Gives all commands low identities, or else lowers a single number of an identity."""
    found = list(dict.fromkeys(item.text.split(" ")[2] for item in items if item.text.startswith("submit ")))
    low = {identity: f"{place}.0" for place, identity in enumerate(found, 1)}
    if low != {identity: identity for identity in found}:
        yield [renamed(item, low) for item in items], of
    for identity in found:
        client, number = map(int, identity.split("."))
        others = [f"{lower}.{number}" for lower in lower_numbers(client, 1)]
        others += [f"{client}.{lower}" for lower in lower_numbers(number, 0)]
        for other in others:
            if other not in found:
                yield [renamed(item, {identity: other}) for item in items], of


def renamed(item, names):
    words = item.text.split(" ")
    if words[0] != "submit":
        return item
    return with_text(item, " ".join([*words[:2], names.get(words[2], words[2]), *words[3:]]))


def lower_numbers(number, least):
    """Some numbers below this one, but not below the least. The lowest is the first."""
    parts = (least, number // 16, number // 2, number * 3 // 4, number * 7 // 8, number * 15 // 16, number - 1)
    return sorted({lower for lower in parts if least <= lower < number})


def lower_strangers(items, of):
    """Lowers the numbers of servers that are not in the cluster, and of messages that were never sent."""
    for index, item in enumerate(items):
        words = item.text.split(" ")
        bounds = {place: of["servers"] for place in SERVERS[words[0]]}
        if words[0] in ("deliver", "lose") and item.message is None:
            bounds[1] = item.sent
        for place, least in bounds.items():
            for lower in lower_numbers(int(words[place]), least):
                text = " ".join([*words[:place], str(lower), *words[place + 1:]])
                yield [*items[:index], with_text(item, text), *items[index + 1:]], of


STEPS = (fewer_servers, smaller_members, simpler_commands, lower_identities, lower_strangers)
