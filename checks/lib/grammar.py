"""The grammar of scenarios as the program reports it: the fields, and the texts of events and commands in each version.

This module learns all of it from `mencius check`, whose messages about a bad scenario name the right fields and words.
Then it tries each range and text, so the messages must be true. It fails if a message has unexpected words.
"""
import json
import re
from typing import NamedTuple

from shared import fail, start

# A number above the range of every field.
TOO_GREAT = 10 ** 30
# The length of a name that is too long for every key and text.
TOO_LONG = 10_000
TASKS = ("replay", "run")
# A name that is not a field, and a word that no text has.
NOTHING = "nothing"

# The parts of texts, by their names in the messages of `check`. Each has the signs that pages use, and an example.
PARTS = {
    "the server": (("S", "D", "P"), "0"),
    "the suspected server": (("Q",), "0"),
    "the message number": (("K",), "0"),
    "the command ID": (("ID",), "1.0"),
    "the key": (("KEY",), "k"),
    "the text": (("TEXT",), "x"),
}
# A text with a name of its own. Pages use that name as the sign. For example, OLD is the old text.
NAMED_TEXT = "the ([a-z]+) text"
LETTERS = "that is no ASCII letter, digit, `_`, `-` or `.`"


class Field(NamedTuple):
    """A field of a scenario. A list does not have a range."""
    name: str
    is_needed: bool
    is_list: bool
    least: int = 0
    greatest: int = 0

    def range(self, separator=""):
        """The range in the notation of pages."""
        word = "or" if self.greatest == self.least + 1 else "to"
        return f"{self.least} {word} {self.greatest:,}".replace(",", separator)


class Form(NamedTuple):
    """A text: its words and the names of its parts in order, and the first version that has the text."""
    words: tuple
    version: int

    def is_written(self, text):
        """Whether this is the notation of pages for the text, with the words of the text and a sign for each part."""
        words = text.split(" ")
        return len(words) == len(self.words) and all(
            word in PARTS[known][0] if known in PARTS else word == known for word, known in zip(words, self.words))

    def __str__(self):
        return " ".join(PARTS[word][0][0] if word in PARTS else word for word in self.words)


class Kind(NamedTuple):
    """The kind of a part: a number, an ID of two numbers, or a name, with the range of the numbers or of the length."""
    shape: str
    least: int
    greatest: int


class Grammar(NamedTuple):
    """For each task: the fields of its scenario by name, the forms of its texts, and the kinds of their parts."""
    fields: dict
    forms: dict
    kinds: dict


# ---- asking

def words_of_check(program, scenario):
    """The message of `check` about a bad scenario, or None for a good one."""
    ended = start([program, "check"], json.dumps(scenario))
    if ended.status == 0:
        return None
    lines = ended.said.splitlines()
    if ended.status != 3 or len(lines) != 2:
        fail(f"check ends with status {ended.status} and prints {ended.said!r} for {json.dumps(scenario)}")
    return lines[1]


def answer(program, scenario, pattern):
    """The groups of a pattern. The message of `check` must match the pattern."""
    words = words_of_check(program, scenario)
    found = re.fullmatch(pattern, words or "")
    if not found:
        fail(f"the message of check for {json.dumps(scenario)} is {words!r}, which does not match {pattern!r}")
    return found.groups()


def items_of(words):
    """The items of a list such as `a, b and c` or `a, b or c`."""
    return re.split(", | and | or ", words)


# ---- fields

def fields_of(program, task):
    # Only runs have the field `loss`, so it distinguishes the two tasks.
    mark = {"loss": 0} if task == "run" else {}
    names, = answer(program, {**mark, NOTHING: 0}, f'"{NOTHING}" is no field: a scenario of {task} has (.*)')
    drafts = [field_of(program, mark, name) for name in items_of(names)]
    good = {field.name: good_value(field) for field in drafts}
    if words_of_check(program, good) is not None:
        fail(f"the lowest numbers of all fields do not form a scenario of {task}: {words_of_check(program, good)}")
    for field in drafts:
        try_range(program, good, field)
    return {field.name: field._replace(is_needed=is_needed(program, good, field.name)) for field in drafts}


def field_of(program, mark, name):
    kind, = answer(program, {**mark, name: True}, f'the field "{name}" is not a (list|whole number)')
    if kind == "list":
        return Field(name, True, True)
    words = answer(program, {**mark, name: TOO_GREAT}, f'the field "{name}" is not ([0-9]+) (or|to) ([0-9]+)')
    field = Field(name, True, False, int(words[0]), int(words[2]))
    if field.range().split(" ")[1] != words[1]:
        fail(f"check gives {name} the range {' '.join(words)}")
    return field


def good_value(field):
    """A good value: for `commands` an empty list for one server, for `events` no event, for a number the lowest."""
    return ([[]] if field.name == "commands" else []) if field.is_list else field.least


def try_range(program, good, field):
    """Tries the ends of a range and the numbers outside. Each server of a run needs a list, so the greatest number of
    servers gets as many lists."""
    if field.is_list:
        return
    lists = {"commands": [[]] * field.greatest} if field.name == "servers" and "commands" in good else {}
    if words_of_check(program, {**good, **lists, field.name: field.greatest}) is not None:
        fail(f"{field.greatest} is refused as {field.name}")
    for number in (field.least - 1, field.greatest + 1):
        if words_of_check(program, {**good, field.name: number}) is None:
            fail(f"{number} is accepted as {field.name}")


def is_needed(program, good, name):
    words = words_of_check(program, {other: value for other, value in good.items() if other != name})
    if words not in (None, f'the field "{name}" is missing'):
        fail(f"check has an unexpected message for a scenario without {name}: {words}")
    return words is not None


# ---- texts

def scenario_of(task, version, text):
    if task == "replay":
        return {"version": version, "servers": 1, "events": [text]}
    return {"version": version, "servers": 1, "workers": 1, "seed": 0, "turns": 0, "loss": 0, "commands": [[text]]}


def fault(program, task, version, text):
    """The message about a bad text, without its place, or None for a good text."""
    words = words_of_check(program, scenario_of(task, version, text))
    if words is None:
        return None
    place = "event 0" if task == "replay" else "command 0 of list 0"
    # The message shows only the beginning of a long text.
    found = re.fullmatch(re.escape(place) + ' ".*?"(?:\\.\\.)?: (.*)', words)
    if not found:
        fail(f"check prints {words!r} for {text!r}")
    return found.group(1)


def forms_of(program, task, versions):
    newest = max(versions)
    forms = []
    for words in forms_behind(program, task, newest, ()):
        having = [version for version in versions if fault(program, task, version, sample(words)) is None]
        if having != [version for version in versions if version >= min(having)]:
            fail(f"only the versions {having} have {sample(words)!r}")
        if fault(program, task, newest, sample(words) + " x") is None:
            fail(f"{sample(words)!r} may have another word")
        forms.append(Form(words, min(having)))
    return forms


def forms_behind(program, task, version, words):
    """The texts that begin with these words. `check` names the missing part, or the words that may follow."""
    said = fault(program, task, version, sample(words)) if words else "it is empty" if task == "replay" else \
        fault(program, task, version, "")
    if said is None:
        return [words]
    if said in ("it is empty", "the operation is missing"):
        return [form for word in choices(program, task, version, words)
                for form in forms_behind(program, task, version, (*words, word))]
    missing = re.fullmatch("(.*?) is missing(: an empty one has a space before it)?", said)
    if not missing or not is_part(missing.group(1)):
        fail(f"{sample(words)!r} lacks a part that this module does not know: {said}")
    return forms_behind(program, task, version, (*words, missing.group(1)))


def is_part(name):
    """Whether a part has this name. For a text with a name of its own, adds the part to PARTS."""
    named = re.fullmatch(NAMED_TEXT, name)
    if named:
        PARTS[name] = ((named.group(1).upper(),), PARTS["the text"][1])
    return name in PARTS


def choices(program, task, version, words):
    """The words that may follow these words."""
    said = fault(program, task, version, sample((*words, NOTHING)))
    found = re.fullmatch(f'no event begins with "{NOTHING}": each begins with (.*)', said or "") \
        or re.fullmatch(f'the operation is not (.*): "{NOTHING}"', said or "")
    if not found:
        fail(f"check has an unexpected message for {sample((*words, NOTHING))!r}: {said}")
    return items_of(found.group(1))


def sample(words):
    return " ".join(PARTS[word][1] if word in PARTS else word for word in words)


# ---- parts

def kinds_of(program, task, newest, forms):
    """The kind of each part. A part must have the same kind in all texts."""
    kinds = {}
    for form in forms:
        for place, part in enumerate(form.words):
            if part in PARTS:
                kind = kind_of(Place(program, task, newest, form.words, place))
                if kinds.setdefault(part, kind) != kind:
                    fail(f"in {form}, {part} is {kind}, but in another text it is {kinds[part]}")
    return kinds


class Place(NamedTuple):
    """A part of a text, to try values for it."""
    program: str
    task: str
    version: int
    words: tuple
    place: int

    def fault(self, value):
        """The message about the text with this value as the part, or None if the text is good."""
        before, behind = sample(self.words[:self.place]), sample(self.words[self.place + 1:])
        text = " ".join([*[before] * (self.place > 0), value, *[behind] * (self.place + 1 < len(self.words))])
        return fault(self.program, self.task, self.version, text)

    def find(self, pattern, value):
        return re.fullmatch(pattern, self.fault(value) or "")


def kind_of(place):
    great = place.find(".* is greater than ([0-9]+)", str(TOO_GREAT))
    if great:
        return with_ends_tried(place, Kind("number", 0, int(great.group(1))), str)
    if place.find("the command ID is not CLIENT.NUMBER: .*", str(TOO_GREAT)):
        great = place.find("the client of the command ID is greater than ([0-9]+)", f"{TOO_GREAT}.0")
        kind = with_ends_tried(place, Kind("ID", 0, int(great.group(1))), "{}.0".format)
        return with_ends_tried(place, kind, "0.{}".format)
    long = place.find("a key has no byte, or more than ([0-9]+)", "k" * TOO_LONG)
    least = 1 if long else 0
    long = long or place.find(".* has more than ([0-9]+) bytes", "k" * TOO_LONG)
    if not long or not place.find(f".* has a byte {re.escape(LETTERS)}", "!"):
        fail(f"check does not name the bytes and the length of part {place.place} of {sample(place.words)!r}")
    return with_ends_tried(place, Kind("name", least, int(long.group(1))), lambda length: "k" * length)


def with_ends_tried(place, kind, written):
    """Tries the ends of the range of a kind, and the numbers outside. Returns the kind."""
    for number in (kind.least, kind.greatest):
        if place.fault(written(number)) is not None:
            fail(f"{written(number)!r} is refused in {sample(place.words)!r}: {place.fault(written(number))}")
    for number in (kind.least - 1, kind.greatest + 1):
        if number >= 0 and place.fault(written(number)) is None:
            fail(f"{written(number)!r} is accepted in {sample(place.words)!r}")
    return kind


def ask(program):
    """The grammar that the program reports."""
    fields = {task: fields_of(program, task) for task in TASKS}
    forms, kinds = {}, {}
    for task in TASKS:
        version = fields[task]["version"]
        forms[task] = forms_of(program, task, range(version.least, version.greatest + 1))
        kinds[task] = kinds_of(program, task, version.greatest, forms[task])
    return Grammar(fields, forms, kinds)
