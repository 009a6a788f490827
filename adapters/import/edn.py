"""Reads EDN, the notation of Clojure, as far as histories of Jepsen need it.

A map becomes a dict, a vector or a list a tuple, and a set a frozenset. A keyword becomes a `Keyword`, and a symbol or
a character its text. A tag, such as the name of a record, is left out, and the value after it counts.
"""
import re

from history import bad

# Space, and then a token.
TOKEN = re.compile(r"""[\s,]*(?:(?P<atom>[^\s,;"()\[\]{}\\\#][^\s,;"()\[\]{}]*)
    |(?P<open>\#\{|[\[({])|(?P<close>[\])}])
    |(?P<string>"(?:[^"\\]|\\.)*")
    |(?P<end>\Z)|(?P<comment>;[^\n]*)|(?P<discard>\#_)
    |(?P<tag>\#[A-Za-z][^\s,;"()\[\]{}]*)
    |(?P<character>\\(?:[a-zA-Z0-9]+|.)))""", re.VERBOSE | re.DOTALL)
SPACE = re.compile(r"[\s,]*")
CLOSING = {"{": "}", "#{": "}", "[": "]", "(": ")"}
NAMES = {"nil": None, "true": True, "false": False}
ESCAPES = {"t": "\t", "r": "\r", "n": "\n", "b": "\b", "f": "\f", "\\": "\\", '"': '"'}
CHARACTERS = {"newline": "\n", "space": " ", "tab": "\t", "return": "\r"}


class Keyword(str):
    """The name of a keyword, without its colon."""


class Open:
    """A collection that is not closed yet. `waits` are the tags and marks before its next value."""

    def __init__(self, line, word):
        self.line, self.word, self.items, self.waits = line, word, [], []

    def add(self, value):
        while self.waits and self.waits[-1] == "tag":
            self.waits.pop()
        if self.waits:
            self.waits.pop()
        else:
            self.items.append(value)

    def value(self):
        if self.word == "{":
            if len(self.items) % 2:
                bad(self.line, "a map that begins here has a key without a value. Add the value")
            return Map(self.line, self.items)
        return frozenset(self.items) if self.word == "#{" else tuple(self.items)


class Map(dict):
    """A map, with the line at which it begins."""

    def __init__(self, line, items):
        self.line = line
        super().__init__(zip(items[::2], items[1::2]))

    def __hash__(self):
        return id(self)


def tokens(text):
    """Each token of a text, with its line and its kind."""
    place, line = 0, 1
    while True:
        found = TOKEN.match(text, place)
        start = found.start(found.lastgroup) if found else SPACE.match(text, place).end()
        line += text.count("\n", place, start)
        if not found:
            bad(line, "a string that begins here does not end. The file may be cut" if text[start] == '"' else
                f"{text[start]!a} begins nothing in EDN. Remove it")
        if found.lastgroup == "end":
            return
        yield line, found.lastgroup, found[found.lastgroup]
        place = found.end()
        line += text.count("\n", start, place)


def values(text):
    """All values of a text."""
    inner = Open(1, "")
    stack = [inner]
    for line, kind, word in tokens(text):
        if kind == "open":
            inner = Open(line, word)
            stack.append(inner)
        elif kind == "close":
            if CLOSING.get(inner.word) != word:
                bad(line, f"{word} closes nothing that is open. Remove it, or close the inner brackets first")
            value = stack.pop().value()
            inner = stack[-1]
            inner.add(value)
        elif kind in ("discard", "tag"):
            inner.waits.append(kind)
        elif kind != "comment":
            inner.add(atom(line, kind, word))
    if len(stack) > 1:
        bad(inner.line, f"the {inner.word} that begins here is not closed. The file may be cut")
    return inner.items


def atom(line, kind, word):
    if word[0] == ":":
        return Keyword(word[1:])
    if word in NAMES:
        return NAMES[word]
    if kind == "string":
        return re.sub(r"\\(u[0-9a-fA-F]{4}|.)", lambda escape: unescaped(line, escape[1]), word[1:-1], flags=re.DOTALL)
    if kind == "character":
        return CHARACTERS.get(word[1:], word[1:])
    if re.fullmatch(r"[+-]?[0-9]{1,400}N?", word):
        return int(word.rstrip("N"))
    if re.fullmatch(r"[+-]?[0-9]+(\.[0-9]*)?([eE][+-]?[0-9]+)?M?", word):
        return float(word.rstrip("M"))
    return word


def unescaped(line, word):
    if word[0] == "u" and len(word) == 5:
        return chr(int(word[1:], 16))
    if word not in ESCAPES:
        bad(line, f"a string has the escape \\{word}, which EDN does not have. Write a backslash twice")
    return ESCAPES[word]
