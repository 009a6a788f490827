"""The operations of a history, and how an importer reads them.

An importer makes an `Operation` of each request of a client. `search.py` orders the operations, and `log.py` writes
the log. An importer reads its whole input first, so after bad input nothing is on standard output.
"""
import argparse
import json
import math
import re
import signal
import sys

# A fact that is not in the history. None means that a key holds no text.
UNKNOWN = object()
# The names of operations in histories, with the operations of the log.
KINDS = {"set": "set", "write": "set", "put": "set", "get": "get", "read": "get", "del": "del", "delete": "del",
         "cas": "cas"}


class Bad(Exception):
    """The input is bad. The message names the line, and says what is wrong and what to do."""


def bad(line, message):
    raise Bad(f"line {line}: {message}")


class Operation:
    """A request of a client for one key.

    `kind` is set, get, del or cas, and `texts` are its operands: one for a set, the expected and the new text for a
    cas. `begin` and `end` are places in time, and no two events share a place. `outcome` is "ok" if the request took
    effect or saw the store, "failed" if it never takes effect, and "unknown" otherwise.

    For the outcome "ok", `former` is the text before the operation, `changed` says whether the operation changed its
    key, and the two versions are those of the reply. Each of them may be UNKNOWN.
    """

    def __init__(self, line, process, kind, key, texts, begin):
        self.line, self.process, self.kind, self.key, self.texts = line, process, kind, key, tuple(texts)
        self.begin, self.end, self.outcome = begin, math.inf, "unknown"
        self.former = UNKNOWN
        self.changed = {"get": False, "set": True, "cas": True, "del": UNKNOWN}[kind]
        self.version = self.key_version = UNKNOWN

    def fits(self, text):
        """Whether the reply is right if the key holds this text before."""
        if self.former is not UNKNOWN and text != self.former:
            return False
        if self.kind == "cas":
            return (text == self.texts[0]) == self.changed
        return self.kind != "del" or self.changed is UNKNOWN or (text is not None) == self.changed

    def after(self, text):
        """The text of the key after the operation, if it held this text before."""
        if self.changed is False:
            return text
        return None if self.kind == "del" else self.texts[-1]


def text_of(value):
    """The text of a JSON value. The number 1 and the text "1" have the same text, and null has none."""
    if value is None or isinstance(value, str):
        return value
    return json.dumps(value, sort_keys=True, default=str)


def quoted(text):
    """A text as a message shows it, in ASCII."""
    return text if re.fullmatch(r"[A-Za-z0-9_.-]{1,40}", text) else json.dumps(text[:60])


def count(word):
    """A number of the command line."""
    if not re.fullmatch(r"[0-9]{1,18}", word):
        raise argparse.ArgumentTypeError(f"{quoted(word)} is not a number from 0 to 999999999999999999")
    return int(word)


def objects(text):
    """Each JSON object of a text, with the number of its first line. The objects are on lines, or in one list."""
    place, line, decoder = 0, 1, json.JSONDecoder()
    is_list = text.lstrip().startswith("[")
    while True:
        start = place
        while place < len(text) and (text[place].isspace() or (is_list and text[place] in "[],")):
            place += 1
        line += text.count("\n", start, place)
        if place == len(text):
            break
        try:
            value, end = decoder.raw_decode(text, place)
        except (ValueError, RecursionError):
            form = "in one list, which ends with ]" if is_list else "on a line"
            bad(line, f"it is not JSON, or it is cut. Write each JSON object whole, {form}")
        if not isinstance(value, dict):
            bad(line, "it is not a JSON object. Write the fields in { and }")
        yield line, value
        line += text.count("\n", place, end)
        place = end
    if is_list and not text.rstrip().endswith("]"):
        bad(line, "the list is cut. Its last character must be ]")


def kind_of(line, word, kinds):
    """The operation of the log for a name in a history."""
    if not isinstance(word, str) or KINDS.get(word) not in kinds:
        names = ", ".join(name for name, kind in KINDS.items() if kind in kinds)
        bad(line, f"the operation is {quoted(str(word))}, and may be {names}. Leave other operations out of the "
            "history")
    return KINDS[word]


def operands(line, kind, value):
    """The texts of an operation of this kind with this value."""
    if kind != "cas":
        return [text_of(value)] if kind == "set" else []
    if not isinstance(value, (list, tuple)) or len(value) != 2:
        bad(line, "the value of a cas is not a list of two values. Write the expected and the new value")
    return [text_of(item) for item in value]


def field(line, row, name):
    if name not in row:
        bad(line, f'the field "{name}" is missing. Add it')
    return row[name]


class Pairing:
    """Pairs each result with the invocation of its process. A process has one open operation at a time."""

    def __init__(self):
        self.operations, self.open, self.place = [], {}, 0

    def invoke(self, line, process, kind, key, texts):
        if process in self.open:
            bad(line, f"process {quoted(process)} invokes an operation, but its operation of line "
                f"{self.open[process].line} has no result yet. Use another process, or add the result")
        self.place += 1
        operation = Operation(line, process, kind, key, texts, self.place)
        self.operations.append(operation)
        self.open[process] = operation

    def complete(self, line, process, word):
        """Ends the open operation of a process, and returns it. The word is ok, fail or info."""
        if process not in self.open:
            bad(line, f"process {quoted(process)} has a result, but no invocation before it. Add the line of the "
                "invocation")
        operation = self.open.pop(process)
        if word != "info":
            self.place += 1
            operation.end, operation.outcome = self.place, "ok" if word == "ok" else "failed"
        return operation


def run(convert, doc, arguments=()):
    """Reads a history from standard input, and writes its log. `convert` returns the lines of the log and notes."""
    # If the judge has found an error, it reads no more.
    signal.signal(signal.SIGPIPE, signal.SIG_DFL)
    signal.signal(signal.SIGINT, signal.SIG_DFL)
    name = "adapters/import/" + sys.argv[0].rpartition("/")[2]
    parser = argparse.ArgumentParser(prog=name, description=doc, formatter_class=argparse.RawDescriptionHelpFormatter)
    for flag, options in arguments:
        parser.add_argument(flag, **options)
    options = parser.parse_args()
    try:
        lines, notes = convert(sys.stdin.buffer.read().decode("utf-8"), options)
    except UnicodeDecodeError as error:
        line = error.object.count(b"\n", 0, error.start) + 1
        parser.exit(2, f"{name}: line {line}: it is not UTF-8. Save the history in UTF-8\n")
    except Bad as error:
        parser.exit(2, f"{name}: {error}\n")
    except RecursionError:
        parser.exit(2, f"{name}: a value nests too deep. Write a text or a number\n")
    for note in notes:
        print(f"{name}: {note}", file=sys.stderr)
    sys.stdout.write("".join(line + "\n" for line in lines))
