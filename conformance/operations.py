"""The operations of commands. Code that draws commands, or needs their versions or effects, takes them from here."""
from typing import NamedTuple


class Operation(NamedTuple):
    """The number of texts after the key, the first version of scenarios with the operation, and its weight in draws."""
    texts: int
    version: int
    times: int


OPERATIONS = {
    "set": Operation(texts=1, version=1, times=2),
    "get": Operation(texts=0, version=1, times=1),
    "del": Operation(texts=0, version=1, times=1),
    "cas": Operation(texts=2, version=2, times=3),
}
NEWEST = max(operation.version for operation in OPERATIONS.values())


def is_without_effect(held, word, texts):
    """Whether an operation only reads, or expects a text that its key does not hold. None means that it holds no text."""
    return word == "get" or (word == "cas" and held != texts[0])


def text_after(held, word, texts):
    """The text that a key holds after an operation with these texts, if it held the text `held`. None means no text."""
    if is_without_effect(held, word, texts):
        return held
    return texts[-1] if texts else None


def is_right(reply, held, word, texts):
    """Whether a reply is right for an operation whose key held the text `held`. It is a word of a log, such as `ok`."""
    if reply == "ok":
        return word == "get" or not is_without_effect(held, word, texts)
    if reply == "failed":
        return is_without_effect(held, word, texts)
    return reply == ("none" if held is None else "=" + held)


def version_of(events):
    """The least version of a scenario with these events."""
    submitted = [word for event in events if event.startswith("submit ") for word in event.split(" ")[3:4]]
    return max((OPERATIONS[word].version for word in submitted if word in OPERATIONS), default=1)


def of_version(version):
    """The words of the operations of a version. Each is repeated according to its weight in draws."""
    return [word for word, operation in OPERATIONS.items() if operation.version <= version
            for _ in range(operation.times)]


def samples(key="a", texts=("x", "y")):
    """An example of each operation, with this key and as many of these texts as it needs."""
    return [" ".join([word, key, *texts[:operation.texts]]) for word, operation in OPERATIONS.items()]
