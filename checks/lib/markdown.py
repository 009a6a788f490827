"""The pages of the repository, their fenced blocks, and the text around these blocks."""
import os
import re
from typing import NamedTuple

from shared import TOP

FENCE = re.compile(r"^( *)```([^`]*)$")


class Block(NamedTuple):
    """A fenced block: the line of its first fence, counted from 1, the words after the fence, and the text."""
    line: int
    words: tuple
    text: str


def pages():
    """The paths of all pages of the repository, README.md first, without the output of builds."""
    found = []
    for folder, folders, files in os.walk(TOP):
        folders[:] = sorted(name for name in folders if name != "out" and not name.startswith("."))
        found += [os.path.relpath(os.path.join(folder, name), TOP) for name in sorted(files) if name.endswith(".md")]
    return sorted(found, key=lambda page: (os.path.dirname(page) != "", page))


def read(page):
    with open(os.path.join(TOP, page), encoding="utf-8") as file:
        return file.read()


def blocks(text):
    """The fenced blocks of a page. A block that is not closed ends with the page."""
    return split(text)[0]


def outside(text):
    """A page with spaces in place of its fenced blocks, so that all other text keeps its place."""
    return split(text)[1]


def split(text):
    found, around = [], []
    opened = None
    for number, line in enumerate(text.split("\n"), 1):
        fence = FENCE.match(line)
        if opened is None and not fence:
            around.append(line)
            continue
        around.append(" " * len(line))
        if opened is None:
            opened, lines = (number, fence), []
        elif fence and not fence.group(2).strip():
            found.append(block_of(*opened, lines))
            opened = None
        else:
            lines.append(line)
    if opened is not None:
        found.append(block_of(*opened, lines))
    return found, "\n".join(around)


def block_of(number, fence, lines):
    indent = len(fence.group(1))
    return Block(number, tuple(fence.group(2).split()), "".join(line[indent:] + "\n" for line in lines))
