"""Calls the shared library, which is the first of these:

- the library that the environment variable MENCIUS_LIBRARY names;
- the library in this package, if it was built with one;
- in a clone of the repository, native/libmencius.so on Linux on x86-64, and native/out/libmencius.so, which
  native/translate builds.
"""
import ctypes
import functools
import os
import platform
import sys
import weakref
from dataclasses import dataclass
from typing import Iterable, List, Optional, Tuple, Union

HERE = os.path.dirname(os.path.realpath(__file__))
NATIVE = os.path.join(HERE, "..", "..", "..", "native")


class LibraryMissing(OSError):
    """There is no library for this machine."""


class Fault(Exception):
    """The program ended with a fault, or with an error of the command line. `status` is its exit status and `said` is
    its standard error."""

    def __init__(self, status: int, said: str) -> None:
        super().__init__(said.strip() or f"mencius ended with status {status}")
        self.status, self.said = status, said


@dataclass(frozen=True)
class Answer:
    """The exit status, the standard output and the standard error of a call, and whether it read its input."""
    status: int
    printed: bytes
    said: bytes
    asked: bool


class _Numbers(ctypes.Structure):
    _fields_ = [(name, ctypes.c_uint64) for name in ("status", "printed", "said", "asked")]


def places() -> List[str]:
    named = os.environ.get("MENCIUS_LIBRARY")
    if named:
        return [named]
    found = [os.path.join(HERE, "libmencius.so")]
    if sys.platform == "linux" and platform.machine() == "x86_64":
        found.append(os.path.join(NATIVE, "libmencius.so"))
    return [path for path in [*found, os.path.join(NATIVE, "out", "libmencius.so")] if os.path.isfile(path)]


class _State(ctypes.Structure):
    _fields_ = [("is_begun", ctypes.c_uint8), ("state", ctypes.c_void_p)]


_TEXT, _LENGTH, _ROOM = ctypes.c_char_p, ctypes.c_size_t, ctypes.c_void_p
_OUT = [_ROOM, _LENGTH, _ROOM, _LENGTH, ctypes.POINTER(_Numbers)]
_JUDGE = ctypes.POINTER(_State)
_FUNCTIONS = {
    "mencius_call": [_TEXT, _LENGTH, _TEXT, _LENGTH, *_OUT],
    "mencius_judge_begin": [_JUDGE, ctypes.c_uint8, ctypes.c_uint8],
    "mencius_judge_take": [_JUDGE, _TEXT, _LENGTH, *_OUT],
    "mencius_judge_verdict": [_JUDGE, *_OUT],
    "mencius_judge_free": [_JUDGE],
}


@functools.lru_cache(maxsize=None)
def _function(name: str):
    if not places():
        raise LibraryMissing(
            "mencius has no library for this machine. In a clone of its repository, native/translate builds "
            "native/out/libmencius.so with wasm2c and a C compiler. Name its path in MENCIUS_LIBRARY.")
    function = ctypes.CDLL(places()[0])[name]
    function.restype = None
    function.argtypes = _FUNCTIONS[name]
    return function


def _answer(name: str, given: tuple, rooms: Tuple[int, int]) -> Answer:
    """The answer of a call with these first arguments. If a text does not fit, calls again with more room. A judge gives
    the same verdict again."""
    numbers = _Numbers()
    while True:
        printed, said = (ctypes.create_string_buffer(room) for room in rooms)
        _function(name)(*given, printed, rooms[0], said, rooms[1], numbers)
        if numbers.printed <= rooms[0] and numbers.said <= rooms[1]:
            return Answer(numbers.status, printed.raw[:numbers.printed], said.raw[:numbers.said], bool(numbers.asked))
        rooms = (numbers.printed + 1, numbers.said + 1)


def call(arguments: Iterable[Union[str, bytes]], data: bytes = b"") -> Answer:
    """Does a task of the program with these arguments and this standard input. Several threads may call it."""
    words, data = b"".join(os.fsencode(word) + b"\0" for word in arguments), bytes(data)
    return _answer("mencius_call", (words, len(words), data, len(data)), (65_536 + 8 * len(data), 4_096))


class LogJudge:
    """A judge that takes a log in pieces. It keeps no line after its end. Its calls may come from several threads, one at
    a time."""

    def __init__(self, is_brief: bool = False, is_json: bool = False) -> None:
        self._state = _State()
        free = _function("mencius_judge_free")
        _function("mencius_judge_begin")(self._state, is_brief, is_json)
        weakref.finalize(self, free, self._state)

    def take(self, data: bytes) -> Optional[Answer]:
        """Takes the next bytes. Returns the verdict if a line breaks a promise or is bad, and None otherwise. After a
        verdict, the judge takes nothing more, and returns the same verdict again."""
        answer = _answer("mencius_judge_take", (self._state, data, len(data)), (0, 0))
        return None if answer.asked else answer

    def verdict(self) -> Answer:
        """The verdict on the log if it ends here. The judge may take more after that."""
        return _answer("mencius_judge_verdict", (self._state,), (0, 0))


def checked(answer: Answer) -> str:
    """The standard output of a call. Raises Fault if it ended with a status other than 0 and 1."""
    if answer.status > 1:
        raise Fault(answer.status, answer.said.decode("utf-8", "replace"))
    return answer.printed.decode("utf-8")


def text_of(arguments: List[str], data: bytes) -> str:
    """The standard output of a task. Raises Fault if it ends with a status other than 0 and 1."""
    return checked(call(arguments, data))
