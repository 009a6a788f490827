"""The task judge for a whole log, and for observations while they are made. docs/FORMATS.md describes both."""
import json
import threading
from dataclasses import dataclass
from typing import Any, Dict, Optional, Tuple, Union

from .library import LogJudge, checked, text_of


@dataclass(frozen=True)
class LogLine:
    """A line of a log. `line` counts from 1."""
    line: int
    text: str


@dataclass(frozen=True)
class Verdict:
    """A verdict. `word` is `ok`, `unjudged` or `violation`. For a violation, `promise`, `line`, `lines` and `sentence`
    say what is broken, where, and why. `values` has all other words of the verdict, such as `servers` or `command`."""
    word: str
    promise: Optional[str]
    line: Optional[int]
    lines: Tuple[LogLine, ...]
    sentence: Optional[str]
    values: Dict[str, Any]

    def is_ok(self) -> bool:
        return self.word == "ok"


class Violation(Exception):
    """An observation breaks a promise. `verdict` says which one."""

    def __init__(self, verdict: Verdict) -> None:
        shown = "".join(f"\nline {line.line}: {line.text}" for line in verdict.lines)
        super().__init__(f"line {verdict.line} breaks {verdict.promise}. {verdict.sentence}{shown}")
        self.verdict = verdict


def judge(log: Union[str, bytes]) -> Verdict:
    """Judges a whole log. Raises Fault if a line is not an observation."""
    data = log.encode("utf-8", "surrogatepass") if isinstance(log, str) else log
    return _verdict_in(text_of(["judge", "--json"], data))


def _verdict_in(text: str) -> Verdict:
    found = json.loads(text)
    lines = tuple(LogLine(line["line"], line["text"]) for line in found.pop("lines", ()))
    return Verdict(found.pop("verdict"), found.pop("promise", None), found.pop("line", None), lines,
                   found.pop("sentence", None), found)


class Judge:
    """Judges observations while they are made. Several threads may add them.

    It judges each observation at once, and raises Violation at the first one that breaks a promise. It keeps what it
    needs to judge the rest, and not the log. `verdict` is the verdict on all observations so far.

    An observation after a violation raises it again.
    """

    def __init__(self) -> None:
        self._judge = LogJudge(is_json=True)
        self._lock = threading.Lock()

    def __enter__(self) -> "Judge":
        return self

    def __exit__(self, kind: Any, error: Any, trace: Any) -> None:
        if kind is None:
            self._raise(self.verdict())

    def verdict(self) -> Verdict:
        """The verdict on all observations so far."""
        with self._lock:
            return _verdict_in(checked(self._judge.verdict()))

    def observe(self, line: str) -> None:
        """Adds a line of a log, such as `settled 0`. Raises Fault if it is not an observation."""
        if "\n" in line:
            raise ValueError(f"an observation is one line, but this has several: {line!r}")
        with self._lock:
            found = self._judge.take(line.encode("utf-8", "surrogatepass") + b"\n")
        if found is not None:
            self._raise(_verdict_in(checked(found)))

    def submit(self, command: str, operation: str, key: str, *texts: str) -> None:
        """A client submitted a command, such as submit("1.0", "set", "a", "x")."""
        self.observe(" ".join(["submit", command, operation, key, *texts]))

    def execute(self, server: int, command: str) -> None:
        """A server executed a command next."""
        self.observe(f"execute {server} {command}")

    def reply(self, command: str, text: Optional[str]) -> None:
        """A client got a reply: the text at the key before the command, or None if there was none."""
        self.observe(f"reply {command} " + ("none" if text is None else f"={text}"))

    def took_effect(self, command: str) -> None:
        """A client was told that its command took effect."""
        self.observe(f"reply {command} ok")

    def failed(self, command: str) -> None:
        """A client was told that its command changed nothing and never will."""
        self.observe(f"reply {command} failed")

    def lookup(self, reader: int, key: str, text: Optional[str]) -> None:
        """A reader looked up a key, and found a text or, with None, nothing."""
        self.observe(f"lookup {reader} {key} " + ("none" if text is None else f"={text}"))

    @staticmethod
    def _raise(verdict: Verdict) -> None:
        if verdict.word == "violation":
            raise Violation(verdict)
