"""Parses the output of a store for a schedule, and finds its first difference from the expected output.

A store prints a report, a trace, or both (docs/FORMATS.md). In a trace, the lines `event` and `sent` are always
compared. Another kind of line is compared if the store prints lines of that kind and the expected ones are known. All
other lines are ignored. A report is compared as a whole. A line `refused` without a name agrees with every name.
"""
import dataclasses
import itertools
import re

TRACE_KINDS = frozenset({"event", "refused", "promises", "acceptances", "ignored", "learned", "sent", "front",
                         "executed", "reply"})
CLOSING = re.compile(r"server \d+ front \d+ executed |unheard ")
REPORT_BEGIN = re.compile(r"servers \d+ messages |server \d+ front \d+ done ")
REPORT_REFUSAL = re.compile(r"refused \d+(\s|$)")
REPORT_KINDS = frozenset({"refused", "servers", "server", "reply"})

# The sorts of a difference.
LINES, REPORT, CRASH, HANG, FLOOD, SILENCE, NO_FORMAT, NO_ANSWER = (
    "lines", "report", "crash", "hang", "flood", "silence", "no format", "no answer")
# In these sorts, the store printed lines that can be compared.
COMPARED = (LINES, REPORT)
FIRST_LINES = 5  # lines of an output that has no format


@dataclasses.dataclass
class Texts:
    """The lines of a trace (a list for each event, and one for the lines at the end) and the lines of a report."""
    events: list
    closing: list
    report: list

    def kinds(self):
        """The kinds of lines in the trace. `event` and `sent` always count."""
        return {kind_of(line) for lines in [*self.events, self.closing] for line in lines} | {"event", "sent"}


@dataclasses.dataclass
class Difference:
    """The first difference of a store: its sort, its description, the index of the event (None if it is not known), the
    lines that should agree, and the lines of standard error, if the store failed. `is_at_end` says that the lines come
    after those of the last event."""
    about: str
    words: str
    event: int = None
    expected: list = dataclasses.field(default_factory=list)
    found: list = dataclasses.field(default_factory=list)
    said: list = dataclasses.field(default_factory=list)
    is_at_end: bool = False

    def is_failure(self):
        """Whether the store printed nothing that can be compared."""
        return self.about not in COMPARED

    def like(self):
        """What differs, without names and numbers. Two schedules that show the same bug usually agree in this."""
        return self.about, kinds_in(self.expected, self.found), kinds_in(self.found, self.expected)


def kind_of(line):
    return line.split(" ", 1)[0]


def kinds_in(lines, others):
    """The kinds of the lines that are not among the others. The kind of a message belongs to the kind of its line."""
    return frozenset(" ".join(line.split(" ")[0::2][:2]) if line.startswith("sent ") else kind_of(line)
                     for line in set(lines) - set(others))


def read_texts(text):
    """The lines of a trace and of a report in the output of a store."""
    texts = Texts([], [], [])
    in_report = False
    for line in text.split("\n"):
        if kind_of(line) == "event":
            in_report = False
            texts.events.append([line])
        elif in_report or REPORT_BEGIN.match(line) or REPORT_REFUSAL.match(line):
            in_report = in_report or REPORT_BEGIN.match(line) is not None
            if kind_of(line) in REPORT_KINDS:
                texts.report.append(line)
        elif CLOSING.match(line):
            texts.closing.append(line)
        elif texts.events and kind_of(line) in TRACE_KINDS:
            texts.events[-1].append(line)
    return texts


def agree(expected, found):
    """Whether two lines agree. None means that a line is missing."""
    if expected == found:
        return True
    return expected is not None and found is not None and kind_of(expected) == "refused" and (
        found == expected.rsplit(" ", 1)[0])


def all_agree(expected, found):
    return all(agree(*pair) for pair in itertools.zip_longest(expected, found))


def differ_in_trace(expected, kinds, found):
    """The first difference of two traces in lines of these kinds, or None."""
    compared_kinds = kinds & found.kinds()

    def compared(lines):
        return [line for line in lines if kind_of(line) in compared_kinds]

    for index, (ours, theirs) in enumerate(itertools.zip_longest(expected.events, found.events, fillvalue=[])):
        if not all_agree(compared(ours), compared(theirs)):
            return Difference(LINES, "its trace has other lines", index, compared(ours), compared(theirs))
    if not all_agree(compared(expected.closing), compared(found.closing)):
        return Difference(LINES, "its trace has other lines at the end", max(len(expected.events) - 1, 0),
                          compared(expected.closing), compared(found.closing), is_at_end=True)
    return None


def differ_in_report(expected, found):
    """The difference of two reports, or None. A report does not show which event caused the difference."""
    if all_agree(expected.report, found.report):
        return None
    return Difference(REPORT, "its report has other lines", None, expected.report, found.report)


def first_difference(expected, kinds, text):
    """The first difference between the expected output and a store's output, or None. `kinds` are the kinds of lines of
    a trace that are compared."""
    found = read_texts(text)
    if not found.events and not found.closing and not found.report:
        if not expected.events:
            return None
        if not text.strip():
            return Difference(SILENCE, "the store printed nothing")
        return Difference(NO_FORMAT, "the store printed neither a report nor lines of a trace", None, [],
                          text.rstrip("\n").split("\n")[:FIRST_LINES])
    difference = None
    if found.events or found.closing:
        difference = differ_in_trace(expected, kinds, found)
    if difference is None and found.report:
        difference = differ_in_report(expected, found)
    return difference


def shows_replies(kinds, text):
    """Whether the output of a store has lines about histories and replies that are compared: a report, or lines `reply`
    if the lines of a trace that are compared include them."""
    return any(REPORT_BEGIN.match(line) or kind_of(line) in kinds & {"reply"} for line in text.split("\n"))


def failed(ended, seconds, is_kept):
    """The difference of a store that did not end by itself, ended with a status other than 0, or gave an answer that is
    not one. Otherwise None. A negative status means a signal."""
    event = last_event(read_texts(ended.text))
    if ended.is_flood:
        return Difference(FLOOD, "the store printed without end", event, said=ended.said)
    if ended.status is None:
        words = f"the store had not {'answered' if is_kept else 'ended'} after {seconds:g} seconds"
        return Difference(HANG, words, event, said=ended.said)
    if ended.status != 0:
        words = (f"the store ended with status {ended.status}" if ended.status > 0
                 else f"the store was ended by signal {-ended.status}")
        return Difference(CRASH, words, event, said=ended.said)
    if ended.problem:
        return Difference(NO_ANSWER, ended.problem, None, [], ended.text.splitlines()[:FIRST_LINES], ended.said)
    return None


def last_event(texts):
    return len(texts.events) - 1 if texts.events else None
