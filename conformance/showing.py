"""Shows a difference as text or as JSON."""
import difflib
import json
import shlex

import answers
import links

CONTEXT, SHORT_CONTEXT = 3, 12  # events before the difference whose trace is shown
SHOWN_LINES = 40  # lines of a difference, and lines before it, at most
EVENT_LINES = 8  # lines of one event before the difference, at most
LONGEST_LINE = 400  # characters of a line, at most
LONGEST_LINK = 1_000  # characters of a link that is shown without --open, at most

HINT = {
    False: "The store gets the schedule on standard input, and must print a report, a trace or both on standard output"
           " (docs/TESTING_A_STORE.md).",
    True: "With --keep, the store gets one schedule in each line, and must answer each with one line, and flush it"
          " (docs/TESTING_A_STORE.md).",
}
CARRIAGE_RETURN = "\\r is a carriage return. The store must end a line with a line feed alone."
NO_REPLIES = "The store printed no report, so no history and no reply was compared."
SPACE = "Some of the lines differ only in the spaces at their end."


# ---- lines

def visible(line):
    """The line, with an escape for each character that a terminal does not show. A long line is cut."""
    rest = len(line) - LONGEST_LINE
    shown = "".join(character if character.isprintable() else repr(character)[1:-1]
                    for character in line[:LONGEST_LINE])
    return shown + f" .. ({rest} more characters)" * (rest > 0)


def side_by_side(expected, found):
    """The lines of both. A line that is only expected gets a `-`, and a line that is only found gets a `+`."""
    lines = list(difflib.unified_diff(expected, found, n=len(expected) + len(found), lineterm=""))[3:]
    lines = lines or [" " + line for line in expected]
    if len(lines) > SHOWN_LINES:
        lines = [line for line in lines if line[0] != " "]
    rest = len(lines) - SHOWN_LINES
    return ([line[0] + " " + visible(line[1:]) for line in lines[:SHOWN_LINES]]
            + [f"  (and {rest} more lines that differ)"] * (rest > 0))


def lines_of_event(lines):
    rest = len(lines) - EVENT_LINES
    return lines[:EVENT_LINES] + [f"({rest} more lines of this event)"] * (rest > 0)


def context(events, last, before):
    """The first event that is shown, and the lines of the events up to `last`, but not of `last` itself."""
    lines, first = [], last
    while first > max(last - before, 0) and len(lines) + len(lines_of_event(events[first - 1])) <= SHOWN_LINES:
        first -= 1
        lines = lines_of_event(events[first]) + lines
    return first, lines


def describe(difference, schedule, expected, before):
    """The first event that is shown, and the lines that show a difference: the trace of at most `before` events before
    it, and the lines that differ."""
    last = max(len(schedule.events) - 1, 0) if difference.event is None else difference.event
    first, lines = context(expected.events, last, before)
    if (difference.about != answers.LINES or difference.is_at_end) and last < len(expected.events):
        lines += lines_of_event(expected.events[last])
    if difference.is_failure():
        lines += expected.report * (not schedule.events)
    else:
        return first, ["  " + line for line in lines] + side_by_side(difference.expected, difference.found)
    return first, ["  " + line for line in lines]


def remarks(difference):
    """Says what the reader may not see in the lines."""
    if any("\r" in line for line in difference.found):
        return [CARRIAGE_RETURN]
    expected, found = set(difference.expected), set(difference.found)
    trimmed = {line.rstrip() for line in expected - found} & {line.rstrip() for line in found - expected}
    return [SPACE] if trimmed else []


def outputs(difference):
    """The lines of a store that failed, on standard output and on standard error."""
    lines = ["standard output:"] * bool(difference.found) + ["+ " + visible(line) for line in difference.found]
    return lines + ["standard error:"] * bool(difference.said) + ["! " + visible(line) for line in difference.said]


# ---- a finding

def lines_of_finding(finding, work, chosen):
    """The text of a finding."""
    difference, schedule = finding.difference, finding.schedule
    place = "" if difference.event is None else f" at event {difference.event}"
    what = "fails" if difference.is_failure() else "differs"
    lines = [f"{schedule.name} ({count_of(schedule)}) {what}{place}: {difference.words}"]
    if difference.is_failure():
        lines += outputs(difference)
    else:
        _, shown = describe(difference, schedule, work.source.expect(schedule), CONTEXT)
        lines += ["(- marks expected lines, + marks found lines)", *shown]
    lines += remarks(difference)
    if not finding.is_steady:
        return lines + unsteady(finding, chosen)
    return lines + ["", *lines_of_short(finding, work, chosen)]


def unsteady(finding, chosen):
    where = "In a new process of the store" if chosen.keep else "In a second run of the same schedule"
    lines = [f"{where}, the store did not differ in this way. The schedule is in {chosen.out}."]
    if chosen.keep:
        lines.append("Perhaps the store keeps something of the schedules before.")
    if chosen.jobs > 1:
        lines.append("Perhaps several runs of the store share a port or a file. Then add --jobs 1.")
    return lines


def lines_of_short(finding, work, chosen):
    """The text of the shortest schedule."""
    difference, short = finding.short_difference, finding.short
    first, shown = describe(difference, short, work.source.expect(short), SHORT_CONTEXT)
    part = f", of which events {first} to {len(short.events) - 1} are shown" if first else ""
    what = ". The expected output includes" if difference.is_failure() else ""
    lines = [f"shortened to {count_of(short)} ({how_short(finding)}) in {chosen.out}{part}{what}:", *shown]
    if difference.is_failure():
        lines += [] if chosen.keep else [f"To repeat it: {shlex.join(chosen.store)} < {shlex.quote(chosen.out)}"]
    if difference.is_failure() and not work.agreed:
        return lines + [HINT[chosen.keep]]
    return lines + (["To look at it: " + way_to_the_page(finding, chosen)] if short.events else [])


def link_to(finding):
    """The link that opens the page with the shortest schedule, at the event that differs, or None if it is too long."""
    return links.link(finding.short, finding.short_difference.event)


def way_to_the_page(finding, chosen):
    link = link_to(finding)
    if link and (chosen.open or len(link) <= LONGEST_LINK):
        return link
    return f"open {links.PAGE} in a browser, and drop {chosen.out} on it"


def how_short(finding):
    if finding.is_least():
        return "the least"
    return "no event can be left out" if finding.is_minimal else "--shorten gives more time"


def count_of(schedule):
    count = len(schedule.events)
    return f"{count} event{'s' * (count != 1)}"


# ---- the result

def summary(work, choice, is_whole):
    """Says how many schedules agree, why others were left out, and what was not compared."""
    agree = f"{work.agreed} schedule{'s' * (work.agreed != 1)} agree{'s' * (work.agreed == 1)}"
    if not is_whole:
        agree = f"interrupted: {work.agreed} of {choice.count} schedules agree"
    return "\n".join([agree, *choice.remarks(), *[NO_REPLIES] * (work.agreed > 0 and not work.has_replies)])


def difference_as_json(schedule, difference):
    return {"schedule": schedule.name, **schedule.members, "events": schedule.events,
            "about": difference.about, "words": difference.words, "event": difference.event,
            "expected": difference.expected, "found": difference.found, "standard_error": difference.said}


def as_json(work, choice, is_whole, path):
    finding = work.finding
    result = {"agreed": work.agreed, "schedules": choice.count, "left_out": dict(choice.left_out),
              "interrupted": not is_whole, "difference": None}
    if finding:
        result["difference"] = difference_as_json(finding.schedule, finding.difference)
        result["shortest"] = difference_as_json(finding.short, finding.short_difference)
        result.update(is_least=finding.is_least(), is_minimal=finding.is_minimal, is_steady=finding.is_steady,
                      file=path, link=link_to(finding))
    return json.dumps(result)
