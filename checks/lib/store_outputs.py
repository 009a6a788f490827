"""Gives the page the output of a store, and looks at the first difference that it shows. `conformance/store.py` prints
the outputs, with and without a broken rule."""
import os
import sys

from files import drop
from page_user import cursor, same
from shared import TOP, start_to

EXAMPLE = "wrong_suspicion_keeps_the_command"
BREAK = "suggestion_is_no_vote"
# A line of a store that the browser would take as HTML.
HOSTILE = "event 0 <img src=x onerror='document.title=1'>\n"


def look(browser):
    browser.choose("#example", EXAMPLE)
    right, wrong = trace_of_store(), trace_of_store("--break", BREAK)
    drop_a_wrong_trace(browser, right, wrong)
    step_both(browser, right, wrong)
    paste_a_right_trace(browser, right)
    look_at_ends_of_lines(browser, right)
    look_at_reports(browser, right)
    look_at_other_texts(browser)
    browser.click("#tab-lesson")


def output_of_store(*words, example=EXAMPLE):
    with open(os.path.join(TOP, "examples", example + ".json"), encoding="utf-8") as file:
        call = [sys.executable, os.path.join(TOP, "conformance", "store.py"), *words, "-"]
        return start_to(call, file.read(), 0).printed


def trace_of_store(*words, **options):
    return output_of_store("--trace", *words, **options)


def first_difference(right, wrong):
    """The event, the number of the line and both lines of the first difference of two traces."""
    event = -1
    for number, (ours, theirs) in enumerate(zip(right.splitlines(), wrong.splitlines()), 1):
        event += ours.startswith("event ")
        if ours != theirs:
            return event, number, ours, theirs
    raise ValueError("the traces agree")


def lines_of_event(trace, event):
    parts = ("\n" + trace).split("\nevent ")[1:]
    return ("event " + parts[event]).splitlines()


def rows(browser):
    return browser.run("return [...document.querySelectorAll('#pair tr')].map(row => [...row.children]"
                       ".map(part => part.textContent))")


def verdict(browser, start):
    browser.wait(f"return document.getElementById('difference').textContent.startsWith('{start}')", start)
    return browser.text("#difference")


def remarks(browser):
    return browser.run("return [...document.querySelectorAll('#remarks li')].map(part => part.textContent)")


def drop_a_wrong_trace(browser, right, wrong):
    event, number, ours, theirs = first_difference(right, wrong)
    drop(browser, "store.trace", wrong)
    said = verdict(browser, "The first difference is at event ")
    same(browser, "the first difference", f"The first difference is at event {event} (", said.split("(")[0] + "(")
    same(browser, "the two lines", [["reference", ours], [f"your store, line {number}", theirs]], rows(browser))
    length = right.count("event ")
    same(browser, "the cursor at the difference", f"{event + 1} of {length}", cursor(browser))
    here = lines_of_event(right, event)[0].removeprefix("event ")
    same(browser, "the row of the picture at the difference", here, browser.text("#rows .here"))


def step_both(browser, right, wrong):
    """A step shows the lines of both for another event, and a button leads back."""
    event = first_difference(right, wrong)[0]
    browser.click("#back")
    same(browser, "the first difference after a step", f"The first difference is at event {event} ",
         browser.text("#difference").split("(")[0])
    found = browser.run("""return [...document.querySelectorAll('#sides ol')].map(list =>
      [...list.children].map(row => row.textContent).filter(line => /^(event|sent) /.test(line)))""")
    same(browser, "the lines of both for the event before",
         [lines_of_event(right, event - 1), lines_of_event(wrong, event - 1)], found)
    browser.click("#to-difference")
    same(browser, "the cursor after the button", str(event + 1), cursor(browser).split(" ")[0])
    marked = browser.run("return [...document.querySelectorAll('#sides .differs')].map(row => row.textContent)")
    wanted = [f"differs: {line}" for line in first_difference(right, wrong)[2:]]
    same(browser, "the marked lines", wanted, marked)


def agreed(text):
    events, lines = text.count("event "), len(text.splitlines())
    return f"No difference. {events} events with {lines} lines of a trace (event, sent)"


def paste_a_right_trace(browser, right):
    browser.write("#output", right)
    same(browser, "an output without a difference", agreed(right) + " agree.", verdict(browser, "No difference"))
    same(browser, "its lines", [], rows(browser))
    browser.write("#output", right[:right.rindex("event ")])
    last = right.count("event ") - 1
    said = verdict(browser, "The first difference")
    same(browser, "a trace that ends too soon", True, f"at event {last} (" in said and said.endswith("ends before it."))


def look_at_ends_of_lines(browser, right):
    count = len(right.splitlines())
    drop(browser, "returns.trace", right.replace("\n", "\r\n"))
    same(browser, "the difference of a trace with carriage returns", agreed(right) + " agree.",
         verdict(browser, "No difference"))
    same(browser, "the remark about carriage returns",
         [f"{count} lines of your store end in a carriage return. A store must end each line with a line feed alone."],
         remarks(browser))
    drop(browser, "spaces.trace", "".join(line + " \n" for line in right.splitlines()))
    same(browser, "the remark about spaces", f"{count} lines of your store differ only in the spaces at the end. The"
         " first is line 1.", "".join(remarks(browser))[:-len(" conformance/compare reports this as a difference.")])


def look_at_reports(browser, right):
    """In the report, the first wrong line is that of server 1, which executes a no-op instead of the command."""
    report, wrong = output_of_store(), output_of_store("--break", BREAK)
    drop(browser, "both.txt", right + report)
    same(browser, "a trace and a report", f"{agreed(right)} and {len(report.splitlines())} lines of a report agree.",
         verdict(browser, "No difference"))
    pairs = [pair for pair in zip(report.splitlines(), wrong.splitlines()) if pair[0] != pair[1]]
    first = next(pair for pair in pairs if pair[0].startswith("server 1 "))
    drop(browser, "store.report", wrong)
    said = verdict(browser, "The report differs from the reference")
    same(browser, "the count of lines", f"The report differs from the reference in {len(pairs)} lines.",
         said[:said.index(".") + 1])
    same(browser, "the two lines of the report", list(first), [row[1] for row in rows(browser)])
    event = next(at for at in range(right.count("event ")) if lines_of_event(right, at)[0].endswith(" execute 1"))
    same(browser, "the cursor at the execution", str(event + 1), cursor(browser).split(" ")[0])


def look_at_other_texts(browser):
    drop(browser, "other.trace", trace_of_store(example="one_command"))
    verdict(browser, "The first difference is at event 1 (")
    same(browser, "whether the page says that the schedules differ", True, "another schedule" in remarks(browser)[0])
    drop(browser, "hostile.trace", HOSTILE)
    verdict(browser, "The first difference is at event 0 (")
    same(browser, "the hostile line", HOSTILE.rstrip(), rows(browser)[1][1])
    same(browser, "the elements of the hostile line", 0, browser.run("return document.images.length"))
    browser.write("#output", "hello")
    verdict(browser, "This is neither a trace nor a report.")
