"""Tries a change in the middle of a schedule. The later deliveries and losses must mean the same messages as before.

The plain store of conformance/store.py tells what each message says, so the page is compared with another program.
"""
import json
import os
import re
import sys

from page_user import URL, act, cursor, do, same, schedule
from shared import TOP, fail

sys.path.append(os.path.join(TOP, "conformance"))

import store
from driver import Refused, text_of

# Server 2 hears message 0 before the cursor, so the acceptance of server 2 gets number 1. The later events still mean
# what they meant: the acceptances of servers 1 and 0 and the Learn.
WANTED = ["submit 0 1.0 set a x", "deliver 0 2", "deliver 0 1", "deliver 0 0", "deliver 2 0", "deliver 3 0", "execute 0"]
NOT_SENT = [("a message that was not sent", 0)]


def meanings(scenario):
    """The events, but deliveries and losses name the text of their message, and how many earlier ones have that text."""
    cluster = store.replay({**scenario, "events": []})
    names, counts, found = [], {}, []
    for event in scenario["events"]:
        word, *words = event.split(" ")
        is_of_message = word in ("deliver", "lose")
        found.append((word, (names + NOT_SENT)[min(int(words[0]), len(names))], words[1]) if is_of_message else event)
        try:
            cluster.step(event.split(" "))
        except Refused:
            pass
        for message in cluster.messages[len(names):]:
            says = text_of(message)
            names.append((says, counts.get(says, 0)))
            counts[says] = names[-1][1] + 1
    return found


def read(browser):
    scenario = json.loads(schedule(browser))
    browser.click("#tab-lesson")
    return scenario


# The number of buttons in the message, and whether the message is in sight.
MESSAGE = """const toast = document.getElementById('toast');
  return [toast.querySelectorAll('button').length, toast.classList.contains('seen')]"""


def look(browser):
    browser.open(URL + "#n=3&at=0&e=")
    browser.choose("#example", "one_command")
    act(browser, "before 1")
    do(browser, "deliver 0 2")
    same(browser, "the events after an insertion", WANTED, read(browser)["events"])
    take_out_the_sender(browser)
    undo_by_the_bar(browser)
    undo_by_a_double_click(browser)


def insert_into_drawn_schedules(browser):
    for place, event in ((9, "deliver 0 0"), (17, "submit 1 9.0 set a q"), (30, "suspect 2 0"), (30, "submit 2 9.0 set a q")):
        insert_into_a_drawn_schedule(browser, place, event)


def part_of(meaning):
    """What stays of a message if its value, its vote or its end changes. A Suggest of another command is another one."""
    if isinstance(meaning, str) or "Suggest" in meaning[1][0]:
        return meaning
    word, (says, _), server = meaning
    return word, re.sub(r"( instances? \d+( ballot \d+)?).*", r"\1", says), server


def insert_into_a_drawn_schedule(browser, place, event):
    """The later events must keep their meaning and their order. The page must count those that are gone or altered."""
    browser.open(URL + "#n=3&at=0&e=")
    browser.run("for (let left = 4; left > 0; left -= 1) document.getElementById('random20').click()")
    before = meanings(read(browser))[place:]
    browser.run(f"go({place}); add({json.dumps(event)})")
    after = meanings(read(browser))[place + 1:]
    left, altered = list(before), 0
    for meaning in after:
        at = next((at for at, one in enumerate(left) if part_of(one) == part_of(meaning)), None)
        if at is None:
            fail(f"{browser.name}: after `{event}` at {place}, a later event means something else: {meaning}")
        altered += left[at] != meaning
        del left[:at + 1]
    gone = len(before) - len(after)
    says = browser.text("#toast")
    told = re.search(r"(\d+) later events? ha(?:s|ve) a message that says", says)
    same(browser, f"the altered messages that the page counts: {says}", altered, int(told.group(1)) if told else 0)
    same(browser, f"whether the page tells of missing events: {says}", gone > 0, "Nobody sends" in says)
    same(browser, f"whether most events stay after `{event}` at {place}", True, gone < 20)


def take_out_the_sender(browser):
    """Without its submission, a command is neither accepted nor learned, and its execution is refused."""
    browser.choose("#example", "one_command")
    act(browser, "before 1")
    browser.click('#dock [data-do="out"]')
    same(browser, "the events without the submission", ["execute 0"], read(browser)["events"])
    same(browser, "whether the page says that an event is refused", True,
         "1 later event is refused now" in browser.text("#toast"))
    browser.click("#toast [data-undo]")
    same(browser, "what is left of the message after its undo", [0, False], browser.run(MESSAGE))
    same(browser, "the events after the undo of the message", 6, len(read(browser)["events"]))


def undo_by_the_bar(browser):
    """A message with an undo goes if its change is undone in another way. Its button would undo one more change."""
    browser.choose("#example", "one_command")
    act(browser, "before 1")
    browser.click('#dock [data-do="out"]')
    same(browser, "whether the message has an undo", True, "undo" in browser.text("#toast"))
    browser.click("#undo")
    same(browser, "the message after an undo by the bar", [0, False], browser.run(MESSAGE))
    same(browser, "the events after the undo by the bar", 6, len(read(browser)["events"]))


# Moves the message, so that its undo is in front of the button for the next event.
COVER = """const middle = part => { const { left, top, width, height } = part.getBoundingClientRect();
    return [left + width / 2, top + height / 2]; };
  const toast = document.getElementById('toast'), next = document.getElementById('next');
  Object.assign(toast.style, { margin: 0, right: 'auto', bottom: 'auto', left: 0, top: 0 });
  const [x, y] = middle(toast.querySelector('button')), [toX, toY] = middle(next);
  Object.assign(toast.style, { left: `${toX - x}px`, top: `${toY - y}px` });
  return document.elementFromPoint(toX, toY).textContent"""


def undo_by_a_double_click(browser):
    """The first click removes the message. The second one must not reach what was behind it."""
    browser.choose("#example", "one_command")
    act(browser, "before 1")
    browser.click('#dock [data-do="out"]')
    same(browser, "the button in front of the next one", "undo", browser.run(COVER))
    browser.double_click("#toast [data-undo]")
    same(browser, "the cursor after a double click on the undo", "1 of 6", cursor(browser))
    browser.click("#next")
    same(browser, "the cursor after another click", "2 of 6", cursor(browser))
    browser.run("document.getElementById('toast').removeAttribute('style')")
