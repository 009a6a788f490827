"""Tries the schedule in the address: long ones, too long ones, links with a mistake, and drafts that are not in it. It
also opens the link that conformance/compare gives to a browser."""
import json
import os
import random
import subprocess
import time

from page_user import URL, act, cursor, same, schedule
from shared import TOP, fail
from ways_in import is_seen

BAD_LINK = "#n=3&at=0&e=deliver+00+0"
LETTERS = "abcdefghijklmnopqrstuvwxyzABCDEFGHIJKLMNOPQRSTUVWXYZ0123456789-_."
# More than 60,000 characters, which are easy to compress.
LONG = [f"submit 0 1.{number} set a {'x' * 256}" for number in range(240)]
IS_WARNED = """const event = new Event('beforeunload', { cancelable: true }); dispatchEvent(event);
  return event.defaultPrevented"""


def look(browser):
    open_a_long_link(browser)
    look_at_a_schedule_that_is_too_long(browser)
    keep_a_draft(browser)
    share_a_link(browser)


def write(browser, events):
    browser.click("#tab-editor")
    browser.write("#source", json.dumps({"version": 1, "servers": 3, "events": events}))
    browser.wait(f"return document.getElementById('where').textContent === '{len(events)} of {len(events)}'",
                 "the schedule of the editor")


def hash_of(browser):
    return browser.run("return location.hash")


def open_a_long_link(browser):
    browser.open(URL + "#n=3&at=0&e=")
    write(browser, LONG)
    browser.wait("return location.hash.includes('&z=')", "the compressed schedule in the address")
    same(browser, "whether the page warns before a schedule is left that the address has", False, browser.run(IS_WARNED))
    link = hash_of(browser)
    browser.open(URL + link)
    same(browser, "the events of a compressed link", LONG, json.loads(schedule(browser))["events"])
    browser.open(URL + link[:-40])
    same(browser, "the line about a cut link", "The address is not a link to a schedule, or a part of it is missing.",
         browser.text("#bad-link span"))
    same(browser, "the address with a cut link", link[:-40], hash_of(browser))
    same(browser, "whether a cut link gives a draft to show", False, is_seen(browser, '#bad-link [data-to="draft"]'))
    browser.click("#next")
    same(browser, "whether the line stays after a step", True, is_seen(browser, "#bad-link"))
    browser.click("#random")
    same(browser, "whether the line stays after a change of the schedule", False, is_seen(browser, "#bad-link"))


def look_at_a_schedule_that_is_too_long(browser):
    """The texts are random, so they cannot be compressed much."""
    dice = random.Random(1)
    texts = ["".join(dice.choice(LETTERS) for _ in range(256)) for _ in range(300)]
    browser.open(URL + "#n=3&at=0&e=")
    write(browser, [f"submit 0 1.{number} set a {text}" for number, text in enumerate(texts)])
    browser.wait("return document.getElementById('kept').textContent.includes('too long for the address')", "the words")
    same(browser, "whether the page warns before a schedule is left that is too long", True, browser.run(IS_WARNED))
    browser.click("#link")
    browser.wait("return document.getElementById('toast').textContent.includes('too long for a link')", "the words")
    browser.click("#undo")
    browser.wait("return !document.getElementById('kept').textContent.includes('too long')", "the short link")


def keep_a_draft(browser):
    """A draft stays while the user looks at something else."""
    browser.open(URL)
    browser.click("#tab-editor")
    wrong = json.dumps({"version": 1, "servers": 3, "events": ["deliver x"]})
    browser.write("#source", wrong)
    browser.wait("return document.getElementById('verdict').className.includes('bad')", "the mistake")
    same(browser, "whether the page warns before a draft is left", True, browser.run(IS_WARNED))
    browser.click("#tab-texts")
    browser.choose("#example", "one_command")
    act(browser, "before 3")
    browser.click("#tab-editor")
    same(browser, "the draft", wrong, browser.run("return document.getElementById('source').value"))
    browser.click("#discard")
    same(browser, "the events after discarding the draft", 6, len(json.loads(schedule(browser))["events"]))
    same(browser, "whether the page warns then", False, browser.run(IS_WARNED))
    browser.click("#tab-lesson")


def look_at_a_bad_link(browser):
    """The page shows the link as a draft with its mistake, and leaves the address as it is."""
    time.sleep(0.5)  # longer than the page waits before it writes the address
    same(browser, "the address with a bad link", BAD_LINK, hash_of(browser))
    events = json.loads(browser.run("return document.getElementById('source').value"))["events"]
    same(browser, "the events of the bad link", ["deliver 00 0"], events)
    same(browser, "the mistake in the bad link", '"deliver 00 0"', browser.text("#editor mark"))
    browser.click("#tab-lesson")
    browser.click('#bad-link [data-to="draft"]')
    same(browser, "what has the focus after a click that shows the draft", "source",
         browser.run("return document.activeElement.id"))
    browser.click("#discard")
    same(browser, "whether the line stays after discarding the draft", False, is_seen(browser, "#bad-link"))
    browser.click("#tab-lesson")


def share_a_link(browser):
    """The page was opened from the disk, so the user names a place that others can open."""
    browser.choose("#example", "one_command")
    browser.wait("return /at=6&.*deliver.2.0;execute.0$/.test(location.hash)", "the address")
    browser.click("#link")
    browser.wait("return document.getElementById('share').open", "the dialog")
    browser.write("#base", "https://example.org/mencius.html")
    same(browser, "the link for others", "https://example.org/mencius.html" + hash_of(browser),
         browser.run("return document.getElementById('shared').value"))
    browser.click("#close-share")


# A store that prints one wrong line, and a browser that writes its argument to a file.
STORE = f"""#!/bin/sh
{TOP}/conformance/store.py --trace - | sed 's/^event 1 /event 2 /'
"""
BROWSER = """#!/bin/sh
printf %s "$1" > opened.part && mv opened.part opened
"""


def open_from_compare(browser, folder):
    """The page must show the shortened schedule, right after the event that differs."""
    folder = os.path.join(folder, "compared")
    os.makedirs(folder)
    for name, text in (("wrong", STORE), ("browser", BROWSER)):
        with open(os.path.join(folder, name), "w", encoding="utf-8") as file:
            file.write(text)
        os.chmod(file.name, 0o755)
    compare = os.path.join(TOP, "conformance", "compare")
    subprocess.run([compare, "--open", "--shorten", "0", "--jobs", "2", "--", "./wrong"], cwd=folder, check=False,
                   env={**os.environ, "BROWSER": f"{folder}/browser %s"}, stdout=subprocess.DEVNULL)
    opened, end = os.path.join(folder, "opened"), time.time() + 30
    while not os.path.exists(opened) and time.time() < end:
        time.sleep(0.1)
    if not os.path.exists(opened):
        fail(f"{browser.name}: conformance/compare --open does not start the browser")
    with open(opened, encoding="utf-8") as file:
        browser.open(file.read())
    same(browser, "the cursor of a link from conformance/compare", "2 of 2", cursor(browser))
    with open(os.path.join(folder, "difference.json"), encoding="utf-8") as file:
        same(browser, "the schedule of a link from conformance/compare", file.read(), schedule(browser))
