"""Looks at the line under the title, and takes each of its three ways."""
import re

import files
import markdown
from page_user import URL, cursor, do, same

# A part is seen if it has a size and is not hidden.
SEEN = """const isSeen = selector => { const part = document.querySelector(selector);
    return part.offsetWidth > 0 && getComputedStyle(part).visibility === 'visible'; };"""


def look(browser):
    browser.open(URL)
    look_at_the_line(browser)
    learn(browser)
    build(browser)
    judge(browser)
    bring_it_back(browser)
    drop_a_log(browser)


def take(browser, way):
    if not is_seen(browser, "#ways"):
        browser.click("#title")
    browser.click(f'#ways [data-way="{way}"]')
    same(browser, f"whether the line goes away after {way}", False, is_seen(browser, "#ways"))


def is_seen(browser, selector):
    return browser.run(f"{SEEN} return isSeen('{selector}')")


def look_at_the_line(browser):
    same(browser, "whether the first visit shows the line", True, is_seen(browser, "#ways"))
    line = browser.text("#ways p")
    same(browser, "the sentences of the line", 1, len(re.findall(r"[.!?](?:\s|$)", line)))
    below = browser.run("""const bottom = part => document.querySelector(part).getBoundingClientRect().bottom;
      return document.getElementById('ways').getBoundingClientRect().top - bottom('header')""")
    same(browser, "whether the line is directly below the title", True, abs(below) < 2)
    ways = browser.run("return [...document.querySelectorAll('#ways .way')].map(part => part.textContent)")
    same(browser, "the ways", ["learn in ten steps", "build a schedule", "judge a log"], ways)


def learn(browser):
    """The first step of the tutorial, before its first event."""
    take(browser, "learn")
    title = re.search(r"^## (1\. .+)$", markdown.read("docs/TUTORIAL.md"), re.MULTILINE).group(1)
    same(browser, "the title of the step", title, browser.text("#step h2"))
    same(browser, "whether the lesson is seen", True, is_seen(browser, "#lesson"))
    same(browser, "the cursor of the step", "0 of ", cursor(browser)[:5])


def build(browser):
    """A command is on its way. The hint says what to click, and undo brings the former schedule back."""
    former = cursor(browser)
    take(browser, "build")
    same(browser, "the cursor of the new schedule", "1 of 1", cursor(browser))
    same(browser, "whether the schedule is seen", [True, True],
         [is_seen(browser, selector) for selector in ("#editor", "#picture")])
    message = re.search(r"Click message (\d+) below server (\d+)", browser.text("#hint span"))
    do(browser, f"deliver {message.group(1)} {message.group(2)}")
    same(browser, "the cursor after following the hint", "2 of 2", cursor(browser))
    browser.click("#undo")
    browser.click("#undo")
    same(browser, "the former schedule", former, cursor(browser))


def judge(browser):
    """A log that breaks a promise, as a timeline with its quoted lines."""
    take(browser, "judge")
    browser.wait("return document.getElementById('timeline-verdict').textContent.startsWith('violation ')",
                 "a violation")
    same(browser, "whether the log and its timeline are seen, and the picture is not", [True, True, False],
         [is_seen(browser, selector) for selector in ("#judge", "#log-lanes .bar", "#picture")])
    same(browser, "whether lines are quoted", True, is_seen(browser, "#log-rows .quoted-row"))
    browser.click("#tab-lesson")
    same(browser, "whether the picture comes back", [False, True],
         [is_seen(browser, selector) for selector in ("#timeline", "#picture")])


def bring_it_back(browser):
    browser.choose("#example", "one_command")
    browser.click("#title")
    same(browser, "whether the title brings the line back", True, is_seen(browser, "#ways"))
    browser.click("#back")
    same(browser, "whether a step hides the line", False, is_seen(browser, "#ways"))


def drop_a_log(browser):
    browser.open(URL)
    files.drop(browser, "kept.log", files.read("logs", "kept.log"))
    same(browser, "whether a dropped log hides the line", False, is_seen(browser, "#ways"))
    browser.click("#tab-lesson")
