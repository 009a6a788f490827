"""Drops files on the page, and tries that a long log does not block it."""
import json
import os

from page_user import URL, cursor, same, schedule
from shared import TOP, fail, say

# In milliseconds of processor time, for the opening of a long log up to its timeline. On a slow and loaded machine, we
# measured 61 to 128. If the page judged the log itself, we measured 196 to 307. If the field contained the log, we
# measured 1,990.
MOST_MILLISECONDS = 150
# Other work of the machine can only lengthen a measurement, so the shortest one of these counts.
TIMES = 3
COMMANDS = 20_000
# The timeline shows 20,000 lines. It reads them in 50 ms or more, and a piece of this may take some milliseconds.
LEAST_PAUSES = 20


def look(browser):
    browser.open(URL)
    drop_a_schedule(browser)
    drop_a_run(browser)
    drop_a_log(browser)


def drop(browser, name, text):
    browser.run(f"""const dataTransfer = new DataTransfer();
      dataTransfer.items.add(new File([{json.dumps(text)}], {json.dumps(name)}));
      document.body.dispatchEvent(new DragEvent('drop', {{ dataTransfer, bubbles: true, cancelable: true }}))""")
    browser.wait(f"return document.getElementById('toast').textContent.includes({json.dumps(name)})", name)


def read(*parts):
    with open(os.path.join(TOP, "examples", *parts), encoding="utf-8") as file:
        return file.read()


def drop_a_schedule(browser):
    text = read("one_command.json")
    drop(browser, "one.json", text)
    same(browser, "the cursor of a dropped schedule", "6 of 6", cursor(browser))
    same(browser, "the dropped schedule", json.loads(text), json.loads(schedule(browser)))
    drop(browser, "bad.json", text.replace("deliver 1 0", "deliver 01 0"))
    same(browser, "the mistake in a dropped schedule", '"deliver 01 0"', browser.text("#editor mark"))
    browser.click("#discard")


def drop_a_run(browser):
    run = {"version": 1, "servers": 3, "workers": 1, "seed": 5, "turns": 40, "loss": 0,
           "commands": [["1.0 set a x"], ["2.0 set a y"], []]}
    drop(browser, "run.json", json.dumps(run))
    browser.click("#worker button")
    browser.wait("return document.getElementById('run-verdict').textContent.startsWith('the worker chose')", "the run")
    submitted = [event for event in browser.run("return [...document.querySelectorAll('#rows li')]"
                                                ".map(row => row.title)") if event.startswith("submit ")]
    same(browser, "the commands of a dropped run", ["submit 0 1.0 set a x", "submit 1 2.0 set a y"], sorted(submitted))
    browser.click("#discard")


def drop_a_log(browser):
    drop(browser, "same_order.log", read("logs", "same_order.log"))
    browser.wait("return document.getElementById('judgement').textContent.startsWith('violation 6 SameOrder ')",
                 "the verdict on the dropped log")
    browser.click("#tab-lesson")


def long_log():
    lines = [line for number in range(COMMANDS) for line in (f"submit 1.{number} set k{number} v{number}",
                                                              f"execute 0 1.{number}", f"reply 1.{number} none")]
    return "\n".join([*lines, "execute 1 1.1", ""])


def count_the_pauses(browser, verdict):
    """If each look at the clock says that a piece of work is over, the page must pause several times while it reads the
    log, and must still show all of it."""
    browser.choose("#logs", "kept")
    browser.run("window.pauses = 0; const clock = performance.now.bind(performance), after = later; let ahead = 0;"
                "performance.now = () => clock() + (ahead += 1000);"
                "window.later = (name, ...rest) => { window.pauses += name === 'timeline'; after(name, ...rest); };"
                "window.restore = () => { delete performance.now; window.later = after; }")
    browser.choose("#logs", "own")
    browser.wait(verdict, "the verdict on a log that is read in pieces")
    pauses = browser.run("window.restore(); return window.pauses")
    if pauses < LEAST_PAUSES:
        fail(f"the page reads a long log with {pauses} pauses, not with at least {LEAST_PAUSES}")


def judge_a_long_log(browser):
    """Server 1 begins with the second command. The last line says so, and the page works meanwhile. The field does not
    contain the log. The log stays in the page for timelines.py."""
    browser.click("#tab-judge")
    log = long_log()
    browser.run(f"window.long = {json.dumps(log)}")
    wanted = f"violation {3 * COMMANDS + 1} SameOrder server 1 place 0 expected 1.0 found 1.1"
    verdict = f"return document.getElementById('timeline-verdict').textContent === '{wanted}'"
    judged = min(browser.own_time("core.call(['judge'], window.long)") for _ in range(TIMES))
    browser.run("window.judged = 0; const real = core.call; core.call = (args, input) => {"
                "window.judged += args[0] === 'judge' && input === window.long; return real.call(core, args, input); }")
    opened, begun = [], []
    for _ in range(TIMES):
        browser.choose("#logs", "kept")
        opened.append(browser.own_time("openLog('long.log', window.long)", verdict))
        begun.append(browser.own_time("judgeLog(core)"))
        browser.wait(verdict, "the verdict on the long log")
    if min(opened) >= MOST_MILLISECONDS:
        fail(f"the page works for {min(opened):.0f} ms at a log of {len(log)} letters, not less than {MOST_MILLISECONDS}")
    if min(begun) >= judged / 2:
        fail(f"the page works for {min(begun):.0f} ms until a worker judges a long log, and the judgement itself takes"
             f" {judged:.0f} ms. The page may take at most half of it")
    same(browser, "the verdict on the long log", wanted, browser.text("#judgement"))
    same(browser, "the log in the field", "", browser.run("return document.getElementById('log').value"))
    same(browser, "the logs that the page judged without the worker", 0, browser.run("return window.judged"))
    browser.choose("#logs", "kept")
    browser.choose("#logs", "own")
    browser.wait(verdict, "the verdict on the long log after another one")
    count_the_pauses(browser, verdict)
    say(f"a log of {len(log)} letters takes {min(opened):.0f} to {max(opened):.0f} ms of processor time of the page, and"
        f" {min(begun):.0f} to {max(begun):.0f} of them until the worker judges it. The judgement takes {judged:.0f} ms")
