"""The actions of a user of docs/page/mencius.html, and the comparison of what is found with what is wanted."""
import os

from shared import TOP, fail

PAGE = os.path.join(TOP, "docs", "page", "mencius.html")
URL = "file://" + PAGE


def same(browser, what, wanted, found):
    if wanted != found:
        fail(f"{browser.name}: {what}\nwanted: {wanted!r}\nfound:  {found!r}")


def cursor(browser):
    return browser.text("#where")


def schedule(browser):
    """The text of the schedule, as the editor has it."""
    browser.click("#tab-editor")
    browser.run("document.activeElement.blur(); document.getElementById('tab-editor').click()")
    return browser.run("return document.getElementById('source').value")


def do(browser, event):
    """Makes an event happen at the cursor, with the button for it."""
    words = event.split(" ")
    if words[0] == "submit":
        browser.click(f'#dock [data-do="ask {words[1]}"]')
        browser.write("#dock .ask input", " ".join(words[2:]))
        browser.click("#dock .ask button")
        return
    has_button = f"return document.querySelector('#dock [data-do=\"{event}\"]') !== null"
    if words[0] == "deliver" and not browser.run(has_button):
        browser.click(f'#dock [data-do="again {words[2]}"]')
    browser.click(f'#dock [data-do="{event}"]')


def act(browser, action):
    words = action.split(" ")
    if words[0] == "end":
        browser.press("End")
    elif words[0] == "before":
        browser.run(f"const slider = document.getElementById('slider'); slider.value = {words[1]};"
                    "slider.dispatchEvent(new Event('input'))")
    elif words[0] == "without":
        act(browser, f"before {int(words[1]) + 1}")
        browser.press("Delete")
    else:
        do(browser, action)
