"""Tries the keys of the page after a choice in a list, and in a text that has the focus."""
import time

from page_user import URL, cursor, same
from shared import fail


def look(browser):
    browser.open(URL)
    choose_an_example(browser)
    scroll_a_text(browser)
    see_the_focus(browser)


def choose_an_example(browser):
    """The keys after the choice step and draw. In the list, they would choose another example."""
    browser.run("document.getElementById('example').focus()")
    browser.choose("#example", "one_command")
    same(browser, "the cursor of the example", "6 of 6", cursor(browser))
    browser.press("Up")
    browser.press("Up")
    browser.press("Down")
    same(browser, "the cursor after two events back and one on", "5 of 6", cursor(browser))
    browser.press("r")
    same(browser, "the cursor after a random event", "6 of 7", cursor(browser))
    browser.press("Control", "z")
    browser.run("document.getElementById('servers').focus()")
    browser.choose("#servers", "5")
    browser.press("3")
    same(browser, "the number of servers after the key 3", "5", browser.run("return document.getElementById('servers').value"))
    browser.press("Control", "z")


def see_the_focus(browser):
    """The box of a field cuts off what is outside of it. So the outline of a field with the focus is inside."""
    for tab, field in (("#tab-editor", "source"), ("#tab-judge", "log")):
        browser.click(tab)
        found = browser.run(f"""
          const field = document.getElementById('{field}');
          field.focus();
          const {{ outlineStyle, outlineWidth, outlineOffset }} = getComputedStyle(field);
          return outlineStyle !== 'none' && parseFloat(outlineOffset) <= -parseFloat(outlineWidth)""")
        same(browser, f"an outline inside the field {field} with the focus", True, found)


def scroll_a_text(browser):
    """The trace is longer than its box. The keys scroll it, and do not step."""
    browser.choose("#example", "duelling_revokers")
    browser.click("#tab-texts")
    browser.run("document.getElementById('trace').focus()")
    where = "document.getElementById('trace').scrollTop"
    scroll(browser, "End", f"return {where} > 100")
    scroll(browser, "Home", f"return {where} === 0")
    scroll(browser, "PageDown", f"return {where} > 100")
    same(browser, "the cursor after scrolling", "19 of 19", cursor(browser))
    browser.click("#tab-lesson")


def scroll(browser, key, script):
    """Presses a key until the text is scrolled. A key may be lost while a busy machine still scrolls."""
    for _ in range(20):
        browser.press(key)
        for _ in range(10):
            if browser.run(script):
                return
            time.sleep(0.05)
    fail(f"{browser.name}: the key {key} does not scroll the trace")
