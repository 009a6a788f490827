"""Links that open docs/page/mencius.html with a schedule, at one of its events, and browsers that open them.

The page reads the schedule from the part of the link after `#`: the members, the number of events that have happened,
and the events. The page's script schedule.js writes and reads the same format.

`checks/comparisons` tests the examples below. They follow from the format.

>>> import types
>>> schedule = types.SimpleNamespace(members={"servers": 3, "beta": 0}, events=["submit 0 1.0 set a ", "deliver 0 1"])
>>> fragment(schedule, 0)
'#n=3&at=1&e=submit+0+1.0+set+a+;deliver+0+1'
>>> schedule.members["beta"] = 6
>>> fragment(schedule, None)
'#n=3&b=6&at=2&e=submit+0+1.0+set+a+;deliver+0+1'
>>> schedule.events = ["execute 0"] * 10_000
>>> fragment(schedule, 9_999) is None
True
>>> link(schedule, 9_999) is None
True
>>> schedule.events = ["execute 0"]
>>> link(schedule, 0).startswith("file:///")
True
>>> link(schedule, 0).endswith("/docs/page/mencius.html#n=3&b=6&at=1&e=execute+0")
True
"""
import json
import os
import pathlib
import subprocess
import sys
import urllib.parse

import members

PAGE = pathlib.Path(__file__).resolve().parent.parent / "docs" / "page" / "mencius.html"
LETTERS = {"servers": "n", "beta": "b"}  # as in the page
LONGEST = 60_000  # characters; the page writes no longer links either, because some browsers do not accept them


def fragment(schedule, event):
    """The part of the link from `#` on, or None if it is too long. The page shows the state right after this event, or
    after all events if `event` is None."""
    count = len(schedule.events) if event is None else event + 1
    fields = "".join(f"{LETTERS[name]}={value}&" for name, value in members.written(schedule.members).items())
    events = ";".join(urllib.parse.quote(text, safe="!~*'()").replace("%20", "+") for text in schedule.events)
    text = f"#{fields}at={count}&e={events}"
    return text if len(text) <= LONGEST else None


def link(schedule, event):
    """The link to the page of this folder, or None if it is too long."""
    end = fragment(schedule, event)
    return None if end is None else PAGE.as_uri() + end


# ---- a browser

SCREENS = ("BROWSER", "DISPLAY", "WAYLAND_DISPLAY")
SECONDS = 5  # to start a browser
OPEN = "import sys, webbrowser; sys.exit(not webbrowser.open(sys.argv[1]))"


def has_browser():
    """Whether a browser with a window may exist. A browser inside a terminal cannot run the page."""
    return sys.platform in ("darwin", "win32") or any(map(os.environ.get, SCREENS))


def open_in_browser(link, path):
    """Opens the link in the browser of the user. Returns whether a browser was started.

    The browser opens a small page at `path`, which leads to the link. It does not open the link itself, because
    xdg-open removes the part of a link to a file from `#` on."""
    if not has_browser():
        return False
    with open(path, "w", encoding="utf-8") as file:
        file.write(f"<!doctype html>\n<script>location.replace({json.dumps(link)})</script>\n")
    # With our own standard output, the browser would keep a pipe open that somebody reads to its end.
    opener = subprocess.Popen([sys.executable, "-I", "-c", OPEN, pathlib.Path(path).absolute().as_uri()],
                              stdin=subprocess.DEVNULL, stdout=subprocess.DEVNULL, stderr=subprocess.DEVNULL,
                              start_new_session=True)
    try:
        return opener.wait(SECONDS) == 0
    except subprocess.TimeoutExpired:
        return True  # some browsers end only when the user closes them
