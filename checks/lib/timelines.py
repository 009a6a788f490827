"""Looks at logs as timelines. The bars, marks and lanes must be where the lines of the log put them, and the lines that
the verdict quotes must be marked."""
import json

import files
from files import drop, read
from page_user import cursor, same
from readable import LEAST_CONTRAST, media

COMMANDS, CLIENTS = 2_000, 4
# More parts than this in the page would make it slow. The rows in sight need fewer than half of them.
MOST_PARTS = 1_000
# The lines that the verdict on examples/logs/right_reply.log quotes. docs/FORMATS.md lists them for RightReply: the
# submissions of the command and of the last change before it, the execution, and the first reply.
QUOTED = [2, 3, 5, 6]
HOSTILE = "# <img src=x>\nsubmit 1.0 set a x\nexecute 0 1.0\nreply 1.0 none\n<img src=x>\n"
# The boxes of the parts that the selector finds, each with its text.
BOXES = """const box = part => { const { left, right, top, bottom } = part.getBoundingClientRect();
    return { left, right, top, bottom, text: part.textContent.trim(), id: part.dataset.id ?? null }; };
  const boxes = selector => [...document.querySelectorAll(selector)].map(box);"""
# Scrolls to places of the timeline. For each place: the numbers of the first and the last row in the page, the commands
# of the bars, and the number of parts.
PLACES = """const [stage, rows] = ['log-stage', 'log-rows'].map(id => document.getElementById(id));
  const numberOf = row => Number(row.querySelector('b').textContent);
  return [0, 0.13, 0.5, 0.77, 1].map(share => {
    stage.scrollTop = share * stage.scrollHeight;
    stage.onscroll();
    const bars = [...document.querySelectorAll('#log-lanes .bar')].map(bar => bar.textContent);
    return [numberOf(rows.firstChild), numberOf(rows.lastChild), bars, document.querySelectorAll('#timeline *').length];
  })"""
# The least contrast of the texts of the timeline with what is behind them, as [count, contrast].
CONTRASTS = """const parts = colour => colour.match(/[\\d.]+/g).map(Number);
  const light = colour => colour.slice(0, 3).map(one => one / 255).map(one =>
    (one <= 0.04045 ? one / 12.92 : ((one + 0.055) / 1.055) ** 2.4))
    .reduce((sum, one, at) => sum + [0.2126, 0.7152, 0.0722][at] * one, 0);
  const under = part => { const [r, g, b, a = 1] = parts(getComputedStyle(part).backgroundColor);
    return a === 1 ? [r, g, b] : under(part.parentElement); };
  const ratio = part => { const [a, b] = [light(parts(getComputedStyle(part).color)), light(under(part))]
    .sort((x, y) => y - x); return (a + 0.05) / (b + 0.05); };
  const texts = [...document.querySelectorAll('#log-head p, #quoted-lines button, #lane-heads > *, #log-rows li,'
    + '#log-rows b, #log-lanes .bar span, #log-lanes .mark, #command-card')]
    .filter(part => part.textContent.trim() && part.offsetWidth > 0);
  return [texts.length, Math.min(...texts.map(ratio))]"""


def look(browser):
    look_at_bars(browser)
    look_at_quoted_lines(browser)
    look_at_keys(browser)
    look_at_other_logs(browser)
    browser.click("#tab-lesson")


def look_at_long_logs(browser):
    """Comes after files.judge_a_long_log, which leaves its log in the page."""
    look_at_what_is_left_out(browser)
    look_at_a_long_log(browser)
    look_at_contrasts(browser)


def drop_log(browser, name, text, verdict):
    drop(browser, name, text)
    browser.wait("return document.getElementById('timeline-verdict').textContent.startsWith("
                 f"{json.dumps(verdict)})", verdict)


def inside(one, other, sides):
    """Whether a box is within another one, but for a pixel, from its first side to its second."""
    first, second = sides
    return other[first] - 3 <= one[first] and one[second] <= other[second] + 3


def look_at_bars(browser):
    """A bar goes from the row of the submission to the row of the reply, in the lane of its client."""
    log = read("logs", "right_reply.log")
    drop_log(browser, "right_reply.log", log, "violation 6 RightReply ")
    bars, marks, rows, heads = browser.run(
        BOXES + "return ['#log-lanes .bar', '#log-lanes .mark', '#log-rows li', '#lane-heads b'].map(boxes)")
    lines = log.splitlines()
    same(browser, "the rows of the timeline", [f"{at} {line}" for at, line in enumerate(lines, 1)],
         [row["text"].replace("quoted: ", "") for row in rows])
    submitted = {line.split(" ")[1]: line for line in lines if line.startswith("submit ")}
    wanted = [f"{name} {line.split(' ', 2)[2]}" for name, line in submitted.items()]
    same(browser, "the bars", wanted, [bar["text"] for bar in bars])
    lanes = {head["text"]: head for head in heads}
    same(browser, "the lanes", ["client 1", "client 2", "server 0"], list(lanes))
    first, last = {"1.0": 1, "2.0": 2}, {"1.0": 3, "2.0": 5}
    for bar in bars:
        span = {"top": rows[first[bar["id"]]]["top"], "bottom": rows[last[bar["id"]]]["bottom"]}
        is_whole = bar["bottom"] - bar["top"] > span["bottom"] - span["top"] - 8
        same(browser, f"whether the bar {bar['id']} goes from its submission to its reply", True,
             inside(bar, span, ("top", "bottom")) and is_whole)
        lane = lanes["client " + bar["id"].split(".")[0]]
        same(browser, f"whether the bar {bar['id']} is in its lane", True, inside(bar, lane, ("left", "right")))
    executed = [(at, line.split(" ")) for at, line in enumerate(lines) if line.startswith("execute ")]
    same(browser, "the executions", [words[2] for _, words in executed], [mark["text"] for mark in marks])
    for (at, words), mark in zip(executed, marks):
        lane = lanes["server " + words[1]]
        same(browser, f"whether the execution {words[2]} is in its row and its lane", True,
             inside(mark, rows[at], ("top", "bottom")) and inside(mark, lane, ("left", "right")))


def look_at_quoted_lines(browser):
    numbers = "return [...document.querySelectorAll('#log-rows .quoted-row b')].map(part => Number(part.textContent))"
    same(browser, "the rows of the quoted lines", QUOTED, browser.run(numbers))
    lines = read("logs", "right_reply.log").splitlines()
    buttons = browser.run("return [...document.querySelectorAll('#quoted-lines button')].map(part => part.textContent)")
    same(browser, "the buttons of the quoted lines", [f"line {at}: {lines[at - 1]}" for at in QUOTED], buttons)
    same(browser, "the verdict in words", browser.text("#in-words"), browser.text("#timeline-words"))
    # Line 2 is in the bar of 1.0, lines 3 and 6 in that of 2.0, and line 5 is the execution of 2.0.
    points, boxes, rows = browser.run(BOXES + """const chain = box(document.getElementById('chain'));
      const points = document.querySelector('#chain polyline').getAttribute('points').split(' ')
        .map(pair => pair.split(',').map(Number)).map(([x, y]) => [chain.left + x, chain.top + y]);
      return [points, boxes('#log-lanes .quoted'), boxes('#log-rows .quoted-row')]""")
    found = [[box["text"] for box in boxes if box["left"] < x < box["right"] and box["top"] < y < box["bottom"]]
             for x, y in points]
    same(browser, "the marks that the chain connects", [["1.0 set a x"], ["2.0 set a y"], ["2.0"], ["2.0 set a y"]],
         found)
    inside_rows = [row["top"] < y < row["bottom"] for row, (_, y) in zip(rows, points)]
    same(browser, "whether the chain is at the quoted rows", [True] * len(QUOTED), inside_rows)


def look_at_keys(browser):
    """The keys do not step the schedule, which is out of sight. A focused bar tells what the log shows of its command.
    """
    before = cursor(browser)
    browser.run("document.querySelector('#log-lanes [data-bar=\"2.0\"]').focus()")
    same(browser, "the story of the focused command",
         "2.0 set a y: submitted in line 3; executed by server 0 in line 5; reply none in line 6",
         browser.text("#command-card"))
    for key in ("Right", "Down", "Home", "Delete", "r"):
        browser.press(key)
    same(browser, "the cursor of the schedule after keys in the timeline", before, cursor(browser))


def look_at_other_logs(browser):
    drop_log(browser, "kept.log", read("logs", "kept.log"), "ok ")
    same(browser, "the quoted rows of a log without violation", 0,
         browser.run("return document.querySelectorAll('.quoted-row, #chain [points*=\",\"]').length"))
    drop_log(browser, "hostile.log", HOSTILE, "line 5: ")
    same(browser, "the elements of a hostile log", 0, browser.run("return document.images.length"))
    same(browser, "the row of the bad line", ["5"],
         browser.run("return [...document.querySelectorAll('.quoted-row b')].map(part => part.textContent)"))


def many_commands():
    """Each client waits for one reply at a time. Server 0 executes the commands in order. Server 1 begins with the
    second one."""
    lines = []
    for number in range(COMMANDS // CLIENTS):
        names = [f"{client}.{number}" for client in range(CLIENTS)]
        lines += [f"submit {name} set k{name} v" for name in names] + [f"execute 0 {name}" for name in names]
        lines += [f"reply {name} none" for name in names]
    return [*lines, "execute 1 1.0"]


def look_at_a_long_log(browser):
    """At some places of a log of 2,000 commands, the page has a bar for each command that is submitted up to its last
    row and has no reply before its first row. A button leads to a quoted line."""
    lines = many_commands()
    drop_log(browser, "many.log", "".join(line + "\n" for line in lines), "violation ")
    for first, last, bars, parts in browser.run(PLACES):
        begun = {line for line in lines[:last] if line.startswith("submit ")}
        ended = {line.split(" ")[1] for line in lines[:first - 1] if line.startswith("reply ")}
        wanted = {line.removeprefix("submit ") for line in begun if line.split(" ")[1] not in ended}
        same(browser, f"the bars at lines {first} to {last}", sorted(wanted), sorted(bars))
        same(browser, f"whether {parts} parts of a long timeline are less than {MOST_PARTS}", True, parts < MOST_PARTS)
    # Line 5 is the execution of the first command, which server 1 lacks.
    for line in (len(lines), 5):
        browser.run(f"document.querySelector('#quoted-lines [data-line=\"{line}\"]').click()")
        same(browser, "the quoted row in sight", [f"{line} {lines[line - 1]}"], in_sight(browser))
    browser.click("#tab-lesson")
    browser.click("#tab-judge")
    browser.wait("return document.getElementById('log-stage').scrollTop > 1000", "the place of the last quoted line")
    same(browser, "the quoted row after another tab", [f"{len(lines)} {lines[-1]}"], in_sight(browser))


def in_sight(browser):
    return browser.run(BOXES + """const stage = box(document.getElementById('log-stage'));
      return boxes('.quoted-row').filter(row => row.top >= stage.top && row.bottom <= stage.bottom + 3)
        .map(row => row.text.replace('quoted: ', ''))""")


def look_at_what_is_left_out(browser):
    """Of the long log of files.py, the parts around the quoted lines are shown. The note counts the lines that are left
    out. A row is in their place, so the timeline has one row more than it shows lines."""
    total = 3 * files.COMMANDS + 1
    browser.wait("return document.getElementById('left-out').textContent.includes(' are left out.')", "the note")
    rows = browser.run("""return document.getElementById('log-body').offsetHeight
      / document.querySelector('#log-rows li').offsetHeight""")
    same(browser, "the note on lines that are left out", f"{total - (rows - 1):.0f} of {total} lines are left out.",
         browser.text("#left-out").split(". ")[0] + ".")
    same(browser, "the quoted row at the end", [f"{total} execute 1 1.1"], in_sight(browser))


def look_at_contrasts(browser):
    browser.choose("#logs", "right_reply")
    for scheme in ("light", "dark"):
        with media(browser, "prefers-color-scheme", scheme):
            count, least = browser.run(CONTRASTS)
            same(browser, f"whether many texts of the timeline are measured ({scheme})", True, count > 15)
            same(browser, f"whether the least contrast of the timeline, {least:.2f}, is enough ({scheme})", True,
                 least >= LEAST_CONTRAST)
    browser.click("#tab-lesson")
