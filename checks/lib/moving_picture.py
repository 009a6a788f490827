"""Tries the picture of the page as a user points at it, clicks it, filters it and plays it. The expected facts were
worked out by hand from the rules in docs/MODEL.md.

Labels must be inside the picture, by measured boxes. Arrows must lie below the labels. Numbers of five digits must not
run into texts."""
import json
import re

from page_user import URL, act, cursor, same, schedule


def look(browser):
    look_at_labels(browser)
    point_at_a_message(browser)
    read_why_nothing_came(browser)
    click_messages(browser)
    filter_events(browser)
    use_the_strip(browser)
    look_at_marks_without_a_lane(browser)
    look_at_far_parts(browser)
    play(browser)


def link(events):
    return f"{URL}#n=3&at={len(events)}&e=" + ";".join(event.replace(" ", "+") for event in events)


# ---- labels

# The suggestion arrives at its own server after 41 other events, so its label there is long.
LATE = ["submit 0 1.0 set a x", *["deliver 0 1"] * 41, "deliver 0 0", "submit 2 3.0 set a z", "deliver 0 2"]
LONGEST = "heard 0 Suggest from event 0"
# The labels that are cut off by the edge of the picture, and those of which some part of an arrow is in front.
CUT = """const box = part => part.getBoundingClientRect(), edge = box(document.querySelector('#drawing svg'));
  const stage = document.getElementById('rows').getBoundingClientRect().right;
  const isCut = ({ left, right, width }) =>
    width > 0 && (left < Math.max(edge.left, stage) - 0.5 || right > edge.right + 0.5);
  return [...document.querySelectorAll('#drawing text')].filter(text => isCut(box(text)))
    .map(text => text.textContent)"""
CUT_BOXES = """const box = part => part.getBoundingClientRect(), edge = box(document.querySelector('#drawing svg'));
  return [...document.querySelectorAll('#drawing .sent')].filter(sent =>
    box(sent.querySelector('rect')).right > edge.right - 0.5).map(sent => sent.textContent)"""
# The ends of a label come from the sum of its letters' widths. A box of slanted letters is wider than they are.
STRUCK = """const arrows = [...document.querySelectorAll('#drawing .way')], numberOf = (part, name) => +part.getAttribute(name);
  const endsOf = text => { const x = numberOf(text, 'x'), wide = text.getComputedTextLength();
    return getComputedStyle(text).textAnchor === 'end' ? [x - wide, x] : [x, x + wide]; };
  const isIn = ([left, right], paper) => { const x = numberOf(paper, 'x');
    return left >= x - 1 && right <= x + numberOf(paper, 'width') + 1; };
  return [...document.querySelectorAll('#drawing g:not(.lane) > text')].filter(text => {
    const paper = text.parentElement.querySelector('rect'), isFirst = arrow =>
      arrow.compareDocumentPosition(text) & Node.DOCUMENT_POSITION_FOLLOWING;
    return !paper || !isIn(endsOf(text), paper) || !arrows.every(isFirst);
  }).map(text => text.textContent)"""


def look_at_labels(browser):
    browser.open(link(LATE))
    texts = browser.run("return [...document.querySelectorAll('#drawing .cause')].map(text => text.textContent)")
    same(browser, "whether the longest label is in the picture", True, LONGEST in texts)
    same(browser, "the labels that are cut off", [], browser.run(CUT))
    same(browser, "the labels without paper behind them, or behind an arrow", [], browser.run(STRUCK))
    browser.choose("#example", "wrong_suspicion_keeps_the_command")
    same(browser, "the labels of an example that are cut off", [], browser.run(CUT))
    same(browser, "the labels of an example behind an arrow", [], browser.run(STRUCK))
    look_at_boxes(browser)


def look_at_boxes(browser):
    """The box around each label is inside the picture, also if the letters of the browser's font are narrow or wide."""
    same(browser, "the boxes of an example whose line is cut off", [], browser.run(CUT_BOXES))
    for width in (0.5, 0.7):
        browser.run(f"(window.wrappedJSObject ?? window).letterWidth.found = {width}")
        browser.choose("#example", "one_command")
        browser.choose("#example", "wrong_suspicion_keeps_the_command")
        same(browser, f"the boxes whose line is cut off if letters of size 1 are {width} wide", [], browser.run(CUT_BOXES))
    browser.open(URL)


def look_at_long_numbers(browser):
    browser.open(URL)
    browser.run("""const again = Array.from({ length: 10020 }, () => 'deliver 0 1');
      become({ ...page.schedule, events: ['submit 0 1.0 set a x', ...again] }, 10021)""")
    run_into = browser.run("""return [...document.querySelectorAll('#rows li')].filter(row => {
        const range = document.createRange(), [number, text] = row.childNodes;
        const boxOf = node => { range.selectNodeContents(node); return range.getBoundingClientRect(); };
        range.setStart(text, 1); range.setEnd(text, 2);
        const left = range.getBoundingClientRect().left, box = boxOf(number);
        return box.right > left - 2 || box.left < document.getElementById('rows').getBoundingClientRect().left;
      }).map(row => row.textContent)""")
    rows = browser.run("return document.querySelector('#rows .here').textContent")
    same(browser, "the row of the last event", "10020 deliver 0 1", rows)
    same(browser, "the numbers that run into texts", [], run_into)


# ---- pointing

POINT = """const part = document.querySelector(%s), { left, top } = part.getBoundingClientRect();
  part.dispatchEvent(new MouseEvent('mouseover', { bubbles: true, clientX: left + 3, clientY: top + 3 }))"""
LIT = """return [...document.querySelectorAll('.lit')].map(part => part.closest('#over') ? `over ${part.dataset.m}`
  : part.id || `${part.dataset.m} ${part.closest('[data-server]')?.dataset.server}`).sort()"""


def card_at(browser, selector):
    browser.run(POINT % json.dumps(selector))
    browser.wait("return !document.getElementById('about').hidden", f"the card of {selector}")
    return browser.run("""const text = part => part.textContent;
      return [...document.querySelectorAll('#about > :is(h3, p), #about li')].map(text)""")


def point_at_a_message(browser):
    """Message 0 of the example is on its way to servers 0 and 1, and server 2 has heard it."""
    browser.choose("#example", "wrong_suspicion_keeps_the_command")
    act(browser, "before 6")
    card = card_at(browser, "#m0 text")
    same(browser, "the parts that are marked", ["0 0", "0 1", "m0", "over 0"], browser.run(LIT))
    same(browser, "the card of message 0", [
        "message 0, Suggest", "Server 0 suggests 1.0 (set a x) for its instance 0.",
        "Server 0 sent it to all servers, at event 0.", "server 0: on its way", "server 1: on its way",
        "server 2, event 1: heard: sent 1 Accepted i0 b0", "Click the message to choose a receiver."], card)
    browser.run(POINT % json.dumps("#drawing .hit[data-m='2']"))
    same(browser, "the parts that are marked at an arrow", ["2 0", "m2", "over 2", "over 2"], browser.run(LIT))
    same(browser, "the labels behind an arrow while message 2 is marked", [], browser.run(STRUCK))
    act(browser, "before 0")
    same(browser, "the card of message 0 before it is sent", [
        "Server 0 sends it to all servers later, at event 0.",
        "server 2, later, event 1: heard: sent 1 Accepted i0 b0"], card_at(browser, "#m0 text")[2:])
    act(browser, "before 6")
    browser.run(POINT % json.dumps("#dock [data-server='1'] [data-m='4'] .message"))
    same(browser, "the parts that are marked from below a lane", ["4 1", "m4", "over 4"], browser.run(LIT))
    browser.run("document.getElementById('dock').dispatchEvent(new MouseEvent('mouseleave'))")
    same(browser, "the parts that are marked after that", [], browser.run(LIT))
    browser.run("document.querySelector('#dock [data-server=\"1\"] [data-m=\"4\"] .message').focus()")
    same(browser, "the parts that are marked by the focus", ["4 1", "m4", "over 4"], browser.run(LIT))
    browser.run("document.activeElement.blur()")


def read_why_nothing_came(browser):
    """Server 2 promises ballot 4 of instance 0 to server 1, so it ignores the suggestion, whose ballot is 0."""
    browser.open(link(["submit 0 1.0 set a x", "suspect 1 0", "deliver 1 2", "deliver 0 2", "execute 0"]))
    card = card_at(browser, "#m0 text")
    why = "server 2, event 3: heard: ignored, because the server has promised ballot 4, and accepts no smaller one"
    same(browser, "why nothing came of message 0", why, card[-2])
    card = card_at(browser, "#drawing .refused text")
    same(browser, "why event 4 was refused", ["event 4, execute 0",
         "Result: refused, because the server has not learned its next instance."], card)


def click_messages(browser):
    browser.open(link(["submit 0 1.0 set a x", "deliver 0 2", "deliver 0 1"]))
    browser.click("#m0 text")
    same(browser, "the cursor after a click on a message with one receiver", "4 of 4", cursor(browser))
    same(browser, "the row then", "3 deliver 0 0", browser.text("#rows .here"))
    act(browser, "before 2")
    browser.click("#m0 text")
    same(browser, "the cursor after a click on a message with two receivers", "2 of 4", cursor(browser))
    buttons = "return [...document.querySelectorAll('#about [data-do]')].map(button => button.dataset.do)"
    choices = ["deliver 0 0", "lose 0 0", "deliver 0 1", "lose 0 1", "deliver 0 2"]
    same(browser, "the choices", choices, browser.run(buttons))
    browser.click("#about [data-do='deliver 0 0']")
    same(browser, "the row after the choice", "2 deliver 0 0", browser.text("#rows .here"))
    browser.run("document.querySelector('#dock [data-do=\"deliver 0 1\"]').focus()")
    browser.press("e")
    same(browser, "the choices after the key e", ["deliver 0 1", "lose 0 1", "deliver 0 0", "deliver 0 2"],
         browser.run(buttons))
    browser.press("Escape")
    same(browser, "the choices after Escape", True, browser.run("return document.getElementById('about').hidden"))
    act(browser, "before 4")
    browser.click("#m1 text")
    same(browser, "the row after a click on message 1", "4 deliver 1 0", browser.text("#rows .here"))
    browser.click("#e1 .cause")
    same(browser, "the cursor after a click on another label", "2 of 6", cursor(browser))


# ---- the filter and the strip

def shown(browser):
    """The numbers of the events in the list and in the drawing."""
    return browser.run("""return ['#rows [data-e]', '#drawing .event'].map(selector =>
      [...document.querySelectorAll(selector)].map(part => +part.dataset.e).sort((one, other) => one - other))""")


def many_events(commands=8):
    """Each command of server 0 takes six events and an instance: 0, 3, 6, .. The fourth event repeats the second one.
    A command takes three messages: its suggestion, and two acceptances."""
    events = []
    for number in range(commands):
        first = 3 * number
        events += [f"submit 0 1.{number} set a x", f"deliver {first} 0", f"deliver {first + 1} 0",
                   f"deliver {first} 0", f"lose {first} 2", f"lose {first} 1"]
    return events


def filter_events(browser):
    events = many_events()
    browser.open(link(events))
    everything = list(range(48))
    same(browser, "the events without a filter", [everything, everything], shown(browser))
    browser.choose("#only-instance", "6")
    about = list(range(12, 18))
    same(browser, "the events about instance 6, and the last one", [about + [47]] * 2, shown(browser))
    rules = browser.run("return [...document.querySelectorAll('#drawing .rule')].map(rule => rule.getAttribute('d'))")
    same(browser, "the rules, without those that are on top of others", sorted(set(rules)), sorted(rules))
    browser.click("#first")
    same(browser, "the events about instance 6", [about] * 2, shown(browser))
    browser.choose("#only-server", "0")
    same(browser, "those of server 0", [about[:4]] * 2, shown(browser))
    browser.click("#brief")
    same(browser, "those that are not repeated", [about[:3]] * 2, shown(browser))
    look_at_folded_rows(browser)
    browser.click("#next")
    browser.click("#next")
    same(browser, "the cursor after two steps", "14 of 48", cursor(browser))
    browser.click("#back")
    same(browser, "the cursor after a step back", "13 of 48", cursor(browser))
    browser.click("#clear")
    same(browser, "the events after the filter", [everything, everything], shown(browser))
    same(browser, "the schedule after the filter", events, json.loads(schedule(browser))["events"])
    browser.click("#tab-lesson")


def look_at_folded_rows(browser):
    off = browser.run("""const top = part => part.getBoundingClientRect();
      return [...document.querySelectorAll('#rows [data-e]')].map(row => {
        const mark = top(document.querySelector(`#e${row.dataset.e} :is(.dot, .ring)`));
        return Math.abs(top(row).top + 12 - mark.top - mark.height / 2) > 2 }).filter(Boolean)""")
    same(browser, "the marks that are not in their rows", [], off)


MARKS = """return [...document.querySelectorAll('#strip .mark')]
  .map(path => path.getAttribute('d').match(/M/g).length).reduce((sum, one) => sum + one, 0)"""


def look_at_marks_without_a_lane(browser):
    """Server 4 does not exist. Its mark would be among the tracks."""
    browser.open(link([*many_events(), "submit 4 9.0 set a x"]))
    browser.wait("return document.querySelector('#strip .mark')", "the strip")
    same(browser, "the marks of 48 events, and of one at a server that does not exist", 48, browser.run(MARKS))


def use_the_strip(browser):
    browser.wait("return document.querySelector('#strip .mark')", "the strip")
    same(browser, "the marks of the strip", 48, browser.run(MARKS))
    browser.click("#tracks")
    names = "return [...document.querySelectorAll('#strip-servers .track')].map(name => name.textContent)"
    same(browser, "the tracks", [f"i{instance}" for instance in range(0, 24, 3)], browser.run(names))
    line = browser.run("return document.querySelectorAll('#strip .track')[2].getAttribute('d')")
    same(browser, "the ends of the track of instance 6", ["12.5", "17.5"], re.findall(r"[MH]([\d.]+)", line))
    browser.click("#tracks")
    for key in ("g", "3", "0", "Enter"):
        browser.press(key)
    same(browser, "the cursor after going to event 30", "31 of 48", cursor(browser))
    browser.run("""const strip = document.getElementById('strip'), { left, width, top } = strip.getBoundingClientRect();
      const clientX = left + width * 20.5 / 48;
      strip.setPointerCapture = () => {};
      strip.dispatchEvent(new PointerEvent('pointerdown', { clientX, clientY: top + 5, buttons: 1 }))""")
    same(browser, "the cursor after a click in the strip", "21 of 48", cursor(browser))
    browser.choose("#example", "one_command")
    hidden = browser.run("return document.getElementById('view').hidden")
    same(browser, "whether the bar of a short schedule is hidden", True, hidden)


# ---- the parts of a long picture that are laid out later

# Goes to a place. Returns how many parts are hidden then, and the events of hidden parts whose rows are in sight.
GO_FAR = """document.getElementById('slider').value = %d;
  document.getElementById('slider').dispatchEvent(new Event('input'));
  const box = selector => document.querySelector(selector).getBoundingClientRect();
  const from = box('#heads').bottom, to = box('#dock').top;
  const isInSight = event => {
    const { top, bottom } = box(`#rows [data-e="${event}"]`);
    return bottom > from && top < to;
  };
  const hidden = [...document.querySelectorAll('#drawing g[data-e]')]
    .filter(part => getComputedStyle(part).display === 'none').map(part => part.dataset.e);
  return [hidden.length, hidden.filter(isInSight)]"""


def look_at_far_parts(browser):
    """The rows in sight are drawn at once. The others follow soon."""
    browser.open(link(many_events(20)))
    for place in (60, 90, 30):
        hidden, missing = browser.run(GO_FAR % place)
        same(browser, f"the rows in sight without marks after {place} events", [], missing)
        same(browser, f"whether the page lays out a part of the picture later, after {place} events", True, hidden > 0)
        browser.wait("return !document.querySelector('#drawing .far')", "the rest of the picture")
        flat = browser.run("return [...document.querySelectorAll('#drawing g:not(.lane) > text')]"
                           ".filter(text => text.getBoundingClientRect().width === 0).map(text => text.textContent)")
        same(browser, f"the labels that stay hidden after {place} events", [], flat)
    browser.choose("#example", "one_command")


# ---- play

def play(browser):
    browser.choose("#speed", "16")
    browser.click("#first")
    browser.click("#play")
    same(browser, "the button while the page plays", "pause", browser.text("#play"))
    browser.wait("return document.getElementById('where').textContent === '6 of 6'", "the end of the schedule")
    browser.wait("return document.getElementById('play').textContent === 'play'", "the end of the play")
    browser.choose("#speed", "0.5")
    browser.run("document.getElementById('picture').focus()")
    browser.press("Home")
    browser.press(" ")
    same(browser, "the button after the space key", "pause", browser.text("#play"))
    browser.press("Right")
    same(browser, "the cursor after a step by a user", "1 of 6", cursor(browser))
    same(browser, "the button after a step by a user", "play", browser.text("#play"))
    browser.choose("#speed", "16")
    browser.click('#lessons [data-step="4"]')
    same(browser, "the cursor of step 4 of the lesson", "0 of 6", cursor(browser))
    browser.press("End")
    browser.click("#step [data-replay]")
    same(browser, "the button during a replay", "pause", browser.text("#play"))
    browser.wait("return document.getElementById('where').textContent === '6 of 6'", "the end of the replay")
