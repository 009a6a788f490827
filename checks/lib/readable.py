"""Tries whether the page can be read: the contrast of later events, the size of buttons, the words for a screen reader,
and the parts that stay in sight in narrow windows. The colours are those that the browser computes."""
import contextlib
import json

import files
import moving_picture
from page_user import URL, act, same

# The least contrast that WCAG 2 asks for, and the least size of a target in pixels.
LEAST_CONTRAST = 4.5
LEAST_SIZE = 24
# In pixels. The thumb of a slider takes some 20 of them.
LEAST_SLIDER = 36

# The contrast of each text of a later event with what is behind it. `alpha` is the product of all opacities.
CONTRASTS = """
  const parts = text => text.match(/[\\d.]+/g).map(Number);
  const alphaOf = part => (part ? parseFloat(getComputedStyle(part).opacity) * alphaOf(part.parentElement) : 1);
  const over = ([r, g, b, a = 1], under, alpha) => [r, g, b].map((one, at) => one * a * alpha + under[at] * (1 - a * alpha));
  const light = colour => colour.map(one => one / 255).map(one =>
    (one <= 0.04045 ? one / 12.92 : ((one + 0.055) / 1.055) ** 2.4))
    .reduce((sum, one, at) => sum + [0.2126, 0.7152, 0.0722][at] * one, 0);
  const ratio = (one, other) => { const [a, b] = [light(one), light(other)].sort((x, y) => y - x); return (a + 0.05) / (b + 0.05); };
  const paper = parts(getComputedStyle(document.getElementById('stage')).backgroundColor);
  const contrast = part => {
    const box = part.closest('svg') && part.parentElement.querySelector('rect'), style = getComputedStyle(part);
    const under = box ? over(parts(getComputedStyle(box).fill), paper, alphaOf(box)) : paper;
    return ratio(over(parts(part.closest('svg') ? style.fill : style.color), under, alphaOf(part)), under);
  };
  const texts = [...document.querySelectorAll('#drawing .later text, #rows .later')];
  return [texts.length, Math.min(...texts.map(contrast))]"""
# The contrast of the words in an empty field with the field.
CONTRAST_IN_FIELD = CONTRASTS[:CONTRASTS.index("  const texts =")] + """
  const field = document.querySelector('#only-instance'), words = getComputedStyle(field, '::placeholder');
  const ground = parts(getComputedStyle(field).backgroundColor), [, , , alpha = 1] = parts(words.color);
  return ratio(over([...parts(words.color).slice(0, 3), alpha * parseFloat(words.opacity)], ground, 1), ground)"""
# Whether the copy of a field's text, which only places the marks, can be seen, and whether the outline of the last
# event's row is inside the row.
FORCED = """const style = selector => getComputedStyle(document.querySelector(selector)), row = style('#rows .here');
  return [style('.marked pre').color !== 'rgba(0, 0, 0, 0)', parseFloat(row.outlineOffset) <= -parseFloat(row.outlineWidth)]"""
SMALL_BUTTONS = """return [...document.querySelectorAll('button, select')].map(part => [part, part.getBoundingClientRect()])
  .filter(([, box]) => box.width > 0 && Math.min(box.width, box.height) < %d - 0.5)
  .map(([part, box]) => `${part.outerHTML} ${box.width} ${box.height}`)""" % LEAST_SIZE
# Whether each part is in the window, and not under a part that does not contain it.
HIDDEN = """const at = (x, y) => document.elementFromPoint(x, y);
  const isSeen = part => { const box = part.getBoundingClientRect(), found = at(box.left + box.width / 2, box.top + box.height / 2);
    return found !== null && (part.contains(found) || found.contains(part)); };
  return [...document.querySelectorAll('#next, #back')].concat([...document.querySelectorAll('#rows .here b, #rows .here')].slice(0, 1))
    .filter(part => !isSeen(part)).map(part => part.outerHTML)"""


def look(browser):
    browser.open(URL)
    look_at_contrasts(browser)
    same(browser, "the buttons that are too small", [], browser.run(SMALL_BUTTONS))
    act(browser, "before 1")
    browser.click("#next")
    same(browser, "the words for a screen reader",
         "event 1, deliver 0 2: sent 1 Accepted from 2 to 0 instance 0 ballot 0", browser.text("#told"))
    with window(browser, 1280, 800):
        look_at_a_laptop(browser)
    look_at_senders(browser)
    with window(browser, 1280, 600):
        look_at_the_top_of_a_step(browser)
    with window(browser, 1920, 1080):
        look_at_a_large_window(browser)
    for width, height in ((390, 844), (640, 400)):
        browser.open(URL)
        with window(browser, width, height):
            browser.wait(f"return (() => {{ {HIDDEN} }})().length === 0",
                         f"the row of the last event, after the window shrank to {width}×{height}")
        with window(browser, width, height):
            look_at_a_narrow_window(browser, f"{width}×{height}")
            look_below_the_tracks(browser, f"{width}×{height}")
            look_at_a_mistake(browser, f"{width}×{height}")
            look_at_a_message(browser, f"{width}×{height}")
            look_at_rows_below_a_message(browser, f"{width}×{height}")
            look_at_labels_beside_the_events(browser, f"{width}×{height}")
            look_at_a_high_row(browser, f"{width}×{height}")
            look_at_a_log(browser, f"{width}×{height}")
            look_at_the_focus_below_the_lanes(browser, f"{width}×{height}")
            look_at_choices_below_a_message(browser, f"{width}×{height}")
            look_at_narrow_parts(browser, f"{width}×{height}")


def look_at_contrasts(browser):
    for scheme in ("light", "dark"):
        with media(browser, "prefers-color-scheme", scheme):
            measure(browser, scheme)
            with media(browser, "forced-colors", "active"):
                measure(browser, f"{scheme}, forced colours")
                same(browser, f"the text behind a field and the outline of a row ({scheme}, forced colours)",
                     [False, True], browser.run(FORCED))


def measure(browser, what):
    count, least = browser.run(CONTRASTS)
    same(browser, f"whether many later texts are measured ({what})", True, count > 10)
    same(browser, f"whether the least contrast of later events, {least:.2f}, is enough ({what})", True,
         least >= LEAST_CONTRAST)
    least = browser.run(CONTRAST_IN_FIELD)
    same(browser, f"whether the contrast of the words in an empty field, {least:.2f}, is enough ({what})", True,
         least >= LEAST_CONTRAST)


def look_at_a_laptop(browser):
    browser.open(URL)
    head, wide, room = browser.run("""const stage = document.getElementById('stage');
      return [document.querySelector('header').offsetHeight, stage.scrollWidth, stage.clientWidth]""")
    same(browser, f"whether the header takes one line, {head} px", True, head < 60)
    same(browser, f"whether three servers fit, {wide} px in {room} px", True, wide <= room)
    list_of_examples, left = browser.run("""const box = part => part.getBoundingClientRect();
      const ends = [...document.querySelectorAll('header > :not(#steps, #view, #told)')].map(part => box(part).right);
      return [document.getElementById('example').offsetWidth, box(document.getElementById('steps')).left - Math.max(...ends)]""")
    same(browser, f"whether the list of examples, {list_of_examples} px, leaves {left:.0f} px of its line empty", False,
         list_of_examples < 200 and left > 20)
    look_at_the_header_of_a_long_schedule(browser)
    look_at_a_log(browser, "1280×800")
    look_at_the_focus_below_the_lanes(browser, "1280×800")
    look_at_a_difference(browser)
    look_at_wide_tracks(browser)


TOP_OF_PANEL = """const title = document.querySelector('#step h2').getBoundingClientRect().top;
  return [title - document.querySelector('nav').getBoundingClientRect().bottom, innerHeight - title].map(Math.round)"""


def look_at_the_top_of_a_step(browser):
    """A new step begins with its title, also if the button for it was at the end of a long step."""
    browser.open(URL)
    for step in ('[data-way="learn"]', '#lessons [data-step="9"]', '#step .acts [data-step="10"]'):
        browser.click(step)
        below, room = browser.run(TOP_OF_PANEL)
        same(browser, f"whether the title is {below} px below the tabs, and {room} px above the end, after {step}", True,
             below >= 0 and room > 0)


def look_at_wide_tracks(browser):
    browser.open(moving_picture.link(moving_picture.many_events()))
    browser.click("#tracks")
    wide, room = browser.run("return ['lanes', 'view'].map(id => document.getElementById(id).offsetWidth)")
    same(browser, f"whether the tracks, {wide} px, take the whole width of {room} px", True, wide >= room - 1)


def look_at_a_large_window(browser):
    """The first schedule and its hint fit into the window, so there is nothing to scroll."""
    browser.open(URL)
    long, room = browser.run("const stage = document.getElementById('stage'); return [stage.scrollHeight, stage.clientHeight]")
    same(browser, f"whether the picture with its hint, {long} px, fits into {room} px", True, long <= room)


def look_at_a_difference(browser):
    """The panel scrolls by itself. Its words for a screen reader may not make the page longer than the window."""
    browser.open(URL)
    browser.choose("#example", "one_command")
    browser.click("#tab-compare")
    learned = "learned 0 instance 0 value "
    trace = browser.run("return page.whole.text").replace(learned + "1.0", learned + "no-op")
    browser.write("#output", trace)
    browser.wait("return document.querySelector('#sides .unseen')", "the difference")
    long, room = browser.run("return [document.documentElement.scrollHeight, innerHeight]")
    same(browser, f"whether the page, {long} px, fits into the window, {room} px", True, long <= room)


def look_at_the_header_of_a_long_schedule(browser):
    """The numbers of the events have five digits, and the strip is below the line with the buttons."""
    events = [f"execute {place % 3}" for place in range(12345)]
    files.drop(browser, "long.json", json.dumps({"version": 1, "servers": 3, "events": events}))
    tops, wide, room = browser.run("""const stage = document.getElementById('stage');
      const parts = [...document.querySelectorAll('header > :not(#view, #told, #common:empty)')];
      return [parts.map(part => part.getBoundingClientRect()).map(({ top, height }) => Math.round((top + height / 2) / 8)),
        stage.scrollWidth, stage.clientWidth]""")
    same(browser, "the places of the parts of a long schedule's header, in lines of 8 px", 1, len(set(tops)))
    same(browser, f"whether three servers fit, {wide} px in {room} px", True, wide <= room)


def look_at_a_narrow_window(browser, what):
    """The steps, the row of the last event and the name of its server must stay in sight at the end of an example."""
    browser.open(URL)
    names, hint = browser.run("""const box = id => document.getElementById(id).getBoundingClientRect();
      return [box('heads').top, box('hint').bottom].map(Math.round)""")
    same(browser, f"whether the names, at {names} px, are below the hint, which ends at {hint} px", True, names >= hint)
    moving_picture.card_at(browser, "#m0 text")
    right, room = browser.run("return [document.getElementById('about').getBoundingClientRect().right,"
                              "document.documentElement.clientWidth]")
    same(browser, f"whether the card ends, at {right} px, before the scroll bar, at {room} px", True, right < room)
    browser.choose("#example", "duelling_revokers")
    for place in (19, 2, 10, 18):
        act(browser, f"before {place}")
        same(browser, f"the hidden parts at {what} after {place} events", [], browser.run(HIDDEN))
        steps = "document.getElementById('steps').getBoundingClientRect().top >= 0"
        same(browser, f"whether the bar of the steps stays at {what}", True,
             browser.run(f"scrollTo(0, 9999); const isSeen = {steps}; scrollTo(0, 0); return isSeen"))
        name = browser.run("""const top = document.getElementById('heads').getBoundingClientRect().top;
          const stage = document.getElementById('stage').getBoundingClientRect().top; return Math.round(top - stage)""")
        same(browser, f"the distance of the names from the top at {what} after {place} events", 0, name)


def look_below_the_tracks(browser, what):
    """The tracks take much of a narrow window. Nevertheless, the row of the last event must be in sight."""
    browser.open(moving_picture.link(moving_picture.many_events()))
    browser.click("#tracks")
    same(browser, f"the hidden parts below the tracks at {what}", [], browser.run(HIDDEN))
    for place in (30, 31, 5):
        act(browser, f"before {place}")
        same(browser, f"the hidden parts below the tracks at {what} after {place} events", [], browser.run(HIDDEN))
    low = "const end = document.documentElement.scrollHeight; scrollTo(0, end); const low = scrollY;"
    browser.run(f"{low} window.low = low; document.getElementById('next').click()")
    same(browser, f"whether a step moves a reader at the end of the page at {what}", False,
         browser.run("return scrollY !== window.low"))


# Whether the words of the line with a mistake are in the window and in front, also if the reader scrolls the page.
MISTAKE = """const words = document.querySelector('#bad-link span');
  const isSeen = y => { scrollTo(0, y); const box = words.getBoundingClientRect();
    return document.elementFromPoint(box.left + 5, box.top + 5) === words; };
  const found = [0, 200, 9999].map(isSeen);
  scrollTo(0, 0);
  return found"""


def look_at_a_mistake(browser, what):
    browser.open(URL + "#n=3&at=0&e=deliver+00+0")
    browser.run("document.getElementById('toast').classList.remove('seen')")
    same(browser, f"whether the mistake in a link is in sight at {what}", [True] * 3, browser.run(MISTAKE))
    line, names = browser.run("""const stage = document.getElementById('stage');
      scrollTo(0, scrollY + stage.getBoundingClientRect().top - document.getElementById('bad-link').offsetHeight);
      return [document.getElementById('bad-link').getBoundingClientRect().bottom,
        document.getElementById('heads').getBoundingClientRect().top].map(Math.round)""")
    same(browser, f"whether the names, at {names} px, are below the mistake, which ends at {line} px, at {what}", True,
         names >= line - 1)
    browser.click('#bad-link [data-to="nothing"]')
    same(browser, f"whether the line can be closed at {what}", False,
         browser.run("return document.getElementById('bad-link').offsetHeight > 0"))


def look_at_a_message(browser, what):
    """A long message takes the width of the window, so that it hides few rows."""
    wide, room = browser.run("""say('word '.repeat(60));
      return [document.getElementById('toast').offsetWidth, document.documentElement.clientWidth]""")
    same(browser, f"whether a long message, {wide} px, takes most of {room} px at {what}", True, wide > 0.85 * room)


COVERED = """const box = selector => document.querySelector(selector).getBoundingClientRect();
  const message = box('#toast'), row = box('#rows .here');
  return message.top < row.bottom && row.top < message.bottom"""


def look_at_rows_below_a_message(browser, what):
    """A message stays for some seconds. It may not hide the row of the last event, also if a step moves the row."""
    browser.open(moving_picture.link(moving_picture.many_events()))
    for tracks in ("without tracks", "with tracks"):
        for place in (20, 21, 48, 4):
            act(browser, f"before {place}")
            browser.run("say('word '.repeat(60))")
            same(browser, f"whether a message hides the row at {what} after {place} events, {tracks}", False,
                 browser.run(COVERED))
        browser.run("scrollTo(0, 0); go(30); say('word '.repeat(60))")
        for step in ("next", "back", "back"):
            browser.run(f"document.getElementById('{step}').click()")
            same(browser, f"whether a message hides the row at {what} after a step, {tracks}", False, browser.run(COVERED))
        browser.click("#tracks")


# What has the focus, whether its middle and its left end are in front, and how far the picture is scrolled.
FOCUSED = """const part = document.activeElement, { left, top, width, height } = part.getBoundingClientRect();
  const isSeen = x => part.contains(document.elementFromPoint(x, top + height / 2));
  return [part.dataset.do ?? part.id, isSeen(left + width / 2) && isSeen(left + 4), document.getElementById('stage').scrollTop]"""


def look_at_the_focus_below_the_lanes(browser, what):
    """The Tab key goes through the buttons below the lanes. The row of the last event stays where it is, and no button
    with the focus is behind the summary at the left."""
    browser.open(moving_picture.link(moving_picture.many_events(20)))
    act(browser, "before 61")
    browser.run("document.getElementById('picture').focus({ preventScroll: true })")
    for key in ("2", "0"):
        browser.press(key)
        same(browser, f"whether the button after key {key} is in sight at {what}", True, browser.run(FOCUSED)[1])
    before = browser.run(FOCUSED)[2]
    for _ in range(30):
        browser.press("Tab")
        name, is_seen, place = browser.run(FOCUSED)
        same(browser, f"how far the picture is scrolled at {what} while `{name}` has the focus", before, place)
        same(browser, f"whether the button `{name}` is in sight at {what} while it has the focus", True, is_seen)


def look_at_choices_below_a_message(browser, what):
    """The buttons of the card that asks for a receiver are in front of a message."""
    browser.open(URL)
    browser.choose("#example", "wrong_suspicion_keeps_the_command")
    act(browser, "before 4")
    browser.run("document.querySelector('#dock [data-m=\"2\"] .message').focus()")
    browser.press("e")
    # In this way, the message covers some of the buttons, at any size of the window.
    browser.run("""say('word '.repeat(60));
      const message = document.getElementById('toast'), buttons = document.querySelector('#about .acts');
      Object.assign(message.style, { top: `${buttons.getBoundingClientRect().top}px`, bottom: 'auto' })""")
    hidden = browser.run("""const buttons = [...document.querySelectorAll('#about button')];
      document.getElementById('toast').style.pointerEvents = 'auto';
      const isSeen = part => { const { left, top, width, height } = part.getBoundingClientRect();
        return part.contains(document.elementFromPoint(left + width / 2, top + height / 2)); };
      return [buttons.length > 3, buttons.filter(part => !isSeen(part)).map(part => part.textContent)]""")
    same(browser, f"whether there are choices at {what}, and those behind the message", [True, []], hidden)


# The labels of the last event that are partly behind the list of the events, and those that are cut off at the right
# although all labels of the event have room. The space next to a label is 10 px.
HIDDEN_LABELS = """const box = part => part.getBoundingClientRect(), stage = document.getElementById('stage');
  const from = box(document.getElementById('rows')).right, to = box(stage).left + stage.clientWidth;
  const labels = [...document.querySelectorAll('#drawing .here :is(.cause, .says)')];
  const [lefts, rights] = ['left', 'right'].map(side => labels.map(label => box(label)[side]));
  const hasRoom = Math.max(...rights) - Math.min(...lefts) + 2 * 10 < to - from;
  return labels.filter(label => box(label).left < from || (hasRoom && box(label).right > to)).map(label => label.textContent)"""


def look_at_labels_beside_the_events(browser, what):
    """The picture scrolls to the right, and the list of the events stays. The labels of the last event must be next to it,
    also if they are as long as in the middle of a long schedule."""
    again = ["deliver 0 0"] * 60
    late = [*moving_picture.many_events(10), *again, "deliver 2 0", "submit 1 2.0 set a y", "deliver 30 2", "deliver 30 1"]
    # Every second event is at a server that does not exist, and so it is left of all lanes.
    outside = ["submit 2 1.0 set a x", "execute 5", "execute 2", "deliver 0 9"] * 3
    for events in (moving_picture.LATE, late, outside):
        browser.open(moving_picture.link(events))
        for place in range(len(events), len(events) - 12, -1):
            act(browser, f"before {place}")
            same(browser, f"the labels behind the events at {what} after {place} events", [], browser.run(HIDDEN_LABELS))
    browser.choose("#example", "duelling_revokers")
    for place in range(1, 20):
        act(browser, f"before {place}")
        same(browser, f"the hidden labels of an example at {what} after {place} events", [], browser.run(HIDDEN_LABELS))
    # The first schedule is short, so the picture gets a scroll bar with the long one.
    browser.open(URL)
    files.drop(browser, "long.json", json.dumps({"version": 1, "servers": 3, "events": moving_picture.many_events(40)}))
    for place in (1, 2, 100, 101):
        act(browser, f"before {place}")
        browser.wait(f"return (() => {{ {HIDDEN_LABELS} }})().length === 0",
                     f"the labels beside the events at {what}, after {place} events of a file")


# The height of the last event's row, and its distances from the names above it and from the part below the lanes.
HIGH_ROW = """const box = selector => document.querySelector(selector).getBoundingClientRect(), row = box('#rows .here');
  return [row.height, row.top - box('#heads').bottom, box('#dock').top - row.bottom].map(Math.round)"""


def look_at_a_high_row(browser, what):
    """A suspicion sends a message for each instance of a server, so its row is high."""
    events = [*moving_picture.many_events(5), *[f"submit 1 2.{number} set a x" for number in range(5)], "suspect 1 0"]
    browser.open(moving_picture.link(events))
    act(browser, f"before {len(events) - 1}")
    act(browser, f"before {len(events)}")
    height, above, below = browser.run(HIGH_ROW)
    same(browser, f"whether a row of {height} px is {above} px below the names and {below} px above the servers at {what}",
         True, above >= 0 and below >= 0)


def look_at_senders(browser):
    """A phone has no room for the event that sent a message far above. The label has it again in a wider window."""
    browser.open(moving_picture.link(moving_picture.LATE))
    for width, wanted in ((390, False), (844, True), (390, False)):
        has = f"return document.getElementById('drawing').textContent.includes({json.dumps(moving_picture.LONGEST)})"
        with window(browser, width, 844):
            browser.wait(f"return innerWidth === {width} && {json.dumps(wanted)} === (() => {{ {has} }})()",
                         f"the label {moving_picture.LONGEST} at {width} px to be shown: {wanted}")


def look_at_a_log(browser, what):
    """Some lines of the log must be in sight, and no message hides the words below them."""
    browser.open(URL)
    files.drop(browser, "right_reply.log", files.read("logs", "right_reply.log"))
    browser.wait("return document.getElementById('timeline-verdict').textContent.startsWith('violation')", "the verdict")
    rows, above, below = browser.run("""const box = id => document.getElementById(id).getBoundingClientRect();
      const rows = (document.getElementById('log-stage').clientHeight - box('lane-heads').height) / 24;
      return [rows, box('command-card').top - box('toast').bottom, box('toast').top - box('command-card').bottom]""")
    same(browser, f"whether {rows:.1f} lines of a log are in sight at {what}", True, rows >= 4)
    same(browser, f"whether the message is {above:.0f} px above the words or {below:.0f} px below them at {what}", True,
         above >= 0 or below >= 0)
    # Chromium complains if a page with a log of its own is left without a click of a user.
    browser.click("#tab-lesson")


def look_at_narrow_parts(browser, what):
    """Long numbers stay in the bar of the steps. The words of an empty picture, and a new step, are in sight."""
    events = [f"execute {place % 3}" for place in range(12345)]
    files.drop(browser, "long.json", json.dumps({"version": 1, "servers": 3, "events": events}))
    beyond = browser.run("""const bar = document.getElementById('steps').getBoundingClientRect();
      return [...document.querySelectorAll('#steps > *')].filter(part =>
        part.scrollWidth > part.clientWidth + 1 || part.getBoundingClientRect().right > bar.right).map(part => part.id)""")
    same(browser, f"the parts that are cut off in the bar of the steps at {what}", [], beyond)
    slider = browser.run("return document.getElementById('slider').offsetWidth")
    same(browser, f"whether the slider has room to move, {slider} px at {what}", True, slider >= LEAST_SLIDER)
    browser.open(URL + "#n=3&at=0&e=")
    right, room = browser.run("""return [document.getElementById('empty').getBoundingClientRect().right,
      document.documentElement.clientWidth].map(Math.round)""")
    same(browser, f"whether the words of an empty picture end, at {right} px, inside {room} px at {what}", True, right <= room)
    is_seen = browser.run("""scrollTo(0, 0);
      const step = document.querySelector('#lessons [data-step="9"]');
      step.focus();
      const { left, top, width, height } = step.getBoundingClientRect();
      return document.elementFromPoint(left + width / 2, top + height / 2) === step""")
    same(browser, f"whether a button below the picture is in sight once it has the focus at {what}", True, is_seen)
    browser.click('#lessons [data-step="9"]')
    browser.run("document.querySelector('#step .acts [data-step=\"10\"]').focus()")
    browser.click('#step .acts [data-step="10"]')
    below, room = browser.run(TOP_OF_PANEL)
    same(browser, f"whether the title of the next step is {room} px above the end of the window at {what}", True,
         below >= 0 and 0 < room < 10_000 and browser.run("return document.querySelector('#step h2')"
                                                          ".getBoundingClientRect().top >= 0"))


# ---- what only Chromium can emulate

@contextlib.contextmanager
def media(browser, name, value):
    chosen = getattr(browser, "chosen_media", [])
    set_media(browser, chosen + [{"name": name, "value": value}])
    try:
        yield
    finally:
        set_media(browser, chosen)


def set_media(browser, features):
    browser.chosen_media = features
    browser.driver.execute_cdp_cmd("Emulation.setEmulatedMedia", {"features": features})


@contextlib.contextmanager
def window(browser, width, height):
    size = {"width": width, "height": height, "deviceScaleFactor": 1, "mobile": False}
    browser.driver.execute_cdp_cmd("Emulation.setDeviceMetricsOverride", size)
    try:
        yield
    finally:
        browser.driver.execute_cdp_cmd("Emulation.clearDeviceMetricsOverride", {})
