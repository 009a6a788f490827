"""Tries the random steps of the page. 120 of them must decide, revoke and execute instances, as the schedules of
conformance/drawing.py do. 40 must execute a command, with any number of servers. Twenty steps must take one rendering
and one undo, also after 10,000 events."""
import readable
from page_user import URL, act, cursor, same
from shared import fail, say

MOST_MILLISECONDS = 300
MOST_FOR_A_STEP = 150
EVENTS = 10_000
# The numbers of commands that are executed in each of some draws. A draw is two clicks for twenty events.
COMMANDS_OF_DRAWS = r"""const click = id => document.getElementById(id).click(), counts = [];
  for (let draw = 0; draw < 4; draw += 1) {
    click('random20');
    click('random20');
    counts.push(document.getElementById('trace').textContent.match(/^executed (?!.* no-op$)/gm)?.length ?? 0);
    click('undo');
    click('undo');
  }
  return counts"""


def look(browser):
    look_at_the_events(browser)
    look_at_other_clusters(browser)
    compare_the_texts(browser)
    count_the_renderings(browser)


def look_at_the_events(browser):
    """The dice of a new page always start with the same seed, so the events are always the same."""
    browser.open(URL + "#n=3&at=0&e=")
    for _ in range(5):
        browser.click("#random20")
    browser.run("for (let left = 20; left > 0; left -= 1) document.getElementById('random').click()")
    same(browser, "the cursor after 120 random events", "120 of 120", cursor(browser))
    browser.click("#tab-texts")
    lines = [line.split(" ") for line in browser.text("#trace").splitlines()]
    browser.click("#tab-lesson")
    counts = {
        "submitted commands": sum(line[2:3] == ["submit"] for line in lines),
        "commands that were executed": sum(line[0] == "executed" and line[-1] != "no-op" for line in lines),
        "instances that were revoked": sum(line[0] == "learned" and line[-1] == "no-op" for line in lines),
        "executions": sum(line[0] == "executed" for line in lines),
    }
    for what, count in counts.items():
        if count < 4:
            fail(f"{browser.name}: 120 random events have too few {what}: {count}")
    most = sum(line[2:3] == ["suspect"] for line in lines)
    if most > 20:
        fail(f"{browser.name}: {most} of 120 random events are suspicions")
    same(browser, "the refused random events", 0, sum(line[0] == "refused" for line in lines))


def look_at_other_clusters(browser):
    """Also with more servers, which send more messages, the first two clicks for twenty events execute a command. After
    an undo of both, the same dice draw other events."""
    for servers in (1, 2, 4, 5, 6, 7):
        browser.open(URL + f"#n={servers}&at=0&e=")
        browser.click("#tab-texts")
        counts = browser.run(COMMANDS_OF_DRAWS)
        browser.click("#tab-lesson")
        same(browser, f"the draws of 40 events that execute no command of {servers} servers, {counts}", 0, counts.count(0))
    browser.open(URL + "#n=3&at=0&e=")
    for _ in range(6):
        browser.click("#random20")


def compare_the_texts(browser):
    """The page makes the text of a longer schedule from that of a shorter one. It must be the text of all its events,
    also if a new event needs another version."""
    wrong = browser.run("""const [word] = Object.keys(DATA.operations.versions), { schedule } = page;
      const older = ['execute 0', 'submit 0 9.1 set "a" \\\\'], newer = [`submit 0 9.2 ${word} a`];
      const cases = [[], older, newer, [...older, ...newer, ...older]].flatMap(added =>
        [emptyOf(schedule), schedule, withEvents(schedule, newer)].map(start => withEvents(start, added)));
      return cases.filter(one => asScenario(one) !== asScenario({ ...one })).map(one => one.events.slice(-3))""")
    same(browser, "the ends of schedules whose text is wrong", [], wrong)


def count_the_renderings(browser):
    """`show` draws the page anew. The check counts its calls while the buttons are clicked."""
    browser.run("window.shown = 0; const real = show; window.show = () => { window.shown += 1; real(); }")
    browser.click("#random20")
    same(browser, "the renderings of twenty random steps", 1, browser.run("return window.shown"))
    same(browser, "the cursor then", "140 of 140", cursor(browser))
    told = browser.text("#told")
    same(browser, f"whether the page announces twenty events: {told}", True, told.startswith("20 random events happened."))
    browser.click("#undo")
    same(browser, "the cursor after one undo", "120 of 120", cursor(browser))


def time_long_steps(browser):
    """The processor time of steps at 10,000 events, most of them repeated deliveries, and of twenty random steps."""
    browser.open(URL + "#n=3&at=0&e=")
    for _ in range(20):
        browser.run("document.getElementById('random20').click()")
    browser.run(f"""const events = [...page.schedule.events], again = events.filter(event => event.startsWith('deliver '));
      while (events.length < {EVENTS}) events.push(again[events.length % again.length]);
      become({{ ...page.schedule, events }}, events.length)""")
    same(browser, "the cursor of the long schedule", f"{EVENTS} of {EVENTS}", cursor(browser))
    times = sorted(browser.own_time("document.getElementById('random20').click()") for _ in range(5))
    if times[0] >= MOST_MILLISECONDS:
        fail(f"twenty random steps at {EVENTS} events take {times[0]:.0f} ms of processor time, not less than"
             f" {MOST_MILLISECONDS}")
    say(f"twenty random steps at {EVENTS} events take {times[0]:.0f} to {times[-1]:.0f} ms of processor time")
    # Each step goes to an event for which the page has no trace yet.
    steps = sorted(browser.own_time("document.getElementById('back').click()") for _ in range(9))
    if steps[0] >= MOST_FOR_A_STEP:
        fail(f"a step at {EVENTS} events takes {steps[0]:.0f} ms of processor time, not less than {MOST_FOR_A_STEP}")
    say(f"a step at {EVENTS} events takes {steps[0]:.0f} to {steps[-1]:.0f} ms of processor time")
    look_at_the_width(browser)


def look_at_the_width(browser):
    """The labels of a long schedule have long numbers. Three lanes must nevertheless fit into 1280 pixels."""
    with readable.window(browser, 1280, 800):
        for place in (EVENTS, EVENTS // 2):
            act(browser, f"before {place}")
            browser.wait("const { scrollWidth, clientWidth } = document.getElementById('stage');"
                         "return innerWidth === 1280 && scrollWidth <= clientWidth",
                         f"three lanes in 1280 pixels after {place} events")
