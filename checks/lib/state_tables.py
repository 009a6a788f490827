"""Tries what the page shows of a server: the instances from the first one that is not executed, the changes of the last
event, the commands, the map and the replies. The expected texts were worked out by hand."""
from page_user import URL, act, same

# A cluster of one server decides and executes each command at once. Each command sends three messages.
OPERATIONS = ["set a x", "cas a x y", "set b ", "set c z", "del c", "get a"]
MAP = ["a =y", "b ="]


def look(browser):
    compare_with_reports(browser)
    keep_equal_parts(browser)
    look_at_the_blocking_instance(browser)
    look_at_a_vote_in_vain(browser)
    look_at_a_map(browser)
    look_at_many_replies(browser)


def compare_with_reports(browser):
    """The histories, the replies and the counts come from the trace. They must be those of the report."""
    browser.open(URL + "#n=3&at=0&e=")
    for _ in range(8):
        browser.click("#random20")
    browser.click("#tab-texts")
    replied = 0
    for place in (*range(0, 161, 23), 160):
        act(browser, f"before {place}")
        browser.run("document.querySelectorAll(`#dock [data-do^='whole history'], #dock [data-do='whole replies']`)"
                    ".forEach(button => button.click())")
        lines = [line.split(" ") for line in browser.text("#report").splitlines()]
        [[_, _, _, messages, _, events]] = [line for line in lines if line[0] == "servers"]
        histories = [" ".join(line[7:]).replace("-", "") for line in lines if line[0] == "server"]
        replies = [f"{line[1]} → {' '.join(line[2:])}" for line in lines if line[0] == "reply"]
        replied += sum("pending" not in reply for reply in replies)
        shown = browser.run("""const texts = (part, selector) => [...part.querySelectorAll(selector)].map(one => one.textContent);
          const dock = document.getElementById('dock'), histories = [...dock.querySelectorAll('.history')];
          return [histories.map(part => texts(part, 'li b').join(' ')), texts(dock, '.summary p').at(-1),
            [...dock.querySelectorAll('.replies li')].map(one => texts(one, 'b, i').join(' '))]""")
        counts = ", ".join(f"{number} {word}{'' if number == '1' else 's'}"
                           for number, word in ((events, "event"), (messages, "message")))
        same(browser, f"the histories, the counts and the replies after {place} events", [histories, counts, replies],
             shown)
    same(browser, f"whether some commands have replies, {replied} in all", True, replied > 5)
    browser.click("#tab-lesson")


def keep_equal_parts(browser):
    """A step keeps the parts that it does not change. To lay out all of them anew would take most of its time."""
    browser.choose("#example", "one_command")
    act(browser, "before 2")
    browser.run("window.parts = [...document.querySelectorAll('#dock h3, #dock .facts, #dock .acts > button, #heads b')]"
                ".filter(part => !part.matches('[data-do^=again]'))")
    browser.click("#next")
    browser.click("#back")
    gone = browser.run("return window.parts.filter(part => !part.isConnected).map(part => part.outerHTML)")
    same(browser, "the parts that are not in the page after two steps", [], gone)


def link(servers, events):
    return f"{URL}#n={servers}&at={len(events)}&e=" + ";".join(event.replace(" ", "+") for event in events)


def decided_alone(operations):
    return [event for number, operation in enumerate(operations) for event in (
        f"submit 0 1.{number} {operation}", f"deliver {3 * number} 0", f"deliver {3 * number + 1} 0", "execute 0")]


def texts(browser, selector):
    return browser.run(f"return [...document.querySelectorAll({selector!r})]"
                       ".map(part => part.textContent.replaceAll('@', ' @').replace(/ +/g, ' ').trim())")


def look_at_the_blocking_instance(browser):
    """Server 1 decides nine commands at the instances 1, 4, .. 25. It hears nothing about instance 0, so it cannot
    execute any. The messages are delivered as a user would pick them, by their kind."""
    browser.open(URL + "#n=3&at=0&e=")
    browser.run("""const card = server => document.querySelector(`#dock [data-server="${server}"]`);
      const deliver = (kind, to) => [...card(to).querySelectorAll('.message')]
        .filter(button => button.textContent.includes(kind)).at(-1).click();
      for (let number = 0; number < 9; number += 1) {
        add(`submit 1 2.${number} set a v${number}`);
        for (const server of [1, 2]) { deliver('Suggest', server); deliver('Accepted', 1); }
      }""")
    card = '#dock [data-server="1"] '
    rows = f"{card}tbody th"
    same(browser, "the instances of server 1: the first six, and the last one, which the last event changed",
         ["i0", "i1", "i4", "i7", "i10", "i13", "i25"], texts(browser, rows))
    same(browser, "the button for the other ones", ["3 later .."], texts(browser, f"{card}.knowledge > button"))
    same(browser, "the changed cells of the first table", ["2.8 set a v8"], texts(browser, "#dock .changed"))
    same(browser, "the command of the newest message on its way to server 0", ["set a v8"],
         texts(browser, '#dock [data-server="0"] .inbox small')[-1:])
    same(browser, "the instance that blocks server 1", ["i0"], texts(browser, f"{card}tr.next th"))
    browser.click(f'{card}[data-do="whole later1"]')
    wanted = ["i0", *[f"i{instance}" for instance in range(1, 26, 3)]]
    same(browser, "all instances of server 1", wanted, texts(browser, rows))
    same(browser, "the cells that the last event changed", ["2.8 set a v8"], texts(browser, "#dock .changed"))
    browser.click("#back")
    browser.click("#back")
    same(browser, "the cells that the first acceptance changed", ["proposed 2.8, accepted by 1 of 2 set a v8"],
         texts(browser, "#dock .changed"))


# Server 2 accepts 1.0 (message 1), but servers 0 and 1 promise ballot 4 without a vote (3, 4). Server 1 proposes a no-op
# (5), both accept it (6, 7), and server 2 learns it (8).
VAIN = ["submit 0 1.0 set a x", "deliver 0 2", "suspect 1 0", "deliver 2 1", "deliver 2 0", "deliver 3 1", "deliver 4 1",
        "deliver 5 1", "deliver 5 0", "deliver 6 1", "deliver 7 1", "deliver 8 2"]


def look_at_a_vote_in_vain(browser):
    """The command is next to its identity, also if the server accepted it and then learned something else."""
    browser.open(link(3, VAIN))
    same(browser, "the row of a server that accepted one value and learned another", ["i0", "–", "1.0 @b0 set a x", "no-op"],
         texts(browser, '#dock [data-server="2"] tbody tr:first-child > *'))


def look_at_a_map(browser):
    browser.open(link(1, decided_alone(OPERATIONS)))
    same(browser, "the map", MAP, texts(browser, "#dock .map li"))
    same(browser, "the history", [f"1.{number} {operation}".strip() for number, operation in enumerate(OPERATIONS)],
         texts(browser, "#dock .history li"))
    same(browser, "the button for older instances", ["6 executed .."], texts(browser, ".knowledge > button"))
    browser.click(".knowledge > button")
    same(browser, "the first row with older instances", ["i0", "–", "1.0 @b0", "1.0 set a x"],
         texts(browser, ".server tbody tr:first-child > *"))
    act(browser, "before 8")
    same(browser, "the map after two commands", ["a =y"], texts(browser, "#dock .map li"))
    look_at_the_marks_of_executions(browser)
    act(browser, "before 3")
    same(browser, "the map before the first execution", ["–"], texts(browser, "#dock .map code"))
    same(browser, "the cells that the last event changed", ["1.0 set a x"], texts(browser, "#dock .changed"))


def look_at_the_marks_of_executions(browser):
    """An execution changes the reply, the count, the history, and the map if the command writes."""
    marked = "#dock .changed"
    act(browser, "before 4")
    same(browser, "the marks of the first execution", ["1.0 set a x → none", "executed 1", "1.0 set a x", "a =x"],
         texts(browser, marked))
    act(browser, "before 12")
    same(browser, "the marks of the third execution", ["1.2 set b → none", "executed 3", "1.2 set b", "b ="],
         texts(browser, marked))
    act(browser, "before 24")
    same(browser, "the marks of an execution that reads", ["1.5 get a → =y", "executed 6", "1.5 get a"],
         texts(browser, marked))


def look_at_many_replies(browser):
    browser.open(link(1, decided_alone([f"set k{number} v" for number in range(40)])))
    same(browser, "the replies and the button for older ones", 31, len(texts(browser, ".replies li")))
    same(browser, "the button for older replies", "show 10 older ..", texts(browser, ".replies button")[0])
    browser.click(".replies button")
    same(browser, "the first of all replies", "1.0 set k0 v → none", texts(browser, ".replies li")[0])
    same(browser, "the number of all replies", 40, len(texts(browser, ".replies li")))
