"""Judges what clients saw on the page. The expected verdicts follow from docs/FORMATS.md by hand."""
import json

import files
from page_user import URL, same

# 3.0 reads x, which 1.0 wrote, before 2.0 replaces it. So there is an order: 1.0, 3.0, 2.0, 1.1, 2.1.
LOG = """submit 1.0 set a x
submit 2.0 set a y
reply 1.0 none
submit 3.0 get a
reply 2.0 =x
reply 3.0 =x
submit 1.1 get a
reply 1.1 =y
submit 2.1 get b
reply 2.1 none
"""
# Each change of the log, with the verdict, its words, and the line that is marked in the timeline.
TRIALS = [
    ("", "", "linearizable commands 5 replies 5 lost 0 keys 2",
     "An order of the 5 commands explains all replies, which are 5.", []),
    ("reply 2.1 none\n", "", "linearizable commands 5 replies 4 lost 1 keys 2", "An order of the 5 commands explains"
     " all replies, which are 4. 1 command without a reply may have taken effect or not.", []),
    # Nobody wrote z.
    ("reply 3.0 =x", "reply 3.0 =z", "violation 6 Linearizable key a", "No order of the commands fits the last of these"
     " replies. In an order, a command comes after those that had a reply before it was submitted, and a map gives each"
     " reply. The last reply could be =y or =x instead.",
     ["submit 1.0 set a x", "submit 2.0 set a y", "reply 1.0 none", "submit 3.0 get a", "reply 2.0 =x", "reply 3.0 =z"]),
    ("reply 2.1 none", "reply 1.0 =x", "violation 10 OneReply command 1.0 expected none found =x",
     "The command had a different reply before.", ["reply 1.0 =x"]),
    ("submit 2.1 get b", "submit 1.0 get b", "violation 9 OneCommand command 1.0",
     "A different command was submitted under this identity before.", ["submit 1.0 get b"]),
    ("submit 2.1 get b\n", "", "violation 9 Submitted command 2.1", "The command with this reply was never submitted.",
     ["reply 2.1 none"]),
    (LOG, "submit 1.0 set a x\n", "unjudged commands 1 replies 0 lost 1 keys 1",
     "No command has a reply, so there is nothing to judge.", []),
]


def look(browser):
    browser.open(URL)
    files.drop(browser, "clients.log", LOG)
    browser.wait("return document.getElementById('timeline-verdict').textContent.startsWith('unjudged servers 0 ')",
                 "the verdict without histories")
    same(browser, "whether the words name the other judgement", True,
         browser.text("#in-words").endswith("Choose “only what clients saw” to judge it without executions."))
    off = browser.run("""const box = document.getElementById('clients'), range = document.createRange();
      const middle = part => part.getBoundingClientRect().top + part.getBoundingClientRect().height / 2;
      range.selectNodeContents(box.nextSibling);
      return Math.abs(middle(box) - middle(range))""")
    same(browser, f"whether the words next to the box, {off:.1f} px off, are at its height", True, off <= 2)
    browser.click("#clients")
    for old, new, verdict, words, quoted in TRIALS:
        browser.write("#log", LOG.replace(old, new) if old else LOG)
        browser.wait("return ['judgement', 'timeline-verdict'].every(id =>"
                     f" document.getElementById(id).textContent === {json.dumps(verdict)})", verdict)
        same(browser, f"what this means: {verdict}", words, browser.text("#timeline-words"))
        rows = browser.run("return [...document.querySelectorAll('#log-rows .quoted-row')]"
                           ".map(row => row.textContent.split('quoted: ')[1].trim())")
        same(browser, f"the marked rows of the timeline: {verdict}", quoted, rows)
    give_up(browser)
    browser.write("#log", LOG)
    browser.click("#clients")
    browser.wait("return document.getElementById('judgement').textContent.startsWith('unjudged servers 0 ')",
                 "the verdict of the other judgement")
    browser.click("#tab-lesson")


def give_up(browser):
    """5,000 commands wait, which is more than the program considers. The page must not wait for its search."""
    waiting = "".join(f"submit {number}.0 set a {number}\n" for number in range(5_000))
    browser.write("#log", f"{waiting}submit 0.1 get a\nreply 0.1 none\n" + "".join(
        f"reply {number}.0 ok\n" for number in range(5_000)))
    browser.wait("return document.getElementById('judgement').textContent.startsWith('undecided ')",
                 "the end of a search")
    same(browser, "whether the words say that the search was given up", True,
         browser.text("#in-words").startswith("The search for an order was given up, because "))
