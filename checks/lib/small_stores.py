"""Small stores for `conformance/compare`, the schedules of its suite, and parts of the texts that it prints."""
import json
import os
import pathlib
import sys

from shared import TOP, expect, fail, start_to

CONFORMANCE = os.path.join(TOP, "conformance")
SUITE = os.path.join(CONFORMANCE, "schedules")
SCREEN = 50  # lines

# The beginning of each store. `lines` returns the lines `event` and `sent` of a correct store for a scenario.
HEAD = f"""#!/usr/bin/env python3
import json, os, sys, time
sys.dont_write_bytecode = True
sys.path.insert(0, {CONFORMANCE!r})

def lines(scenario):
    import store
    return store.replay(scenario).trace

def read():
    return json.load(sys.stdin)

def show(lines, end="\\n"):
    sys.stdout.write("".join(line + end for line in lines))

def serve(answer):
    for line in sys.stdin:
        request = json.loads(line)
        print(json.dumps(answer(request["id"], lines(request["scenario"]))), flush=True)
"""

FIRST_LINES = """\
  event 0 submit 0 1.0 get a
  sent 0 Suggest from 0 to all instance 0 ballot 0 value 1.0
"""
EMPTY_REPORT = """\
  servers 1 messages 0 events 0
  server 0 front 0 done 0 history -
"""
HINT = ("The store gets the schedule on standard input, and must print a report, a trace or both on standard output"
        " (docs/TESTING_A_STORE.md).\n")
KEEP_HINT = ("With --keep, the store gets one schedule in each line, and must answer each with one line, and flush it"
             " (docs/TESTING_A_STORE.md).\n")
PAGE = pathlib.Path(TOP, "docs", "page", "mencius.html")
MARKS = "(- marks expected lines, + marks found lines)\n"
RETURN = "\\r is a carriage return. The store must end a line with a line feed alone.\n"
NO_REPLIES = "The store printed no report, so no history and no reply was compared.\n"
SPACE = "Some of the lines differ only in the spaces at their end.\n"


# ---- the suite, without the modules of conformance/

def suite():
    """The scenario and the report of each schedule, by name."""
    found = {}
    for name in sorted(os.listdir(SUITE)):
        if name.endswith(".json"):
            with open(os.path.join(SUITE, name), encoding="utf-8") as scenario, \
                    open(os.path.join(SUITE, name[:-5] + ".txt"), encoding="utf-8") as report:
                found[name[:-5]] = json.load(scenario), report.read()
    return found


SCHEDULES = suite()


def has_beta(name):
    return SCHEDULES[name][0].get("beta", 0) > 0


def has_refusals(name):
    return SCHEDULES[name][1].startswith("refused ")


def has_cas(name):
    return any(event.split(" ")[3:4] == ["cas"] for event in SCHEDULES[name][0]["events"])


def is_limit(name):
    return name.startswith("limit_")


def count(name):
    return len(SCHEDULES[name][0]["events"])


# The suite begins with the shortest schedule without a beta.
SMALLEST = min((name for name in SCHEDULES if not has_beta(name) and not is_limit(name)),
               key=lambda name: (count(name), name))
HEADING = f"{SMALLEST} ({count(SMALLEST)} events)"
# Its first event must be `submit 0 1.0 FIRST_COMMAND`.
*FIRST_WORDS, FIRST_COMMAND = SCHEDULES[SMALLEST][0]["events"][0].split(" ", 3)


# ---- stores

class Stores:
    """A folder with stores. node is not on the PATH of a comparison."""

    def __init__(self, folder):
        self.folder = folder
        os.mkdir(os.path.join(folder, "bin"))
        os.symlink(sys.executable, os.path.join(folder, "bin", "python3"))
        hidden = ("MENCIUS_LIBRARY", "BROWSER", "DISPLAY", "WAYLAND_DISPLAY")
        self.around = {name: value for name, value in os.environ.items() if name not in hidden}
        self.around["PATH"] = os.path.join(folder, "bin")

    def write(self, name, text, mode=0o755):
        path = os.path.join(self.folder, name)
        with open(path, "w", encoding="utf-8") as file:
            file.write(text)
        os.chmod(path, mode)

    def compare(self, name, options, status, where=CONFORMANCE, **around):
        """Compares the store of this name, and returns the text on standard output. A message on standard error comes
        first."""
        words = [os.path.join(where, "compare"), "--out", f"{name}.json", *options, "--", f"./{name}"]
        ended = start_to(words, "", status, f"compare {name}", cwd=self.folder, env={**self.around, **around})
        return (ended.said + ended.printed).replace(f"{name}.json", "FILE").replace(f"./{name}", "STORE")

    def shows(self, name, body, wanted, *options, status=1):
        """A store with this body must give this text. The text about a store that fails must fit on a screen."""
        self.write(name, HEAD + body)
        found = self.compare(name, options, status)
        expect(f"compare {name}", wanted, found)
        length = found.count("\n")
        if " fails at " in found and length > SCREEN:
            fail(f"compare {name}: {length} lines are more than a screen")


def failing(words, said, short, repeat=True, hint=HINT):
    """The text about a store that fails on each schedule."""
    count, lines = ("1 event", FIRST_LINES) if short else ("0 events", EMPTY_REPORT)
    return (f"{HEADING} fails at event 0: {words}\n{said}\n"
            f"shortened to {count} (the least) in FILE. The expected output includes:\n{lines}"
            + "To repeat it: STORE < FILE\n" * repeat + hint)


def link(servers, *events, members=""):
    """The line with the link to a schedule that ends with the difference."""
    texts = ";".join(event.replace(" ", "+") for event in events)
    return f"To look at it: {PAGE.as_uri()}#n={servers}&{members}at={len(events)}&e={texts}\n"
