"""More trials of checks/comparisons: lines at the end of a trace, how short a schedule is said to be, the JSON object,
the progress, an interruption while a schedule is shortened, files that cannot be written, wrong command lines, and
failures of the program that gives the expected output."""
import glob
import json
import os
import re
import shutil
import sys

from shared import expect, fail, start_to
from small_stores import (CONFORMANCE, SUITE, HEAD, FIRST_LINES, HINT, KEEP_HINT, MARKS, NO_REPLIES, SCHEDULES,
                          SMALLEST, HEADING, count, link)

GOOD = HEAD + "show(lines(read()))\n"
WRONG_SECOND_EVENT = "line.replace('event 1 ', 'event 2 ') for line in lines(read())"
# A program like `mencius`, whose trace ends with a line about each server.
PROGRAM = HEAD + """
import re, store
replayed = store.replay(read())
servers = [line for line in replayed.report() if line.startswith("server ")]
ends = [re.sub("done (.*) history .*", r"executed \\1 next \\1 waiting -", line) for line in servers]
"""
USAGE = "usage: compare [OPTION ..] -- STORE [WORD ..]\ncompare: error: "


# ---- what a difference shows

def at_the_end(stores):
    """The lines of the last event are shown, too, with those that come after them."""
    stores.write("program", PROGRAM + "show([*replayed.trace, *ends] if sys.argv[1] == 'trace'"
                 " else replayed.report())\n")
    scenario, report = SCHEDULES[SMALLEST]
    with open(os.path.join(SUITE, SMALLEST + ".trace"), encoding="utf-8") as file:
        trace = re.sub("(?m)^", "  ", file.read().rstrip()) + "\n"
    ends = "".join(f"  {line}\n" for line in report.splitlines() if line.startswith("server "))
    ends = re.sub("done (.*) history .*", r"executed \1 next \1 waiting -", ends) + "+ unheard 0 Suggest to 0\n"
    last = count(SMALLEST) - 1
    wanted = (f"{HEADING} differs at event {last}: its trace has other lines at the end\n{MARKS}"
              + trace[trace.index(f"  event {last - 3} "):] + ends
              + f"\nshortened to {last + 1} events (--shorten gives more time) in FILE:\n" + trace + ends
              + link(scenario["servers"], *scenario["events"]))
    body = PROGRAM[len(HEAD):] + "show([*replayed.trace, *ends, 'unheard 0 Suggest to 0'])\n"
    stores.shows("longer_trace", body, wanted, "--program", "./program", "--shorten", "0")


def two_events(stores):
    """Two events are not called the least, because one event may show a difference that nobody has tried."""
    stores.write("two_events", HEAD + f"show({WRONG_SECOND_EVENT})\n")
    expect("compare two_events", f"""\
shortened to 2 events (no event can be left out) in FILE:
{FIRST_LINES}- event 1 submit 0 2.0 get a
+ event 2 submit 0 2.0 get a
  sent 1 Suggest from 0 to all instance 1 ballot 0 value 2.0
""" + link(1, "submit 0 1.0 get a", "submit 0 2.0 get a"), stores.compare("two_events", [], 1).partition("\n\n")[2])


def failing_later(stores):
    """A store that has agreed before knows how to read schedules. So the text has a link in place of the hint."""
    stores.write("failing_later", HEAD + "given = read()\nshow(lines(given))\n"
                 "names = [event.split()[2] for event in given['events'] if event.startswith('submit ')]\n"
                 "if len(names) > len(set(names)): sys.exit('a command again')\n")
    expect("compare failing_later", f"""\
standard error:
! a command again

shortened to 2 events (no event can be left out) in FILE. The expected output includes:
{FIRST_LINES}  event 1 submit 0 1.0 get a
To repeat it: STORE < FILE
""" + link(1, "submit 0 1.0 get a", "submit 0 1.0 get a"), stores.compare("failing_later", [], 1).partition("\n")[2])


def without_replies(stores):
    """A store that prints only a trace may reply anything. A program may expect more lines of the trace."""
    for name, shown, remark in (("trace", "replayed.trace", NO_REPLIES), ("report", "replayed.report()", ""),
                                ("both", "[*replayed.trace, *replayed.report()]", ""),
                                ("more", "[*replayed.trace, 'reply 1.0 none']", NO_REPLIES)):
        stores.write(f"only_{name}", PROGRAM + f"show({shown})\n")
        expect(f"a store that prints its {name}", "1 schedule agrees\n" + remark,
               stores.compare(f"only_{name}", ["--seeds", "1"], 0))
    # `--program` expects all lines of this trace.
    stores.write("program_with_replies", PROGRAM + "show([*replayed.trace, 'reply 1.0 none'] if sys.argv[1] == 'trace'"
                 " else replayed.report())\n")
    expect("a store that prints replies in its trace", "1 schedule agrees\n",
           stores.compare("only_more", ["--seeds", "1", "--program", "./program_with_replies"], 0))


def kept_failing(stores):
    """With --keep, there is no command line that repeats the failure."""
    stores.write("refusing", HEAD + "serve(lambda number, shown: {'id': number, 'error': 'no\\tpeers'})\n")
    expect("compare refusing", f"""\
{HEADING} fails at event 0: the store answered with an error
standard output:
+ no\\tpeers

shortened to 0 events (the least) in FILE. The expected output includes:
  servers 1 messages 0 events 0
  server 0 front 0 done 0 history -
{KEEP_HINT}""", stores.compare("refusing", ["--keep", "--jobs", "1"], 1))
    # An empty line after each answer is the answer to the next schedule.
    stores.write("with_empty_lines", HEAD + """
for line in sys.stdin:
    request = json.loads(line)
    print(json.dumps({'id': request['id'], 'lines': lines(request['scenario'])}) + '\\n', flush=True)
""")
    found = stores.compare("with_empty_lines", ["--keep", "--jobs", "1"], 1)
    if " fails: the answer of the store is an empty line\nIn a new process of the store, " not in found:
        fail(f"compare with_empty_lines\n{found}")


def kept_and_shared(stores):
    """A store that is wrong while two of its processes have been started, and not before or after."""
    stores.write("shared", HEAD + """
open('shared_' + str(os.getpid()), 'w').close()
def answer(number, shown):
    started = len([name for name in os.listdir('.') if name.startswith('shared_')])
    time.sleep(0.2)
    return {'id': number, 'lines': ['event 0 wrong'] if started == 2 else shown}
serve(answer)
""")
    found = stores.compare("shared", ["--keep", "--jobs", "2", "--seeds", "40"], 1)
    wanted = ("In a new process of the store, the store did not differ in this way. The schedule is in FILE.\n"
              "Perhaps the store keeps something of the schedules before.\n"
              "Perhaps several runs of the store share a port or a file. Then add --jobs 1.\n")
    if not found.endswith("\n" + wanted):
        fail(f"a store that keeps something, with two jobs\nwanted: .. {wanted}\nfound: {found}")


def as_json(stores):
    stores.write("in_json", HEAD + f"print('late', file=sys.stderr)\nshow({WRONG_SECOND_EVENT})\n")
    found = json.loads(stores.compare("in_json", ["--json", "--jobs", "1"], 1))
    shortest = found["shortest"]
    expect("compare --json", json.dumps({
        "about": "lines", "words": "its trace has other lines", "event": 1, "servers": 1, "beta": 0,
        "events": ["submit 0 1.0 get a", "submit 0 2.0 get a"], "standard_error": [],
        "expected": ["event 1 submit 0 2.0 get a", "sent 1 Suggest from 0 to all instance 1 ballot 0 value 2.0"],
        "found": ["event 2 submit 0 2.0 get a", "sent 1 Suggest from 0 to all instance 1 ballot 0 value 2.0"]},
        sort_keys=True),
        json.dumps({name: value for name, value in shortest.items() if name != "schedule"}, sort_keys=True))
    wanted = {"agreed": 0, "interrupted": False, "is_least": False, "is_minimal": True, "is_steady": True,
              "file": "FILE", "link": link(1, *shortest["events"]).removeprefix("To look at it: ").rstrip()}
    expect("compare --json, the rest", json.dumps(wanted), json.dumps({name: found[name] for name in wanted}))
    expect("compare --json, the schedule", SMALLEST, found["difference"]["schedule"])
    stores.write("failing_in_json", HEAD + "sys.exit('no peers')\n")
    failure = json.loads(stores.compare("failing_in_json", ["--json", "--shorten", "0"], 1))["difference"]
    expect("compare --json of a failure", "crash 0 the store ended with status 1 ['no peers']",
           "{about} {event} {words} {standard_error}".format(**failure))


# ---- progress and interruptions

def progress(stores):
    """The first four runs take 1.5 seconds, so each step has a line. All runs after the first one are wrong."""
    stores.write("slow_at_first", HEAD + """
open('run_%d' % os.getpid(), 'w').close()
runs = len([name for name in os.listdir('.') if name.startswith('run_')])
time.sleep(1.5 * (runs <= 4))
show(line.replace('event 2 ', 'event 8 ' if runs > 1 else 'event 2 ') for line in lines(read()))
""")
    found = stores.compare("slow_at_first", ["--progress", "--jobs", "1"], 1).splitlines()
    said = [line for line in found if line.startswith("compare: ")]
    name, length = next(line for line in found if " differs at event 2: " in line).split(" ")[:2]
    for part in (r"compare: 1 of \d+ schedules agree", f"compare: {name} differs, looking for the event",
                 rf"compare: shortening {name}: {length[1:]} events, now 3"):
        if not any(re.fullmatch(part, line) for line in said):
            fail(f"compare --progress has no line {part!r}\n" + "\n".join(said))
    stores.write("slow_and_good", HEAD + "time.sleep(1.5)\nshow(lines(read()))\n")
    if "compare: " in stores.compare("slow_and_good", ["--seeds", "1"], 0):
        fail("compare shows its progress although standard error is not a terminal")


def interrupted_late(stores):
    """After an interruption, the shortest schedule so far is shown. The fifth run of the store interrupts."""
    stores.write("interrupting_late", HEAD + f"""
import signal
open('late_%d' % os.getpid(), 'w').close()
if len([name for name in os.listdir('.') if name.startswith('late_')]) == 5:
    os.kill(os.getppid(), signal.SIGINT)
    time.sleep(100)
show({WRONG_SECOND_EVENT})
""")
    found = stores.compare("interrupting_late", ["--jobs", "1", "--seconds", "60"], 1)
    begin, short = f"{HEADING} differs at event 1: ", "\nshortened to 2 events (--shorten gives more time) in FILE:\n"
    if not found.startswith(begin) or short not in found:
        fail(f"a comparison that is interrupted late\n{found}")


# ---- messages on standard error

def wrong_calls(stores):
    for options, why in (
            (["--"], "no store: put its command line after --"),
            ([], "no store: put its command line after --"),
            (["--seeds", "0", "--", "x"], "argument --seeds: invalid number from 1 value: '0'"),
            (["--servers", "8", "--", "x"], "argument --servers: invalid number from 1 to 7 value: '8'"),
            (["--seed", "3", "--", "x"], "unrecognized arguments: --seed 3")):
        ended = start_to([os.path.join(CONFORMANCE, "compare"), *options], "", 2, cwd=stores.folder, env=stores.around)
        expect(f"compare {' '.join(options)}", USAGE + why + "\n", ended.printed + ended.said)


def not_written(stores):
    """Files that cannot be written are reported before the search. Standard output may be full."""
    stores.write("agreeing", GOOD)
    for options, what in ((["--out", "none/x.json"], "none/x.json: No such file or directory"),
                          (["--out", "bin"], "bin: Is a directory"),
                          (["--picture", "none/x.svg"], "none/x.svg: No such file or directory")):
        expect(f"compare {' '.join(options)}", f"compare: cannot write {what}\n",
               stores.compare("agreeing", ["--seeds", "1", *options], 2))
    if os.path.exists("/dev/full"):
        words = ["/bin/sh", "-c", '"$@" > /dev/full', "sh", os.path.join(CONFORMANCE, "compare"), "--seeds", "1", "--",
                 "./agreeing"]
        ended = start_to(words, "", 2, cwd=stores.folder, env=stores.around)
        expect("a full standard output", "compare: [Errno 28] No space left on device\n", ended.said)
        words[2] = '"$@" | :'
        ended = start_to(words, "", 0, cwd=stores.folder, env=stores.around)
        expect("a closed standard output", "", ended.said)


def failing_program(stores):
    stores.write("agreeing_too", GOOD)
    for task in ("trace", "replay"):
        stores.write(f"no_{task}", PROGRAM + f"if sys.argv[1] == '{task}': sys.exit(3)\nshow(replayed.trace)\n")
        expect(f"a program that fails at {task}", f"compare: mencius {task} ended with status 3\n",
               stores.compare("agreeing_too", ["--seeds", "1", "--program", f"./no_{task}"], 2))
    expect("a program that does not exist", "compare: [Errno 2] No such file or directory: './no_program'\n",
           stores.compare("agreeing_too", ["--seeds", "1", "--program", "./no_program"], 2))
    found = stores.compare("agreeing_too", ["--seeds", "1"], 2, MENCIUS_LIBRARY="/no_library")
    if not found.startswith("compare: /no_library: "):
        fail(f"a library that does not exist\n{found}")


def failing_node(stores):
    """A copy of conformance/ has a module whose checksum is right, and a `node` that ends without an answer."""
    stores.write("agreeing_again", GOOD)
    top = os.path.join(stores.folder, "copy_with_module")
    where, module = os.path.join(top, "conformance"), os.path.join(top, "module")
    for folder in (where, module, os.path.join(stores.folder, "node")):
        os.makedirs(folder)
    for path in [*glob.glob(os.path.join(CONFORMANCE, "*.py")), os.path.join(CONFORMANCE, "compare")]:
        shutil.copy(path, where)
    for name in ("schedules", "edits"):
        os.symlink(os.path.join(CONFORMANCE, name), os.path.join(where, name))
    stores.write(os.path.join(module, "build"), "def sum_of_parts(path): return 'right'\n")
    stores.write(os.path.join(module, "sum"), "right\n")
    path = os.path.join(stores.folder, "node") + os.pathsep + stores.around["PATH"]
    wanted = "the process of node that calls the module has ended. The module needs node 18 or later."
    for name, text in (("at once", "#!/bin/sh\nexit 3\n"), ("after a line", "#!/bin/sh\nread line\nexit 3\n")):
        stores.write(os.path.join("node", "node"), text)
        expect(f"a node that ends {name}", f"compare: {wanted}\n",
               stores.compare("agreeing_again", ["--seeds", "1"], 2, where, PATH=path))
    stores.write(os.path.join(module, "build"), "def sum_of_parts(path): raise KeyboardInterrupt\n")
    found = stores.compare("agreeing_again", ["--seeds", "1"], 130, where, PATH=path)
    expect("an interruption at the start", "", found)


def wrong_request(_stores):
    """The plain store says what --keep expects of standard input."""
    words = [sys.executable, os.path.join(CONFORMANCE, "store.py"), "--keep"]
    for line in ("no JSON", "[]", '{"id": 1}'):
        ended = start_to(words, line + "\n", 1)
        expect(f"store.py --keep < {line}", "--keep: a line of standard input is not a JSON object with an id and a"
               " scenario, as `compare --keep` passes it\n", ended.printed + ended.said)


TRIALS = (at_the_end, two_events, failing_later, without_replies, kept_failing, kept_and_shared, as_json, progress,
          interrupted_late, wrong_calls, not_written, failing_program, failing_node, wrong_request)
