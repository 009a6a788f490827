"""Compares judges that take a log in pieces with the program.

A driver is a program that judges logs in pieces: judge_pieces.py and judge_pieces.mjs. It reads a line for each log,
[LOG, [IS_BRIEF, IS_JSON], PARTITIONS]. A partition is a list of the sizes of the pieces. It prints a line with a list of
results, one for each partition: [AT, STATUS, PRINTED, SAID, MIDDLE, STAYS].

- AT is the number of bytes that the judge had taken when it gave a verdict, or null if it gave none before the end.
- STATUS, PRINTED and SAID are those of the verdict. All bytes are in base64.
- MIDDLE is null if the verdict before each piece was the verdict of a call with the bytes so far. Otherwise it is the
  number of these bytes.
- STAYS says whether the verdict stayed the same after a bad line.
"""
import base64
import json
import os
import random
import re
import subprocess
from importlib.machinery import SourceFileLoader

from shared import TOP, expect, fail, say, start

MOST_LINE = 1024
SEED = 79
# Megabytes of lines that a judge skips, and the most megabytes that it may need for them, more than for a short log.
LONG = 200
MOST_GROWTH = 16


def logs():
    """The worked logs, the examples, and logs with bad lines."""
    judgements = SourceFileLoader("judgements", os.path.join(TOP, "checks", "judgements")).load_module()
    folder = os.path.join(TOP, "examples", "logs")
    yield b""
    yield from ("".join(line + "\n" for line in row["log"]).encode() for row in judgements.WORKED)
    yield from (given.encode("utf-8", "surrogateescape") for given, *_ in judgements.BAD)
    for name in sorted(os.listdir(folder)):
        with open(os.path.join(folder, name), "rb") as file:
            yield file.read()


def due(log, ended):
    """The number of bytes after which the verdict is final, or None if it is final only at the end of the log. They end
    with the line that the verdict names. A line is too long after 1,025 bytes."""
    found = re.match(r"violation (\d+) ", ended.printed) or re.match(r".*\nline (\d+): ", ended.said)
    if not found:
        return None
    *before, line = log.split(b"\n")[:int(found[1])]
    begin = sum(len(other) + 1 for other in before)
    if len(line) > MOST_LINE:
        return begin + MOST_LINE + 1
    end = begin + len(line) + 1
    return end if end <= len(log) else None


def partitions(log, chance, is_thorough):
    """The whole log, single bytes, and some partitions at random. The thorough ones also cut the log at each byte."""
    yield [len(log)]
    yield [1] * len(log)
    for _ in range(6):
        sizes = []
        while sum(sizes) < len(log):
            sizes.append(min(chance.choice([0, 1, 2, 5, 20, 100]), len(log) - sum(sizes)))
        yield sizes
    if is_thorough:
        yield from ([cut, len(log) - cut] for cut in range(len(log) + 1))


def compare(program, driver, name, is_thorough=False, **options):
    """The driver gives the verdicts of the program, each as soon as it is final."""
    chance, asked, wanted = random.Random(SEED), [], []
    for log in logs():
        sizes = list(partitions(log, chance, is_thorough))
        end = due(log, start([program, "judge", "--brief"], log))
        for flags in ((False, False), (True, False), (False, True)):
            words = [word for word, is_set in zip(("--brief", "--json"), flags) if is_set]
            ended = start([program, "judge", *words], log)
            asked.append(json.dumps([coded(log), flags, sizes]) + "\n")
            wanted.append([[at_end(parts, end), ended.status, coded_text(ended.printed), coded_text(ended.said), None, True]
                           for parts in sizes])
    found = start(driver, "".join(asked), 600, **options)
    lines = found.printed.splitlines()
    if found.status != 0 or len(lines) != len(asked):
        fail(f"{name}: the driver ends with status {found.status}\n{found.said}")
    for request, mine, its in zip(asked, wanted, map(json.loads, lines)):
        log, flags, sizes = json.loads(request)
        for parts, right, other in zip(sizes, mine, its):
            expect(f"{name}, {flags}, the log {base64.b64decode(log)!r} in pieces of {parts}", told(right), told(other))
    say(f"{name}: {sum(map(len, wanted))} logs in pieces have the verdicts of the program, as soon as they are final")


def told(result):
    """A result as a message shows it."""
    at, status, printed, said, middle, stays = result
    when = "at the end" if at is None else f"after {at} bytes"
    texts = ", ".join(repr(base64.b64decode(text).decode("utf-8", "replace")) for text in (printed, said))
    return f"{when}: status {status}, {texts}, other verdict after {middle} bytes, same verdict after that: {stays}"


def at_end(sizes, end):
    """The number of bytes after the first piece that completes the line, or None if the verdict is due at the end."""
    at = 0
    for size in sizes:
        at += size
        if end is not None and at >= end:
            return at
    return None


def coded(data):
    return base64.b64encode(data).decode()


def coded_text(text):
    return coded(text.encode("utf-8", "surrogateescape"))


# ---- memory

def expect_bounded(program, name):
    """The program needs no more memory for a long log of skipped lines than for a short one."""
    short, long = (peak(program, count) for count in (1, LONG))
    if long > short + MOST_GROWTH:
        fail(f"{name} judge needs {long} MB for a log of {LONG} MB, and {short} MB for a log of 1 MB")
    say(f"{name} judge needs {long} MB for a log of {LONG} MB, and {short} MB for a log of 1 MB")


def peak(program, megabytes):
    """The most memory of the program, in megabytes, while it judges a log of skipped lines. A bad line ends the log."""
    part = (b"# " + b"x" * 61 + b"\n") * (1 << 14)
    with subprocess.Popen([program, "judge"], stdin=subprocess.PIPE, stderr=subprocess.PIPE) as child:
        for _ in range(megabytes):
            child.stdin.write(part)
        child.stdin.flush()
        with open(f"/proc/{child.pid}/status", encoding="ascii") as file:
            (used,) = re.findall(r"^VmHWM:\s+(\d+) kB$", file.read(), re.M)
        said = child.communicate(b"bad\n")[1].decode()
    if child.returncode != 3 or f"line {megabytes * (1 << 14) + 1}: " not in said:
        fail(f"{program} judge of {megabytes} MB ends with status {child.returncode}\n{said}")
    return int(used) // 1024
