"""Judges logs in pieces by the package for Python. checks/lib/pieces.py starts it, and says what it reads and prints."""
import base64
import json
import sys

from mencius import call
from mencius.library import LogJudge


def judge(log, options, sizes):
    words = ["judge", *(f"--{name}" for name, is_set in zip(("brief", "json"), options) if is_set)]
    the_judge, at, middle, final = LogJudge(*options), 0, None, None
    for size in sizes:
        if the_judge.verdict() != now(call(words, log[:at])):
            middle = at
        final = the_judge.take(log[at:at + size])
        at += size
        if final:
            break
    verdict = final or the_judge.verdict()
    stays = not final or the_judge.take(b"x\n") == the_judge.verdict() == final
    return [at if final else None, verdict.status, coded(verdict.printed), coded(verdict.said), middle, stays]


def now(answer):
    """The answer as a judge gives it. A judge reads no input."""
    return type(answer)(answer.status, answer.printed, answer.said, False)


def coded(data):
    return base64.b64encode(data).decode()


for line in sys.stdin:
    log, options, partitions = json.loads(line)
    print(json.dumps([judge(base64.b64decode(log), options, sizes) for sizes in partitions]), flush=True)
