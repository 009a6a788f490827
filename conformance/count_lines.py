"""Passes a log on, and shows at a terminal how many lines have passed.

`./mencius judge` puts this script before the program if standard error is a terminal. The count appears after a second,
and again every second. The pipe to the program holds few lines, so almost all counted lines are judged. The script ends
as soon as the program has ended.
"""
import os
import select
import sys
import time

SECONDS = 1
BYTES = 1 << 16


def show(lines):
    # The next text that the program prints begins in the same column and is longer.
    print(f"{lines:,} lines", end="\r", file=sys.stderr, flush=True)


def pass_on(source, sink):
    lines, shown = 0, time.monotonic()
    poll = select.poll()
    poll.register(source, select.POLLIN)
    poll.register(sink, select.POLLERR)
    while True:
        left = shown + SECONDS - time.monotonic()
        if left <= 0:
            show(lines)
            shown = time.monotonic()
            continue
        ready = dict(poll.poll(left * 1000))
        if sink in ready:
            return
        if source in ready:
            data = os.read(source, BYTES)
            if not data:
                return
            lines += data.count(b"\n")
            while data:
                data = data[os.write(sink, data):]


try:
    pass_on(sys.stdin.fileno(), sys.stdout.fileno())
except (BrokenPipeError, KeyboardInterrupt):
    pass
# The interpreter must not flush a closed pipe.
os._exit(0)
