"""Draws a schedule with `mencius draw`."""
import os

import calling
import reference

BUILT = os.path.join(calling.TOP, "crates", "mencius", "out", "mencius")


def way_to_draw():
    """A way of calling.py to call a program that draws, or None."""
    call = calling.at_once()
    return call or (calling.by_starting(BUILT) if os.access(BUILT, os.X_OK) else None)


def picture(call, schedule, event):
    """The picture of the schedule, as the bytes of an SVG file. `event` is the last event that it shows, or None."""
    words = ["draw"] if event is None else ["draw", "--to", str(event)]
    status, printed = call(words, schedule.text().encode())
    if status != 0:
        raise reference.ProgramFailed(f"mencius draw ended with status {status}")
    return printed
