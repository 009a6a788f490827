"""The schedules in schedules/. NAME.json is a scenario of `mencius replay`, NAME.txt is its report, and NAME.trace
contains the lines `event` and `sent` of its trace.

Names that begin with cas_ use compare and set, and names that begin with ahead_ have a beta. Names that begin with
limit_ reach a limit of this program. You can leave out each of these groups if your store does not have the feature.
The schedules at a limit are long, so they have no file with their trace.
"""
import functools
import json
import os

FOLDER = os.path.join(os.path.dirname(os.path.realpath(__file__)), "schedules")


def names(without=()):
    """All names, except those that begin with one of the words in `without`. Schedules without a beta come first, and
    among them those with few events. So the first difference of a new store is short."""
    found = [file[:-len(".json")] for file in os.listdir(FOLDER) if file.endswith(".json")]
    return sorted((name for name in found if not name.startswith(tuple(without))), key=size)


def size(name):
    return scenario(name).get("beta", 0) > 0, len(scenario(name)["events"]), name


def text(name):
    """The text of the scenario."""
    return read(name + ".json")


@functools.cache
def scenario(name):
    return json.loads(text(name))


@functools.cache
def report(name):
    return read(name + ".txt").splitlines()


def trace(name):
    """The lines of the trace, or None if they have no file."""
    return read(name + ".trace").splitlines() if os.path.exists(os.path.join(FOLDER, name + ".trace")) else None


def read(file):
    with open(os.path.join(FOLDER, file), encoding="utf-8") as opened:
        return opened.read()
