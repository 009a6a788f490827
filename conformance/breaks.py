"""Edits of store.py and driver.py that each break a rule of docs/MODEL.md, for `store.py --break NAME`.

The folder edits/ contains them. The breaks in untellable.txt change no report of any schedule, and each has its reason.
The suite detects all other breaks by a report.

Each block of a file is a break:
- a line `NAME: RULE`, with the rule that is broken;
- the old lines after `-`, which occur exactly once in the two files together;
- the new lines after `+`;
- the reason after `=`, in untellable.txt.
"""
import collections
import os
import sys
import types

import driver

FOLDER = os.path.dirname(os.path.realpath(__file__))
Break = collections.namedtuple("Break", "rule old new reason")


def table(*names):
    """The breaks in these files of edits/, by name."""
    found = {}
    for name in names:
        for block in read("edits", name).split("\n\n"):
            head, *lines = block.splitlines()
            name, rule = head.split(": ", 1)
            found[name] = Break(rule, *["\n".join(line[2:] for line in lines if line[0] == mark) for mark in "-+="])
    return found


def read(*path):
    with open(os.path.join(FOLDER, *path), encoding="utf-8") as file:
        return file.read()


UNTELLABLE = table("untellable.txt")
BREAKS = table(*sorted(set(os.listdir(os.path.join(FOLDER, "edits"))) - {"untellable.txt"}))


def load(name):
    """A new module `store` with the edit of this name."""
    edit = BREAKS.get(name) or UNTELLABLE[name]
    sources = {module: read(module + ".py") for module in ("driver", "store")}
    if sum(source.count(edit.old) for source in sources.values()) != 1:
        raise ValueError(f"{name}: the old text does not occur exactly once in store.py and driver.py")
    modules = {}
    for module, source in sources.items():
        modules[module] = types.ModuleType(module)
        code = compile(source.replace(edit.old, edit.new), f"{module}.py with {name}", "exec")
        sys.modules["driver"] = modules["driver"]  # so that store.py imports the edited driver
        try:
            exec(code, modules[module].__dict__)
        finally:
            sys.modules["driver"] = driver
    return modules["store"]
