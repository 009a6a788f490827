"""Scenarios for the checks: those of tests/, and some that this module builds."""
import json
import os
import re
import sys

import shared

sys.path.insert(1, os.path.join(shared.TOP, "conformance"))

import operations

TESTS = os.path.join(shared.TOP, "tests")


def read(*parts):
    """The text of a file of tests/."""
    with open(os.path.join(TESTS, *parts), encoding="utf-8") as file:
        return file.read()


def names(folder, ending):
    """The names of the files with this ending in a folder of tests/, without the ending."""
    return [name[:-len(ending)] for name in sorted(os.listdir(os.path.join(TESTS, folder))) if name.endswith(ending)]


def pages_of_help():
    """The text of each page of help, by its task. The first page is that of the program, with the task "". In
    tests/help.txt, each page follows the command line that prints it."""
    parts = re.split(r"^\$ mencius (?:(\w+) )?--help\n", read("help.txt"), flags=re.MULTILINE)[1:]
    return {task or "": page for task, page in zip(parts[::2], parts[1::2])}


SCHEMA = "docs/scenario.schema.json"


def schema():
    """The schema of scenarios, as JSON, with the fields in their order."""
    with open(os.path.join(shared.TOP, SCHEMA), encoding="utf-8") as file:
        return json.load(file)


def scenario(servers, events, version=1, beta=0):
    fields = {"version": version, "servers": servers, "events": events}
    if beta:
        fields["beta"] = beta
    return json.dumps(fields, ensure_ascii=False)


def submissions(server, count):
    return [f"submit {server} 1.{number} set a x" for number in range(count)]


def long_skip():
    """Server 2 submits many commands. Server 0 gives up 1,365 instances in a single Skip, and server 1 hears it."""
    return submissions(2, 1365) + ["deliver 1364 0", "deliver 1365 1"]
