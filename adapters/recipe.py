"""Recipes of faults, which say what happens to which server during a test:

    # Empty lines and lines like this one are skipped.
    stop = kill -STOP $(cat data/$SERVER.pid)
    continue = kill -CONT $(cat data/$SERVER.pid)
    5 stop 2
    7.5 continue same

A line ACTION = COMMAND gives an action its shell command, and may be anywhere. A line SECONDS ACTION SERVER is a step.
SECONDS count from the start of the clients, and never fall from one step to the next. SERVER is the place of a server
on the command line, counted from 0. It may also be a word of the adapter such as `leader`, or `same` for the server of
the step before. The command finds the server in the environment, as SERVER, ADDRESS (HOST:PORT), HOST and PORT. If it
starts a server, it must put the server into the background. An adapter may have actions that need no command.

An adapter reads a recipe before the test, and then plays it:

    steps = recipe.read("test.recipe", 3, own=["failover"], roles=["primary"])
    recipe.play(steps, choose, wait, do)
"""
import os
import re
import subprocess
import tempfile
import time
from typing import NamedTuple, Optional

from observing import Trouble

SECONDS = 30  # the most for a command
SAME = "same"
COMMAND = re.compile(r"([A-Za-z][\w-]*)\s*=\s*(\S.*)", re.ASCII)
STEP = re.compile(r"([0-9]+(?:\.[0-9]+)?)\s+([A-Za-z][\w-]*)\s+([0-9]{1,9}|[A-Za-z][\w-]*)", re.ASCII)


class Step(NamedTuple):
    place: str  # the file and the line, for messages
    seconds: float
    action: str
    server: str  # a number, a word of the adapter, or `same`
    command: Optional[str]  # None if the adapter itself does it

    def run(self, number, address):
        """Runs the command for a server."""
        host, _, port = address.rpartition(":")
        about = {"SERVER": str(number), "ADDRESS": address, "HOST": host, "PORT": port}
        # The command may start a server, which keeps the standard error. If this were a pipe, it would not end.
        with tempfile.TemporaryFile() as said:
            try:
                # Ctrl-C must not end a server that the command starts.
                done = subprocess.run(["sh", "-c", self.command], env={**os.environ, **about}, stdin=subprocess.DEVNULL,
                                      stdout=subprocess.DEVNULL, stderr=said, timeout=SECONDS, start_new_session=True,
                                      check=False)
            except subprocess.TimeoutExpired:
                raise self.trouble(f"the command of {self.action} does not end within {SECONDS} s. If it starts a"
                                   " server, put the server into the background with &") from None
            said.seek(0)
            lines = said.read().decode(errors="replace").split("\n")
        if done.returncode:
            last = next((line.strip() for line in reversed(lines) if line.strip()), "it prints no message")
            raise self.trouble(f"the command of {self.action} ends with status {done.returncode}: {last}")

    def trouble(self, text):
        return Trouble(f"{self.place}: {text}")


def read(path, servers, own=(), roles=()):
    """The steps of a recipe for so many servers. The adapter itself does the actions in `own`, unless the recipe has a
    command for them. `roles` are the adapter's words for servers."""
    commands, steps = {}, []
    for number, line in enumerate(lines_of(path), 1):
        place = f"{path}, line {number}"
        if command := COMMAND.fullmatch(line):
            commands[command[1]] = command[2]
        elif step := STEP.fullmatch(line):
            steps.append(Step(place, float(step[1]), step[2], step[3], None))
        elif line and not line.startswith("#"):
            raise Trouble(f"{place}: write ACTION = COMMAND, or SECONDS ACTION SERVER")
    for before, step in zip([None, *steps], steps):
        check(step, before, servers, [*commands, *own], roles)
    return [step._replace(command=commands.get(step.action)) for step in steps]


def lines_of(path):
    try:
        with open(path, encoding="utf-8", errors="replace") as file:
            return [line.strip() for line in file]
    except OSError as error:
        raise Trouble(f"the recipe {path} can't be read: {error.strerror}") from None


def check(step, before, servers, actions, roles):
    if step.action not in actions:
        raise step.trouble(f"no line says how to {step.action} a server. Add `{step.action} = COMMAND`")
    if step.server.isdecimal():
        if int(step.server) >= servers:
            raise step.trouble(f"there is no server {step.server}. The servers are 0 to {servers - 1}")
    elif step.server not in (*roles, SAME) or step.server == SAME and not before:
        words = ", ".join(["0", *roles])
        raise step.trouble(f"{step.server} is not a server. Write {words}, or {SAME} after another step")
    if before and step.seconds < before.seconds:
        raise step.trouble("this step is earlier than the step before it. Put the steps in the order of their times")


def play(steps, choose, wait, do):
    """Does the steps at their times.

    choose(word)      returns the number of the server for a word of the adapter, or raises Trouble if there is none
    wait(seconds)     waits, and returns whether the test must stop
    do(step, number)  does a step
    """
    begin, number = time.monotonic(), None
    for step in steps:
        if wait(max(0.0, begin + step.seconds - time.monotonic())):
            return
        if step.server != SAME:
            number = int(step.server) if step.server.isdecimal() else choose(step.server)
        do(step, number)
