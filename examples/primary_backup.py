#!/usr/bin/env python3
"""A toy store with a primary and two backups, which prints what an observer sees of it, as `mencius judge` reads it.

    examples/primary_backup.py [--early-reply] [--idle] [SEED]

Server 0 is the primary. It executes a command, hands it to the backups, and answers once both have it. Halfway the
primary stops, and server 1 takes its place. With --early-reply the primary answers at once, and the backups get the
command later: then the new primary may lack commands that had a reply. With --idle no client asks anything after the
primary has stopped. At the end each living server claims to have everything that had a reply.
"""
import random
import signal
import sys

STOP = 10  # the number of commands before the primary stops


class Observer:
    """Prints a log, one observation a line, and at once, so that a judge can read along."""

    def see(self, *words):
        print(*words, flush=True)

    def submit(self, name, *op):
        self.see("submit", name, *op)

    def execute(self, server, name):
        self.see("execute", server, name)

    def reply(self, name, text):
        self.see("reply", name, answer(text))

    def lookup(self, reader, key, text):
        self.see("lookup", reader, key, answer(text))

    def told(self, reader, server):
        self.see("told", reader, server)

    def settled(self, server):
        self.see("settled", server)


def answer(text):
    return "none" if text is None else "=" + text


class Server:
    def __init__(self, number, observer):
        self.number, self.observer, self.texts, self.waiting = number, observer, {}, []

    def execute(self, name, key, text):
        """Binds a key to a text, and answers what it held before."""
        self.observer.execute(self.number, name)
        former = self.texts.get(key)
        self.texts[key] = text
        return former

    def catch_up(self):
        while self.waiting:
            self.execute(*self.waiting.pop(0))


def fail_over(servers):
    """The primary stops, and what it has not yet handed over is lost."""
    for server in servers:
        server.waiting.clear()
    return servers[1:]


def serve(observer, chance, is_early, commands):
    servers = [Server(number, observer) for number in range(3)]
    for number in range(commands):
        if number == STOP:
            servers = fail_over(servers)
        primary, *backups = servers
        name, key, text = f"1.{number}", chance.choice("ab"), f"t{number}"
        observer.submit(name, "set", key, text)
        former = primary.execute(name, key, text)
        for backup in backups:
            backup.waiting.append((name, key, text))
            if not is_early or chance.random() < 0.5:
                backup.catch_up()
        observer.reply(name, former)
        # A reader asks a backup, and knows that it may be late.
        backup = chance.choice(backups)
        key = chance.choice("ab")
        observer.lookup(backup.number, key, backup.texts.get(key))
    if commands <= STOP:
        servers = fail_over(servers)
    for server in servers:
        server.catch_up()
        observer.settled(server.number)


def main():
    # A judge that has found something reads no more.
    signal.signal(signal.SIGPIPE, signal.SIG_DFL)
    options = [word for word in sys.argv[1:] if word.startswith("--")]
    seed = int(next((word for word in sys.argv[1:] if word not in options), 1))
    serve(Observer(), random.Random(seed), "--early-reply" in options, STOP if "--idle" in options else 2 * STOP)


if __name__ == "__main__":
    main()
