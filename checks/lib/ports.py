"""Ports for the servers of a check."""
import contextlib
import random
import socket

from shared import fail


def free_ports(count):
    """Ports that nobody uses now. They are below the ports that systems give to clients. Otherwise a client could get
    the port of a server while the server is down."""
    ports = []
    for port in random.sample(range(15_000, 32_000), 1_000):
        with contextlib.suppress(OSError), socket.create_server(("127.0.0.1", port)):
            ports.append(port)
        if len(ports) == count:
            return ports
    return fail("there are no free ports")
