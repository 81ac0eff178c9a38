#!/usr/bin/env python3
"""Connections that are opened and closed in one order or another, against `brokerd serve`: it keeps no memory for them.

    python3 tests/served/closed_connections.py PROGRAM CONNECTIONS [--tell]

Each connection sends one request and takes its reply. Half of them are closed one after another; a quarter is open 200
at once and closed from the last to the first, and a quarter so too, in random order. The broker closes every other one,
since its request asks for that, and the client the rest. What the program takes at the end of each part is compared
with what it took after the first thousand of the part. The request is for a target that is no route, which is answered
without the storage, so that nothing but connections can take memory. With --tell both are printed. 100,000 connections
take some 15 seconds. The last line is 'N passed, M failed'.
"""

import random
import sys
import time

from broker import Broker, connect, reply

FIRST = 1000
AT_ONCE = 200
MOST = 100  # kilobytes
PATIENCE = 60  # seconds until the program has closed all connections, also beside much other work
WANTED = (404, b'{"errors":[]}\n', b"")


def memory(process):
    """How many kilobytes of its own the program has in memory, and how many its data takes."""
    found = {}
    with open(f"/proc/{process.pid}/status", encoding="ascii") as lines:
        for line in lines:
            name, _, value = line.partition(":")
            if name in ("RssAnon", "VmData"):
                found[name] = int(value.split()[0])
    return found["RssAnon"], found["VmData"]


def ask(connection, closes):
    """Sends a request, and takes its reply."""
    asked = "Connection: close\r\n" if closes else ""
    connection.sendall(f"GET / HTTP/1.1\r\nHost: b\r\n{asked}\r\n".encode())
    found = reply(connection)
    if found != WANTED:
        raise AssertionError(f"the reply is {found}")


def close(connection, closes):
    """Closes a connection, which the broker has ended, or the client ends."""
    if closes and connection.recv(1) != b"":
        raise AssertionError("there are further bytes")
    connection.close()


def open_and_close(port, count, order):
    """So many connections that are open at once, and closed in an order. Each asks when it is opened: the broker lets
    one go that asks nothing for some seconds."""
    connections = []
    for number in range(count):
        connections.append((connect(port), number % 2 == 0))
        ask(*connections[-1])
    for connection, closes in order(connections):
        close(connection, closes)


def part(broker, count, at_once, order):
    """Opens and closes so many connections. What is wrong, or None."""
    first = None
    for number in range(0, count, at_once):
        if number >= FIRST and first is None:
            first = settled(broker)
        open_and_close(broker.port, min(at_once, count - number), order)
    last = settled(broker)
    if "--tell" in sys.argv:
        print(f"memory after {FIRST} and after {count} connections: {first[0]} and {last[0]} kB in use, "
              f"{first[1]} and {last[1]} kB of data")
    for name, before, after in zip(("RssAnon", "VmData"), first, last):
        if after - before > MOST:
            return f"{name} was {before} kB after {FIRST} connections, and {after} kB after {count}"
    return None


def settled(broker):
    """The memory of the program, when it has closed all connections."""
    until = time.monotonic() + PATIENCE
    while broker.held():
        if time.monotonic() > until:
            raise AssertionError(f"{len(broker.held())} connections are still held")
        time.sleep(0.05)
    return memory(broker.process)


def in_random_order(connections):
    return random.Random(len(connections)).sample(connections, len(connections))


def run(program, connections):
    """The name of each part, and what is wrong with it, or None."""
    with Broker(program) as broker:
        for name, count, at_once, order in (("one after another", connections // 2, 1, list),
                                            ("from the last to the first", connections // 4, AT_ONCE, reversed),
                                            ("in random order", connections // 4, AT_ONCE, in_random_order)):
            try:
                yield name, part(broker, count, at_once, order) if count > FIRST else f"{count} are too few"
            except (AssertionError, OSError) as error:
                yield name, error


def main():
    failed, parts = 0, 0
    for name, wrong in run(sys.argv[1], int(sys.argv[2])):
        parts += 1
        failed += wrong is not None
        if wrong is not None:
            print(f"closed connections, {name}: {wrong}")
    print(f"{parts - failed} passed, {failed} failed")
    return 1 if failed else 0


if __name__ == "__main__":
    sys.exit(main())
