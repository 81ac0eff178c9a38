#!/usr/bin/env python3
"""Asks a broker over a file with drawn requests on many connections at once, for as long as it is told.

    python3 tests/served/soak.py PROGRAM MINUTES [--connections N] [--period SECONDS] [--seed S]

The requests are those of `tests/drawn_requests.py`, with tokens, accessors, leases, credentials and responses that this
broker has told. Each connection also writes numbers to an object of its own, and reads each of them back. The program
is stopped by SIGKILL after each period, 1,800 seconds if not given, while it is asked, and started again over the same
file: each connection finds the last number that was answered, or the one in progress. What is wrong: a reply that is
none, a status that no drawn request has, another number, a connection that has written none, a program that ends, and a
broker that does not know its root token. Memory and the size of the file are printed each minute; both grow with what
the broker keeps, which has every identifier that it issued.

The last line is 'N passed, M failed'.
"""

import argparse
import json
import os
import random
import re
import socket
import sys
import tempfile
import threading
import time
from collections import Counter, deque
from pathlib import Path

sys.path[:0] = [str(Path(__file__).resolve().parent), str(Path(__file__).resolve().parent.parent)]

from broker import Broker, connect, reply, request
from drawn_requests import FIRST, RECENT, Drawer

STATUSES = {200, 204, 400, 403, 404, 405}
REQUESTS_OF_A_CONNECTION = 40
OWN = 8  # one request in so many is for the connection's own object
MOST_SHOWN = 20


class Known:
    """What the broker has told last, shared by all connections."""

    def __init__(self, root):
        self.root = root
        self.tokens, self.accessors = deque(maxlen=RECENT), deque(maxlen=RECENT)
        self.leases, self.credentials = deque(maxlen=RECENT), deque(maxlen=RECENT)
        self.responses = deque(maxlen=RECENT)

    def learn(self, found):
        """Keeps what the object of a reply tells."""
        if not isinstance(found, dict):
            return
        auth, wrapped, data = found.get("auth"), found.get("wrap_info"), found.get("data")
        if auth and auth["client_token"] != self.root:
            self.tokens.append(auth["client_token"])
            self.accessors.append(auth["accessor"])
        if wrapped:
            self.responses.append(wrapped["token"])
            self.accessors.append(wrapped["accessor"])
        if found.get("lease_id"):
            self.leases.append(found["lease_id"])
        if isinstance(data, dict) and "credential" in data:
            self.credentials.append(data["credential"])


class LiveDrawer(Drawer):
    """Draws requests about what the broker has told."""

    def __init__(self, seed, known):
        draw = random.Random(seed)
        super().__init__(iter(lambda: draw.getrandbits(64), None))
        self.known = known

    def told(self, some):
        """One of the things that were told last, or a text that names none."""
        some = list(some)
        return self.pick(some) if some else "none"

    def root(self):
        return self.known.root

    def token(self):
        return self.told(self.known.tokens)

    def accessor(self):
        return self.told(self.known.accessors)

    def lease(self):
        return self.told(self.known.leases)

    def credential(self):
        return self.told(self.known.credentials)

    def response(self):
        return self.told(self.known.responses)

    def remember(self, method, path, wrap_ttl):
        """Nothing: what is made is told."""


class Peer:
    """One client, its object, and what was wrong."""

    def __init__(self, number, seed, known):
        self.path = f"cubbyhole/soak-{number}"
        self.known = known
        self.drawer = LiveDrawer(f"{seed} {number}", known)
        self.possible = (0,)  # the number that the object has; two while a write is not answered
        self.statuses = Counter()
        self.lost = 0
        self.wrong = []

    def run(self, port, is_over):
        """Asks until it is over."""
        while not is_over.is_set() and not self.wrong:
            try:
                with connect(port, 0.0) as connection:
                    for _ in range(REQUESTS_OF_A_CONNECTION):
                        if is_over.is_set() or not self.ask_something(connection):
                            break
            except socket.timeout:
                self.wrong.append("no reply in a minute")
            except OSError:
                self.lost += 1
                time.sleep(0.05)
            except Exception as error:  # in another thread it would be lost
                self.wrong.append(f"a reply that is none: {error!r}")

    def ask_something(self, connection):
        """A drawn request, or those for the own object. False if the broker has closed the connection."""
        if self.drawer.chance(OWN):
            return self.write_and_read(connection)
        status, found = self.ask(connection, self.drawer.request().encode())
        if status:
            self.known.learn(found)
        return bool(status)

    def ask(self, connection, text):
        """The status and the object of a reply; status 0 if the broker has closed the connection."""
        connection.sendall(text)
        status, body, rest = reply(connection)
        if status == 0:
            self.lost += 1
            return 0, None
        self.statuses[status] += 1
        try:
            found = json.loads(body) if body else None
        except ValueError:
            found = None
            self.wrong.append(f"{body[:100]!r} is no JSON")
        if status not in STATUSES or rest or (status != 204) != bool(body):
            self.wrong.append(f"status {status} with {body[:100]!r} and then {rest[:100]!r} to {text[:200]!r}")
        return status, found

    def write_and_read(self, connection):
        """Writes the next number, and reads it. After a write that was not answered it reads alone."""
        if len(self.possible) == 1:
            number = self.possible[0] + 1
            self.possible = (*self.possible, number)
            status, _ = self.ask(connection, request("PUT", self.path, self.known.root, json.dumps({"n": number})))
            if status == 0:
                return False
            if status != 204:
                self.wrong.append(f"{self.path}: status {status} to a write")
            self.possible = (number,)
        return self.read_back(connection)

    def read_back(self, connection):
        """Reads the own object, which has the last number that was answered, or the one after it."""
        status, found = self.ask(connection, request("GET", self.path, self.known.root))
        if status == 0:
            return False
        number = found["data"]["n"] if status == 200 else 0
        if number not in self.possible:
            self.wrong.append(f"{self.path} has {number} in place of {self.possible}")
        self.possible = (number,)
        return True

    def check(self, port):
        """Reads the own object after a start."""
        for _ in range(3):
            with connect(port) as connection:
                if self.read_back(connection):
                    return
        self.wrong.append("no reply after a start")


def kilobytes(process):
    """How much memory a program has in use."""
    status = Path(f"/proc/{process.pid}/status").read_text(encoding="ascii")
    return int(re.search(r"VmRSS:\s*(\d+)", status).group(1))


def tell_sizes(process, file, peers):
    """Prints how much memory the program takes, and its file."""
    size = sum(Path(it).stat().st_size for it in (file, f"{file}-wal") if Path(it).exists()) // 1024
    replies = sum(sum(peer.statuses.values()) for peer in peers)
    print(f"{replies} replies so far; the program takes {kilobytes(process)} kB, the file {size} kB", flush=True)


def prepare(port, token):
    """Sends the requests that all others build upon."""
    for path, body in FIRST:
        with connect(port) as connection:
            connection.sendall(request("POST", path, token, body))
            reply(connection)


def check(program, file, peers, known):
    """Each connection looks at its object after a start."""
    with Broker(program, "--db", file, token=known.root) as broker:
        for peer in peers:
            peer.check(broker.port)


def period(program, file, peers, known, until, found):
    """One start of the program, requests until the time is over, and what memory it took."""
    is_over = threading.Event()
    with Broker(program, "--db", file, token=known and known.root) as broker:
        if known is None:
            known = Known(broker.token)
            prepare(broker.port, broker.token)
            for peer in peers:
                peer.known = peer.drawer.known = known
        threads = [threading.Thread(target=peer.run, args=(broker.port, is_over)) for peer in peers]
        for thread in threads:
            thread.start()
        seconds = 0
        while time.monotonic() < until and broker.process.poll() is None and not any(peer.wrong for peer in peers):
            if seconds % 60 == 0:
                tell_sizes(broker.process, file, peers)
            time.sleep(1)
            seconds += 1
        if broker.process.poll() is not None:
            found.append(f"the program has ended with status {broker.process.returncode}")
        else:
            tell_sizes(broker.process, file, peers)
            if broker.ask("GET", "auth/token/lookup-self")[0] != 200:
                found.append("the root token is not known")
        broker.process.kill()
        is_over.set()
        for thread in threads:
            thread.join()
    return known


def main():
    parser = argparse.ArgumentParser(description="asks a broker for a long time")
    parser.add_argument("program")
    parser.add_argument("minutes", type=float)
    parser.add_argument("--connections", type=int, default=64)
    parser.add_argument("--period", type=float, default=1_800.0)
    parser.add_argument("--seed", default="1")
    arguments = parser.parse_args()
    program = os.path.abspath(arguments.program)
    peers = [Peer(number, arguments.seed, None) for number in range(arguments.connections)]
    end = time.monotonic() + 60 * arguments.minutes
    known, found, starts = None, [], 0
    with tempfile.TemporaryDirectory() as name:
        while not found and (starts == 0 or time.monotonic() < end) and not any(peer.wrong for peer in peers):
            until = min(end, time.monotonic() + arguments.period)
            known = period(program, f"{name}/broker.db", peers, known, until, found)
            check(program, f"{name}/broker.db", peers, known)
            starts += 1
    found += [f"connection {number} has written nothing" for number, peer in enumerate(peers) if peer.possible == (0,)]
    found += [f"connection {number}: {line}" for number, peer in enumerate(peers) for line in peer.wrong]
    print("".join(f"soak: {line}\n" for line in found[:MOST_SHOWN]), end="")
    statuses = sum((peer.statuses for peer in peers), Counter())
    if statuses[200] + statuses[204] < sum(statuses.values()) // 2:
        found.append("few requests are served")
    told = ", ".join(f"{status} {count}" for status, count in sorted(statuses.items()))
    print(f"{sum(statuses.values())} replies ({told}) on {arguments.connections} connections at once, in {starts} "
          f"starts; {sum(peer.lost for peer in peers)} times a connection was closed before its reply")
    print(f"{len(peers) + starts - min(len(found), len(peers) + starts)} passed, {len(found)} failed")
    return 1 if found else 0


if __name__ == "__main__":
    sys.exit(main())
