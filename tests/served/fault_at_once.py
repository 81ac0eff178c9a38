#!/usr/bin/env python3
"""A fault that ends the program while replies wait to be sent, against `brokerd serve`: what was done is told.

    python3 tests/served/fault_at_once.py PROGRAM

Eight peers ask for long replies and read none, until no more of them goes into the system's buffers. Each request
spends a use of the peer's own token, so the database tells afterwards how many were done. Then the program is stopped.
Another peer asks for a damaged row, and after that half of the eight read what is there: for what is left of their
replies there is room now. When the program goes on, it meets the request for the damaged row first, and ends with
`fault 3`. Each peer has got whole replies from the first one on; where there was room it has got the reply to each
request that was done, by a last write, and elsewhere at least all but the last one, of which it may have a part. The
last line is 'N passed, M failed'.
"""

import contextlib
import json
import os
import signal
import socket
import sqlite3
import sys
import tempfile
from pathlib import Path

from broker import Broker, connect, exchange, fault_in, request

PEERS = 8
USES = 1000
REQUESTS = 70  # of a peer, which the program reads in one piece
VALUE = "x" * 115_000
POLICY = '{"path":{"secret/data/*":{"capabilities":["read"]}}}'
DAMAGED = "kind = 9 AND key LIKE 'secret/damaged%'"


def expect(condition, what):
    if not condition:
        raise AssertionError(what)


def asked(broker, method, path, body=None, statuses=(200, 204)):
    """The object of a reply, on a connection of its own."""
    with connect(broker.port) as connection:
        text = request(method, path, broker.token, "" if body is None else json.dumps(body))
        status, body, _ = exchange(connection, text)
        expect(status in statuses, f"{method} {path}: status {status}")
        return json.loads(body) if body else None


def made(program, file):
    """A broker with a long secret and one whose row is to be damaged: its root token, and a token for each peer."""
    with Broker(program, "--db", file) as broker:
        asked(broker, "POST", "sys/policies/acl/reader", {"policy": POLICY})
        asked(broker, "POST", "secret/data/long", {"data": {"value": VALUE}})
        asked(broker, "POST", "secret/data/damaged", {"data": {"value": "a"}})
        tokens = [asked(broker, "POST", "auth/token/create", {"policies": ["reader"], "num_uses": USES})
                  for _ in range(PEERS)]
        return broker.token, [token["auth"]["client_token"] for token in tokens]


def row(file, body=None):
    """The body of the row that is damaged, which gets another one if one is given."""
    with contextlib.closing(sqlite3.connect(file)) as database, database:
        found = database.execute(f"SELECT body FROM broker_rows WHERE {DAMAGED}").fetchall()
        expect(len(found) == 1, f"{len(found)} rows would be damaged")
        if body is not None:
            database.execute(f"UPDATE broker_rows SET body = ? WHERE {DAMAGED}", (body,))
        return found[0][0]


class Peer:
    """A peer that asks for long replies, and reads none at first."""

    def __init__(self, port, token):
        self.connection = socket.socket()
        self.connection.setsockopt(socket.SOL_SOCKET, socket.SO_RCVBUF, 4096)
        self.connection.connect(("127.0.0.1", port))
        self.connection.sendall(request("GET", "secret/data/long", token) * REQUESTS)
        self.got = b""

    def read(self, patience):
        """Reads until the end, or until nothing has come for so long, by a buffer that is not small any more."""
        self.connection.setsockopt(socket.SOL_SOCKET, socket.SO_RCVBUF, 1 << 20)
        self.connection.settimeout(patience)
        with contextlib.suppress(socket.timeout, ConnectionResetError):
            while more := self.connection.recv(1 << 20):
                self.got += more

    def replies(self):
        """The whole replies that it has got, and the bytes after them."""
        found, rest = [], self.got
        while b"\r\n\r\n" in rest:
            head = rest.partition(b"\r\n\r\n")[0]
            length = int(head.partition(b"Content-Length: ")[2].partition(b"\r\n")[0])
            if len(rest) < len(head) + 4 + length:
                break
            found.append(rest[:len(head) + 4 + length])
            rest = rest[len(head) + 4 + length:]
        return found, rest


def meet_the_fault(broker, peers):
    """The peers ask, half of them read what is there, and a damaged row ends the program. Those that have read had so
    many whole replies then, and so many bytes of the next."""
    connections = [peer.connection for peer in peers]
    with connect(broker.port) as last:
        status, _, _ = exchange(last, request("GET", "auth/token/lookup-self", broker.token))
        expect(status == 200, f"another peer is answered {status}")
        expect(broker.wait_until_stuck(connections, 20), "the replies are still made")
        expect(broker.hold(connections) == PEERS, "a peer was let go before the fault")
        os.kill(broker.process.pid, signal.SIGSTOP)
        last.sendall(request("GET", "secret/data/damaged", broker.token))
        for peer in peers[::2]:
            peer.read(0.3)
        before = [(len(whole), len(part)) for whole, part in (peer.replies() for peer in peers[::2])]
        os.kill(broker.process.pid, signal.SIGCONT)
        ended = broker.ended()
        expect((ended[0], fault_in(ended[1])) == (1, "fault 3"), f"the program ended so: {ended}")
        expect(last.recv(1) == b"", "the damaged row was answered")
    for peer in peers:
        peer.read(5)
    return before


def check_replies(peer):
    """Each whole reply has the secret, and the rest is the beginning of one: how many are whole, and how long is it."""
    whole, part = peer.replies()
    expect(len(whole) >= 10, f"{len(whole)} whole replies only")
    for reply in whole:
        expect(reply.startswith(b"HTTP/1.1 200 OK\r\n") and b'"data":{"value":"%s"}' % VALUE.encode() in reply,
               f"a reply is {reply[:200]}")
    first = whole[0]
    differ = {place for place in range(2000) for reply in whole if reply[place] != first[place]}
    expect(len(part) < len(first) and len(differ) < 100, f"{len(part)} bytes after the last reply")
    expect(all(place in differ or part[place] == first[place] for place in range(len(part))), "no beginning of a reply")
    return len(whole), len(part)


def run(program, folder):
    """What was met."""
    file = str(Path(folder) / "broker.db")
    root, tokens = made(program, file)
    body = row(file, b"\x02")
    with Broker(program, "--unchecked", "--db", file, token=root) as broker:
        peers = [Peer(broker.port, token) for token in tokens]
        before = meet_the_fault(broker, peers)
    row(file, body)
    told = [check_replies(peer) for peer in peers]
    with Broker(program, "--db", file, token=root) as broker:
        left = [asked(broker, "POST", "auth/token/lookup", {"token": token})["data"]["num_uses"] for token in tokens]
        asked(broker, "GET", "secret/data/damaged")
    done = [USES - uses for uses in left]
    for place, ((whole, part), count) in enumerate(zip(told, done)):
        if place % 2 == 0:
            expect((whole, part) == (count, 0), f"{count} requests were done; {whole} replies came, and {part} bytes")
        else:
            expect(whole <= count <= whole + 1, f"{count} requests were done, and {whole} replies came")
    completed = sum(part > 0 and count == whole + 1 for (whole, part), count in zip(before, done[::2]))
    expect(completed >= 3, f"{completed} replies were completed: there were {before} at first, then {done[::2]}")
    came = sum(whole for whole, _ in told)
    return (f"{sum(done)} requests were done, and {came} replies came; {completed} of {PEERS // 2} peers with room had "
            "a part of the last one before the fault")


def main():
    try:
        with tempfile.TemporaryDirectory() as folder:
            print(f"fault at once: {run(sys.argv[1], folder)}")
    except (AssertionError, OSError, SystemExit) as error:
        print(f"fault at once: {error}")
        print("0 passed, 1 failed")
        return 1
    print("1 passed, 0 failed")
    return 0


if __name__ == "__main__":
    sys.exit(main())
