#!/usr/bin/env python3
"""64 connections send drawn requests at once to `brokerd serve`, and all replies are those of the reference broker.

    python3 tests/drawn_at_once.py PROGRAM [REQUESTS] [--seed N] [--db FILE] [--keep FILE]

REQUESTS, 3,000 if not given, are drawn by tests/drawn_requests.py with the seed, 1 if not given: first one of each
kind, then any. They are about the tokens, leases, credentials and responses that earlier replies have told, whichever
connection got them. Some are cut in two, some come two in one piece, and some connections are closed and opened again.
In every other round the program is stopped while they are sent, so that all of them wait when it goes on. With --db the
broker is in a file, which is not there yet.

**What is right.** There is an order of all pieces of bytes that came on all connections, so that

1. each connection's pieces, joined, are the bytes that its client sent;
2. no request comes before another one whose reply its client had before the first one was sent;
3. the reference broker, which is given these pieces in this order, answers each client with the bytes that it got.

So all that the connections did was done one request after another, and each was answered by what those before it had
left. Which order it is, and how it was found, does not matter for that. The replies alone would tell it only in part,
since a 204 and most refusals have nothing that tells their places. So the program is watched: what is preloaded into it
(known_system) writes down which connection was read when, and when the clock was looked at, which is once for each
event. If it wrote down another order than that of the requests, the replies would differ. The clock and the random
words are known, and a part of 3: the seed is given, and its key stream is computed here, by a ChaCha20 that is compared
with the vectors of RFC 8439.

The last line is 'N passed, M failed'. Too few requests that were served, refused, cut, joined, or sent beside others,
are a failure. The file of --keep gets the lines of a replay of the run: the same requests, one after another.
"""

import argparse
import json
import os
import random
import signal
import sys
import tempfile
import time
from collections import Counter
from pathlib import Path

TESTS = Path(__file__).resolve().parent
sys.path.insert(0, str(TESTS / "known_system"))

from drawn_requests import FIRST, RECENT, REQUESTS, Drawer, identifier  # noqa: E402
from known import ACCEPTED, RECEIVED, SENDING, TOLD, Known  # noqa: E402
from reference.broker.connections import Server  # noqa: E402
from served.broker import Broker, connect, reply  # noqa: E402
import chacha20  # noqa: E402

CONNECTIONS = 64
START = 1_700_000_000
BESIDE = 32  # requests that wait for their replies at the same time
EXCERPT = 60

# What has to be met, and how often at least, by 3,000 requests.
LEAST = {"served with a body": 1000, "served without one": 250, "refused": 500, "kinds that were served": 45,
         "pieces without a reply": 150, "requests from what came before": 150, "beside 32 others": 2000,
         "connections": 100, "in another order than sent": 200}


class LiveDrawer(Drawer):
    """Draws requests about what replies have told."""

    def __init__(self, numbers, root_token):
        super().__init__(numbers)
        self.root_token = root_token
        self.told = {kind: [] for kind in ("token", "accessor", "lease", "credential", "response", "their accessor")}

    def learn(self, body):
        """Keeps what a reply tells, if it is one of a token, a credential or a response."""
        found = json.loads(body)
        for kind, part, name in (("token", "auth", "client_token"), ("accessor", "auth", "accessor"),
                                 ("credential", "data", "credential"), ("response", "wrap_info", "token"),
                                 ("their accessor", "wrap_info", "accessor")):
            value = (found.get(part) or {}).get(name)
            if isinstance(value, str):
                self.told[kind].append(value)
        if found.get("lease_id"):
            self.told["lease"].append(found["lease_id"])

    def recent(self, kind):
        """One of the last that were told."""
        return self.pick(self.told[kind][-RECENT:] or ["none"])

    def root(self):
        return self.root_token

    def token(self):
        return self.recent("token")

    def accessor(self):
        return self.recent("their accessor" if self.chance(4) else "accessor")

    def lease(self):
        return self.recent("lease")

    def credential(self):
        return self.recent("credential")

    def response(self):
        return self.recent("response")

    def remember(self, method, path, wrap_ttl):
        """Replies tell what was made."""


class Request:
    """A request, and when its last piece was sent and its reply was there."""

    def __init__(self, kind, text):
        self.kind = kind
        self.text = text.encode()
        self.sent_at = self.got_at = None
        self.status = None


class Peer:
    """A client on one connection: what it sent and what it got."""

    def __init__(self, number, port):
        self.number = number
        self.connection = connect(port)
        self.port = self.connection.getsockname()[1]
        self.sent, self.got, self.rest = bytearray(), bytearray(), b""
        self.requests, self.answered = [], 0

    def send(self, piece, requests=()):
        """Sends bytes, with which these requests are complete."""
        for request in requests:
            request.sent_at = time.monotonic()
        self.requests.extend(requests)
        self.sent += piece
        self.connection.sendall(piece)

    def recv(self, most):
        """The next bytes, which are kept."""
        found = self.connection.recv(most)
        self.got += found
        return found

    def waits(self):
        """Whether a request has no reply yet."""
        return self.answered < len(self.requests)

    def take(self):
        """Takes the next reply, and answers its body."""
        request = self.requests[self.answered]
        request.status, body, self.rest = reply(self, self.rest)
        request.got_at = time.monotonic()
        if request.status == 0:
            raise AssertionError(f"connection {self.number} ended before the reply to {request.text[:EXCERPT]}")
        self.answered += 1
        return body


class Clients:
    """All clients, and what they have met."""

    def __init__(self, broker, drawer, seed):
        self.broker = broker
        self.drawer = drawer
        self.random = random.Random(seed)
        self.peers = []  # all that there ever were
        self.open = []
        self.kinds = list(REQUESTS)  # of which none was sent yet
        self.rests = []  # of requests that were cut: the client, the bytes, and the requests that they complete
        self.met = Counter()

    def connect(self):
        """A new client."""
        peer = Peer(len(self.peers), self.broker.port)
        self.peers.append(peer)
        self.open.append(peer)
        return peer

    def begin(self):
        """The first requests, one after another; then there are all connections."""
        first = self.connect()
        for path, body in FIRST:
            request = Request(None, self.drawer.first_request(path, body))
            first.send(request.text, [request])
            body = first.take()
            if body:
                self.drawer.learn(body)
        for _ in range(CONNECTIONS - 1):
            self.connect()

    def draw(self):
        """A request: one of each kind first, then any."""
        choice = self.kinds.pop() if self.kinds else self.drawer.pick(self.drawer.choices)
        return Request(REQUESTS.index(choice), self.drawer.request_of(choice))

    def round(self):
        """Some clients that wait for nothing ask, and then some of those that wait take their replies."""
        cut = {peer for peer, _, _ in self.rests}
        chosen = [peer for peer in self.open if not peer.waits() and peer not in cut and self.random.random() < 0.8]
        self.random.shuffle(chosen)
        chosen = [self.anew(peer) if self.random.random() < 0.03 else peer for peer in chosen]
        is_stopped = self.random.random() < 0.5
        if is_stopped:
            os.kill(self.broker.process.pid, signal.SIGSTOP)
        self.ask(chosen)
        if is_stopped:
            os.kill(self.broker.process.pid, signal.SIGCONT)
        waiting = [peer for peer in self.open if peer.waits()]
        if len(waiting) > BESIDE:
            self.met["beside 32 others"] += sum(len(peer.requests) - peer.answered for peer in chosen)
        self.take([peer for peer in waiting if self.random.random() < 0.7])

    def anew(self, peer):
        """A client in place of one that leaves."""
        peer.connection.close()
        self.open.remove(peer)
        return self.connect()

    def ask(self, peers):
        """Sends a request of each client, or two. The rest of one that is cut comes when the others have sent theirs,
        or in the next round."""
        late, self.rests = self.rests, []
        for peer in peers:
            requests = [self.draw() for _ in range(1 + (self.random.random() < 0.15))]
            text = b"".join(request.text for request in requests)
            if self.random.random() < 0.25:
                place = self.random.randrange(len(requests[0].text))
                peer.send(text[:place])
                (late if self.random.random() < 0.5 else self.rests).append((peer, text[place:], requests))
            else:
                peer.send(text, requests)
        for peer, rest, requests in late:
            peer.send(rest, requests)

    def take(self, peers):
        """Takes all replies of these clients."""
        for peer in peers:
            while peer.waits():
                body = peer.take()
                if body and peer.requests[peer.answered - 1].status == 200:
                    self.drawer.learn(body)

    def run(self, count):
        """Sends so many requests."""
        self.begin()
        while sum(len(peer.requests) for peer in self.peers) < count:
            self.round()
        self.ask([])
        self.take(self.open)
        for peer in self.open:
            peer.connection.close()


class Event:
    """A piece of bytes that the program was given on a connection, at a moment."""

    def __init__(self, peer, piece, moment):
        self.peer = peer
        self.piece = piece
        self.moment = moment


def events_of(records, peers):
    """The moment of the start, and all events in the order in which the program took them. An event is a look at the
    clock. It has the piece that was received before it; if there is none, it is one more request of what came before,
    and the connection is the one to which a reply is sent after it."""
    opened = {}
    for peer in peers:
        opened.setdefault(peer.port, []).append(peer)
    now, places, received, without, moments, events = {}, Counter(), None, None, [], []
    for kind, port, value in records:
        if kind == ACCEPTED:
            now[port] = opened[port].pop(0) if opened.get(port) else None
        elif kind == RECEIVED:
            peer = now[port]
            expect(peer is not None, "another client has sent something")
            received = peer, bytes(peer.sent[places[peer]:places[peer] + value])
            places[peer] += value
        elif kind == TOLD and not now:
            moments.append(value)
        elif kind == TOLD:
            expect(without is None, "an event has neither bytes nor a reply")
            events.append(Event(*(received or (None, b"")), value))
            without, received = None if received else events[-1], None
        elif kind == SENDING and without is not None:
            without.peer, without = now[port], None
    expect(len(moments) == 1 and without is None, f"before the first connection the clock was looked at {moments}")
    for peer in peers:
        expect(places[peer] == len(peer.sent), f"of connection {peer.number} some bytes were not read")
    return moments[0], events


def expect(condition, what):
    if not condition:
        raise AssertionError(what)


def replies_of(moment, events, words, met):
    """What the reference broker answers to each event."""
    server, replies = Server(moment, next(words)), []
    for event in events:
        drawn = next(words)
        replies.append(server.feed(event.peer.number, event.piece, event.moment, drawn))
        met["pieces without a reply"] += not replies[-1]
        met["requests from what came before"] += not event.piece
    return replies


def compare(peers, events, replies):
    """Each client got what the reference broker answers."""
    expected = {peer: bytearray() for peer in peers}
    for event, answer in zip(events, replies):
        expected[event.peer] += answer
    for peer, wanted in expected.items():
        if wanted != peer.got:
            place = len(os.path.commonprefix([bytes(wanted), bytes(peer.got)]))
            start = max(0, place - 2 * EXCERPT)
            raise AssertionError(
                f"connection {peer.number} differs at byte {place}: expected "
                f"{bytes(wanted[start:place + EXCERPT])}, got {bytes(peer.got[start:place + EXCERPT])}")


def check_times(events, replies, met):
    """No request comes before one whose reply was there before it was sent."""
    places, latest = Counter(), 0.0
    for event, answer in zip(events, replies):
        if not answer:
            continue
        request = event.peer.requests[places[event.peer]]
        places[event.peer] += 1
        expect(request.got_at >= latest, f"{request.text[:EXCERPT]} comes after one that was sent after its reply came")
        met["in another order than sent"] += request.sent_at < latest
        latest = max(latest, request.sent_at)


def lines_of(moment, events, seed):
    """The lines of a replay of the run."""
    words = chacha20.words_of_events(seed)
    yield {"moment": moment, "words": [f"{word:032x}" for word in next(words)]}
    for event in events:
        yield {"conn": event.peer.number, "moment": event.moment, "hex": event.piece.hex(),
               "words": [f"{word:032x}" for word in next(words)]}


def count_served(peers, met):
    """Counts the replies by what they are."""
    kinds = set()
    for request in (request for peer in peers for request in peer.requests):
        name = {200: "served with a body", 204: "served without one"}.get(request.status, "refused")
        met[name] += 1
        if request.status in (200, 204):
            kinds.add(request.kind)
    met["kinds that were served"] = len(kinds - {None})
    met["connections"] = len(peers)


def run(arguments, folder):
    """One run: what was met."""
    seed = random.Random(arguments.seed).randbytes(32)
    known = Known(folder, seed=seed, clock=START)
    database = ["--db", arguments.db] if arguments.db else []
    with Broker(arguments.program, *database, env=known.environment) as broker:
        numbers = random.Random(arguments.seed)
        drawer = LiveDrawer(iter(lambda: numbers.getrandbits(64), None), broker.token)
        clients = Clients(broker, drawer, arguments.seed)
        clients.run(arguments.requests)
        said, root = broker.close(), broker.token
    expect(not said, f"the program said {said}")
    words = chacha20.words_of_events(seed)
    expect(root == "hvs." + identifier(next(chacha20.words_of_events(seed))[1]), "the root token is not of the seed")
    moment, events = events_of(known.records(), clients.peers)
    if arguments.keep:
        lines = (json.dumps(line) + "\n" for line in lines_of(moment, events, seed))
        Path(arguments.keep).write_text("".join(lines), encoding="ascii")
    replies = replies_of(moment, events, words, clients.met)
    compare(clients.peers, events, replies)
    check_times(events, replies, clients.met)
    count_served(clients.peers, clients.met)
    return clients.met


def main():
    parser = argparse.ArgumentParser(description="compares drawn requests on 64 connections with the reference broker")
    parser.add_argument("program")
    parser.add_argument("requests", type=int, nargs="?", default=3000)
    parser.add_argument("--seed", type=int, default=1)
    parser.add_argument("--db", metavar="FILE")
    parser.add_argument("--keep", metavar="FILE")
    arguments = parser.parse_args()
    try:
        wrong = chacha20.differs()
        expect(not wrong, f"the key stream differs from that of RFC 8439, vectors {wrong}")
        with tempfile.TemporaryDirectory() as folder:
            met = run(arguments, folder)
        print("drawn at once:", ", ".join(f"{met[name]} {name}" for name in LEAST))
        for name, least in LEAST.items():
            expect(met[name] >= least, f"{met[name]} {name}, where {least} are the least")
    except (AssertionError, OSError, SystemExit) as error:
        print(f"drawn at once, seed {arguments.seed}: {error}")
        print("0 passed, 1 failed")
        return 1
    print("1 passed, 0 failed")
    return 0


if __name__ == "__main__":
    sys.exit(main())
