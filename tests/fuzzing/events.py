"""Runs of changed requests. The reference broker answers each event as it is made, so a run follows what it finds.

Requests come from three sources: those that `drawn_requests.py` draws; the rows of `tests/rows`, whose identifiers are
made those of the run; and single ones of a corpus, which every request joins whose reply is of a new kind. They are
changed or not, cut anywhere, and come on several connections at once.
"""

import functools
import itertools
import json
import random
import re
from collections import Counter

from broker.answers import Refusal
from broker.connections import Server
from broker.http import VERBS
from broker.lines import BadLine, read_event, read_start
from broker.parts import TODAY
from broker.routes import find_route
from broker.texts import GREATEST_MOMENT, identifier
from drawn_requests import FIRST, Drawer

from . import TESTS
from .changes import Changer, with_member
from .messages import has_other_head, taken_apart
from .promised import Promised, route_name

WORDS_OF_A_REQUEST = 0x10
GREATEST_CONNECTION = 2**64 - 1
MOMENTS = (1_700_000_000, 1_700_000_000, 1_700_000_000, 1_000, 0, GREATEST_MOMENT - 5_000)
LONGEST_LEAP = 10_000  # seconds to the next moment at which something is due
MOST_REQUESTS_OF_A_ROW = 70
MOST_UNDERWAY = 3  # requests whose pieces come by turns
KEPT = 400  # requests of a corpus
NEW = 60  # of these, those that joined last are taken as often as all others
AFTER_ROOT = 10  # events, once the root token is revoked

# The rows have the refusals of the second route, which the first one gives too.
TWINS = {"WRITE auth/token/create-orphan": "WRITE auth/token/create"}

IDENTIFIER = re.compile(rb"[0-9a-f]{8}-[0-9a-f]{4}-[0-9a-f]{4}-[0-9a-f]{4}-[0-9a-f]{12}")
CLIENT_TOKEN = re.compile(rb"(?i)((?:x-vault-token|authorization):[ \t]*(?:bearer +)?)hvs\.[0-9a-f-]{36}")
MEMBER = re.compile(rb'("(token|accessor|lease_id|credential)": ?")([^"]*)')


def words_from(first):
    """Eight words, each one greater than the one before."""
    return [(first + n) % 2**128 for n in range(8)]


@functools.lru_cache(maxsize=1)
def read_rows():
    """The rows of tests/rows that are good lines to their end and not too long: each a list of events."""
    found = []
    for file in sorted((TESTS / "rows").glob("*.replay")):
        first, *lines = file.read_bytes().split(b"\n")
        try:
            events = [(None, b"", *read_start(first, TODAY)), *[read_event(line, TODAY) for line in lines if line]]
        except BadLine:
            continue
        if len(events) <= MOST_REQUESTS_OF_A_ROW:
            found.append(events)
    if len(found) < 100:
        raise AssertionError(f"{len(found)} rows of tests/rows can be read")
    return found


@functools.lru_cache(maxsize=1)
def rows_of_refusals():
    """The rows in which a route gives a refusal, by the route and the text."""
    found = {}
    for events in read_rows():
        server = Recorder(*events[0][2:])
        for conn, piece, moment, words in events[1:]:
            server.asked = None
            reply = server.feed(conn, piece, moment, words)
            text = text_of_refusal(reply.partition(b"\r\n\r\n")[2])
            if server.asked and text and isinstance(text, str):
                found.setdefault((server.asked[1], text), []).append(events)
    return found


class Recorder(Server):
    """A reference broker that tells which verb and which route the last event asked for."""

    def __init__(self, moment, words):
        super().__init__(moment, words)
        self.asked = None

    def step(self, moment, words, ask):
        self.asked = (ask.verb, self.route_of(ask.verb, ask.path))
        return super().step(moment, words, ask)

    def route_of(self, verb, path):
        """The name of the route that a verb and a path have, as docs/API.md writes it; empty without one."""
        try:
            route, _, _ = find_route(self.broker, verb, path, self.parts)
        except Refusal:
            return ""
        mount = {"kv": "secret", "issued": "MOUNT"}.get(route.mount_type, route.mount_type)
        return route_name(verb, f"{mount}/{route.pattern}".rstrip("/"))


def text_of_refusal(body):
    """The text of a refusal, or what the body has in its place."""
    value = json.loads(body) if body else None
    if isinstance(value, dict) and "errors" in value:
        return "".join(value["errors"])
    return tuple(sorted(name for name, part in value.items() if part)) if isinstance(value, dict) else None


def is_simple(text):
    """Whether a refusal depends on a member of the body, or on the words, alone."""
    return text.startswith(("invalid field", "missing field")) or text == "identifier already used"


class Corpus:
    """Requests whose replies were of a new kind, beginning with those of the rows, and what was met so far."""

    def __init__(self, requests):
        self.requests = list(requests)
        self.kinds = set()
        self.served_at = {}  # the last request that was served at each route
        self.refusals = set()  # of a route and a text
        self.texts = set()
        self.statuses = Counter()
        self.changed = self.asking = self.served = self.heads = self.served_heads = 0

    def any(self, draw):
        """A request, one of the last ones as often as any."""
        return draw.choice(self.requests[-NEW:] if draw.randrange(2) else self.requests)

    def note(self, delivery, reply, asked):
        """Notes the reply to a request. It joins if the kind is new."""
        request, events, is_changed = delivery.request, delivery.events, delivery.is_changed
        status = int(reply[9:12])
        head, _, body = reply.partition(b"\r\n\r\n")
        text = text_of_refusal(body)
        verb, route = asked or (None, "")
        self.statuses[status] += 1
        if status in (200, 204) and route:
            self.served_at[route] = request
        self.changed += is_changed
        self.asking += is_changed and asked is not None
        self.served += is_changed and status in (200, 204)
        self.heads += delivery.has_other_head
        self.served_heads += delivery.has_other_head and status in (200, 204)
        if isinstance(text, str):
            self.texts.add(text)
            self.refusals.add((route, text))
        kind = (status, text, b"\r\nConnection: close" in head, verb, route, min(events, 3))
        if kind not in self.kinds and len(request) < 20_000:
            self.kinds.add(kind)
            if len(self.requests) >= KEPT:
                del self.requests[0]
            self.requests.append(request)


class Delivery:
    """A request on its way: its pieces that are left, each with words or None for those of no request."""

    def __init__(self, conn, pieces, request, original=None):
        self.conn = conn
        self.pieces = pieces
        self.request = request
        self.is_changed = original is not None and original != request
        self.has_other_head = self.is_changed and has_other_head(original, request)
        self.is_exact = False  # whether it comes at the moment of the run, and no later
        self.events = 0


class Row:
    """A row on its way: its events that are left, and what its identifiers and connections are in the run."""

    def __init__(self, events, run, is_changed, is_twin=False):
        self.events = events[1:]
        self.is_changed, self.is_twin = is_changed, is_twin
        self.start, self.begun = events[0][2], run.moment
        self.connections = {}
        self.names = dict(zip(map(identifier, events[0][3]), map(identifier, words_from(0))))

    def next(self, run):
        """The connection, the piece and the words of its next event."""
        conn, piece, moment, words = self.events.pop(0)
        run.moment = min(max(run.moment, self.begun + moment - self.start), GREATEST_MOMENT)
        first = run.new_words()[0] if self.is_changed else run.fresh_words()[0]
        new = [(first + word - words[0]) % 2**128 for word in words]
        self.names.update(zip(map(identifier, words), map(identifier, new)))
        piece = IDENTIFIER.sub(lambda found: self.names.get(found[0].decode(), found[0].decode()).encode(), piece)
        if conn not in self.connections or self.connections[conn] in run.server.closed and not run.chance(8):
            self.connections[conn] = run.new_connection()
        return self.connections[conn], of_twin(piece, run.chance(2)) if self.is_twin else piece, new


def of_twin(piece, is_asked):
    """A piece of a row whose creations are those of the other route, if that is asked for; its policies allow both."""
    message = taken_apart(piece)
    if message is None:
        return piece
    if is_asked and message.target == b"/v1/auth/token/create":
        message.target += b"-orphan"
    if message.target.startswith(b"/v1/sys/policies/"):
        message.body = message.body.replace(b"auth/token/create", b"auth/token/create*")
        message.fit_length()
    return message.bytes()


class Run:
    """One run: the lines of a replay, and the reply of the reference broker to each of its events."""

    def __init__(self, seed, corpus, rows, promised):
        self.draw = random.Random(seed)
        self.corpus = corpus
        self.rows = rows  # those with which this run and later ones begin
        self.all_rows = read_rows()
        self.promised = promised
        self.start = self.draw.choice(MOMENTS)
        self.moment = self.start
        self.server = Recorder(self.start, words_from(0))
        self.drawer = Drawer(iter(lambda: self.draw.getrandbits(64), None))
        self.changer = Changer(self.draw, promised.members, lambda: corpus.any(self.draw))
        self.events, self.replies = [], []
        self.word = 0
        self.opened = 0
        self.idle, self.underway, self.row = [], [], None

    def chance(self, one_in):
        """True once in so many times."""
        return self.draw.randrange(one_in) == 0

    def make(self, events):
        """Makes so many events, or a few more than until the root token is revoked. It begins with a row as it is."""
        self.row = Row(self.rows.pop(), self, False) if self.rows else None
        while self.row is not None:
            self.deliver_whole(self.delivery_of_row())
        for path, body in FIRST:
            words = self.fresh_words()
            self.drawer.word = words[0]
            first = self.drawer.first_request(path, body).encode()
            self.deliver_whole(Delivery(self.free_connection(), [(first, words)], first))
        while len(self.events) < events:
            if self.server.root_token not in self.server.broker.tokens:
                events = min(events, len(self.events) + AFTER_ROOT)
            if len(self.underway) < MOST_UNDERWAY and (not self.underway or self.chance(2)):
                self.underway.append(self.next_delivery())
            delivery = self.draw.choice(self.underway)
            self.deliver(delivery)
            if not delivery.pieces:
                self.underway.remove(delivery)
        return self

    def deliver_whole(self, delivery):
        """Sends all pieces of a delivery, one after another."""
        while delivery.pieces:
            self.deliver(delivery)

    # What is delivered.

    def new_words(self):
        """The words of the next request; seldom they have some of an earlier one among them."""
        fresh = self.fresh_words()
        if self.chance(50):
            return self.used_words()
        if self.chance(50):
            earlier = max(0, self.word - WORDS_OF_A_REQUEST * self.draw.randrange(1, 30))
            return words_from((earlier + self.draw.randrange(-6, 7)) % 2**128)
        if self.chance(100):
            return [self.word] * 8
        return fresh

    def fresh_words(self):
        """Words that no request had."""
        self.word += WORDS_OF_A_REQUEST
        return words_from(self.word)

    def used_words(self):
        """Words among which are those of the root token and its accessor."""
        return words_from(-self.draw.randrange(6) % 2**128)

    def new_connection(self):
        """A connection that was not seen."""
        self.opened += 1
        return GREATEST_CONNECTION - self.opened if self.opened % 16 == 0 else self.opened + 1

    def next_delivery(self):
        """A request from one of the sources, changed or not, in pieces."""
        if self.row is None and self.chance(8):
            self.row = self.next_row()
        if self.row is not None and not self.is_row_underway() and self.chance(2):
            return self.delivery_of_row()
        words = self.new_words()
        source = self.draw.randrange(20)
        if source < 9:
            self.drawer.word = words[0]
            request = self.drawer.request().encode()
        elif source < 13:
            request = self.at_home(self.corpus.any(self.draw))
        elif source < 16 or not self.corpus.served_at:
            request, words = self.sought(words)
        else:
            request = self.at_home(self.draw.choice(list(self.corpus.served_at.values())))
        changed = self.changed(request) if source < 13 else request if source < 16 else self.changer.spelled(request)
        return Delivery(self.free_connection(), self.cut(changed, words), changed, request)

    def changed(self, request):
        """The request as it is, with another head that means the same, or mostly with any changes."""
        if not self.chance(3):
            return self.changer.changed(request, self.route_of(request))
        return request if self.chance(8) else self.changer.spelled(request)

    def next_row(self):
        """A row: one with a refusal that was not met yet, or another one."""
        rows = rows_of_refusals()
        missing = [found for found in sorted(self.promised.refusals - self.corpus.refusals)
                   if found in rows or (TWINS.get(found[0]), found[1]) in rows]
        if missing and self.chance(2):
            route, text = self.draw.choice(missing)
            if (route, text) in rows:
                return Row(self.draw.choice(rows[route, text]), self, False)
            return Row(self.draw.choice(rows[TWINS[route], text]), self, False, is_twin=True)
        return Row(self.draw.choice(self.all_rows), self, True)

    def is_row_underway(self):
        """Whether an event of the row is on its way."""
        return any(it.conn in self.row.connections.values() for it in self.underway)

    def sought(self, words):
        """A request, and its words, for which a route may give a refusal that was not met yet, or was."""
        corpus = self.corpus
        known = [found for found in sorted(self.promised.refusals)
                 if found[0] in corpus.served_at and is_simple(found[1])]
        missing = [found for found in known if found not in corpus.refusals]
        if not known:
            return self.at_home(corpus.any(self.draw)), words
        route, text = self.draw.choice(missing if missing and not self.chance(3) else known)
        request = self.at_home(corpus.served_at[route])
        if text == "identifier already used":
            return request, self.used_words()
        return with_member(self.changer, request, text.partition(": ")[2]) or request, words

    def delivery_of_row(self):
        """The next piece of the row. In half of the rows some pieces are changed."""
        conn, piece, words = self.row.next(self)
        changed = self.changed(piece) if self.row.is_changed and self.chance(2) else piece
        pieces = self.cut(changed, words) if self.row.is_changed else [(changed, words)]
        delivery = Delivery(conn, pieces, changed, piece)
        delivery.is_exact = not self.row.is_changed
        if not self.row.events:
            self.row = None
        return delivery

    def route_of(self, request):
        """The route that a request is for, as far as its first line tells."""
        method, _, rest = request[:600].partition(b" ")
        target = rest.partition(b" ")[0]
        if not target.startswith(b"/v1/") or method not in VERBS:
            return ""
        return self.server.route_of(VERBS[method], target[4:].partition(b"?")[0].decode("utf-8", "replace"))

    def at_home(self, request):
        """A request of another run, with tokens, accessors, leases and credentials of this one in place of its own."""
        request = CLIENT_TOKEN.sub(lambda found: found.group(1) + self.caller().encode(), request)
        is_wrapping = b"/wrapping/" in request[:80]
        return MEMBER.sub(lambda found: found.group(1) + self.known(found.group(2), is_wrapping).encode(), request)

    def caller(self):
        """The root token mostly, or another one that there is, or one of a response."""
        broker = self.server.broker
        others = [*broker.tokens, *broker.waiting]
        tokens = [self.server.root_token] * (2 * len(others) + 1) + others
        return self.draw.choice(tokens)

    def known(self, name, is_wrapping):
        """A thing that the broker has, as the member of a body with this name gives it."""
        broker = self.server.broker
        waiting = list(broker.waiting)
        leases = [(lease_id, lease) for token in broker.tokens.values() for lease_id, lease in token.leases.items()]
        found = {
            b"token": waiting if is_wrapping else list(broker.tokens) + waiting,
            b"accessor": [it.accessor for it in (*broker.tokens.values(), *broker.waiting.values())],
            b"lease_id": [lease_id for lease_id, _ in leases],
            b"credential": [lease.credential for _, lease in leases]}[name]
        return self.draw.choice(found) if found and not self.chance(16) else self.draw.choice(("", "x", "root"))

    def free_connection(self):
        """A connection on which nothing is under way: a new one, one that waits for more, or seldom a closed one."""
        busy = {it.conn for it in self.underway} | set(self.row.connections.values() if self.row else ())
        free = [conn for conn in self.idle if conn not in busy]
        open_ones = [conn for conn in free if conn not in self.server.closed and not self.server.unanswered[conn]]
        if open_ones and not self.chance(6):
            return self.draw.choice(open_ones)
        if free and self.chance(6):
            return self.draw.choice(free)
        conn = self.new_connection()
        self.idle = [*self.idle[-8:], conn]
        return conn

    def cut(self, request, words):
        """The pieces of a request. The last one has its words, or the one before some bytes that follow."""
        way = self.draw.randrange(32)
        if way < 24 or len(request) > 100_000:
            return [(request, words)]
        if way < 28:
            places = sorted({self.draw.randrange(len(request) + 1) for _ in range(self.draw.randrange(1, 4))})
        elif way == 28:
            end = request.find(b"\r\n\r\n")
            places = sorted({place for place in range(end, end + 6) if 0 < place < len(request)})
        elif way < 31:
            self.drawer.word = self.word
            following = self.drawer.request().encode()
            return [(request + following, words), (b"", self.new_words())]
        else:
            return [(request[:self.draw.randrange(len(request) + 1)], words)]
        ends = [*places, len(request)]
        pieces = [request[begin:end] for begin, end in zip([0, *ends], ends)]
        return [*[(piece, None) for piece in pieces[:-1]], (pieces[-1], words)]

    # Events.

    def deliver(self, delivery):
        """Sends the next piece of a delivery."""
        piece, words = delivery.pieces.pop(0)
        delivery.events += 1
        moment = self.moment if delivery.is_exact else self.next_moment()
        reply = self.send(delivery.conn, piece, moment, words or words_from(self.word + 8))
        if reply:
            self.corpus.note(delivery, reply, self.server.asked)
        if delivery.conn in self.server.closed and not self.chance(8):
            delivery.pieces.clear()
        elif reply and not delivery.pieces and self.server.unanswered[delivery.conn] and not self.chance(8):
            delivery.pieces.append((b"", self.new_words()))

    def next_moment(self):
        """A moment that is a little later, or seldom the next one at which something is due, or an earlier one."""
        self.moment += self.draw.choice((0, 0, 0, 0, 1, 1, 3, 30))
        if self.chance(40):
            self.moment = max(self.moment, self.next_end() + self.draw.randrange(-1, 2))
        self.moment = min(self.moment, GREATEST_MOMENT)
        return max(0, self.moment - (50 if self.chance(16) else 0))

    def next_end(self):
        """The next moment at which a token, a lease or a response ends; 0 without one."""
        broker = self.server.broker
        ends = [it.end for it in broker.tokens.values() if it.end is not None]
        ends += [lease.end for it in broker.tokens.values() for lease in it.leases.values()]
        ends += [it.end() for it in broker.waiting.values()]
        return min((end for end in ends if self.moment < end < self.moment + LONGEST_LEAP), default=0)

    def send(self, conn, piece, moment, words):
        """One event, and the reply to it."""
        self.server.asked = None
        reply = self.server.feed(conn, piece, moment, words)
        self.events.append(self.line(conn, piece, moment, words))
        self.replies.append(reply)
        return reply

    def line(self, conn, piece, moment, words):
        """The line of an event, in one of its forms."""
        line = {"conn": conn, "moment": moment, "words": f"{words[0]:032x}"}
        if words != words_from(words[0]) or self.chance(50):
            line["words"] = [f"{word:032x}" for word in words]
        if self.chance(2):
            try:
                return json.dumps({**line, "piece": piece.decode("utf-8")}, ensure_ascii=self.chance(2))
            except UnicodeDecodeError:
                pass
        return json.dumps({**line, "hex": piece.hex()})

    def lines(self):
        """The lines of the replay."""
        return [json.dumps({"moment": self.start, "words": f"{0:032x}"}), *self.events]


def bytes_of(lines):
    """The input that lines are."""
    return "".join(line + "\n" for line in lines).encode("utf-8")


class Share:
    """So many runs that share a corpus, and a part of the rows. Each share of a seed can be made by itself."""

    def __init__(self, seed, number, of):
        self.promised = Promised()
        rows = list(read_rows())
        random.Random(f"{seed} rows").shuffle(rows)
        self.rows = rows[number::of]
        singles = [piece for events in rows for _, piece, *_ in events[1:] if b"\r\n\r\n" in piece]
        self.corpus = Corpus(singles[number::of])
        self.seed, self.number = seed, number

    def runs(self, events, length):
        """Runs with so many events in all, each of this length."""
        for place in itertools.count():
            name = f"{self.seed}-{self.number}-{place}"
            run = Run(name, self.corpus, self.rows, self.promised).make(min(length, events))
            yield name, run
            events -= len(run.events)
            if events <= 0:
                return
