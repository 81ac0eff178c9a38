"""What a broker is asked, and what the reference broker says of it.

The reference broker takes each request that was answered with the moment of the reply and with the words that the reply
names, and has to give the same bytes. So its rows are those that the program must keep. Of a request that was not
answered the words are not known: they are read in the rows that it has left, if it has left any.
"""

import json
from dataclasses import dataclass, field
from datetime import datetime, timezone

from broker.connections import Server
from broker.http import asked, front
from broker.parts import TODAY
from broker.requests import step
from broker.rows import rows_of
from broker.state import first_broker
from drawn_requests import request_text
from program import expect

CLOCK, USED, TOKEN, ACCESSOR, LEASE, CREDENTIAL, VERSION, RESPONSE = 1, 2, 3, 4, 6, 7, 9, 10
UNTOLD = 2**127  # the words from here on are in place of those that nothing names
LONGEST = 60  # seconds between two looks at a broker at most


# ------------------------------------------------------------------------------------- replies

def word(identifier):
    """The word of an identifier, or of what ends with one."""
    return int(identifier[-36:].replace("-", ""), 16)


class Reply:
    """A reply: its status, its moment and the object of its body."""

    def __init__(self, data):
        head, _, body = data.partition(b"\r\n\r\n")
        lines = head.decode().split("\r\n")
        dates = [line[len("Date: "):] for line in lines if line.startswith("Date: ")]
        self.status = int(lines[0].split(" ")[1])
        date = datetime.strptime(dates[0], "%a, %d %b %Y %H:%M:%S GMT")
        self.moment = int(date.replace(tzinfo=timezone.utc).timestamp())
        self.body = json.loads(body) if body else {}

    def words(self):
        """The words of the event, as far as the reply names them."""
        body, words = self.body, [UNTOLD + place for place in range(8)]
        auth, info, data = body.get("auth") or {}, body.get("wrap_info") or {}, body.get("data") or {}
        told = (body.get("request_id"), auth.get("client_token"), auth.get("accessor"), body.get("lease_id"),
                data.get("credential"), info.get("token"), info.get("accessor"))
        for place, identifier in enumerate(told):
            if identifier:
                words[place] = word(identifier)
        return words


def words_between(before, after):
    """The words of an event, as far as the rows that it has made name them."""
    words = [UNTOLD + place for place in range(8)]
    for (kind, key), (owner, _, body) in after.items():
        if (kind, key) in before:
            continue
        if kind == TOKEN:
            words[1] = word(key)
        elif kind == ACCESSOR:
            words[2 if body[-1] == 1 else 6] = word(key)
        elif kind == LEASE:
            words[3] = word(key)
        elif kind == CREDENTIAL:
            words[4] = word(key)
        elif kind == RESPONSE:
            words[5] = word(key)
            words[0] = kept_word(body)
    return words


def kept_word(body):
    """The first word of the event whose reply a response has kept."""
    kept = body[body.rindex(b'{"auth":'):]
    return word(json.loads(kept)["request_id"])


# ------------------------------------------------------------------------------------ requests

@dataclass(frozen=True)
class Request:
    """A request: in its texts `{name}` stands for what an earlier reply has given."""
    method: str
    path: str
    body: str = None
    caller: str = "root"
    wrap_ttl: str = None
    gives: dict = field(default_factory=dict)  # a name, and the members in which the reply has what it stands for

    def text(self, known):
        """Its bytes."""
        body = self.body
        for name, value in known.items():
            body = body and body.replace("{" + name + "}", value)
        return request_text(self.method, self.path, known[self.caller], self.wrap_ttl, body).encode()


POLICY = '{"path":{"secret/data/app":{"capabilities":["read"]}}}'

# Each of the thirteen kinds of rows is there after the first of them but three.
REQUESTS = (
    Request("POST", "secret/data/app", '{"data":{"number":1}}'),
    Request("POST", "auth/token/create", '{"meta":{"team":"db"}}', gives={"parent": ("auth", "client_token")}),
    Request("POST", "auth/token/create", '{"policies":["default"],"ttl":"24h"}', "parent",
            gives={"child": ("auth", "client_token")}),
    Request("POST", "sys/mounts/db", '{"type":"issued"}'),
    Request("POST", "db/roles/r", '{"ttl":86400}'),
    Request("GET", "db/creds/r", None, "parent", gives={"lease": ("lease_id",)}),
    Request("GET", "secret/data/app", wrap_ttl="24h", gives={"waiting": ("wrap_info", "token")}),
    Request("POST", "sys/policies/acl/app", json.dumps({"policy": POLICY})),
    Request("POST", "cubbyhole/a", '{"k":[1,{"x":null}]}', "child"),
    Request("POST", "sys/wrapping/unwrap", None, "waiting"),
    Request("POST", "secret/data/app", '{"data":{"number":2},"options":{"cas":1}}'),
    Request("POST", "auth/token/revoke", '{"token":"{parent}"}'),
)
WITH_ALL_KINDS = len(REQUESTS) - 3

LOOK = Request("GET", "auth/token/lookup-self")


def ask_of(text):
    """What the bytes of a request ask."""
    whole = front(text, TODAY)
    return asked(whole.head, whole.body, TODAY)


def after(broker, moment, words, text):
    """The broker that has taken a request."""
    return step(broker, moment, words, ask_of(text), TODAY)[1]


# ---------------------------------------------------------------------------------- the reference

class Story:
    """A broker from its start on: what it was asked, and the reference broker after each answer."""

    def __init__(self, root):
        self.known = {"root": root}
        self.server = None
        self.asked = None  # the bytes that are not answered
        self.brokers = []  # after the start, and after each request that was answered
        self.replies = []

    def going_on(self):
        """A story that begins with the broker after the last answer."""
        found = Story(self.known["root"])
        found.known = dict(self.known)
        found.server = Server(0, range(8))
        found.server.broker = self.brokers[-1]
        found.brokers = self.brokers[-1:]
        return found

    def look(self):
        """The bytes of a request that changes the clock alone."""
        return LOOK.text(self.known)

    def start(self, moment, root, accessor):
        """The reference broker is started as the program was."""
        words = [UNTOLD, word(root), word(accessor), *range(UNTOLD + 3, UNTOLD + 8)]
        self.server = Server(moment, words)
        self.brokers = [self.server.broker]

    def start_by(self, reply):
        """The same, by the reply to the first look."""
        data = reply.body["data"]
        issued = datetime.strptime(data["issue_time"], "%Y-%m-%dT%H:%M:%SZ").replace(tzinfo=timezone.utc)
        self.start(int(issued.timestamp()), self.known["root"], data["accessor"])

    def answer(self, data, request=None):
        """The request was answered so: the reference broker has to answer the same bytes. Raises Wrong."""
        reply = Reply(data)
        if self.server is None:
            self.start_by(reply)
        expected = self.server.feed(1, self.asked, reply.moment, reply.words())
        expect(data == expected, f"the reply to {self.asked[:60]!r} is {data[-200:]!r} in place of {expected[-200:]!r}")
        self.replies.append(data)
        self.brokers.append(self.server.broker)
        self.asked = None
        for name, members in (request.gives if request else {}).items():
            value = reply.body
            for member in members:
                value = value[member]
            self.known[name] = value

    def run(self, running, requests=REQUESTS, has_look=True):
        """Asks a look first and the requests. Whether all were answered: else the program has ended. Raises Wrong."""
        for request in (*[LOOK] * has_look, *requests):
            self.asked = request.text(self.known)
            data = running.ask(self.asked)
            if not is_whole(data):
                expect(data == b"", f"a part of a reply: {data[:80]!r}")
                return False
            self.answer(data, request)
        return True


def is_whole(data):
    """Whether the bytes are a whole reply."""
    head, end, body = data.partition(b"\r\n\r\n")
    lengths = [int(line.partition(b":")[2]) for line in head.split(b"\r\n") if line.startswith(b"Content-Length:")]
    return end != b"" and len(body) == sum(lengths)


def looked(broker, moment, look):
    """The rows of a broker after a look at this moment."""
    return rows_of(after(broker, moment, [UNTOLD] * 8, look))


def found_broker(rows, before, text, moment, look):
    """Which broker the rows are those of, after a look at the moment: the one before, or the one that has taken the
    request too. None if they are those of neither."""
    if looked(before, moment, look) == rows:
        return before
    if text is None:
        return None
    words = words_between(rows_of(before), rows)
    for taken in range(before.clock, min(moment, before.clock + LONGEST) + 1):
        broker = after(before, taken, words, text)
        if looked(broker, moment, look) == rows:
            return broker
    return None


def started(rows):
    """The broker that was just started, if the rows are those of one but for its clock; and its root token."""
    tokens = [(key, value) for (kind, key), value in rows.items() if kind == TOKEN]
    accessors = [key for kind, key in rows if kind == ACCESSOR]
    expect(len(tokens) == len(accessors) == 1, f"{len(tokens)} tokens at the start")
    (root, (_, _, body)), = tokens
    # The policies come after the accessor: one, `root`. Then comes the moment.
    at = body.index(b"\x00\x00\x00\x04root") + 8
    moment = int.from_bytes(body[at:at + 8], "big")
    words = [UNTOLD, word(root), word(accessors[0]), *range(UNTOLD + 3, UNTOLD + 8)]
    return first_broker(moment, words), root
