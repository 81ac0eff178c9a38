"""What rows are written with: a run of the reference broker that keeps its lines and replies.

In strings `#20` is the identifier of the number 20 in hexadecimal. Event k has the words from 10k (hexadecimal) on,
unless the row says otherwise; the start has the words from 0, so the root token is `hvs.#1` with the accessor `#2`.
"""

import json
import re
from dataclasses import dataclass, field
from typing import Callable, Optional

from broker.connections import Server
from broker.texts import identifier

ROOT = "hvs.#1"
ALL_CAPABILITIES = ["create", "read", "update", "delete", "list", "sudo"]
NO_SUDO = ALL_CAPABILITIES[:-1]

DENIED = "permission denied"
MALFORMED = "malformed request"
HEAD_TOO_LARGE = "request head too large"
BODY_TOO_LARGE = "request body too large"
BAD_PATH = "invalid path"
NO_METHOD = "unsupported operation"
BAD_JSON = "failed to parse JSON input"
USED = "identifier already used"

# The first run: an object is written to a cubbyhole and read back, at the moment 1700000000.
FIRST_PUT = 'PUT /v1/cubbyhole/a HTTP/1.1\r\nHost: b\r\nX-Vault-Token: hvs.#1\r\nContent-Length: 9\r\n\r\n{"k":"v"}'
FIRST_GET = "GET /v1/cubbyhole/a HTTP/1.1\r\nHost: b\r\nX-Vault-Token: hvs.#1\r\n\r\n"
FIRST_204 = "HTTP/1.1 204 No Content\r\nDate: Tue, 14 Nov 2023 22:13:20 GMT\r\nCache-Control: no-store\r\n\r\n"
FIRST_BODY = ('{"auth":null,"data":{"k":"v"},"lease_duration":0,"lease_id":"","renewable":false,'
              '"request_id":"#20","warnings":null,"wrap_info":null}\n')
FIRST_200 = ("HTTP/1.1 200 OK\r\nDate: Tue, 14 Nov 2023 22:13:20 GMT\r\nCache-Control: no-store\r\n"
             "Content-Type: application/json\r\nContent-Length: 167\r\n\r\n" + FIRST_BODY)


def ident(number: int) -> str:
    """The identifier of a number."""
    return identifier(number)


def expand(value):
    """Writes out each `#n` of a string, or of the strings of a JSON value."""
    if isinstance(value, str):
        return re.sub("#([0-9a-f]+)", lambda m: ident(int(m.group(1), 16)), value)
    if isinstance(value, list):
        return [expand(v) for v in value]
    if isinstance(value, dict):
        return {expand(k): expand(v) for k, v in value.items()}
    return value


def policy(rules: dict) -> dict:
    """The body that sets a policy: a map from pattern to capabilities."""
    return {"policy": json.dumps({"path": {p: {"capabilities": c} for p, c in rules.items()}},
                                 separators=(",", ":"))}


def request(method: str, target: str, body=None, token: Optional[str] = ROOT, wrap: Optional[str] = None,
            fields: tuple = ()) -> str:
    """The text of a request; a body that is not a string is written as JSON."""
    if body is not None and not isinstance(body, str):
        body = json.dumps(body, separators=(",", ":"))
    lines = [f"{method} {target} HTTP/1.1", "Host: b"]
    if token is not None:
        lines.append(f"X-Vault-Token: {token}")
    if wrap is not None:
        lines.append(f"X-Vault-Wrap-TTL: {wrap}")
    lines += fields
    if body is not None:
        body = expand(body)
        lines.append(f"Content-Length: {len(body.encode())}")
    return expand("".join(line + "\r\n" for line in lines) + "\r\n" + (body or ""))


@dataclass
class Got:
    """One event's reply. Each method states something of it, and returns it."""
    data: bytes

    def __post_init__(self):
        head, _, self.body = self.data.partition(b"\r\n\r\n")
        lines = head.decode("ascii").split("\r\n")
        self.status = int(lines[0].split(" ")[1]) if self.data else None
        self.fields = dict(line.split(": ", 1) for line in lines[1:])

    def json(self):
        """The reply object."""
        return json.loads(self.body)

    def __getitem__(self, name):
        return self.json()[name]

    def nothing(self) -> "Got":
        """No byte came."""
        assert self.data == b"", self.data
        return self

    def is_(self, status: int, **members) -> "Got":
        """The status, and members of the reply object."""
        assert self.status == status, self.data.decode()
        for name, expected in members.items():
            assert self[name] == expand(expected), (name, expected, self.data.decode())
        if status == 204:
            assert self.body == b"" and "Content-Length" not in self.fields
        return self

    def has(self, member: str, **parts) -> "Got":
        """Members of a member of the reply object."""
        for name, expected in parts.items():
            found = self[member][name]
            assert found == expand(expected) and type(found) is type(expand(expected)), (name, found)
        return self

    def refused(self, status: int, text: Optional[str] = None, closing: bool = False) -> "Got":
        """A refusal, with its whole body."""
        body = "" if status == 501 else json.dumps({"errors": [text] if text else []}, separators=(",", ":")) + "\n"
        assert self.status == status and self.body.decode() == body, self.data.decode()
        assert self.fields["Content-Length"] == str(len(body))
        assert (self.fields.get("Connection") == "close") == closing, self.data.decode()
        return self

    def no_method(self, allowed: str) -> "Got":
        """A 405 with these methods in its Allow field."""
        self.refused(405, NO_METHOD)
        assert self.fields["Allow"] == allowed, self.data.decode()
        return self

    def bytes_are(self, text: str) -> "Got":
        """All bytes of the reply."""
        assert self.data == expand(text).encode(), self.data.decode()
        return self


@dataclass
class Run:
    """A run from a started broker, event after event."""
    moment: int
    parts: frozenset
    lines: list = field(default_factory=list)
    replies: list = field(default_factory=list)

    def __post_init__(self):
        self.line({"moment": self.moment, "words": f"{0:032x}"})
        self.broker = Server(self.moment, list(range(8)), self.parts)

    def serves(self, part: str) -> bool:
        """Whether a part is served in this run."""
        return part in self.parts

    def line(self, members: dict) -> None:
        """Adds a line, which nothing runs."""
        self.lines.append(json.dumps(members, separators=(",", ":"), ensure_ascii=False).encode() + b"\n")

    def event(self, piece, conn: int = 1, at: Optional[int] = None, words=None, as_hex: bool = False) -> Got:
        """A piece of bytes. `words` is the number of word 0, or a list of eight."""
        if isinstance(piece, str):
            piece = expand(piece).encode()
        moment = self.moment if at is None else at
        if words is None:
            words = 0x10 * len(self.lines)
        members = {"conn": conn, "moment": moment,
                   "words": [f"{w:032x}" for w in words] if isinstance(words, list) else f"{words:032x}"}
        if as_hex:
            members["hex"] = piece.hex()
        else:
            members["piece"] = piece.decode()
        self.line(members)
        drawn = words if isinstance(words, list) else [(words + n) % 2**128 for n in range(8)]
        got = Got(self.broker.feed(conn, piece, moment, drawn))
        self.replies.append(got.data)
        return got

    def raw(self, data, conn: int, **more) -> Got:
        """A piece that is a string or bytes; bytes that are not UTF-8 are written as hexadecimal digits."""
        if isinstance(data, str):
            data = expand(data).encode()
        try:
            data.decode()
        except UnicodeDecodeError:
            more["as_hex"] = True
        return self.event(data, conn=conn, **more)

    def ask(self, method: str, path: str, body=None, token: Optional[str] = ROOT, wrap: Optional[str] = None,
            fields: tuple = (), **event) -> Got:
        """A whole request for `/v1/` and the path."""
        return self.event(request(method, "/v1/" + path, body, token, wrap, fields), **event)

    def get(self, path: str, **more) -> Got:
        """A whole GET request."""
        return self.ask("GET", path, **more)

    def list(self, path: str, **more) -> Got:
        """A whole LIST request."""
        return self.ask("LIST", path, **more)

    def delete(self, path: str, **more) -> Got:
        """A whole DELETE request."""
        return self.ask("DELETE", path, **more)

    def post(self, path: str, body=None, **more) -> Got:
        """A whole POST request."""
        return self.ask("POST", path, body, **more)

    def whoami(self, token: str, **more) -> Got:
        """A token that looks itself up."""
        return self.get("auth/token/lookup-self", token=token, **more)

    def last_made(self, word: int = 1) -> str:
        """The token that the last event made: of its word 1, or another one."""
        return f"hvs.#{0x10 * (len(self.lines) - 1) + word:x}"


@dataclass(frozen=True)
class Row:
    """A run with a name, whose replies are stated."""
    name: str
    title: str
    needs: frozenset  # the parts without which it does not hold
    until: frozenset  # the parts with which it no longer holds
    start: int  # the moment of the start
    tell: Callable  # sends the events, and states the replies and the end

    def holds(self, parts: frozenset) -> bool:
        """Whether its replies are those of a broker that serves these parts."""
        return self.needs <= parts and not self.until & parts


ROWS: list = []


def row(title: str, *needs: str, start: int = 1000, until: tuple = ()):
    """Makes a row of a function.

    The function gets a Run. It returns nothing if the lines run to their end, and else the exit status and the words
    on standard error. A row that must not depend on later parts names what it needs. Where a reply changes with a part,
    the function asks `serves`; where the whole row goes with a part, the row names it in `until`.
    """
    def add(tell):
        ROWS.append(Row(tell.__name__, title, frozenset(("cubbyholes", *needs)), frozenset(until), start, tell))
        return tell
    return add


def bad_line(place: int) -> tuple:
    """How a run ends at a bad line."""
    return 2, f"bad line {place}"


def set_policy_p(r, capabilities=ALL_CAPABILITIES, name="p"):
    """Sets a policy that allows the capabilities everywhere."""
    return r.post(f"sys/policies/acl/{name}", policy({"*": capabilities}))
