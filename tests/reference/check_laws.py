#!/usr/bin/env python3
"""Checks the reference broker by laws that every run must keep, over random runs with all parts served.

    python3 check_laws.py [--seeds N] [--events M]

After each event: the broker is sound, its rows are read back as the same broker, and the status and the text of a
refusal are listed ones. Over each run: a wrapped response is handed out once at most; what is handed out is what the
request would have been answered without wrapping; what was revoked or expired is never there again, and who asks by it
is refused; no identifier is used twice; the clock never goes back. The pieces of a request may be cut anywhere. In
addition, what stands at the front of a stream does not change by more bytes, and JSON is read and written as Python's
own reader and writer do, where the two must agree.

The last line is `N passed, M failed`: the checks of streams and of JSON, and each run. The status is 0 if nothing
failed.
"""

import argparse
import json
import random
import sys
import traceback
from dataclasses import replace

from broker.bodies import read_body
from broker.calls import Reply
from broker.connections import Server
from broker.http import Need, Whole, front
from broker.json_text import BadJson, Float, has_float, json_text, read_json
from broker.lines import read_event, read_start, replay
from broker.parts import ALL
from broker.permissions import read_policy
from broker.requests import is_open, step
from broker.rows import rows_of
from broker.state import Broker, after_last_use, at, spent, without_response
from broker.texts import LONGEST_LIFE
from random_lines import random_run
from stored_broker import broker_of

STATUSES = (200, 204, 400, 403, 404, 405, 500)
TEXTS = {
    "failed to parse JSON input", "malformed request", "request body too large", "request head too large",
    "permission denied", "bad token", "unsupported operation", "identifier already used", "invalid path",
    "invalid duration", "restricted use token cannot generate child tokens", "invalid name",
    "only a root token can create root tokens", "child policies must be subset of parent",
    "root or sudo privileges required to create orphan token",
    "root or sudo privileges required to create periodic token",
    "expiring root tokens cannot create non-expiring root tokens", "lease is not renewable", "invalid accessor",
    "unsupported policy", "policy cannot be changed", "check-and-set parameter required for this call",
    "check-and-set parameter did not match the current version", "missing data fields", "path is already in use",
    "unsupported mount", "cannot be disabled", "a last use cannot take a lease", "invalid lease",
    "response wrapping is required", "wrapping token is not valid or does not exist", "no data provided"}


# ----------------------------------------------------------------------------------- soundness

def identifiers(b: Broker) -> list:
    """The identifiers of all that is there, but for those of first wrapping tokens."""
    found = []
    for text, token in b.tokens.items():
        found += [text[4:], token.accessor]
        for lease_id, lease in token.leases.items():
            found += [lease_id[-36:], lease.credential]
    for text, entry in b.waiting.items():
        found += [text[4:], entry.accessor]
    return found


def check_sound(b: Broker) -> None:
    """What holds of every broker that a run comes to."""
    for text, token in b.tokens.items():
        check_token(b, text, token)
    held = identifiers(b)
    assert len(set(held)) == len(held) and set(held) <= b.used
    origins = [entry.origin for entry in b.waiting.values()]
    assert len(set(origins)) == len(origins) and set(origins) <= b.used
    assert all(entry.end() > b.clock and entry.ttl > 0 for entry in b.waiting.values())
    for (mount, _), key in b.secrets.items():
        assert b.mounts[mount].type == "kv"
        assert all(0 < n <= key.current for n in key.versions)
        assert (key.current in key.versions) == (key.current > 0)
        assert all(v.destroyed == (v.data is None) for v in key.versions.values())
    assert all(b.mounts[mount].type == "issued" for mount, _ in b.roles)
    assert all(read_policy(text) is not None for text in b.policies.values()) and "default" in b.policies


def check_token(b: Broker, text: str, token) -> None:
    """What holds of every token: it is in a tree, has an end and uses, and its leases are in range."""
    assert token.parent is None or token.parent in b.tokens
    seen, above = set(), text
    while above is not None:
        assert above not in seen
        seen.add(above)
        above = b.tokens[above].parent
    assert token.uses is None or token.uses > 0
    assert token.policies == tuple(sorted(set(token.policies)))
    assert (token.end is None) == (token.ttl == 0) and (token.end is None or token.end > b.clock)
    assert token.end is not None or token.policies == ("root",)
    for lease_id, lease in token.leases.items():
        mount, _, role, _ = lease_id.split("/")
        assert b.mounts[mount].type == "issued" and lease.end > b.clock
        assert 0 < lease.ttl <= lease.max <= LONGEST_LIFE and lease.end <= lease.issued + lease.max
    assert all(value for value in token.cubbyhole.values())


# ---------------------------------------------------------------------------------------- laws

def present(b: Broker) -> set:
    """All tokens, leases and wrapping tokens."""
    found = set(b.tokens) | set(b.waiting)
    for token in b.tokens.values():
        found |= set(token.leases)
    return found


class WatchedServer(Server):
    """A server that checks each step and the run as it goes."""

    def __init__(self, moment: int, words: list):
        super().__init__(moment, words, ALL)
        self.steps = 0
        self.handed: set = set()
        self.kept: dict = {}  # origin -> what the wrapped request would have been answered
        self.gone: set = set()  # tokens, leases and wrapping tokens that were there
        self.unwraps = self.wraps = self.refusals = 0

    def step(self, moment, words, ask):
        b = self.broker
        answer = super().step(moment, words, ask)
        self.steps += 1
        check_sound(self.broker)
        assert broker_of(rows_of(self.broker)) == self.broker
        assert self.broker.clock == max(b.clock, moment)
        assert b.used <= self.broker.used
        self.check_answer(answer)
        self.check_used(b)
        self.check_gone_client(ask, answer)
        self.check_gone(b)
        self.check_wrapping(b, moment, words, ask, answer)
        if answer.status >= 400:
            self.check_refusal(b, moment, ask)
        return answer

    def check_answer(self, answer):
        """The status and the texts are listed ones, and the body is compact JSON."""
        assert answer.status in STATUSES
        assert (answer.status == 405) == bool(answer.methods)
        if answer.status == 204:
            assert answer.text == ""
            return
        body = read_json(answer.text.encode())
        assert answer.text == json_text(body) + "\n"
        if "errors" in body:
            self.refusals += 1
            for text in body["errors"]:
                assert text in TEXTS or text.startswith(("invalid field: ", "missing field: ")), text
            assert (body["errors"] == []) == (answer.status == 404)

    def check_used(self, b):
        """What is new has identifiers that were not used, and these are used from now on."""
        new = set(identifiers(self.broker)) - set(identifiers(b))
        assert not new & b.used
        assert new <= self.broker.used

    def check_gone_client(self, ask, answer):
        """A client token that is gone is refused; where no caller is needed, the response that it stands for is."""
        if ask.token in self.gone:
            if not is_open(ask, ALL):
                assert answer.status == 403
            elif ask.path != "sys/wrapping/lookup":
                assert answer.status in (400, 500)

    def check_gone(self, b):
        """What is gone does not come back."""
        self.gone |= present(b) - present(self.broker)
        assert not self.gone & present(self.broker)

    def check_wrapping(self, b, moment, words, ask, answer):
        """A response waits under its first identifier as it was wrapped, and is handed out once."""
        origins = {entry.origin: entry for entry in b.waiting.values()}
        now = {entry.origin: entry for entry in self.broker.waiting.values()}
        for origin in set(now) & set(origins):
            assert now[origin].text == origins[origin].text and now[origin].ttl == origins[origin].ttl
        for origin in set(now) - set(origins):
            self.wraps += 1
            assert origin not in self.kept
            self.kept[origin] = plain_text(b, moment, words, ask)
            body = read_json(answer.text.encode())
            assert body["auth"] is None and body["data"] is None and body["lease_id"] == ""
        if ask.verb == "WRITE" and ask.path == "sys/wrapping/unwrap" and answer.status == 200:
            taken = [origin for origin in origins if origin not in now and origins[origin].end() > self.broker.clock]
            assert len(taken) == 1
            assert taken[0] not in self.handed
            self.handed.add(taken[0])
            self.unwraps += 1
            assert answer.text == self.kept[taken[0]]

    def check_refusal(self, b, moment, ask):
        """A refusal changes the clock, what expires by it, the spent use and a dropped response: nothing else."""
        expected = at(b, moment)
        if ask.token in expected.waiting and not is_open(ask, ALL):
            expected = without_response(expected, ask.token)
        elif ask.token in expected.tokens and not is_open(ask, ALL):
            expected = after_last_use(spent(expected, ask.token), ask.token)
        assert self.broker == expected


def plain_text(b: Broker, moment: int, words: list, ask) -> str:
    """What a wrapped request would have been answered without wrapping."""
    if ask.path == "sys/wrapping/wrap":
        return Reply(data=read_body(ask.body)).text(words)
    plain, _ = step(b, moment, words, replace(ask, wrap_ttl=0), ALL)
    assert plain.status == 200
    return plain.text


def run_lines(data: bytes, cut=None) -> tuple:
    """The server and the replies of lines. With `cut` each piece comes in two, the first with other words."""
    lines = data.splitlines()
    server = WatchedServer(*read_start(lines[0], ALL))
    replies = []
    for line in lines[1:]:
        conn, piece, moment, words = read_event(line, ALL)
        if cut is not None:
            place = cut.randrange(len(piece)) if piece else 0
            assert server.feed(conn, piece[:place], 0, [0] * 8) == b""
            piece = piece[place:]
        replies.append(server.feed(conn, piece, moment, words))
    return server, replies


def check_run(seed: int, events: int, heads: bool) -> str:
    """One random run, whole and cut, and with each part left out; what it came by."""
    data = random_run(seed, events, heads)
    server, replies = run_lines(data)
    assert replies == replay(data, ALL)[0]
    if not heads:
        assert replies == run_lines(data, random.Random(seed))[1]
    for part in ALL:
        assert replay(data, ALL - {part})[1] == 0
    return (f"{server.steps} steps, {server.refusals} refusals, {server.wraps} wrapped, {server.unwraps} handed out, "
            f"{len(server.gone)} things revoked or expired")


# ------------------------------------------------------------------------------ streams, JSON

FRAGMENTS = (b"GET", b"PUT", b" ", b"/v1/a", b"HTTP/1.1", b"HTTP/1.0", b"\r\n", b"\r\n", b"\r\n\r\n", b"\n", b"\r",
             b"Host: b", b"Content-Length: 3", b"Content-Length: 9999999", b"Transfer-Encoding: x", b"A: b", b":",
             b"\xff", b"abc", b"GET /v1/a HTTP/1.1\r\nHost: b\r\n",
             b"PUT /v1/a HTTP/1.1\r\nHost: b\r\nContent-Length: 2\r\n\r\n", b"x" * 9000, b"\r\n" * 5000)


def check_fronts() -> str:
    """What is found at the front of a stream, and how much of it, does not depend on later bytes."""
    draw = random.Random(1)
    seen = set()
    for _ in range(4000):
        stream = b"".join(draw.choices(FRAGMENTS, k=draw.randrange(12)))
        more = b"".join(draw.choices(FRAGMENTS, k=draw.randrange(4)))
        for parts in (ALL - {"limits"}, ALL):
            found = front(stream, parts)
            seen.add(("limits" in parts, type(found).__name__, getattr(found, "status", None)))
            if found != Need():
                assert front(stream + more, parts) == found
            if isinstance(found, Whole):
                assert all(front(stream[:n], parts) == Need() for n in range(found.length))
    assert len(seen) == 9, seen
    return "4,000 streams"


def random_value(draw: random.Random, depth: int):
    """A value of JSON, with so many levels below it at most."""
    kind = draw.randrange(7 if depth else 5)
    if kind == 0:
        return draw.choice([None, True, False])
    if kind in (1, 2):
        return draw.choice([0, 1, -1, 2**64 - 1, -2**63, draw.randrange(10**12)])
    if kind in (3, 4):
        return "".join(draw.choices('ab"\\/\b\f\n\r\t\x00\x1f\x7fé😀\uffff', k=draw.randrange(6)))
    if kind == 5:
        return [random_value(draw, depth - 1) for _ in range(draw.randrange(4))]
    return {str(random_value(draw, 0)): random_value(draw, depth - 1) for _ in range(draw.randrange(4))}


def known_value(text: str):
    """What Python's own reader reads without floats, or BadJson."""
    try:
        value = json.loads(text, parse_float=lambda _: Float(), parse_constant=lambda _: 1 / 0,
                           parse_int=lambda n: int(n) if -2**63 <= int(n) < 2**64 and n != "-0" else Float())
    except (ValueError, ZeroDivisionError):
        return BadJson
    return BadJson if has_float(value) else value


def check_json() -> str:
    """JSON is read and written as Python does; of broken texts it refuses what Python refuses."""
    draw = random.Random(2)
    for _ in range(20000):
        value = random_value(draw, 4)
        text = json.dumps(value, ensure_ascii=draw.choice([True, False]), indent=draw.choice([None, 1]))
        assert read_json(text.encode()) == value
        assert json_text(value) == json.dumps(value, ensure_ascii=False, sort_keys=True, separators=(",", ":"))
        place = draw.randrange(len(text) + 1)
        broken = text[:place] + draw.choice('",:[]{}\\0-.e u\n\x01') + text[place + draw.randrange(2):]
        known = known_value(broken)
        try:
            found = read_json(broken.encode())
        except BadJson:
            # Python also reads halves of surrogate pairs
            assert known is BadJson or "\\ud" in broken.lower(), broken
        else:
            assert known is not BadJson and found == known, broken
    return "20,000 texts of JSON, and as many broken ones"


# ------------------------------------------------------------------------------------- the program

def passes(what: str, check, *arguments) -> bool:
    """Runs a check and prints what came of it. Returns whether it passed."""
    try:
        found = check(*arguments)
    except Exception as error:
        place = traceback.extract_tb(error.__traceback__)[-1]
        print(f"{what}: {place.name}, line {place.lineno}: {type(error).__name__}: {error}", flush=True)
        return False
    print(f"{what}: {found}", flush=True)
    return True


def check_all(seeds: int, events: int) -> tuple:
    """All checks, with so many random runs of two kinds. Returns how many passed and failed."""
    results = [passes("fronts", check_fronts), passes("JSON", check_json)]
    for seed in range(seeds):
        results.append(passes(f"seed {seed}", check_run, seed, events, False))
        results.append(passes(f"seed {seed} with heads", check_run, seed, events, True))
    return sum(results), len(results) - sum(results)


def main() -> int:
    parser = argparse.ArgumentParser(description="checks the reference broker over random runs")
    parser.add_argument("--seeds", type=int, default=5)
    parser.add_argument("--events", type=int, default=1000)
    arguments = parser.parse_args()
    passed, failed = check_all(arguments.seeds, arguments.events)
    print(f"{passed} passed, {failed} failed")
    return 1 if failed else 0


if __name__ == "__main__":
    sys.exit(main())
