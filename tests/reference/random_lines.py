#!/usr/bin/env python3
"""Prints replay lines of random requests, to compare one broker with another over long runs.

    python3 random_lines.py --seed 7 --events 1000 [--heads]

Each event brings one whole request for one of the routes of the API, served today or not, with names, tokens and words
from small sets, so that requests meet what earlier ones left. With `--heads` some requests are cut in two events, some
heads are broken, and several requests may come in one piece.
"""

import argparse
import json
import random
import sys

NAMES = ["a", "b", "a/b", "team/x", "team", "z", "x.y", "a b"]
MOUNTS = ["secret", "secret", "db", "db2", "kv"]
POLICIES = ["default", "p", "q", "root", "n", "a b"]
ALL = ["create", "read", "update", "delete", "list", "sudo"]
PATTERNS = ["*", "secret/*", "secret/data/*", "secret/data/a", "secret/metadata/*", "secret/metadata/team/", "db/*",
            "db/creds/r", "auth/token/*", "auth/token/create", "sys/*", "sys/leases/*", "cubbyhole/*",
            "sys/wrapping/*", "secret/data/team/*", "auth/token/accessors"]


def ident(word: int) -> str:
    """The identifier of a word, of which 128 bits count."""
    d = f"{word % 2**128:032x}"
    return f"{d[:8]}-{d[8:12]}-{d[12:16]}-{d[16:20]}-{d[20:]}"


class Lines:
    """The lines of one run, and what draws them."""

    def __init__(self, seed: int, heads: bool):
        self.draw = random.Random(seed)
        self.heads = heads
        self.moment = 1000
        self.count = 0
        self.likely = {"token": [], "lease": [], "wrap": []}  # events that probably made such a thing

    def pick(self, *choices):
        """One of the arguments."""
        return self.draw.choice(choices)

    def chance(self, one_in: int) -> bool:
        """True once in so many times."""
        return self.draw.randrange(one_in) == 0

    def earlier(self, kind: str) -> int:
        """The first word of an earlier event, mostly a late one that made such a thing."""
        known = self.likely[kind][-3:]
        if not known or self.chance(12):
            return 0x10 * self.draw.randrange(1, self.count + 2)
        return 0x10 * self.draw.choice(known)

    def made_token(self) -> str:
        """A token that was asked for."""
        return "hvs." + ident(self.earlier("token") + 1)

    def wrapping_token(self) -> str:
        """A wrapping token that was asked for."""
        return "hvs." + ident(self.earlier("wrap") + 5)

    def client_token(self):
        """The token of a caller, or none."""
        draw = self.draw.randrange(100)
        if draw < 60:
            return "hvs." + ident(1)
        if draw < 94:
            return self.made_token()
        return self.pick(self.wrapping_token(), self.wrapping_token(), "nobody", "", None)

    def seconds(self):
        """A duration, now and then of a wrong kind."""
        return self.pick(0, 1, 60, 600, 1000, "90", "1m", "1h1s", "", 3000000, "1h", "800h", 5000, -1, None) \
            if not self.chance(15) else self.pick("1d", 1.5, True, [], 4294967296)

    def count_value(self):
        """A count, now and then of a wrong kind."""
        return self.pick(0, 1, 2, 3, "2", "1", 5, 4, 7, None) \
            if not self.chance(8) else self.pick(18446744073709551615, -1, "x", True)

    def number(self):
        """A small number."""
        return self.pick(0, 1, 2, 3, "2", "1", 4, 12)

    def truth(self):
        """A truth value, now and then of a wrong kind."""
        return self.pick(True, False, "true", "false", None) if not self.chance(10) else 1

    def some(self, **members):
        """Some of the members, each with its value drawn."""
        return {name: value() for name, value in members.items() if self.chance(3)}

    def policy_text(self):
        """The text of a policy, now and then one that is refused."""
        if self.chance(9):
            return self.pick("", "{}", "null", '{"path":{"+":{"capabilities":[]}}}', '{"path":{"a":{"x":[]}}}',
                             '{"path":{"*":{"capabilities":["read","run"]}}}')
        rules = {self.draw.choice(PATTERNS): {"capabilities": self.draw.sample(ALL + ["deny", "patch"],
                                                                            self.draw.randrange(1, 6))}
                 for _ in range(self.draw.randrange(1, 5))}
        if self.chance(3):
            rules["*"] = {"capabilities": ALL if self.chance(2) else ALL[:-1]}
        return json.dumps({"path": rules})

    def creation(self):
        """The body of a creation."""
        body = self.some(ttl=self.seconds, explicit_max_ttl=self.seconds, num_uses=self.count_value,
                         no_parent=self.truth, no_default_policy=self.truth)
        if self.chance(2):
            body["policies"] = self.pick([], "", "p,q", ["p"], ["default"], ["p", "default"], ["q", "p"], ["root"],
                                         None, ["n"])
            if self.chance(10):
                body["policies"] = self.pick(["a b"], [1], {"a": 1}, ["default", None])
        if self.chance(6):
            body["meta"] = self.pick({"a": "b"}, {}, None, {"a": 1}, {"z": "1", "y": "2"})
        if self.chance(8):
            body["period"] = self.seconds()
        if self.chance(20):
            body[self.pick("renewable", "id", "type")] = self.pick("service", True, "false", "", "x")
        return body

    def ask(self):
        """Method, path and body, or None without one, of one request out of all kinds."""
        self.name, self.mount = self.draw.choice(NAMES), self.draw.choice(MOUNTS)
        self.role, lease = self.pick("r", "s"), ident(self.earlier("lease") + 3)
        self.text = self.pick(self.made_token, self.made_token, self.wrapping_token, lambda: "", lambda: "x")()
        self.accessor = ident(self.pick(self.earlier("token") + 2, self.earlier("token") + 2, self.earlier("wrap") + 6))
        self.lease_id = f"{self.pick('db', 'db', 'db2')}/creds/{self.role}/{lease}"
        kinds = [*self.tokens(), *self.wrapping(), *self.leases_and_mounts(), *self.policies(), *self.cubbyholes(),
                 *self.secrets(), *self.roles(), self.anything()]
        kind = self.draw.choices([k for _, k in kinds], [w for w, _ in kinds])[0]
        method, path, body = kind()
        if path.startswith("auth/token/create"):
            self.likely["token"].append(self.count + 1)
        if "/creds/" in path:
            self.likely["lease"].append(self.count + 1)
        if path == "sys/wrapping/rewrap":
            self.likely["wrap"].append(self.count + 1)
        return method, path, body

    # Kinds of requests: how often a kind comes, and what draws a method, a path and a body.

    def tokens(self):
        """Requests about tokens."""
        return [
            (14, lambda: ("POST", "auth/token/" + self.pick("create", "create", "create-orphan"), self.creation())),
            (4, lambda: ("GET", "auth/token/lookup-self", None)),
            (2, lambda: ("POST", "auth/token/lookup", {"token": self.text})),
            (2, lambda: ("POST", "auth/token/lookup-accessor", {"accessor": self.accessor})),
            (3, lambda: ("POST", "auth/token/renew", {"token": self.text, **self.some(increment=self.seconds)})),
            (3, lambda: ("POST", "auth/token/renew-self", self.some(increment=self.seconds))),
            (1, lambda: ("POST", "auth/token/" + self.pick("revoke", "revoke-orphan"),
                         {"token": self.pick(self.text, self.text, None, 1)})),
            (1, lambda: ("POST", "auth/token/revoke-self", None)),
            (1, lambda: ("POST", "auth/token/revoke-accessor", {"accessor": self.accessor})),
            (2, lambda: ("LIST", "auth/token/accessors", None))]

    def wrapping(self):
        """Requests about wrapping tokens."""
        return [
            (4, lambda: ("POST", "sys/wrapping/wrap", self.pick({"a": 1}, {}, None, {"b": [None, "é"]}))),
            (4, lambda: ("POST", "sys/wrapping/" + self.pick("lookup", "unwrap", "rewrap"),
                         self.pick(None, {}, {"token": self.wrapping_token()}, {"token": ""}, {"token": 1}))),
            (8, lambda: ("POST", "sys/wrapping/unwrap", {"token": self.wrapping_token()}))]

    def leases_and_mounts(self):
        """Requests about leases and mounts."""
        return [
            (3, lambda: ("POST", "sys/leases/" + self.pick("lookup", "renew", "revoke"),
                         {"lease_id": self.lease_id, **self.some(increment=self.seconds)})),
            (1, lambda: ("POST", "sys/leases/revoke-prefix/" + self.pick("db", "db/creds/r", "d", "db2/creds"), None)),
            (1, lambda: ("GET", "sys/mounts", None)),
            (3, lambda: ("POST", "sys/mounts/" + self.draw.choice(MOUNTS + ["sys", "m:"]),
                         self.pick({"type": "issued"}, {"type": "kv-v2"}, {"type": "kv", "options": {"version": "2"}},
                                   {"type": "kv"}, {}, {"type": "issued", "options": {"version": "x"}}))),
            (1, lambda: ("DELETE", "sys/mounts/" + self.pick("db", "db2", "kv", "sys", "none")
                         if not self.chance(8) else "sys/mounts/secret", None))]

    def policies(self):
        """Requests about policies."""
        return [
            (1, lambda: ("LIST", "sys/policies/acl", None)),
            (5, lambda: ("POST", "sys/policies/acl/" + self.draw.choice(POLICIES), {"policy": self.policy_text()})),
            (1, lambda: ("GET", "sys/policies/acl/" + self.draw.choice(POLICIES), None)),
            (1, lambda: ("DELETE", "sys/policies/acl/" + self.draw.choice(POLICIES), None))]

    def cubbyholes(self):
        """Requests about cubbyholes."""
        return [
            (4, lambda: ("POST", "cubbyhole/" + self.name,
                         self.pick({"k": self.name}, {"n": [1, {"x": None}]}, {}, None))),
            (4, lambda: (self.pick("GET", "GET", "LIST", "DELETE"), "cubbyhole/" + self.name, None))]

    def secrets(self):
        """Requests about secrets, and lists of cubbyholes."""
        name, mount = self.name, self.mount
        return [
            (2, lambda: ("LIST", self.pick("cubbyhole", mount + "/metadata", mount + "/metadata/team"), None)),
            (2, lambda: ("POST", mount + "/config", self.some(
                cas_required=self.truth, max_versions=self.number,
                delete_version_after=lambda: self.pick("0s", "1s")))),
            (1, lambda: ("GET", mount + "/config", None)),
            (9, lambda: ("POST", f"{mount}/data/{name}",
                         {"data": self.pick({"v": self.count}, {}, {"s": "\n\"é"}, None),
                          **self.some(options=lambda: {"cas": self.number()})})),
            (5, lambda: ("GET", f"{mount}/data/{name}" + self.pick(
                "", "", "?version=1", "?version=2", "?version=0", "?version=x", "?version=12", "?list=true"), None)),
            (2, lambda: ("DELETE", f"{mount}/data/{name}", None)),
            (4, lambda: ("POST", f"{mount}/{self.pick('delete', 'undelete', 'destroy')}/{name}",
                         {"versions": self.pick([1], [1, 2], "1,2", ["2", 3], [], [-1], [9], None, list(range(12)))})),
            (3, lambda: (self.pick("GET", "GET", "LIST", "DELETE"), f"{mount}/metadata/{name}", None)),
            (3, lambda: ("POST", f"{mount}/metadata/{name}", self.some(
                custom_metadata=lambda: self.pick({}, {"b": "2", "a": "é"}, {"a": 1}, None),
                max_versions=self.count_value, cas_required=self.truth)))]

    def roles(self):
        """Requests about roles and credentials."""
        return [
            (3, lambda: ("POST", f"{self.pick('db', 'db2')}/roles/{self.role}",
                         self.some(ttl=self.seconds, max_ttl=self.seconds))),
            (1, lambda: (self.pick("GET", "DELETE"), f"{self.pick('db', 'db2')}/roles/{self.role}", None)),
            (6, lambda: ("GET", f"{self.pick('db', 'db', 'db2')}/creds/{self.role}", None)),
            (2, lambda: ("POST", f"{self.pick('db', 'db2')}/verify",
                         {"credential": ident(self.earlier("lease") + 4)}))]

    def anything(self):
        """Methods and paths that no route has, or hardly."""
        return (1, lambda: (self.pick("GET", "LIST", "POST", "DELETE", "PATCH"),
                            self.pick("none/x", "secret", "sys/mounts", "auth/token/create", "a//b", "cubbyhole"),
                            None))

    def request(self) -> str:
        """One whole request."""
        method, path, body = self.ask()
        token = self.client_token()
        if method == "POST" and path.startswith(("sys/mounts", "sys/policies")) and not self.chance(5):
            token = "hvs." + ident(1)
        if path.startswith(("auth/token/create", "sys/wrapping/wrap")) and not self.chance(3):
            token = "hvs." + ident(1)
        if path.endswith("revoke-self"):
            token = self.made_token()  # the root token stays, so that later requests are served
        wrap = self.pick("5", "600", "10m", "1h", "1h", "0", "1d") if self.chance(6) else None
        if path == "sys/wrapping/wrap" and not self.chance(6):
            wrap = self.pick("5", "600", "1000", "3000000")
        if wrap:
            self.likely["wrap"].append(self.count + 1)
        if method == "POST" and self.chance(3):
            method = "PUT"
        version = f"HTTP/1.{0 if self.heads and self.chance(30) else 1}"
        lines = [f"{method} /v1/{path.replace(' ', '%20')} {version}", "Host: b"]
        if token is not None:
            lines.append(f"X-Vault-Token: {token}" if not self.chance(10) else f"Authorization: Bearer {token}")
        if wrap is not None:
            lines.append(f"X-Vault-Wrap-TTL: {wrap}")
        text = None
        if body is not None or self.chance(20):
            text = json.dumps(body, ensure_ascii=self.chance(2))
            if self.chance(40):
                text = self.pick(text[:-1], "[]", " ", text + "\n", "null", '{"a":1e3}')
            lines.append(f"Content-Length: {len(text.encode())}")
        if self.chance(60):
            lines.append(self.pick("Connection: close", "Connection: keep-alive", "X: y", "Expect: 100-continue"))
        if self.heads and self.chance(20):
            lines.insert(self.draw.randrange(1, len(lines) + 1), self.pick(
                "Host: c", "Content-Length: 3", "Content-Length: x", "Transfer-Encoding: chunked", "bad line", " fold",
                "Content-Length: 9999999", "X-Vault-Token: y", "A : b"))
        return "".join(line + "\r\n" for line in lines) + "\r\n" + (text or "")

    def pieces(self) -> list:
        """The pieces of the next events, all on one connection."""
        text = self.request()
        if not self.heads or not self.chance(3):
            return [text]
        if self.chance(2):
            place = self.draw.randrange(len(text) + 1)
            return [text[:place], text[place:]]
        return [text + self.request(), ""]

    def lines(self, events: int):
        """The lines of a start and of so many events, each without its LF."""
        yield json.dumps({"moment": self.moment, "words": "0" * 32})
        conn = 0
        while self.count < events:
            conn = self.draw.randrange(1, 4) + (self.count // 20) * 4
            start = self.count
            for piece in self.pieces():
                self.count += 1
                self.moment += self.pick(0, 0, 0, 0, 0, 0, 1, 1, 3, 30)
                moment = self.moment - (50 if self.chance(10) else 0)
                word = 0x10 * (start + 1 if piece else self.count)
                if self.chance(25):
                    word = self.earlier("token") + self.draw.randrange(-3, 4)
                line = {"conn": conn, "moment": max(moment, 0), "words": f"{word % 2**128:032x}", "piece": piece}
                yield json.dumps(line, ensure_ascii=False)


def random_run(seed: int, events: int, heads: bool) -> bytes:
    """The bytes of a run's lines."""
    return "".join(line + "\n" for line in Lines(seed, heads).lines(events)).encode()


def main() -> None:
    parser = argparse.ArgumentParser(description="prints replay lines of random requests")
    parser.add_argument("--seed", type=int, default=0)
    parser.add_argument("--events", type=int, default=1000)
    parser.add_argument("--heads", action="store_true")
    arguments = parser.parse_args()
    sys.stdout.buffer.write(random_run(arguments.seed, arguments.events, arguments.heads))


if __name__ == "__main__":
    main()
