"""Draws brokers, and requests over all routes, from small sets of names."""

import functools
import json
import random

from broker import permissions
from broker.http import Ask
from broker.parts import TODAY
from broker.requests import step
from broker.state import Broker, first_broker
from broker.texts import token_text

START = 1_700_000_000
ROOT = token_text(1)
KV, ISSUED = ("secret", "kv"), ("db", "db2")
PATHS = ("a", "a/b", "team", "team/x", "team/x/y", "own")
FOLDERS = ("", "", "/team", "/team", "/a", "/a", "/team/x")
POLICIES = ("p0", "p1", "p2", "p3", "p4", "default")
BELOW = ("data", "data", "data", "metadata", "metadata", "delete", "undelete", "destroy")
ENDS = (*"*****", *PATHS, "team/*", "team/", "a/*")  # of patterns
FEW = (*(["read"], ["create"], ["update"], ["delete"]) * 2, ["list"], ["create", "update"], ["read", "list"], ["deny"],
       [], ["create", "read", "update", "delete", "list"], ["update", "delete", "list"], ["sudo", "patch"])
ALL = ["create", "read", "update", "delete", "list", "sudo"]
MUCH = (ALL, ALL, ALL, ALL, ALL, ALL[:-1], [])
CHANGES = ("delete", "undelete", "destroy")
WRAP_TTLS = (0, 0, 0, 0, 0, 0, 5, 600, 3600)
TOKENS_OF_A_BROKER, SECRETS_OF_A_BROKER, OTHERS_OF_A_BROKER = 5, 12, 6

permissions.read_policy = functools.lru_cache(maxsize=4096)(permissions.read_policy)  # a text is read once


class Drawer:
    """Draws asks; each has words of its own."""

    def __init__(self, seed: str):
        self.draw = random.Random(seed)
        self.pick = self.draw.choice
        self.word, self.moment = 0x1000, START

    def chance(self, one_in: int) -> bool:
        """True once in so many times."""
        return self.draw.randrange(one_in) == 0

    def words(self) -> list:
        """The eight words of a request; seldom those of an earlier one."""
        self.word += 0x10
        first = self.word if not self.chance(20) else self.word - 0x10 * self.draw.randrange(1, 40)
        return [first + n for n in range(8)]

    def again(self) -> "Drawer":
        """One that draws the same from now on."""
        drawer = Drawer("")
        drawer.draw.setstate(self.draw.getstate())
        drawer.word, drawer.moment = self.word, self.moment
        return drawer

    def some(self, **members) -> dict:
        """Some of the members, of each one of its values."""
        return {name: self.pick(values) for name, values in members.items() if self.chance(3)}

    # ---- what brokers begin with

    def policy(self) -> str:
        """The text of a policy: much of all but the mounts of secrets, and of these what a few rules say."""
        rules = {"*": self.pick(MUCH)}
        for mount in KV:
            rules[f"{mount}/*"] = self.pick([[], [], [], [], ["list"], ["update"]])
            rules[f"{mount}/config"] = self.pick([["read", "update"], []])
            for _ in range(self.draw.randrange(1, 6)):
                rules[f"{mount}/{self.pick(BELOW)}/{self.pick(ENDS)}"] = self.pick(FEW)
            if self.chance(2):
                rules[f"{mount}/metadata{self.pick(['', '/', '/team', '/a', '/team', '/a'])}"] = ["list"]
        if self.chance(2):
            rules["cubbyhole/*"] = self.pick([["create", "read", "list"], ["update", "list"], ["create"], []])
        return json.dumps({"path": {pattern: {"capabilities": words} for pattern, words in rules.items()}})

    def creation(self, policies: list) -> dict:
        """The body of a token's creation."""
        body = {"policies": policies, **self.some(
            ttl=[600, "1h", "20m", 5000], explicit_max_ttl=[4000, "2h"], no_default_policy=[True, False],
            meta=[{"team": "db"}, {}])}
        if self.chance(4):
            body["num_uses"] = self.pick([3, 20, 60])
        if self.chance(12):
            body["period"] = self.pick([0, 900])
        return body

    def asked(self, b: Broker, verb: str, path: str, body=None, token=ROOT, wrap=0) -> Broker:
        """The broker after a request, which may be refused."""
        data = b"" if body is None else json.dumps(body).encode()
        return step(b, self.moment, self.words(), Ask(verb, path, None, token, wrap, data), TODAY)[1]

    def broker(self) -> Broker:
        """A broker with some of everything, all of it made by requests."""
        b = first_broker(START, list(range(8)))
        b = self.asked(b, "WRITE", "sys/mounts/kv", {"type": "kv-v2"})
        for mount in ISSUED:
            b = self.asked(b, "WRITE", f"sys/mounts/{mount}", {"type": "issued"})
            b = self.asked(b, "WRITE", f"{mount}/roles/r", {"ttl": self.pick([600, 3600]), "max_ttl": 5000})
        for name in POLICIES[:-1]:
            b = self.asked(b, "WRITE", f"sys/policies/acl/{name}", {"policy": self.policy()})
        for _ in range(TOKENS_OF_A_BROKER):
            maker = self.pick([ROOT, self.pick([*b.tokens])])
            policies = self.draw.sample(POLICIES, self.draw.randrange(1, 3))
            b = self.asked(b, "WRITE", "auth/token/create", self.creation(policies), maker)
        for _ in range(SECRETS_OF_A_BROKER):
            place = (self.pick(("secret", *KV)), self.pick(PATHS))
            b = self.asked(b, *self.change_of_secret(b, place))
        for _ in range(OTHERS_OF_A_BROKER):
            token = self.pick([*b.tokens])
            b = self.asked(b, *self.own(), token)
            b = self.asked(b, "GET", f"{self.pick(ISSUED)}/creds/r", None, token)
            if self.chance(2):
                b = self.asked(b, "WRITE", "sys/wrapping/wrap", {"k": 1}, token, self.pick([5, 600, 3600]))
        return b

    def change_of_secret(self, b: Broker, place: tuple, may_make: bool = True) -> tuple:
        """Verb, path and body of a change of a secret, which may make it or remove it if it is said so."""
        mount, path = place
        kind = self.draw.randrange(9 if may_make else 8)
        if kind < 4:
            key = b.secrets.get(place)
            options = {"cas": key.current if key else 0} if not self.chance(3) else {}
            body = {"data": {"v": self.draw.randrange(1000)}, "options": options}
            return "WRITE", f"{mount}/data/{path}", body
        if kind < 6:
            return "WRITE", f"{mount}/{self.pick(CHANGES)}/{path}", {"versions": self.pick([[1], [1, 2], [2, 3]])}
        if kind == 6:
            return "WRITE", f"{mount}/metadata/{path}", self.settings()
        return ("DELETE", f"{mount}/data/{path}", None) if kind == 7 else ("DELETE", f"{mount}/metadata/{path}", None)

    def settings(self) -> dict:
        """The body of a change of a secret's settings."""
        return {"custom_metadata": self.pick([{"a": "1"}, {"b": "2"}, {}, None]),
                **self.some(max_versions=[0, 1, 2, 5], cas_required=[False, False, True])}

    def own(self) -> tuple:
        """Verb, path and body of a change of a cubbyhole."""
        path = f"cubbyhole/{self.pick(PATHS)}"
        return ("WRITE", path, {"k": self.draw.randrange(100)}) if not self.chance(4) else ("DELETE", path, None)

    # ---- what callers ask

    def ask(self, caller: str, texts: dict) -> Ask:
        """What a caller asks: the texts are what it may name, by what they are."""
        kinds = [*self.of_tokens(texts), *self.of_responses(texts), *self.of_leases(texts), *self.of_settings(),
                 *self.of_secrets(texts), *self.of_roles(texts)]
        if caller not in texts["caller"] and self.chance(2):
            kinds = self.of_responses(texts)
        verb, path, body, *version = self.draw.choices([it for _, it in kinds], [n for n, _ in kinds])[0]()
        wrap = self.pick([5, 600, 3600]) if path == "sys/wrapping/wrap" and not self.chance(8) else self.pick(WRAP_TTLS)
        data = b"" if body is None else json.dumps(body).encode()
        if body is not None and self.chance(8):
            data = self.pick([data[:-1], b"[]", b"null", b" "])
        return Ask(verb, path, version[0] if version else None, caller, wrap, data)

    def of_tokens(self, texts: dict) -> list:
        """Requests about tokens: how often each is drawn, and what draws verb, path and body."""
        token, accessor = self.pick(texts["token"]), self.pick(texts["accessor"])
        return [
            (5, lambda: ("WRITE", "auth/token/" + self.pick(["create", "create-orphan"]), {
                **self.creation(self.draw.sample(POLICIES, self.draw.randrange(2))),
                **self.some(no_parent=[True, False])})),
            (4, lambda: ("GET", "auth/token/lookup-self", None)),
            (2, lambda: ("WRITE", "auth/token/lookup", {"token": token})),
            (5, lambda: ("WRITE", "auth/token/lookup-accessor", {"accessor": accessor})),
            (2, lambda: ("LIST", "auth/token/accessors", None)),
            (2, lambda: ("WRITE", "auth/token/renew-self", self.some(increment=[60, "1h", 3000]))),
            (2, lambda: ("WRITE", "auth/token/renew", {"token": token, **self.some(increment=[60, 3000])})),
            (0.3, lambda: ("WRITE", "auth/token/revoke-self", None)),
            (0.5, lambda: ("WRITE", "auth/token/" + self.pick(["revoke", "revoke-orphan"]), {"token": token})),
            (1, lambda: ("WRITE", "auth/token/revoke-accessor", {"accessor": accessor}))]

    def of_responses(self, texts: dict) -> list:
        """Requests about responses that wait."""
        response = self.pick(texts["response"])
        return [
            (3, lambda: ("WRITE", "sys/wrapping/wrap", self.pick([{"a": 1}, {}, None]))),
            (5, lambda: ("WRITE", "sys/wrapping/" + self.pick(["lookup", "unwrap", "rewrap"]),
                         self.pick([{"token": response}, {"token": response}, {}, None])))]

    def of_leases(self, texts: dict) -> list:
        """Requests about leases and mounts."""
        lease = self.pick(texts["lease"])
        return [
            (2, lambda: ("WRITE", "sys/leases/lookup", {"lease_id": lease})),
            (2, lambda: ("WRITE", "sys/leases/renew", {"lease_id": lease, **self.some(increment=[60, 3000])})),
            (0.5, lambda: ("WRITE", "sys/leases/revoke", {"lease_id": lease})),
            (2, lambda: ("WRITE", "sys/leases/revoke-prefix/" + self.pick(["db", "db/creds/r", "db2", "d"]), None)),
            (2, lambda: ("GET", "sys/mounts", None)),
            (0.7, lambda: ("WRITE", "sys/mounts/" + self.pick(["kv", "db", "db2", "new", "sys"]),
                           self.pick([{"type": "kv-v2"}, {"type": "issued"}, {"type": "x"}]))),
            (1, lambda: ("DELETE", "sys/mounts/" + self.pick(["kv", "kv", "kv", "db2", "new", "sys"]), None))]

    def of_settings(self) -> list:
        """Requests about policies and cubbyholes, and what no route is for."""
        policy, path = f"sys/policies/acl/{self.pick(POLICIES)}", f"cubbyhole/{self.pick(PATHS)}"
        return [
            (1, lambda: ("LIST", "sys/policies/acl", None)),
            (1, lambda: ("GET", policy, None)),
            (3, lambda: ("WRITE", policy, {"policy": self.policy() if not self.chance(4) else "x"})),
            (0.3, lambda: ("DELETE", policy, None)),
            (6, lambda: (*self.own(),)),
            (3, lambda: ("GET", path, None)),
            (3, lambda: ("LIST", "cubbyhole" + self.pick(FOLDERS), None)),
            (1, lambda: (self.pick(["GET", "LIST", "WRITE", "DELETE"]), self.pick(
                ["none/x", "secret", "sys/mounts", "auth/token/create", "secret/data/a", "kv/delete/a"]), None))]

    def of_secrets(self, texts: dict) -> list:
        """Requests about secrets, seen or not."""
        mount, path = self.pick(texts["place"])
        change, versions = self.pick(CHANGES), self.pick([[1], [1, 2], "1,2", [9], []])
        options = [{}, {"cas": 0}, {"cas": 0}, {"cas": 1}, {"cas": 2}]
        folder = self.pick(["", "/" + path, "/" + path, ("/" + path).rpartition("/")[0]])
        return [
            (2, lambda: ("GET", f"{mount}/config", None)),
            (0.5, lambda: ("WRITE", f"{mount}/config", self.some(cas_required=[False], max_versions=[0, 2, 3]))),
            (13, lambda: ("WRITE", f"{mount}/data/{path}", {"data": {"v": 1}, "options": self.pick(options)})),
            (12, lambda: ("GET", f"{mount}/data/{path}", None, self.pick([None, None, None, "1", "2", "x"]))),
            (7, lambda: ("DELETE", f"{mount}/data/{path}", None)),
            (14, lambda: ("WRITE", f"{mount}/{change}/{path}", {"versions": versions})),
            (11, lambda: ("GET", f"{mount}/metadata/{path}", None)),
            (4, lambda: ("WRITE", f"{mount}/metadata/{path}", self.settings())),
            (6, lambda: ("DELETE", f"{mount}/metadata/{path}", None)),
            (11, lambda: ("LIST", f"{mount}/metadata{folder}", None))]

    def of_roles(self, texts: dict) -> list:
        """Requests about roles and their credentials."""
        mount, credential, role = self.pick(ISSUED), self.pick(texts["credential"]), self.pick("rrrs")
        return [
            (1, lambda: (self.pick(["GET", "GET", "DELETE"]), f"{mount}/roles/{role}", None)),
            (2, lambda: ("WRITE", f"{mount}/roles/{role}", self.some(ttl=[60, "1h"], max_ttl=[4000]))),
            (6, lambda: ("GET", f"{mount}/creds/{role}", None)),
            (6, lambda: ("WRITE", f"{mount}/verify", {"credential": credential}))]


@functools.lru_cache(maxsize=512)
def drawn_broker(seed: str) -> tuple:
    """A broker, and the drawer that has made it."""
    drawer = Drawer(seed)
    return drawer.broker(), drawer
