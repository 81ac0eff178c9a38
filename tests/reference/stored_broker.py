"""Reads the broker back from the rows that a store holds for it."""

from dataclasses import replace

from broker.json_text import read_json
from broker.state import Broker, Key, Lease, Mount, Role, Token, Version, Waiting


class Body:
    """Reads the fields of a row's body in order."""

    def __init__(self, data: bytes, form: int):
        assert data[0] == form
        self.data, self.place = data, 1

    def take(self, count: int) -> bytes:
        """So many bytes."""
        found = self.data[self.place:self.place + count]
        assert len(found) == count
        self.place += count
        return found

    def number(self) -> int:
        """A number."""
        return int.from_bytes(self.take(8), "big")

    def text(self) -> str:
        """A string."""
        return self.take(int.from_bytes(self.take(4), "big")).decode()

    def truth(self) -> bool:
        """A truth value."""
        return {0: False, 1: True}[self.take(1)[0]]

    def optional(self):
        """A number, or none."""
        return self.number() if self.truth() else None

    def list(self, one) -> tuple:
        """A list."""
        return tuple(one() for _ in range(int.from_bytes(self.take(4), "big")))

    def pair(self) -> tuple:
        """Two strings."""
        return self.text(), self.text()

    def end(self) -> None:
        """Nothing is left."""
        assert self.place == len(self.data)


class Found:
    """What is read of a broker, row by row. Each method reads one kind of row, and the maps are joined at the end."""

    def __init__(self):
        self.clock = None
        self.used = set()
        self.tokens, self.secrets, self.waiting, self.mounts, self.roles, self.policies = {}, {}, {}, {}, {}, {}
        self.cubbyholes, self.leases, self.versions, self.accessors, self.credentials = {}, {}, {}, {}, {}

    def read(self, kind: int, key: str, owner: str, due, data: bytes) -> None:
        """Reads one row."""
        body = Body(data, 2 if kind == 8 else 1)
        readers = {3: self.token, 6: self.lease, 8: self.secret, 9: self.version, 10: self.response}
        if kind == 1:
            self.clock = body.number()
        elif kind == 2:
            self.used.add(key)
        elif kind in readers:
            readers[kind](key, owner, due, body)
        elif kind == 4:
            self.accessors[key] = (owner, body.number())
        elif kind == 5:
            self.cubbyholes.setdefault(owner, {})[key[len(owner) + 1:]] = read_json(body.text().encode())
        elif kind == 7:
            self.credentials[key] = owner
        elif kind == 11:
            self.mounts[key] = Mount(body.text(), body.truth(), body.number())
        elif kind == 12:
            self.policies[key] = body.text()
        elif kind == 13:
            self.roles[tuple(key.split("/", 1))] = Role(body.number(), body.number())
        body.end()

    def token(self, key: str, owner: str, due, body: Body) -> None:
        """A token."""
        accessor, policies, issued, ttl, most, period, uses, meta = (
            body.text(), body.list(body.text), body.number(), body.number(), body.number(), body.number(),
            body.optional(), body.list(body.pair))
        self.tokens[key] = Token(owner or None, accessor, policies, issued, due, ttl, most, period, uses, meta)

    def lease(self, key: str, owner: str, due, body: Body) -> None:
        """A lease."""
        self.leases.setdefault(owner, {})[key] = Lease(
            body.number(), body.number(), body.number(), due, body.optional(), body.text())

    def secret(self, key: str, _owner: str, _due, body: Body) -> None:
        """A secret, without its versions."""
        current, created, updated = body.number(), body.number(), body.number()
        required, most, custom = body.truth(), body.number(), body.list(body.pair)
        self.secrets[tuple(key.split("/", 1))] = Key(created, updated, current, {}, required, most, custom)

    def version(self, key: str, _owner: str, _due, body: Body) -> None:
        """A version."""
        name, number = key.split("\n")
        created, deleted, destroyed, text = body.number(), body.optional(), body.truth(), body.text()
        self.versions.setdefault(tuple(name.split("/", 1)), {})[int(number)] = Version(
            created, deleted, destroyed, None if destroyed else read_json(text.encode()))

    def response(self, key: str, _owner: str, due, body: Body) -> None:
        """A response that waits."""
        accessor, created, ttl, path, origin = (body.text(), body.number(), body.number(), body.text(), body.text())
        self.waiting[key] = Waiting(accessor, created, ttl, path, body.take(body.number()).decode(), origin)
        assert due == created + ttl

    def broker(self) -> Broker:
        """The broker, when each part that belongs to another has found it."""
        for text, token in self.tokens.items():
            self.tokens[text] = replace(
                token, cubbyhole=self.cubbyholes.pop(text, {}), leases=self.leases.pop(text, {}))
            assert self.accessors.pop(token.accessor) == (text, 1)
            for lease_id, lease in self.tokens[text].leases.items():
                assert self.credentials.pop(lease.credential) == lease_id
        for text, entry in self.waiting.items():
            assert self.accessors.pop(entry.accessor) == (text, 2)
        for name, key in self.secrets.items():
            self.secrets[name] = replace(key, versions=self.versions.pop(name, {}))
        assert not (self.cubbyholes or self.leases or self.versions or self.accessors or self.credentials)
        return Broker(self.clock, self.tokens, self.secrets, self.waiting, frozenset(self.used), self.mounts,
                      self.roles, self.policies)


def broker_of(rows: dict) -> Broker:
    """The broker that rows represent."""
    found = Found()
    for (kind, key), (owner, due, data) in sorted(rows.items()):
        found.read(kind, key, owner, due, data)
    return found.broker()
