"""The rows that a store holds for a broker: (kind, key) -> (owner, due or None, the bytes of the body).

The kinds are 1 the clock, 2 used identifiers, 3 tokens, 4 accessors, 5 cubbyhole objects, 6 leases, 7 credentials,
8 secrets, 9 versions, 10 waiting responses, 11 mounts, 12 policies and 13 roles. A body begins with a byte that is its
format: 2 for secrets, 1 for all else.
"""

from typing import Callable, Optional

from .json_text import json_text
from .state import Broker


def number(value: int) -> bytes:
    """A number, in eight bytes."""
    return value.to_bytes(8, "big")


def text(value: str) -> bytes:
    """A string: the number of its bytes, and these."""
    data = value.encode("utf-8")
    return len(data).to_bytes(4, "big") + data


def truth(value: bool) -> bytes:
    """A truth value."""
    return b"\x01" if value else b"\x00"


def optional(value: Optional[int]) -> bytes:
    """A number, or none."""
    return b"\x00" if value is None else b"\x01" + number(value)


def items(values, one: Callable) -> bytes:
    """A list: the number of its items, and these."""
    return len(values).to_bytes(4, "big") + b"".join(one(value) for value in values)


def pair(value: tuple) -> bytes:
    """Two strings."""
    return text(value[0]) + text(value[1])


def row(*fields: bytes, owner: str = "", due: Optional[int] = None, form: int = 1) -> tuple:
    """A row of its owner, its due moment and the fields of its body."""
    return owner, due, bytes([form]) + b"".join(fields)


def rows_of(b: Broker) -> dict:
    """All rows of a broker."""
    rows = {(1, ""): row(number(b.clock))}
    rows |= {(2, each): row() for each in b.used}
    rows |= token_rows(b)
    rows |= secret_rows(b)
    for wrapping_token, entry in b.waiting.items():
        kept = entry.text.encode("utf-8")
        rows[10, wrapping_token] = row(
            text(entry.accessor), number(entry.created), number(entry.ttl), text(entry.path), text(entry.origin),
            number(len(kept)), kept, due=entry.end())
        rows[4, entry.accessor] = row(number(2), owner=wrapping_token)
    for name, mount in b.mounts.items():
        rows[11, name] = row(text(mount.type), truth(mount.cas_required), number(mount.max_versions))
    rows |= {(12, name): row(text(policy)) for name, policy in b.policies.items()}
    for (mount, name), role in b.roles.items():
        rows[13, f"{mount}/{name}"] = row(number(role.ttl), number(role.max_ttl))
    return rows


def token_rows(b: Broker) -> dict:
    """The rows of tokens, with their accessors, cubbyholes and leases."""
    rows = {}
    for token, t in b.tokens.items():
        rows[3, token] = row(
            text(t.accessor), items(t.policies, text), number(t.issued), number(t.ttl), number(t.explicit_max),
            number(t.period), optional(t.uses), items(t.meta, pair), owner=t.parent or "", due=t.end)
        rows[4, t.accessor] = row(number(1), owner=token)
        for path, value in t.cubbyhole.items():
            rows[5, f"{token}/{path}"] = row(text(json_text(value)), owner=token)
        for lease_id, lease in t.leases.items():
            rows[6, lease_id] = row(
                number(lease.issued), number(lease.ttl), number(lease.max), optional(lease.renewed),
                text(lease.credential), owner=token, due=lease.end)
            rows[7, lease.credential] = row(owner=lease_id)
    return rows


def secret_rows(b: Broker) -> dict:
    """The rows of secrets and of their versions."""
    rows = {}
    for (mount, path), key in b.secrets.items():
        numbers = number(key.current) + number(key.created) + number(key.updated)
        settings = truth(key.cas_required) + number(key.max_versions) + items(key.custom_metadata, pair)
        rows[8, f"{mount}/{path}"] = row(numbers, settings, form=2)
        for n, v in key.versions.items():
            rows[9, f"{mount}/{path}\n{n:020}"] = row(
                number(v.created), optional(v.deleted), truth(v.destroyed),
                text("" if v.destroyed else json_text(v.data)))
    return rows
