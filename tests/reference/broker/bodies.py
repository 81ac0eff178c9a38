"""Bodies of requests, and the members that routes read from them.

Each reader of a member returns None for a member that is absent or null, and raises Refusal for one of another kind.
Each reader of a body takes the parts that are served beside it.
"""

import re
from dataclasses import dataclass
from typing import Any, Callable, Mapping, Optional

from .answers import bad_request, invalid_field, required
from .json_text import BadJson, read_json
from .state import Role
from .texts import GREATEST_SECONDS, LONGEST_LIFE, read_duration

GREATEST_COUNT = 2**64 - 1


def read_body(data: bytes) -> dict:
    """The object that a body is; no bytes and `null` are the empty one. Raises Refusal."""
    if data == b"":
        return {}
    try:
        value = read_json(data)
    except BadJson:
        raise bad_request("failed to parse JSON input") from None
    if value is None:
        return {}
    if not isinstance(value, dict):
        raise bad_request("failed to parse JSON input")
    return value


# --------------------------------------------------------------------------------- kinds of members

def text_member(body: Mapping, name: str) -> Optional[str]:
    """A string."""
    value = body.get(name)
    if value is not None and not isinstance(value, str):
        raise invalid_field(name)
    return value


def truth_member(body: Mapping, name: str) -> Optional[bool]:
    """A boolean, or the string `true` or `false`."""
    value = body.get(name)
    value = {"true": True, "false": False}.get(value, value) if isinstance(value, str) else value
    if value is not None and not isinstance(value, bool):
        raise invalid_field(name)
    return value


def as_count(value: Any) -> Optional[int]:
    """A whole number from 0 to 2^64-1, or a string of 1 to 18 digits; None for anything else."""
    if isinstance(value, str) and re.fullmatch("[0-9]{1,18}", value):
        return int(value)
    if isinstance(value, int) and not isinstance(value, bool) and 0 <= value <= GREATEST_COUNT:
        return value
    return None


def count_member(body: Mapping, name: str) -> Optional[int]:
    """A count."""
    value = body.get(name)
    if value is None:
        return None
    count = as_count(value)
    if count is None:
        raise invalid_field(name)
    return count


def seconds_member(body: Mapping, name: str) -> int:
    """A duration, as a string or as a number of seconds; absent is 0."""
    value = body.get(name)
    if value is None:
        return 0
    seconds = None
    if isinstance(value, str):
        seconds = read_duration(value)
    elif isinstance(value, int) and not isinstance(value, bool) and 0 <= value <= GREATEST_SECONDS:
        seconds = value
    if seconds is None:
        raise invalid_field(name)
    return seconds


def list_member(body: Mapping, name: str, read_item: Callable) -> list:
    """An array, or a string split at commas; absent is the empty one. An item of another kind is read as None."""
    value = body.get(name)
    if value is None:
        return []
    if isinstance(value, str):
        value = [part.strip(" ") for part in value.split(",") if part.strip(" ")]
    if not isinstance(value, list):
        raise invalid_field(name)
    items = [read_item(item) for item in value]
    if any(item is None for item in items):
        raise invalid_field(name)
    return items


def object_member(body: Mapping, name: str) -> Optional[dict]:
    """An object."""
    value = body.get(name)
    if value is not None and not isinstance(value, dict):
        raise invalid_field(name)
    return value


def texts_member(body: Mapping, name: str) -> Optional[tuple]:
    """An object whose members are all strings, as sorted pairs."""
    value = object_member(body, name)
    if value is None:
        return None
    if not all(isinstance(text, str) for text in value.values()):
        raise invalid_field(name)
    return tuple(sorted(value.items()))


def delete_version_after_member(body: Mapping) -> None:
    """The member `delete_version_after`, which is `0s` if it is given."""
    if body.get("delete_version_after") not in (None, "0s"):
        raise invalid_field("delete_version_after")


# --------------------------------------------------------------------------------- bodies of routes

def required_text(name: str) -> Callable:
    """A reader of bodies with one required string."""
    return lambda body, parts: required(name, text_member(body, name))


def no_members(body: Mapping, parts: frozenset) -> None:
    """A body of which nothing is read."""
    return None


def any_object(body: Mapping, parts: frozenset) -> dict:
    """A body that is kept whole."""
    return dict(body)


@dataclass(frozen=True)
class Creation:
    """The members of a token's creation, in the order in which they are read."""
    policies: list
    meta: tuple
    ttl: int
    explicit_max: int
    num_uses: int
    no_parent: bool
    no_default_policy: bool
    period: int


def read_creation(body: Mapping, parts: frozenset) -> Creation:
    """The body of a token's creation."""
    creation = Creation(
        policies=list_member(body, "policies", lambda item: item if isinstance(item, str) else None),
        meta=texts_member(body, "meta") or (),
        ttl=seconds_member(body, "ttl"),
        explicit_max=seconds_member(body, "explicit_max_ttl"),
        num_uses=count_member(body, "num_uses") or 0,
        no_parent=truth_member(body, "no_parent") or False,
        no_default_policy=truth_member(body, "no_default_policy") or False,
        period=min(seconds_member(body, "period"), LONGEST_LIFE))
    if "periods" not in parts and creation.period > 0:
        raise invalid_field("period")
    if truth_member(body, "renewable") is False:
        raise invalid_field("renewable")
    if text_member(body, "id") not in (None, ""):
        raise invalid_field("id")
    if text_member(body, "type") not in (None, "", "service"):
        raise invalid_field("type")
    return creation


def read_renewal(name: str) -> Callable:
    """A reader of what is renewed, named by a required string, and of the increment."""
    return lambda body, parts: (required(name, text_member(body, name)), seconds_member(body, "increment"))


def read_increment(body: Mapping, parts: frozenset) -> int:
    """The increment of a renewal."""
    return seconds_member(body, "increment")


def read_wrapping_token(body: Mapping, parts: frozenset) -> Optional[str]:
    """The wrapping token that a body names, if it names one."""
    return text_member(body, "token")


def read_mount(body: Mapping, parts: frozenset) -> tuple:
    """The type of a new mount, and the version that its options name."""
    kind = required("type", text_member(body, "type"))
    return kind, count_member(object_member(body, "options") or {}, "version")


def read_config(body: Mapping, parts: frozenset) -> tuple:
    """The settings of a mount of secrets: check-and-set and the number of versions."""
    settings = (truth_member(body, "cas_required"), count_member(body, "max_versions"))
    delete_version_after_member(body)
    return settings


def read_secret(body: Mapping, parts: frozenset) -> tuple:
    """The data of a secret, and the version that check-and-set names."""
    if not isinstance(body.get("data"), dict):
        raise bad_request("no data provided")
    return body["data"], count_member(object_member(body, "options") or {}, "cas")


def read_versions(body: Mapping, parts: frozenset) -> list:
    """The numbers of versions, at least one."""
    return required("versions", list_member(body, "versions", as_count) or None)


def read_key_settings(body: Mapping, parts: frozenset) -> tuple:
    """The settings of a single secret: custom metadata, the number of versions and check-and-set."""
    custom = texts_member(body, "custom_metadata")
    if custom is not None and (len(custom) > 64 or any(
            not 1 <= len(name.encode("utf-8")) <= 128 or len(text.encode("utf-8")) > 512
            for name, text in custom)):
        raise invalid_field("custom_metadata")
    settings = (custom, count_member(body, "max_versions"), truth_member(body, "cas_required"))
    delete_version_after_member(body)
    return settings


def read_role(body: Mapping, parts: frozenset) -> Role:
    """A role."""
    return Role(seconds_member(body, "ttl"), seconds_member(body, "max_ttl"))
