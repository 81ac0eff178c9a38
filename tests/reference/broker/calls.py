"""What an operation is called with, and what it returns."""

from dataclasses import dataclass
from typing import Any, Optional

from .answers import not_found
from .http import Ask
from .json_text import json_text
from .permissions import allows
from .state import Broker, Token
from .texts import identifier


@dataclass(frozen=True)
class Call:
    """One ask that came to its route: the broker after the caller's use was spent, and what was read."""
    b: Broker
    caller: Optional[str]
    ask: Ask
    words: list
    mount: str
    rest: str  # what stands for NAME or PATH in the route's pattern
    members: Any
    parts: frozenset

    def token(self) -> Token:
        """The caller's token."""
        return self.b.tokens[self.caller]

    def has_sudo(self) -> bool:
        """Whether the caller is root or has sudo on the path."""
        return allows(self.b, self.token(), self.ask.verb, self.ask.path, "sudo", self.parts)


@dataclass(frozen=True)
class Reply:
    """What an operation replies, before it is a text."""
    status: int = 200
    data: Any = None
    auth: Any = None
    lease_duration: int = 0
    lease_id: str = ""
    renewable: bool = False
    wrap_info: Any = None
    made_accessor: Optional[str] = None  # of the token that the operation made
    kept_text: Optional[str] = None  # the reply is this text, byte for byte

    def text(self, words: list) -> str:
        """The body of the reply: compact JSON and LF."""
        if self.status == 204:
            return ""
        if self.kept_text is not None:
            return self.kept_text
        return json_text({
            "auth": self.auth, "data": self.data, "lease_duration": self.lease_duration,
            "lease_id": self.lease_id, "renewable": self.renewable, "request_id": identifier(words[0]),
            "warnings": None, "wrap_info": self.wrap_info}) + "\n"


@dataclass(frozen=True)
class Done:
    """The outcome of an operation: its reply, the next broker, and the identifiers that it used up."""
    reply: Reply
    b: Broker
    taken: tuple = ()


def data_reply(call: Call, data: Any) -> Done:
    """A reply with data, where the broker stays as it is."""
    return Done(Reply(data=data), call.b)


def silent(b: Broker) -> Done:
    """A reply 204, with the next broker."""
    return Done(Reply(status=204), b)


def keys_reply(call: Call, keys) -> Done:
    """A list of names, sorted by bytes; without one it is 404."""
    if not keys:
        raise not_found()
    return data_reply(call, {"keys": sorted(keys)})


def children(paths, folder: str) -> set:
    """The immediate children of a folder (empty, or ending in `/`); folders among them end in `/`."""
    found = set()
    for path in paths:
        if path.startswith(folder):
            name, slash, _ = path[len(folder):].partition("/")
            found.add(name + slash)
    return found


def seconds_left(b: Broker, end: Optional[int]) -> int:
    """The seconds until something expires; 0 if it does not."""
    return 0 if end is None else end - b.clock


def least(*numbers: int) -> int:
    """The least of the numbers above 0."""
    return min(number for number in numbers if number > 0)
