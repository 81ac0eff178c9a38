"""Requests taken apart and put together again, whatever their bytes are."""

import json
from dataclasses import dataclass
from typing import Optional


@dataclass
class Message:
    """A request whose first line has three parts. Its fields are whole lines, so that any bytes can stand there."""
    method: bytes
    target: bytes
    version: bytes
    fields: list
    body: bytes

    def bytes(self):
        """The request as it is sent."""
        first = b" ".join((self.method, self.target, self.version))
        return b"\r\n".join((first, *self.fields)) + b"\r\n\r\n" + self.body

    def places(self, name):
        """Where fields of a lower-case name stand."""
        return [place for place, line in enumerate(self.fields) if line.partition(b":")[0].strip().lower() == name]

    def value(self, name):
        """The value of the first field of a name, or None."""
        places = self.places(name)
        return self.fields[places[0]].partition(b":")[2].strip() if places else None

    def fit_length(self):
        """Makes the one Content-Length, or a new one, that of the body."""
        line = b"Content-Length: %d" % len(self.body)
        places = self.places(b"content-length")
        if len(places) == 1:
            self.fields[places[0]] = line
        elif not places and self.body:
            self.fields.append(line)


def taken_apart(request) -> Optional[Message]:
    """The message that a request is, or None."""
    head, mark, body = request.partition(b"\r\n\r\n")
    first, *fields = head.split(b"\r\n")
    parts = first.split(b" ")
    if not mark or len(parts) != 3:
        return None
    return Message(*parts, fields, body)


def has_other_head(request, changed):
    """Whether a changed request has another head, but for a length that is that of its body."""
    before, after = taken_apart(request), taken_apart(changed)
    if before is None or after is None:
        return request.partition(b"\r\n\r\n")[0] != changed.partition(b"\r\n\r\n")[0]
    for message in (before, after):
        if message.value(b"content-length") == b"%d" % len(message.body):
            del message.fields[message.places(b"content-length")[0]]
        message.body = b""
    return before != after


def members_of(body):
    """The members of a body that is a JSON object, as pairs of a name and the JSON text of its value; else None."""
    try:
        found = json.loads(body, object_pairs_hook=Pairs)
    except (ValueError, RecursionError):
        return None
    return [(name, text_of(value)) for name, value in found.pairs] if isinstance(found, Pairs) else None


class Pairs:
    """A JSON object with all its members, also those of one name."""

    def __init__(self, pairs):
        self.pairs = pairs


def text_of(value):
    """The JSON text of a value."""
    if isinstance(value, Pairs):
        return object_text([(name, text_of(inner)) for name, inner in value.pairs])
    if isinstance(value, list):
        return "[" + ",".join(text_of(inner) for inner in value) + "]"
    return json.dumps(value, ensure_ascii=False)


def object_text(members):
    """The JSON text of an object."""
    return "{" + ",".join(json.dumps(name, ensure_ascii=False) + ":" + text for name, text in members) + "}"
