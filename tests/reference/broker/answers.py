"""Answers, and the refusals among them."""

from dataclasses import dataclass
from typing import Any, Optional

from .json_text import json_text


@dataclass(frozen=True)
class Answer:
    """What a request is answered, before it is bytes."""
    status: int
    methods: tuple  # of the Allow field, for a 405
    text: str  # the body: compact JSON and LF, or nothing


class Refusal(Exception):
    """A request that is not served: a status, and what its body or its Allow field says."""

    def __init__(self, status: int, text: Optional[str] = None, methods: tuple = (), close: bool = False):
        super().__init__(status, text)
        self.status = status
        self.text = text
        self.methods = methods
        self.close = close

    def answer(self) -> Answer:
        """The answer that says so."""
        if self.status == 501:
            return Answer(501, (), "")
        return Answer(self.status, self.methods, json_text({"errors": [self.text] if self.text else []}) + "\n")


def bad_request(text: str) -> Refusal:
    """400 with a text."""
    return Refusal(400, text)


def forbidden() -> Refusal:
    """403 for a client token that is unknown or may not do what it asks for."""
    return Refusal(403, "permission denied")


def not_found() -> Refusal:
    """404 without an object."""
    return Refusal(404)


def invalid_field(name: str) -> Refusal:
    """400 for a member of another kind."""
    return bad_request(f"invalid field: {name}")


def required(name: str, value: Any) -> Any:
    """The value of a member, which must be given."""
    if value is None:
        raise bad_request(f"missing field: {name}")
    return value
