"""Replay lines: a JSON object for the start, and one for each event."""

import re
from typing import Any

from .connections import Server
from .json_text import BadJson, read_json
from .parts import TODAY
from .texts import GREATEST_MOMENT

GREATEST_CONNECTION = 2**64 - 1


class BadLine(Exception):
    """A line that does not have the form of a line."""


def line_number(line: dict, name: str, greatest: int) -> int:
    """A member that is a whole number, up to the greatest."""
    value = line.get(name)
    if not isinstance(value, int) or isinstance(value, bool) or not 0 <= value <= greatest:
        raise BadLine
    return value


def line_words(line: dict, parts: frozenset) -> list:
    """Eight words: a string for word 0, each next one being one greater; or a list of eight strings."""
    value = line.get("words")
    if isinstance(value, list) and "lines" in parts:
        if len(value) != 8:
            raise BadLine
        return [line_word(item) for item in value]
    first = line_word(value)
    return [(first + n) % 2**128 for n in range(8)]


def line_word(value: Any) -> int:
    """A word: 32 hexadecimal digits."""
    if not isinstance(value, str) or not re.fullmatch("[0-9A-Fa-f]{32}", value):
        raise BadLine
    return int(value, 16)


def line_object(data: bytes, *forms: set) -> dict:
    """The object that a line is, with exactly the members of one of the forms."""
    try:
        line = read_json(data)
    except BadJson:
        raise BadLine from None
    if not isinstance(line, dict) or set(line) not in forms:
        raise BadLine
    return line


def read_start(data: bytes, parts: frozenset) -> tuple:
    """Moment and words of the start's line. Raises BadLine."""
    line = line_object(data, {"moment", "words"})
    return line_number(line, "moment", GREATEST_MOMENT), line_words(line, parts)


def read_event(data: bytes, parts: frozenset) -> tuple:
    """Connection, piece, moment and words of an event's line. Raises BadLine."""
    forms = [{"conn", "moment", "words", "piece"}]
    if "lines" in parts:
        forms.append({"conn", "moment", "words", "hex"})
    line = line_object(data, *forms)
    conn = line_number(line, "conn", GREATEST_CONNECTION)
    moment = line_number(line, "moment", GREATEST_MOMENT)
    words = line_words(line, parts)
    if "hex" in line:
        digits = line["hex"]
        if not isinstance(digits, str) or not re.fullmatch("(?:[0-9A-Fa-f]{2})*", digits):
            raise BadLine
        return conn, bytes.fromhex(digits), moment, words
    if not isinstance(line["piece"], str):
        raise BadLine
    return conn, line["piece"].encode("utf-8"), moment, words


def replay(data: bytes, parts: frozenset = TODAY) -> tuple:
    """The replies to lines, one for each event that was run; the exit status; and the words on standard error."""
    lines = data.split(b"\n")
    if lines[-1] == b"":
        lines.pop()
    replies: list = []
    try:
        moment, words = read_start(lines[0] if lines else b"", parts)
    except BadLine:
        return replies, 2, "bad line 1"
    if words[1] == words[2]:
        return replies, 1, "fault 4"
    server = Server(moment, words, parts)
    for place, line in enumerate(lines[1:], start=2):
        try:
            event = read_event(line, parts)
        except BadLine:
            return replies, 2, f"bad line {place}"
        replies.append(server.feed(*event))
    return replies, 0, ""
