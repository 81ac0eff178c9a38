"""JSON, read and written as the Rust library `serde_json` does (RFC 8259).

Values are Python's None, bool, int, str, list and dict, and `Float` for every number that is not a whole number from
-2^63 to 2^64-1. `-0` is a Float too.
"""

import re
from typing import Any

from .texts import digits_value

DEEPEST = 127  # levels of arrays and objects


class Float:
    """A number that is read as a float. Nothing of its value is kept: whoever asks for it refuses it."""


class BadJson(Exception):
    """The bytes are not JSON, or hold a float."""


NUMBER = re.compile(r"(-?)(0|[1-9][0-9]*)(\.[0-9]+)?([eE][+-]?[0-9]+)?")
STRING_PART = re.compile('[^"\\\\\x00-\x1f]+')
SHORT_ESCAPES = {'"': '"', "\\": "\\", "/": "/", "b": "\b", "f": "\f", "n": "\n", "r": "\r", "t": "\t"}


class Reader:
    """Reads one JSON value from a text."""

    def __init__(self, text: str):
        self.text = text
        self.place = 0

    def whole(self) -> Any:
        """The value that the whole text is."""
        value = self.value(0)
        self.space()
        if self.place != len(self.text):
            raise BadJson("bytes after the value")
        return value

    def space(self) -> None:
        """Passes white space."""
        while self.place < len(self.text) and self.text[self.place] in " \t\n\r":
            self.place += 1

    def peek(self) -> str:
        """The next character that is not white space, or the empty string at the end."""
        self.space()
        return self.text[self.place:self.place + 1]

    def take(self, expected: str) -> None:
        """Passes one character, which must be the expected one."""
        if self.peek() != expected:
            raise BadJson(f"wanted {expected}")
        self.place += 1

    def value(self, depth: int) -> Any:
        """A value inside so many levels."""
        first = self.peek()
        if first == "{":
            return self.members(depth + 1)
        if first == "[":
            return self.items(depth + 1)
        if first == '"':
            return self.string()
        for word, value in (("true", True), ("false", False), ("null", None)):
            if self.text.startswith(word, self.place):
                self.place += len(word)
                return value
        return self.number()

    def members(self, depth: int) -> dict:
        """An object. Of two members of one name the last stays."""
        if depth > DEEPEST:
            raise BadJson("too deep")
        self.take("{")
        found = {}
        if self.peek() == "}":
            self.place += 1
            return found
        while True:
            if self.peek() != '"':
                raise BadJson("wanted a name")
            name = self.string()
            self.take(":")
            found[name] = self.value(depth)
            if self.peek() == "}":
                self.place += 1
                return found
            self.take(",")

    def items(self, depth: int) -> list:
        """An array."""
        if depth > DEEPEST:
            raise BadJson("too deep")
        self.take("[")
        found = []
        if self.peek() == "]":
            self.place += 1
            return found
        while True:
            found.append(self.value(depth))
            if self.peek() == "]":
                self.place += 1
                return found
            self.take(",")

    def number(self) -> Any:
        """A number: an int, or a Float."""
        match = NUMBER.match(self.text, self.place)
        if not match:
            raise BadJson("wanted a value")
        self.place = match.end()
        sign, digits, point, exponent = match.groups()
        if point is None and exponent is None:
            value = digits_value(digits, 2**64 - 1)
            if value is not None and not sign:
                return value
            if value is not None and 0 < value <= 2**63:
                return -value
        if float(match.group()) in (float("inf"), float("-inf")):
            raise BadJson("no float is that great")
        return Float()

    def string(self) -> str:
        """A string, from its first quotation mark to its last."""
        self.place += 1
        parts = []
        while True:
            part = STRING_PART.match(self.text, self.place)
            if part:
                parts.append(part.group())
                self.place = part.end()
            here = self.text[self.place:self.place + 1]
            self.place += 1
            if here == '"':
                return "".join(parts)
            if here != "\\":
                raise BadJson("a control character, or the end, within a string")
            parts.append(self.escape())

    def escape(self) -> str:
        """The character that an escape stands for, from behind its backslash on."""
        letter = self.text[self.place:self.place + 1]
        self.place += 1
        if letter in SHORT_ESCAPES and letter:
            return SHORT_ESCAPES[letter]
        if letter != "u":
            raise BadJson("an unknown escape")
        unit = self.hex_unit()
        if 0xDC00 <= unit <= 0xDFFF:
            raise BadJson("half of a surrogate pair")
        if not 0xD800 <= unit <= 0xDBFF:
            return chr(unit)
        if self.text[self.place:self.place + 2] != "\\u":
            raise BadJson("half of a surrogate pair")
        self.place += 2
        low = self.hex_unit()
        if not 0xDC00 <= low <= 0xDFFF:
            raise BadJson("half of a surrogate pair")
        return chr(0x10000 + ((unit - 0xD800) << 10) + (low - 0xDC00))

    def hex_unit(self) -> int:
        """Four hexadecimal digits."""
        digits = self.text[self.place:self.place + 4]
        if not re.fullmatch("[0-9A-Fa-f]{4}", digits):
            raise BadJson("wanted four hexadecimal digits")
        self.place += 4
        return int(digits, 16)


def has_float(value: Any) -> bool:
    """Whether a Float is anywhere in a value."""
    if isinstance(value, list):
        return any(has_float(v) for v in value)
    if isinstance(value, dict):
        return any(has_float(v) for v in value.values())
    return isinstance(value, Float)


def read_json(data: bytes) -> Any:
    """The value that the bytes are, without floats. Raises BadJson.

    A float in a member that a later one of the same name replaced is no part of the value.
    """
    try:
        text = data.decode("utf-8")
    except UnicodeDecodeError:
        raise BadJson("not UTF-8") from None
    value = Reader(text).whole()
    if has_float(value):
        raise BadJson("a float")
    return value


ESCAPED = {'"': '\\"', "\\": "\\\\", "\b": "\\b", "\f": "\\f", "\n": "\\n", "\r": "\\r", "\t": "\\t"}


def json_string(text: str) -> str:
    """A string as JSON."""
    return '"' + "".join(
        ESCAPED.get(c) or (f"\\u{ord(c):04x}" if c < " " else c) for c in text) + '"'


def json_text(value: Any) -> str:
    """Compact JSON; the names of each object ascend by their UTF-8 bytes (the order of code points)."""
    if value is None:
        return "null"
    if value is True:
        return "true"
    if value is False:
        return "false"
    if isinstance(value, int):
        return str(value)
    if isinstance(value, str):
        return json_string(value)
    if isinstance(value, (list, tuple)):
        return "[" + ",".join(json_text(v) for v in value) + "]"
    return "{" + ",".join(json_string(k) + ":" + json_text(value[k]) for k in sorted(value)) + "}"
