"""HTTP/1.1 (RFC 9112): requests cut from a stream, what a request asks, and the bytes of a reply."""

import re
from dataclasses import dataclass
from typing import Optional

from .answers import Answer, Refusal, bad_request, not_found
from .texts import LONGEST_LIFE, date_text, digits_value, read_duration

LONGEST_HEAD = 16_384
MOST_FIELDS = 64
LONGEST_BODY = 1_048_576
LONGEST_PATH = 512


# ------------------------------------------------------------------------------ heads and cutting

@dataclass(frozen=True)
class Head:
    """A request line and its fields."""
    method: bytes
    target: bytes
    minor: int  # 0 for HTTP/1.0, 1 for HTTP/1.1
    fields: tuple  # of (lower-case name, value without the white space around it)

    def values(self, name: bytes) -> list:
        """The values of all fields of a name."""
        return [value for field_name, value in self.fields if field_name == name]

    def closes(self) -> bool:
        """Whether the connection closes after the reply to this request."""
        elements = [e.strip(b" \t").lower() for v in self.values(b"connection") for e in v.split(b",")]
        return self.minor == 0 or b"close" in elements


@dataclass(frozen=True)
class Need:
    """More bytes are wanted."""


@dataclass(frozen=True)
class Refused:
    """No request can be cut: the connection closes with this status."""
    status: int


@dataclass(frozen=True)
class Whole:
    """A request of so many bytes, the empty lines before it and its body among them."""
    length: int
    head: Head
    body: bytes


# Empty lines; method, target and version with one space between; fields; the empty line.
# A line ends in CR LF or in LF alone. A name has no space, so a folded line is no field.
TOKEN = rb"[!#$%&'*+.^_`|~0-9A-Za-z-]+"
FIELD = rb"(" + TOKEN + rb"):([\t\x20-\x7e\x80-\xff]*)\r?\n"
REQUEST_HEAD = re.compile(
    rb"(?:\r?\n)*(" + TOKEN + rb") ([\x21-\x7e\x80-\xff]+) HTTP/1\.([01])\r?\n"
    rb"((?:" + TOKEN + rb":[\t\x20-\x7e\x80-\xff]*\r?\n)*)\r?\n")


def utf8(data: bytes) -> Optional[str]:
    """The text of bytes that are UTF-8, or None."""
    try:
        return data.decode("utf-8")
    except UnicodeDecodeError:
        return None


def read_head(data: bytes) -> Optional[Head]:
    """The request head that the bytes are, to their last byte, or None."""
    match = REQUEST_HEAD.fullmatch(data)
    if not match:
        return None
    method, target, minor, lines = match.groups()
    fields = tuple((name.lower(), raw.strip(b" \t")) for name, raw in re.findall(FIELD, lines))
    if len(fields) > MOST_FIELDS or utf8(target) is None:
        return None
    return Head(method, target, int(minor), fields)


def front(stream: bytes, parts: frozenset):
    """What stands at the beginning of a stream: Need, Refused or Whole."""
    first = len(stream) - len(stream.lstrip(b"\r\n"))
    found = stream.find(b"\r\n\r\n", first)
    end = None if found < 0 else found + 4
    limited = "limits" in parts
    if limited and len(stream) >= LONGEST_HEAD and (end is None or end > LONGEST_HEAD):
        return Refused(431)
    if end is None:
        return Need()
    cut = front_of_head(read_head(stream[:end]))
    if isinstance(cut, Refused):
        return cut if limited else Refused(400)
    head, length = cut
    if not limited and head.minor == 0:
        return Refused(400)
    if len(stream) < end + length:
        return Need()
    return Whole(end + length, head, stream[end:end + length])


def front_of_head(head: Optional[Head]):
    """The head with the length of its body, or the refusal."""
    if head is None:
        return Refused(400)
    if head.values(b"transfer-encoding"):
        return Refused(501)
    hosts = len(head.values(b"host"))
    if hosts > 1 or (hosts == 0 and head.minor == 1):
        return Refused(400)
    lengths = head.values(b"content-length")
    if not lengths:
        return head, 0
    if len(lengths) > 1 or not re.fullmatch(rb"[0-9]+", lengths[0]):
        return Refused(400)
    length = digits_value(lengths[0].decode("ascii"), LONGEST_BODY)
    return Refused(413) if length is None else (head, length)


CUTTING_TEXTS = {400: "malformed request", 413: "request body too large", 431: "request head too large"}


def cutting_answer(refused: Refused) -> Answer:
    """The answer to bytes of which no request can be cut."""
    return Refusal(refused.status, CUTTING_TEXTS.get(refused.status)).answer()


# ---------------------------------------------------------------------------- what a request asks

VERBS = {b"GET": "GET", b"LIST": "LIST", b"POST": "WRITE", b"PUT": "WRITE", b"DELETE": "DELETE"}


@dataclass(frozen=True)
class Ask:
    """What a request asks of the broker."""
    verb: str  # GET, LIST, WRITE or DELETE
    path: str
    version: Optional[str]
    token: Optional[str]
    wrap_ttl: int  # 0: the reply is not wrapped
    body: bytes


def asked(head: Head, body: bytes, parts: frozenset) -> Ask:
    """The ask of a whole request. Raises Refusal."""
    if head.method not in VERBS:
        raise Refusal(501, close=True)
    token_value = only_value(head, b"x-vault-token")
    authorization = only_value(head, b"authorization") if "decoding" in parts else None
    wrap_value = only_value(head, b"x-vault-wrap-ttl") if "wrapping" in parts else None
    if not head.target.startswith(b"/v1/"):
        raise not_found()
    before, mark, query = head.target.partition(b"?")
    if ("queries" not in parts and mark) or ("decoding" not in parts and b"%" in head.target):
        raise bad_request("invalid path")
    path = read_path(percent_decoded(before[len(b"/v1/"):]))
    wrap_ttl = read_duration(wrap_value or "")
    if wrap_ttl is None:
        raise bad_request("invalid duration")
    items = query.split(b"&")
    verb = VERBS[head.method]
    if verb == "GET" and b"list=true" in items:
        verb = "LIST"
    return Ask(verb, path, asked_version(items), token_value or bearer(authorization or ""),
               min(wrap_ttl, LONGEST_LIFE), body)


def asked_version(items: list) -> Optional[str]:
    """The version that a query asks for; an empty one is none."""
    versions = [item[len(b"version="):] for item in items if item.startswith(b"version=")]
    return versions[0].decode("latin-1") if versions and versions[0] else None


def only_value(head: Head, name: bytes) -> Optional[str]:
    """The value of a field that may be there once, or None without one. Raises Refusal."""
    values = head.values(name)
    if len(values) > 1:
        raise bad_request("malformed request")
    if not values:
        return None
    text = utf8(values[0])
    if text is None:
        raise bad_request("malformed request")
    return text


def bearer(authorization: str) -> Optional[str]:
    """The token of an Authorization value, or None (RFC 6750, 2.1; `Bearer` in any case, one or more spaces)."""
    match = re.fullmatch("[Bb][Ee][Aa][Rr][Ee][Rr] +(.+)", authorization, re.DOTALL)
    return match.group(1) if match else None


def percent_decoded(data: bytes) -> bytes:
    """`%` and two hexadecimal digits are that byte; any other `%` stays."""
    return re.sub(rb"%([0-9A-Fa-f]{2})", lambda m: bytes([int(m.group(1), 16)]), data)


def read_path(decoded: bytes) -> str:
    """The path, without one `/` at its end. Raises Refusal."""
    if decoded.endswith(b"/"):
        decoded = decoded[:-1]
    path = utf8(decoded)
    if (path is None or not 1 <= len(decoded) <= LONGEST_PATH
            or any(b < 0x20 or b == 0x7F for b in decoded)
            or any(segment in ("", ".", "..") for segment in path.split("/"))):
        raise bad_request("invalid path")
    return path


# --------------------------------------------------------------------------------------- replies

PHRASES = {200: "OK", 204: "No Content", 400: "Bad Request", 403: "Forbidden", 404: "Not Found",
           405: "Method Not Allowed", 413: "Payload Too Large", 431: "Request Header Fields Too Large",
           500: "Internal Server Error", 501: "Not Implemented"}


def reply_bytes(answer: Answer, moment: int, close: bool) -> bytes:
    """The bytes of an answer at a moment; with `close` the connection closes after them."""
    body = answer.text.encode("utf-8")
    lines = [f"HTTP/1.1 {answer.status} {PHRASES[answer.status]}", f"Date: {date_text(moment)}"]
    if answer.status == 405:
        lines.append("Allow: " + ", ".join(answer.methods))
    lines.append("Cache-Control: no-store")
    if close:
        lines.append("Connection: close")
    if answer.status not in (204, 501):
        lines.append("Content-Type: application/json")
    if answer.status != 204:
        lines.append(f"Content-Length: {len(body)}")
    return "".join(line + "\r\n" for line in lines).encode("ascii") + b"\r\n" + body
