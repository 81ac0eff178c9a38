"""Changes of requests: of bits and bytes, of line ends, of fields and targets, of numbers, and of members of bodies.

Each change takes a `Changer` and a request, and returns the changed one, or None where there is nothing to change so.
`CHANGES` has how often each is drawn.
"""

import json
import re

from broker.permissions import CAPABILITIES
from drawn_requests import PATTERNS
from request_themes import NO_JSON, NO_OBJECTS, NO_TEXTS, NO_WHOLE_NUMBERS

from .messages import members_of, object_text, taken_apart

# The numbers at which something is decided, one less and one more.
LIMITS = sorted({
    max(0, number + step) for step in (-1, 0, 1) for number in (
        1, 10, 64, 100, 127, 128, 512, 1_000, 16_384, 1_048_576, 2_764_800, 16_777_216, 2**31, 2**32, 2**53, 2**63,
        2**64, 10**17, 10**18, 250_000_000_000)})
HEAD_LENGTHS = (16_383, 16_384, 16_385, 16_386)
MOST_FIELDS = (62, 63, 64, 65, 66)
PATH_LENGTHS = (510, 511, 512, 513)
NAME_LENGTHS = (127, 128, 129)
LEVELS = (1, 2, 124, 125, 126, 127, 128)
LONGEST_BODY = 1_048_576
ODD_BYTES = b"\r\n\0 \t\x01\x1f\x7f\x80\xff%\"\\:,/?&=.{}[]+-0a;"
BROKEN_UTF8 = (b"\xff", b"\x80", b"\xc0\x80", b"\xc3", b"\xe2\x82", b"\xed\xa0\x80", b"\xf0\x9f\x98",
               b"\xf4\x90\x80\x80", b"\xf8\x88\x80\x80\x80", b"\xfe")
GOOD_UTF8 = ("é".encode(), "€".encode(), "😀".encode(), "\u0080".encode(), "\ufeff".encode(), "\U0010ffff".encode())
LINE_ENDS = (b"\n", b"\r", b"\r\r\n", b"\n\r", b"\r\n\n", b"\r\n ", b"\r\n\t", b"\n\n", b"", b" \r\n", b"\r\n\r\n")
METHODS = (b"GET", b"LIST", b"POST", b"PUT", b"DELETE", b"PATCH", b"HEAD", b"OPTIONS", b"get", b"GE", b"GETS",
           b"G\xc3\xa9T")
VERSIONS = (b"HTTP/1.1", b"HTTP/1.0", b"HTTP/1.2", b"HTTP/2", b"HTTP/0.9", b"http/1.1", b"HTTP/1.1 ", b"")
PERCENTS = (b"%", b"%2", b"%2F", b"%2f", b"%00", b"%7F", b"%zz", b"%25", b"%252F", b"%C3%A9", b"%c3", b"%FF", b"%2E%2e",
            b"%20", b"%3F", b"%0a", b"%1F", b"%E2%82%AC")
SEGMENTS = (b"", b".", b"..", b"a", b"db", b"sys", b"auth", b"cubbyhole", b"secret", b"token", b"data", b"metadata",
            b"creds", b"roles", b"root", b"default", b"config", b"+", b"*", b"a b", b"a:b", b"identity")
QUERIES = (b"?", b"?list=true", b"?list=True", b"?version=1", b"?version=0", b"?version=", b"?version=x",
           b"?a&list=true", b"?version=1&version=2", b"?version=2&version=1", b"?version=999999999999999999",
           b"?version=1000000000000000000", b"?version=01", b"?a?list=true", b"&list=true", b"?version=2&list=true",
           b"?list=true&version=x")
FIELDS = (b"Host: c", b"Host:", b"Transfer-Encoding: chunked", b"Transfer-Encoding:", b"Connection: close",
          b"Connection: keep-alive, CLOSE", b"Connection: closed", b"connection:\tclose\t,x", b"Content-Length: 0",
          b"Content-Length: 5", b"Content-Length: 5, 5", b"Content-Length: +5", b"Content-Length:  0009 ",
          b"Content-Length: 1048576", b"Content-Length: 1048577", b"Content-Length: 00000000000000000000000001",
          b"Content-Length: 18446744073709551616", b"X-Vault-Wrap-TTL: 60", b"X-Vault-Wrap-TTL: 1d",
          b"X-Vault-Wrap-TTL:", b"X-Vault-Wrap-TTL: 1h30m", b"X-Vault-Wrap-TTL: 0", b"X-Vault-Wrap-TTL: 4294967295",
          b"X-Vault-Wrap-TTL: 4294967296", b"X-Vault-Wrap-TTL: 2764801", b"X-Vault-Wrap-TTL: 1193046h28m15s",
          b"X-Vault-Wrap-TTL: 1193046h28m16s", b"X-Vault-Token:", b"X-Vault-Token: \xff", b"X-Vault-Token: x",
          b"Authorization: Bearer", b"Authorization: Basic x", b"Authorization: \xff", b"Expect: 100-continue",
          b"X-Vault-Namespace: n", b" folded", b"bad", b"A : b", b":", b"\x80: b", b"A: \x00", b"A: \x7f",
          b"A: \x80\xff")
# JSON texts of values: of each type, right for some members and wrong for others.
VALUES = ("null", "true", "false", '"true"', '"false"', '"True"', "0", "1", "2", "-1", "18446744073709551615",
          "18446744073709551616", "-9223372036854775808", "4294967295", "4294967296", '"4294967295"', '"4294967296"',
          "2764800", "2764801", '"999999999999999999"', '"1000000000000000000"', '"01"', '"1h"', '"1h30m"', '"90"',
          '"1d"', '""', '"0s"', '"5s"', "[]", "[1]", '["a"]', '["root"]', '["default","a b"]', '"a, b,,"', '" , "',
          "{}", '{"a":"b"}', '{"a":1}', '{"cas":0}', '{"cas":"x"}', '{"cas":1}', '{"version":"2"}', '{"version":2}',
          '{"version":1}', '{"version":-1}', '"issued"', '"kv"', '"kv-v2"', '"root"', '"x"', '"é"', '["1",2]', "[null]",
          "[[1]]")
NO_VALUES = (*NO_WHOLE_NUMBERS, *NO_TEXTS)
POLICY = "WRITE sys/policies/acl/NAME"
WITHIN = {"cas": "options", "version": "options"}  # members that are members of another one


class Changer:
    """Draws changes. `members` has the members that each route reads, by the name of the route, and `changes` how often
    each change is drawn."""

    def __init__(self, draw, members, others, changes=None):
        self.draw = draw
        self.members = members
        self.others = others  # answers another request
        self.route = ""  # of the request that is changed, if it is known
        changes = changes or CHANGES
        self.choices = list(changes)
        self.weights = list(changes.values())

    def pick(self, choices):
        """One of the choices."""
        return self.draw.choice(choices)

    def chance(self, one_in):
        """True once in so many times."""
        return self.draw.randrange(one_in) == 0

    def value(self):
        """The JSON text of a value; seldom a text that is no JSON."""
        return self.pick(NO_VALUES if self.chance(6) else VALUES)

    def place(self, data, beyond=0):
        """A place in the data, and with `beyond` also the one behind its end."""
        return self.draw.randrange(len(data) + beyond) if data or beyond else 0

    def changed(self, request, route=""):
        """The request with one to three changes; as it was where none applies."""
        self.route = route
        if route == POLICY and self.chance(2):
            return a_policy(self, request) or request
        for _ in range(self.pick((1, 1, 1, 1, 2, 3))):
            change = self.draw.choices(self.choices, self.weights)[0]
            request = change(self, request) or request
        return request

    def spelled(self, request):
        """The request with one to three changes of its head after which it means the same, where they apply."""
        for _ in range(self.pick((1, 1, 2, 3))):
            request = self.pick(SPELLINGS)(self, request) or request
        return request


# ------------------------------------------------------------------------------------------- bytes

def a_bit(it, request):
    """A bit is the other one."""
    if not request:
        return None
    place = it.place(request)
    return request[:place] + bytes([request[place] ^ 1 << it.draw.randrange(8)]) + request[place + 1:]


def a_byte(it, request):
    """A byte is another one, is put in, taken out or doubled."""
    place = it.place(request, 1)
    byte = bytes([it.pick(ODD_BYTES)])
    here = request[place:place + 1]
    return request[:place] + it.pick((byte, byte + here, b"", here + here)) + request[place + 1:]


def a_slice(it, request):
    """A slice is taken out, doubled, or is one of another request."""
    begin = it.place(request, 1)
    end = min(len(request), begin + it.draw.randrange(1, 40))
    other = it.others()
    place = it.place(other, 1)
    return request[:begin] + it.pick((b"", request[begin:end] * 2, other[place:place + end - begin])) + request[end:]


def line_end(it, request):
    """The end of a line is another one, or there are empty lines before the request."""
    ends = [found.start() for found in re.finditer(rb"\r\n", request[:4_000])]
    if not ends or it.chance(8):
        return it.pick((b"\r\n", b"\n", b"\r", b"\r\n\r\n", b"\n\n\r")) * it.draw.randrange(1, 4) + request
    place = it.pick(ends)
    return request[:place] + it.pick(LINE_ENDS) + request[place + 2:]


def utf8(it, request):
    """Bytes beyond ASCII, which are UTF-8 or are not."""
    place = it.place(request, 1)
    return request[:place] + it.pick(BROKEN_UTF8 + GOOD_UTF8) + request[place:]


def a_number(it, request):
    """A number is one at a limit."""
    found = list(re.finditer(rb"\d+", request[:8_000]))
    if not found:
        return None
    number = it.pick(found)
    return request[:number.start()] + b"%d" % it.pick(LIMITS) + request[number.end():]


# -------------------------------------------------------------------------------------------- heads

def on_message(change):
    """A change of the message that a request is."""
    def changed(it, request):
        message = taken_apart(request)
        return message.bytes() if message and change(it, message) is not False else None
    changed.__doc__ = change.__doc__
    return changed


@on_message
def first_line(it, message):
    """Another method or version."""
    if it.chance(2):
        message.method = it.pick(METHODS)
    else:
        message.version = it.pick(VERSIONS)


@on_message
def target(it, message):
    """Percent signs, segments or a query in the target."""
    path, mark, query = message.target.partition(b"?")
    if it.chance(4):
        message.target = path + it.pick(QUERIES) + it.pick((b"", mark + query))
    elif it.chance(2):
        place = it.draw.randrange(len(path) + 1)
        escaped = b"%%%02X" % path[place] if place < len(path) and it.chance(2) else None
        message.target = path[:place] + (escaped or it.pick(PERCENTS)) + path[place + bool(escaped):] + mark + query
    else:
        segments = path.split(b"/")
        place = it.draw.randrange(1, len(segments) + 1)
        segments[place:place + it.draw.randrange(2)] = [it.pick(SEGMENTS)]
        message.target = b"/".join(segments) + mark + query


@on_message
def path_length(it, message):
    """A path about as long as it may be, or a name about as long as it may be at its end."""
    path, mark, query = message.target.partition(b"?")
    if it.chance(2):
        missing = it.pick(PATH_LENGTHS) + len(b"/v1/") - len(path)
        message.target = path + b"p" * missing + mark + query
    else:
        folder = path.rpartition(b"/")[0]
        message.target = folder + b"/" + b"n" * it.pick(NAME_LENGTHS) + mark + query


@on_message
def field(it, message):
    """A field is doubled, taken out, put in, or spelled in another way."""
    place = it.draw.randrange(len(message.fields) + 1)
    if it.chance(2) or place == len(message.fields):
        message.fields.insert(place, it.pick(FIELDS))
        return
    line = message.fields[place]
    name, mark, value = line.partition(b":")
    message.fields[place:place + 1] = it.pick((
        [line, line], [line, line + b"0"], [], [name.upper() + mark + value], [name.lower() + mark + value],
        [name + mark + b"\t " + value + b" \t"], [name + mark + value.strip()], [name + b" " + mark + value],
        [name + mark + value + b"x"], [name + mark]))


@on_message
def bearer(it, message):
    """The client token comes in the Authorization field."""
    places = message.places(b"x-vault-token")
    if not places:
        return False
    token = message.fields[places[0]].partition(b":")[2].strip()
    message.fields[places[0]:places[0] + 1] = [
        b"Authorization: " + it.pick((b"Bearer ", b"bearer ", b"BEARER   ", b"Bearer\t", b"Bearer")) + token,
        *it.pick(([], [], [b"X-Vault-Token:"], [b"X-Vault-Token: x"]))]
    return True


@on_message
def many_fields(it, message):
    """About as many fields as there may be."""
    message.fields += [b"A: b"] * (it.pick(MOST_FIELDS) - len(message.fields))


@on_message
def head_length(it, message):
    """A head about as long as it may be."""
    body, message.body = message.body, b""
    missing = it.pick(HEAD_LENGTHS) - len(message.bytes())
    if missing < 8:
        return False
    message.body = body
    message.fields.insert(it.draw.randrange(len(message.fields) + 1), b"A: " + b"b" * (missing - 5))
    return True


# ---------------------------------------------------- heads that mean the same (RFC 9110, 9112 and 3986)

@on_message
def case_of_names(it, message):
    """The names of fields are spelled in another case."""
    way = it.pick((bytes.lower, bytes.upper, bytes.swapcase))
    message.fields = [way(name) + mark + value for name, mark, value in (it.partition(b":") for it in message.fields)]


@on_message
def around_values(it, message):
    """There is other white space around values."""
    before, after = it.pick((b"", b"\t", b"  \t ")), it.pick((b"", b" ", b"\t\t"))
    message.fields = [name + mark + before + value.strip(b" \t") + after
                      for name, mark, value in (it.partition(b":") for it in message.fields)]


@on_message
def order_of_fields(it, message):
    """The fields come in another order, with others among them that say nothing."""
    message.fields += [b"%s: %s" % (name, it.pick(IDLE_VALUES)) for name in IDLE_NAMES if it.chance(2)]
    it.draw.shuffle(message.fields)


@on_message
def ends_of_lines(it, message):
    """Lines of the head but its last one end in LF alone, or empty lines come before it."""
    if len(message.fields) > 1 and it.chance(2):
        message.fields = [b"\n".join(message.fields)]
    else:
        message.method = it.pick((b"\r\n", b"\n", b"\r\n\n\r\n")) + message.method


@on_message
def escaped_letters(it, message):
    """Letters of the path are percent-encoded."""
    path, mark, query = message.target.partition(b"?")
    letters = [place for place in range(len(path))
               if path[place:place + 1].isalpha() and b"%" not in path[place - 2:place]]
    for place in sorted(it.draw.sample(letters, min(len(letters), it.pick((1, 2, 5)))), reverse=True):
        path = path[:place] + it.pick((b"%%%02X", b"%%%02x")) % path[place] + path[place + 1:]
    message.target = path + mark + query


@on_message
def idle_query(it, message):
    """The query has a part that says nothing."""
    message.target += (b"&" if b"?" in message.target else b"?") + it.pick((b"a=b", b"a", b"lists=true", b"%6cist=x"))


@on_message
def length_with_zeros(it, message):
    """The length of the body has zeros before it, or is told where there is no body."""
    places = message.places(b"content-length")
    if places:
        name, mark, value = message.fields[places[0]].partition(b":")
        message.fields[places[0]] = name + mark + b"0" * it.pick((1, 4, 40)) + value.strip()
    else:
        message.fields.append(b"Content-Length: " + b"0" * it.pick((1, 4, 40)))


@on_message
def stays_or_closes(it, message):
    """The connection is said to stay open, or to close."""
    message.fields.append(b"Connection: " + it.pick((b"keep-alive", b"keep-alive", b"Upgrade, x", b"close")))


IDLE_NAMES = (b"Accept", b"User-Agent", b"X-Vault-Request", b"Content-Type", b"Cookie")
IDLE_VALUES = (b"*/*", b"true", b"", b"application/json", b"a\x80\xff", b"a:b, c; d=\"e\"")
SPELLINGS = (case_of_names, around_values, order_of_fields, ends_of_lines, escaped_letters, idle_query,
             length_with_zeros, stays_or_closes)


# ------------------------------------------------------------------------------------------- bodies

def on_body(change):
    """A change of the members of a body that is an object; its length fits the new body mostly."""
    @on_message
    def changed(it, message):
        members = members_of(message.body or b"{}")
        if members is None or not (message.body or message.method in (b"POST", b"PUT")):
            return False
        found = change(it, members)
        message.body = (found if isinstance(found, str) else object_text(members)).encode("utf-8", "surrogatepass")
        if not it.chance(16):
            message.fit_length()
        return True
    changed.__doc__ = change.__doc__
    return changed


@on_body
def a_member(it, members):
    """A member that the route reads, or another one, gets another value, or is taken out, or is there twice."""
    known = it.members.get(it.route)
    name = it.pick(known) if known and not it.chance(6) else it.pick(NAMES)
    places = [place for place, (found, _) in enumerate(members) if found == name]
    if places and it.chance(5):
        del members[places[0]]
    elif places and not it.chance(5):
        members[places[0]] = (name, it.value())
    else:
        members.insert(it.draw.randrange(len(members) + 1), (name, it.value()))


NAMES = ("data", "options", "cas", "version", "versions", "token", "accessor", "policies", "ttl", "policy", "type", "é",
         "", "a b", "k")


def with_member(it, request, name):
    """The request with another value of this member, or without it."""
    def change(it, members):
        outer = WITHIN.get(name, name)
        members[:] = [member for member in members if member[0] != outer]
        if outer != name:
            members.append((outer, f'{{"{name}":{it.value()}}}'))
        elif not it.chance(4):
            members.append((name, it.value()))
    return on_body(change)(it, request)


@on_body
def deeper(it, members):
    """A value stands within more levels."""
    if not members:
        members.append(("k", "1"))
    place = it.draw.randrange(len(members))
    name, value = members[place]
    levels = it.pick(LEVELS)
    before, after = it.pick((("[", "]"), ('{"a":', "}"), ("[1,", "]")))
    members[place] = (name, before * levels + value + after * levels)


@on_body
def long_texts(it, members):
    """Names and strings about as long as they may be, and many members."""
    text = it.pick(("n", "é")) * it.pick(NAME_LENGTHS)
    name = it.pick([name for name, _ in members] or ["k"])
    members.append((name, it.pick((f'"{text}"', f'["{text}"]', f'{{"{text}":"{text}"}}'))))


@on_message
def another_body(it, message):
    """A body that is no JSON object, or hardly one."""
    text = it.pick((*NO_JSON, *NO_OBJECTS, "null", " ", "{}", "\ufeff{}", '{"a":-0}'))
    message.body = text.encode("utf-8", "surrogatepass")
    if not it.chance(16):
        message.fit_length()


@on_message
def a_space(it, message):
    """White space in a body, or what is not white space."""
    place = it.place(message.body, 1)
    space = it.pick((b" ", b"\n", b"\t", b"\r", b"\x0b", b"\xc2\xa0"))
    message.body = message.body[:place] + space + message.body[place:]
    message.fit_length()


@on_message
def a_body_length(it, message):
    """The length of a body is another one than it says, by a little."""
    places = message.places(b"content-length")
    if not places:
        return False
    length = max(0, len(message.body) + it.pick((-2, -1, 1, 2)))
    message.fields[places[0]] = b"Content-Length: %d" % length
    return True


@on_message
def a_policy(it, message):
    """Other rules of a policy: some capabilities for some patterns, `deny` among them or not."""
    rules = {it.pick(PATTERNS): {"capabilities": [one for one in CAPABILITIES if it.chance(2)]}
             for _ in range(it.draw.randrange(1, 4))}
    message.body = json.dumps({"policy": json.dumps({"path": rules})}).encode()
    message.fit_length()


@on_message
def longest_body(it, message):
    """A body as long as it may be, by white space at its end, or a byte longer."""
    if message.method not in (b"POST", b"PUT") or not message.body:
        return False
    message.body += b" " * (LONGEST_BODY + it.draw.randrange(2) - len(message.body))
    message.fit_length()
    return True


CHANGES = {
    a_bit: 4, a_byte: 6, a_slice: 4, line_end: 4, utf8: 3, a_number: 8, first_line: 3, target: 8, path_length: 3,
    field: 10, bearer: 2, many_fields: 1, head_length: 1, a_member: 30, deeper: 3, long_texts: 3, another_body: 3,
    a_space: 2, a_body_length: 1, longest_body: 0.1}
