"""What the inputs of stored runs are drawn with: requests, the lines of a run, JSON in its spellings."""

import json
import random

GREATEST_MOMENT = 250_000_000_000
GREATEST_CONNECTION = 2**64 - 1
GREATEST_WORD = 2**128 - 1

PATHS = ("a", "b", "a/b", "team/x", "team", "x.y", "-_~", "x:y@z", "été", "Ω/😀", "a;b=c", "...", "cubbyhole")
NAMES = ("a", "b", "k", "K", "", "a.b", "10", "2", "é", "z", "\u007f", "\uffff", "😀", "\u0000", "\n", '"', "\\",
         "a b")
SPACES = ("", "", "", "", "", "", " ", "\n", "\t", "\r\n", "  ")


# ------------------------------------------------------------------------------------------- requests

def request(method, target, fields=(), body=None, version="HTTP/1.1"):
    """The text of a request. With a body comes the field that tells its length in bytes."""
    lines = [f"{method} {target} {version}", *fields]
    if body is not None:
        lines.append(f"Content-Length: {len(body.encode())}")
    return "".join(line + "\r\n" for line in lines) + "\r\n" + (body or "")


def identifier(word):
    """The 36 characters that the identifier of a word is."""
    digits = f"{word % 2**128:032x}"
    return "-".join((digits[:8], digits[8:12], digits[12:16], digits[16:20], digits[20:]))


class Run:
    """The lines of one input, and what draws them."""

    def __init__(self, seed):
        self.random = random.Random(seed)
        self.size = self.random.randrange(3, 13)
        self.moment = self.pick(0, 1000, 951782400, 1700000000, 4102444799, self.random.randrange(GREATEST_MOMENT))
        self.first_word = self.pick(0, 0, 0x10, GREATEST_WORD, GREATEST_WORD - 1, self.random.getrandbits(128))
        self.lines = []
        self.written = []
        self.made = []
        self.add({"moment": self.moment, "words": f"{self.first_word:032x}"})

    def pick(self, *choices):
        """One of the arguments."""
        return self.random.choice(choices)

    def chance(self, one_in):
        """True once in so many times."""
        return self.random.randrange(one_in) == 0

    def room(self):
        """How many events there is room for."""
        return self.size + 1 - len(self.lines)

    def add(self, members):
        """Adds a line that is a JSON object."""
        text = json.dumps(members, separators=(",", ":"), ensure_ascii=self.chance(3))
        self.lines.append(text.encode())

    def event(self, piece, connection=1, moment=None, word=None):
        """Adds an event, if there is room for one."""
        if self.room() <= 0:
            return
        if moment is None:
            self.moment = min(self.moment + self.pick(0, 0, 1, 5, 3600), GREATEST_MOMENT)
            moment = self.moment
        if word is None:
            word = 0x10 * len(self.lines)
        self.add({"conn": connection, "moment": moment, "words": f"{word:032x}", "piece": piece})

    def stdin(self):
        """The bytes of the input."""
        return b"".join(line + b"\n" for line in self.lines)

    # What requests are made of.

    def root(self):
        """The root token."""
        return "hvs." + identifier(self.first_word + 1)

    def fields(self, token=None):
        """The fields of a request by a token, the root token if none is given, in any order and spelling."""
        name = self.pick("X-Vault-Token", "X-Vault-Token", "x-vault-token", "X-VAULT-TOKEN")
        fields = [self.pick("Host: b", "Host: b", "host:localhost:8200", "HOST: "),
                  f"{name}: {self.root() if token is None else token}"]
        if self.chance(5):
            fields.append(self.pick("Accept: */*", "User-Agent: é", "Content-Type: text/plain",
                                    "Expect: 100-continue", "X-Vault-Request: true", "Connection: keep-alive", "A:",
                                    "A: \t b \t"))
        self.random.shuffle(fields)
        return fields

    def path(self):
        """A path of the cubbyhole, out of few."""
        return "cubbyhole/" + self.pick(*PATHS[:self.pick(2, 5, len(PATHS))])

    def read(self, path):
        """A request by root that reads a path."""
        return request("GET", "/v1/" + path, self.fields())

    def write(self, path, body):
        """A request by root that writes a body to a path."""
        self.written.append(path)
        return request(self.pick("POST", "PUT"), "/v1/" + path, self.fields(), body)

    def served(self):
        """A request that is well made, and mostly answered 200 or 204."""
        if self.chance(2):
            return self.write(self.path(), self.object_text(self.random.randrange(3)))
        if self.written and not self.chance(4):
            return self.read(self.pick(*self.written))
        return self.read(self.pick(self.path(), self.path(), "none", "none/x", "b/c/d"))

    def pieces(self, text, count):
        """The text in so many pieces, cut anywhere. A piece may be empty."""
        places = sorted(self.random.randrange(len(text) + 1) for _ in range(count - 1))
        return [text[start:end] for start, end in zip([0, *places], [*places, len(text)])]

    # Tokens that the input makes, if nothing refuses them.

    def call(self, method, path, body=None, token=None, **event):
        """An event that is a whole request by a token, the root token if none is given."""
        self.event(request(method, "/v1/" + path, self.fields(token), body), **event)

    def ask(self, name, body=None, token=None, **event):
        """A write to a route of tokens, the body being a text or an object."""
        if isinstance(body, dict):
            body = json.dumps(body, ensure_ascii=self.chance(4))
        self.call(self.pick("POST", "POST", "PUT"), "auth/token/" + name, body, token, **event)

    def make(self, body=None, by=None, name="create", word=None, **event):
        """Asks for a token: its text and its accessor, if the request is not refused."""
        first = 0x10 * len(self.lines) if word is None else word
        if self.room() <= 0:
            return self.pick(*self.made)
        self.ask(name, body, by, word=word, **event)
        self.made.append(("hvs." + identifier(first + 1), identifier(first + 2)))
        return self.made[-1]

    def grant(self, name, policy, token=None, **event):
        """An event that sets a policy: a map of capabilities by pattern, or the text itself."""
        if isinstance(policy, dict):
            path = {pattern: {"capabilities": list(granted)} for pattern, granted in policy.items()}
            policy = json.dumps({"path": path}, ensure_ascii=False, separators=(",", ":"))
        body = json.dumps({"policy": policy}, ensure_ascii=self.chance(4))
        self.call(self.pick("POST", "PUT"), "sys/policies/acl/" + name, body, token, **event)

    def token(self):
        """A token that was asked for, mostly, or the root token."""
        if not self.made or self.chance(8):
            return self.root()
        return self.pick(*self.made)[0]

    def stranger(self):
        """A text that is no token, or hardly one."""
        token = self.token()
        return self.pick("", "x", token[4:], token + "x", token[:-1], token.upper(), " " + token,
                         "hvs." + identifier(self.random.getrandbits(128)), "é", "hvs.", "root")

    def look(self, token, by=None, **event):
        """One way to look a token up."""
        accessors = [accessor for text, accessor in self.made if text == token]
        way = self.random.randrange(4)
        if way < 2:
            self.call("GET", "auth/token/lookup-self", token=token, **event)
        elif way == 2 or not accessors:
            self.ask("lookup", {"token": token}, by, **event)
        else:
            self.ask("lookup-accessor", {"accessor": accessors[0]}, by, **event)

    # JSON.

    def space(self):
        """White space of JSON, mostly none."""
        return self.pick(*SPACES)

    def character(self, c):
        """One way to write a character within a text."""
        units = c.encode("utf-16-be")
        escaped = "".join(f"\\u{units[n] * 256 + units[n + 1]:04x}" for n in range(0, len(units), 2))
        short = {'"': '\\"', "\\": "\\\\", "\b": "\\b", "\f": "\\f", "\n": "\\n", "\r": "\\r", "\t": "\\t"}.get(c)
        if short is not None or c < " ":
            return self.pick(short or escaped, escaped)
        if self.chance(12):
            return self.pick(escaped, escaped.upper().replace("\\U", "\\u"))
        return "\\/" if c == "/" and self.chance(2) else c

    def spelled(self, text):
        """One way to write a text."""
        return '"' + "".join(self.character(c) for c in text) + '"'

    def text(self):
        """A text, written in one of its ways."""
        letters = 'ab/"\\\b\f\n\r\t\x00\x1f\x7fé€\u2028\ud7ff\ue000\uffff😀\U0010ffff'
        return self.spelled("".join(self.random.choices(letters, k=self.random.randrange(7))))

    def whole_number(self):
        """A whole number that is read as one."""
        return str(self.pick(0, 1, -1, 7, 10, 2**53 + 1, 2**63 - 1, 2**63, -2**63, 2**64 - 1, 1 - 2**63,
                             self.random.getrandbits(64), -self.random.getrandbits(63) - 1))

    def value_text(self, depth):
        """A JSON value, with so many levels below it at most."""
        kind = self.random.randrange(8 if depth else 5)
        if kind == 0:
            return self.pick("null", "true", "false")
        if kind in (1, 2):
            return self.whole_number()
        if kind in (3, 4):
            return self.text()
        if kind in (5, 6):
            return self.object_text(depth - 1, least=0)
        items = [self.space() + self.value_text(depth - 1) + self.space() for _ in range(self.random.randrange(4))]
        return "[" + (",".join(items) or self.space()) + "]"

    def member(self, name, value):
        """A member of an object, of the texts of its name and its value."""
        return self.space() + name + self.space() + ":" + self.space() + value + self.space()

    def object_text(self, depth, least=1):
        """A JSON object, with members of one name among them now and then."""
        names = [self.pick(*NAMES) for _ in range(self.random.randrange(least, 6))]
        members = [self.member(self.spelled(name), self.value_text(depth)) for name in names]
        return self.space() + "{" + (",".join(members) or self.space()) + "}" + self.space()
