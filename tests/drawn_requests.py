#!/usr/bin/env python3
"""Writes the lines of a replay: a start, and 5,000 whole requests over all routes, to compare the two stores.

    tests/trial_stores numbers | python3 tests/drawn_requests.py > lines

The numbers on standard input, one on each line in hexadecimal digits, draw the requests: the same numbers draw the same
requests. `REQUESTS` is what is asked. Paths and tokens are among eight each, so that requests meet what earlier ones
left, and most are served. The root token is never revoked, the policy `much` never changed, and the mount `secret`
never disabled. No request closes its connection.
"""

import json
import sys

EVENTS = 5_000
START = 1_700_000_000
WORDS_OF_AN_EVENT = 0x10
RECENT = 7  # how many tokens, credentials and responses are asked about, the last ones
LONGEST_BODY = 65_536

MUCH = '{"path":{"*":{"capabilities":["create","read","update","delete","list","sudo"]}}}'

# What the names in angle brackets stand for: one of these texts. Other names are methods of `Drawer`.
TEXTS = {
    # In paths.
    "path": ("a", "b", "c", "a/b", "team", "team/x", "team/y", "team/x/z"),
    "folder": ("", "", "/team", "/a", "/team/x"),
    "version": ("", "", "", "", "?version=1", "?version=2", "?version=0", "?version=x"),
    "create": ("create", "create", "create-orphan"),
    "revoke": ("revoke", "revoke-orphan"),
    "change": ("delete", "undelete", "destroy"),
    "policy": ("readers", "writers", "listers", "few", "few", "team", "default", "root"),
    "kv": (*("secret",) * 9, *("kv",) * 4, "db"),
    "issued": (*("db",) * 9, *("db2",) * 4, "kv"),
    "mount": ("db", "db2", "kv", "secret", "sys", "x", "x", "x"),
    "role": ("r", "r", "r", "r", "r", "s"),
    "prefix": ("db2", "db2/creds/r", "db/creds/s", "db/creds/s", "kv", "db/creds/r"),
    "unserved": ("sys/health", "auth/token", "auth/token/create", "secret", "a//b", "sys/wrapping/wrap"),
    # Members of bodies.
    "policies": ('["much"]', '["much","default"]', '"much,readers"', '["much","writers","few"]',
                 '["readers","listers"]', '["default"]', '["root"]', "[]"),
    "seconds": ("600", '"20m"', "3600", '"2h"', '"90"', "5000", '"1h30m"', "0"),
    "truth": ("true", "false", '"true"', '"false"'),
    "mostly_false": ("false", "false", "false", '"false"', "false", "true"),
    "count": ("0", "1", "2", "3", '"2"', "5", "10", '"30"'),
    "meta": ('{"team":"db"}', "{}", "null"),
    "kind": ('"service"', '""', '"service"'),
    "period": ("0", '""', "600", '"20m"', '"90"', "5000", '"769h"'),
    "never": ('"0s"', '"0s"', "null"),
    "value": ('"v"', "null", '[1,{"x":null}]', '"\\u00e9\\n"'),
    "secret": ('{"user":"app","password":"old"}', '{"text":"a \\"quoted\\" line\\nand é"}', "{}",
               '{"n":18446744073709551615,"m":-1}', '{"list":[1,[],{"x":null}]}', '{"a":true,"a":false}'),
    "check": ('{"cas":0}', '{"cas":1}', '{"cas":"2"}', '{"cas":null}', "{}"),
    "custom": ('{"team":"db","a":"é"}', '{"b":"2","a":"1"}', "{}", "null", '{"a":1}', '{"":"v"}'),
    "versions": ("[1]", "[1,2]", '"1,2"', '["2",3]', "[3,1,3]", "[9]", "[1,2,3,4,5]", "[]"),
    "type": ('"issued"', '"issued"', '"kv-v2"', '"kv"', '"pki"', '""'),
    "options": ('{"version":"2"}', '{"version":"2"}', "{}"),
}

WRONG = ("true", "-1", '"x"', "[1]", '{"a":1}', "null", '"1d"', "4294967296")
BROKEN = ("", "{", "[]", "null", " ", '{"ttl":1.5}', '{"data":1e3}', '"data"')
WRAP_TTLS = ("60", "600", "600", "5m", "1h", "1h", "1h", "1h", "5000", "5000", "2764801", "0", "1d")
PATTERNS = ("*", "secret/*", "secret/data/team/*", "secret/metadata/*", "cubbyhole/*", "auth/token/*",
            "sys/policies/*", "sys/wrapping/*", "db/*", "sys/leases/*")
CAPABILITIES = (["read"], ["read", "list"], ["create", "update"], ["create", "read", "update", "delete", "list"],
                ["update", "sudo"], ["deny"], ["patch", "read"], [])
NO_POLICIES = ("", "{}", "null", '{"path":{"+":{"capabilities":[]}}}', 'path "a" {}')

# The first requests, by root: their path and their body.
FIRST = [
    ("sys/policies/acl/much", json.dumps({"policy": MUCH})),
    *[("auth/token/create", '{"policies":["much"]}')] * RECENT,
    ("sys/mounts/db", '{"type":"issued"}'),
    ("db/roles/r", '{"ttl":3600}'),
]

# The others: how often each is drawn, who sends it, its method (W: POST or PUT), its path, and the members of its body,
# or None without a body. After `?` a member comes once in three times, after `??` once in twelve.
REQUESTS = (
    # Tokens.
    (13, "owner", "W", "auth/token/<create>", (
        '?"policies":<policies>', '?"ttl":<seconds>', '?"explicit_max_ttl":<seconds>', '?"no_default_policy":<truth>',
        '??"num_uses":<count>', '??"no_parent":<truth>', '??"meta":<meta>', '??"type":<kind>', '??"period":<period>')),
    (4, "caller", "GET", "auth/token/lookup-self", None),
    (2, "caller", "W", "auth/token/lookup", ('"token":"<token>"',)),
    (2, "caller", "W", "auth/token/lookup-accessor", ('"accessor":"<accessor>"',)),
    (1, "caller", "LIST", "auth/token/accessors", None),
    (3, "token", "W", "auth/token/renew-self", ('?"increment":<seconds>',)),
    (3, "caller", "W", "auth/token/renew", ('"token":"<token>"', '?"increment":<seconds>')),
    (1, "token", "W", "auth/token/revoke-self", ()),
    (1, "caller", "W", "auth/token/revoke-accessor", ('"accessor":"<accessor>"',)),
    (2, "caller", "W", "auth/token/<revoke>", ('"token":"<token>"',)),
    # Cubbyholes.
    (6, "caller", "W", "cubbyhole/<path>", ('"k":<value>', '?"n":<count>')),
    (4, "caller", "GET", "cubbyhole/<path>", None),
    (2, "caller", "LIST", "cubbyhole<folder>", None),
    (1, "caller", "DELETE", "cubbyhole/<path>", None),
    # Secrets.
    (10, "caller", "W", "<kv>/data/<path>", ('"data":<drawn_secret>', '??"options":<check>')),
    (1, "owner", "W", "secret/data/<path>", ('"data":<long_secret>',)),
    (8, "caller", "GET", "<kv>/data/<path><version>", None),
    (2, "caller", "DELETE", "<kv>/data/<path>", None),
    (7, "caller", "W", "<kv>/<change>/<path>", ('"versions":<versions>',)),
    (3, "caller", "GET", "<kv>/metadata/<path>", None),
    (3, "caller", "W", "<kv>/metadata/<path>", (
        '?"custom_metadata":<custom>', '?"max_versions":<count>', '??"cas_required":<mostly_false>',
        '??"delete_version_after":<never>')),
    (4, "caller", "LIST", "<kv>/metadata<folder>", None),
    (1, "caller", "DELETE", "<kv>/metadata/<path>", None),
    (2, "caller", "GET", "<kv>/config", None),
    (2, "caller", "W", "<kv>/config", (
        '?"cas_required":<mostly_false>', '?"max_versions":<count>', '?"delete_version_after":<never>')),
    # Policies.
    (1, "owner", "LIST", "sys/policies/acl", None),
    (2, "owner", "GET", "sys/policies/acl/<policy>", None),
    (1, "owner", "DELETE", "sys/policies/acl/<policy>", None),
    (4, "owner", "W", "sys/policies/acl/<policy>", ('"policy":<drawn_policy>',)),
    # Mounts and roles.
    (2, "caller", "GET", "sys/mounts", None),
    (1, "owner", "W", "sys/mounts/<mount>", ('"type":<type>', '?"options":<options>')),
    (1, "owner", "W", "sys/mounts/db", ('"type":"issued"',)),
    (1, "owner", "W", "sys/mounts/db2", ('"type":"issued"',)),
    (1, "owner", "W", "sys/mounts/kv", ('"type":"kv"', '"options":{"version":"2"}')),
    (2, "owner", "DELETE", "sys/mounts/<disabled>", None),
    (3, "owner", "W", "<issued>/roles/<role>", ('?"ttl":<seconds>', '?"max_ttl":<seconds>')),
    (1, "caller", "GET", "<issued>/roles/<role>", None),
    (1, "owner", "DELETE", "<issued>/roles/s", None),
    # Credentials and leases.
    (7, "owner", "GET", "<issued>/creds/<role>", None),
    (4, "caller", "W", "<issued>/verify", ('"credential":"<credential>"',)),
    (3, "caller", "W", "sys/leases/lookup", ('"lease_id":"<lease>"',)),
    (3, "caller", "W", "sys/leases/renew", ('"lease_id":"<lease>"', '?"increment":<seconds>')),
    (1, "caller", "W", "sys/leases/revoke", ('"lease_id":"<lease>"',)),
    (1, "owner", "W", "sys/leases/revoke-prefix/<prefix>", ()),
    # Responses that wait: asked about by their own tokens, or by a caller who names them.
    (4, "owner", "W", "sys/wrapping/wrap", ('?"k":<value>', '?"n":<count>')),
    (2, "response", "W", "sys/wrapping/unwrap", None),
    (1, "response", "W", "sys/wrapping/unwrap", ()),
    (2, "caller", "W", "sys/wrapping/unwrap", ('"token":"<response>"',)),
    (1, "response", "W", "sys/wrapping/lookup", None),
    (1, "nobody", "W", "sys/wrapping/lookup", ('"token":"<response>"',)),
    (1, "response", "W", "sys/wrapping/rewrap", ()),
    (1, "caller", "W", "sys/wrapping/rewrap", ('"token":"<response>"',)),
    # What no route is for.
    (1, "caller", "GET", "<unserved>", None),
    (1, "caller", "DELETE", "<unserved>", None),
)


def identifier(word):
    """The identifier of a word."""
    digits = f"{word:032x}"
    return "-".join((digits[:8], digits[8:12], digits[12:16], digits[16:20], digits[20:]))


def request_text(method, path, token, wrap_ttl, body):
    """The text of a request. The token, the wrap TTL and the body may be None."""
    fields = [f"{method} /v1/{path} HTTP/1.1", "Host: localhost"]
    if token is not None:
        fields.append(f"X-Vault-Token: {token}")
    if wrap_ttl is not None:
        fields.append(f"X-Vault-Wrap-TTL: {wrap_ttl}")
    if body is not None:
        fields.append(f"Content-Length: {len(body.encode())}")
    return "".join(field + "\r\n" for field in fields) + "\r\n" + (body or "")


class Drawer:
    """Draws requests."""

    def __init__(self, numbers):
        self.numbers = numbers
        self.moment = START
        self.word = 0
        # The paths and first words of the last events that asked for one, or of the start.
        self.makers = {kind: [("", 0)] * RECENT for kind in ("token", "lease", "response")}
        self.choices = [request for request in REQUESTS for _ in range(request[0])]

    # Numbers.

    def below(self, limit):
        """A number below the limit."""
        return next(self.numbers) % limit

    def chance(self, one_in):
        """True once in so many times."""
        return self.below(one_in) == 0

    def pick(self, choices):
        """One of the choices."""
        return choices[self.below(len(choices))]

    # Who asks.

    def root(self):
        """The root token."""
        return "hvs." + identifier(1)

    def caller(self):
        """The root token mostly, or another one; seldom one of a response, or none."""
        number = self.below(32)
        if number == 0:
            return self.pick((None, self.response()))
        return self.root() if number < 20 else self.token()

    def owner(self):
        """The root token three times in four."""
        return self.caller() if self.chance(4) else self.root()

    def nobody(self):
        """No token."""
        return None

    # What names stand for.

    def made(self, kind, place):
        """The identifier of the word at this place in one of the last events that asked for such a thing."""
        _, word = self.pick(self.makers[kind])
        return identifier(word + place)

    def token(self):
        """One of the last tokens that were asked for."""
        return "hvs." + self.made("token", 1)

    def accessor(self):
        """The accessor of one of them, or of the wrapping token of a response."""
        return self.made("response", 6) if self.chance(4) else self.made("token", 2)

    def lease(self):
        """The id of the lease of one of the last credentials that were asked for."""
        path, word = self.pick(self.makers["lease"])
        return f"{path}/{identifier(word + 3)}"

    def credential(self):
        """One of the last credentials that were asked for."""
        return self.made("lease", 4)

    def response(self):
        """The wrapping token of one of the last responses that were asked for."""
        return "hvs." + self.made("response", 5)

    def disabled(self):
        """A mount that is disabled; seldom the one in which most credentials are issued."""
        return "db" if self.chance(16) else self.pick(("db2", "kv", "kv", "sys", "x"))

    def drawn_secret(self):
        """The text of a secret."""
        return f'{{"value":{self.below(1_000_000)}}}' if self.chance(2) else self.pick(TEXTS["secret"])

    def long_secret(self):
        """The text of a long secret. One in four makes the longest body."""
        most = LONGEST_BODY - len('{"data":{"text":""}}')
        length = most if self.chance(4) else self.below(most)
        letters = f"{next(self.numbers):016x}" * (length // 16 + 1)
        return f'{{"text":"{letters[:length]}"}}'

    def drawn_policy(self):
        """The text of a policy of one to three rules, as a member of a body; seldom a text that is none."""
        if self.chance(12):
            return json.dumps(self.pick(NO_POLICIES))
        rules = [(self.pick(PATTERNS), self.pick(CAPABILITIES)) for _ in range(1 + self.below(3))]
        return json.dumps(json.dumps({"path": {pattern: {"capabilities": granted} for pattern, granted in rules}}))

    def named(self, name):
        """One of the things of a name."""
        return self.pick(TEXTS[name]) if name in TEXTS else getattr(self, name)()

    def expanded(self, template):
        """The template with one of its things in place of each name."""
        before, mark, rest = template.partition("<")
        if not mark:
            return before
        name, _, after = rest.partition(">")
        return before + self.named(name) + self.expanded(after)

    # Requests.

    def member(self, template):
        """A member of a body, seldom with a wrong value."""
        if self.chance(40):
            return template.partition(":")[0] + ":" + self.pick(WRONG)
        return self.expanded(template)

    def body(self, templates):
        """A body with these members, or some of them; seldom one that is wrong."""
        if self.chance(60):
            return self.pick(BROKEN)
        members = []
        for template in templates:
            plain = template.lstrip("?")
            times = {0: 1, 1: 3, 2: 12}[len(template) - len(plain)]
            if self.chance(times):
                members.append(self.member(plain))
        return "{" + ",".join(members) + "}"

    def wrap_ttl(self, path):
        """The wrap TTL of a request, if it has one."""
        is_wanted = not self.chance(8) if path == "sys/wrapping/wrap" else self.chance(6)
        return self.pick(WRAP_TTLS) if is_wanted else None

    def remember(self, method, path, wrap_ttl):
        """Keeps the event as one that asks for what such a request makes."""
        is_creation = path.startswith("auth/token/create")
        has_data = is_creation or method in ("GET", "LIST") or "/data/" in path or path == "sys/wrapping/wrap"
        made = {"token": is_creation, "lease": "/creds/" in path,
                "response": (wrap_ttl is not None and has_data) or path == "sys/wrapping/rewrap"}
        for kind, is_made in made.items():
            if is_made:
                self.makers[kind] = [*self.makers[kind][1:], (path, self.word)]

    def request(self):
        """The text of a request."""
        return self.request_of(self.pick(self.choices))

    def request_of(self, choice):
        """The text of a request that is one of `REQUESTS`."""
        _, sender, method, path, members = choice
        token = self.named(sender)
        method = self.pick(("POST", "POST", "POST", "PUT")) if method == "W" else method
        path = self.expanded(path)
        body = None if members is None else self.body(members)
        wrap_ttl = self.wrap_ttl(path)
        self.remember(method, path, wrap_ttl)
        return request_text(method, path, token, wrap_ttl, body)

    def first_request(self, path, body):
        """The text of one of the first requests."""
        self.remember("POST", path, None)
        return request_text("POST", path, self.root(), None, body)

    def event(self, number):
        """The line of an event: the first one has the number 0."""
        self.moment += self.below(31)
        self.word += WORDS_OF_AN_EVENT
        piece = self.first_request(*FIRST[number]) if number < len(FIRST) else self.request()
        return {"conn": 1, "moment": self.moment, "words": f"{self.word:032x}", "piece": piece}


def main():
    drawer = Drawer(int(line, 16) for line in sys.stdin)
    lines = [{"moment": START, "words": f"{0:032x}"}, *[drawer.event(number) for number in range(EVENTS)]]
    for line in lines:
        sys.stdout.buffer.write(json.dumps(line, ensure_ascii=False).encode() + b"\n")


if __name__ == "__main__":
    main()
