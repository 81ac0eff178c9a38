"""The themes about response wrapping: replies that are wrapped, and what becomes of them."""

import json

from drawing import GREATEST_MOMENT, identifier, request
from lease_themes import Leases
from request_themes import eight_words, in_digits
from token_themes import GOOD_MEMBERS, asked, creation, longer, with_callers

FIELD_NAMES = ("X-Vault-Wrap-TTL", "X-Vault-Wrap-TTL", "x-vault-wrap-ttl", "X-VAULT-WRAP-TTL")
TTLS = ("5", "60", "60", "3600", "1h30m", "90s")
OTHER_TTLS = ("0", "", "0s", "0h0m", "1", "0005", "1h1", "1m1m1s", " 7 ", "768h", "769h", "2764800", "2764801",
              "4294967295", "00000000000000000000000000005")
ODD_TTLS = ("1d", "x", "-1", "+5", "1.5", "1.5h", "4294967296", "71582789m", "1H", "5;", "5,6", "é", "1h ago", "5 5",
            "h", "null")
BODIES = ('{"a":1}', '{"k":[null,"é"]}', '{"b":{"z":1,"a":2}}', "{}", None)
ODD_BODIES = ("{", "[]", '{"token":1}', '{"token":[]}', '{"token":"x"}', '{"a":1.5}', "", " ")

# Requests that bring something about; requests that are answered 200 then, mostly, and others. TOKEN, ACCESSOR, LEASE
# and CREDENTIAL stand for what the last one of the first ones made.
SUBJECTS = (
    ((("POST", "cubbyhole/a", '{"k":"v"}'), ("POST", "cubbyhole/a/b", '{"n":[1,{"x":null}]}')),
     (("GET", "cubbyhole/a", None), ("GET", "cubbyhole/a/b", None), ("LIST", "cubbyhole", None),
      ("GET", "cubbyhole/a?list=true", None)),
     (("GET", "cubbyhole/none", None), ("PUT", "cubbyhole/a", '{"k":2}'), ("DELETE", "cubbyhole/a", None),
      ("POST", "cubbyhole/c", "{}"), ("GET", "cubbyhole", None))),
    ((("POST", "secret/data/a", '{"data":{"k":1}}'), ("PUT", "secret/data/a", '{"data":{"k":2}}')),
     (("GET", "secret/data/a", None), ("GET", "secret/data/a?version=1", None), ("LIST", "secret/metadata", None),
      ("POST", "secret/data/a", '{"data":{}}'), ("PUT", "secret/data/b/c", '{"data":{"k":1}}'),
      ("GET", "secret/metadata/a", None), ("GET", "secret/config", None)),
     (("GET", "secret/data/none", None), ("POST", "secret/data/a", '{"data":{},"options":{"cas":0}}'),
      ("DELETE", "secret/data/a", None), ("PUT", "secret/delete/a", '{"versions":[1]}'),
      ("POST", "secret/undelete/a", '{"versions":[1,2]}'), ("POST", "secret/destroy/a", '{"versions":[2]}'),
      ("GET", "secret/metadata/b?list=true", None), ("DELETE", "secret/metadata/a", None),
      ("POST", "secret/config", '{"max_versions":1}'))),
    ((("POST", "auth/token/create", '{"policies":["a"],"ttl":3600,"meta":{"a":"b"}}'),),
     (("GET", "auth/token/lookup-self", None), ("POST", "auth/token/lookup", '{"token":"TOKEN"}'),
      ("POST", "auth/token/lookup-accessor", '{"accessor":"ACCESSOR"}'), ("LIST", "auth/token/accessors", None),
      ("POST", "auth/token/renew", '{"token":"TOKEN","increment":60}'),
      ("POST", "auth/token/create", '{"ttl":60}'), ("PUT", "auth/token/create-orphan", '{"policies":["b"]}')),
     (("POST", "auth/token/revoke", '{"token":"TOKEN"}'), ("POST", "auth/token/revoke-orphan", '{"token":"TOKEN"}'),
      ("POST", "auth/token/revoke-accessor", '{"accessor":"ACCESSOR"}'), ("PUT", "auth/token/renew-self", "{}"))),
    ((("POST", "sys/policies/acl/q", '{"policy":"{\\"path\\":{\\"*\\":{\\"capabilities\\":[\\"read\\"]}}}"}'),),
     (("GET", "sys/policies/acl/q", None), ("LIST", "sys/policies/acl", None),
      ("GET", "sys/policies/acl/default", None)),
     (("GET", "sys/policies/acl/none", None), ("POST", "sys/policies/acl/q", '{"policy":"x"}'),
      ("DELETE", "sys/policies/acl/q", None))),
    ((("POST", "sys/mounts/db", '{"type":"issued"}'), ("POST", "db/roles/r", '{"ttl":60,"max_ttl":3600}'),
      ("GET", "db/creds/r", None)),
     (("GET", "db/creds/r", None), ("GET", "db/roles/r", None), ("GET", "sys/mounts", None),
      ("POST", "db/verify", '{"credential":"CREDENTIAL"}'), ("POST", "sys/leases/lookup", '{"lease_id":"LEASE"}'),
      ("PUT", "sys/leases/renew", '{"lease_id":"LEASE"}')),
     (("GET", "db/creds/none", None), ("POST", "sys/leases/revoke", '{"lease_id":"LEASE"}'),
      ("POST", "sys/leases/revoke-prefix/db", None), ("DELETE", "sys/mounts/db", None),
      ("POST", "sys/mounts/kv", '{"type":"kv-v2"}'), ("DELETE", "db/roles/r", None))),
)


def prepared(run, steps):
    """Sends requests that bring something about: what the last one made, by the word that stands for it."""
    for method, path, body in steps:
        run.call(method, path, body)
    first = 0x10 * (len(run.lines) - 1)
    return {"TOKEN": "hvs." + identifier(first + 1), "ACCESSOR": identifier(first + 2),
            "LEASE": "db/creds/r/" + identifier(first + 3), "CREDENTIAL": identifier(first + 4)}


def drawn(run, requests, names):
    """One of the requests, with what stands for the words in its body."""
    method, path, body = run.pick(*requests)
    for name, text in names.items():
        body = body and body.replace(name, text)
    return method, path, body


class Responses:
    """Responses that were wrapped, if nothing refused their requests."""

    def __init__(self, run):
        self.run = run
        self.asked = []

    def call(self, method, path, body=None, token=None, ttl=None, word=None, **event):
        """An event that is a whole request, with a wrap TTL if one is given; the body is a text or an object."""
        run = self.run
        if isinstance(body, dict):
            body = json.dumps(body, ensure_ascii=run.chance(4))
        fields = run.fields(token)
        if ttl is not None:
            fields.insert(run.random.randrange(len(fields) + 1), f"{run.pick(*FIELD_NAMES)}: {ttl}")
        if run.room() > 0 and (ttl is not None or path == "sys/wrapping/rewrap"):
            first = 0x10 * len(run.lines) if word is None else word
            self.asked.append(("hvs." + identifier(first + 5), identifier(first + 6)))
        run.event(request(method, "/v1/" + path, fields, body), word=word, **event)

    def write(self, name, body=None, token=None, ttl=None, **event):
        """A write to a route of wrapping."""
        self.call(self.run.pick("POST", "POST", "PUT"), "sys/wrapping/" + name, body, token, ttl, **event)

    def wrap(self, token=None, ttl=None, **event):
        """An object is wrapped."""
        self.write("wrap", self.run.pick(*BODIES), token, self.run.pick(*TTLS) if ttl is None else ttl, **event)

    def one(self):
        """A wrapping token that was asked for, mostly the last one, and its accessor."""
        if not self.asked or self.run.chance(10):
            return self.run.stranger(), identifier(self.run.random.getrandbits(128))
        return self.run.pick(self.asked[-1], self.asked[-1], *self.asked)

    def token(self):
        """Such a wrapping token."""
        return self.one()[0]

    def take(self, name, by=None, token=None, **event):
        """A write about a response by its wrapping token, or by another token that names it."""
        token = self.token() if token is None else token
        body = self.run.pick(None, None, "{}", "null", {"token": ""}, {"token": None}, {"token": token})
        if self.run.chance(2):
            self.write(name, body, token, **event)
        else:
            self.write(name, {"token": token}, by, **event)


def with_path(run):
    """Gives the run room, and writes to a path of the cubbyhole: the path, and no response so far."""
    longer(run)
    path = run.path()
    run.event(run.write(path, run.object_text(1)))
    return path, Responses(run)


def wrapped_replies(run):
    """Replies of every route with a wrap TTL, and the responses that wait."""
    run.size = run.random.randrange(9, 17)
    steps, told, others = run.pick(*SUBJECTS)
    names = prepared(run, steps)
    responses = Responses(run)
    while run.room() > 0:
        if run.chance(4):
            responses.call(*drawn(run, others, names), None, run.pick(*TTLS))
            responses.asked.pop()
        else:
            responses.call(*drawn(run, told, names), names["TOKEN"] if run.chance(8) else None, run.pick(*TTLS))
        if responses.asked and not run.chance(4):
            responses.take(run.pick("unwrap", "unwrap", "unwrap", "unwrap", "lookup", "rewrap"))


def wrap_ttls(run):
    """The field of the wrap TTL: durations of every form, at their limits, none, two, bytes that are not UTF-8."""
    path, responses = with_path(run)
    while run.room() > 0:
        ttl = run.pick(*TTLS, *OTHER_TTLS, *OTHER_TTLS, *ODD_TTLS)
        way = run.random.randrange(8)
        target = "/v1/" + run.pick(path, path, path, path, "none", "a//b", "auth/token/lookup-self", "cubbyhole")
        method = run.pick("GET", "GET", "GET", "PUT", "LIST", "LIST")
        if way < 5:
            responses.call(method, target[4:], run.pick(None, '{"a":1}'), ttl=ttl)
        elif way == 5 and responses.asked:
            responses.take(run.pick("lookup", "lookup", "unwrap"))
        elif way == 6:
            fields = [*run.fields(), f"X-Vault-Wrap-TTL: {ttl}", run.pick(
                "X-Vault-Wrap-TTL: 5", "x-vault-wrap-ttl:", f"X-Vault-Wrap-TTL: {ttl}", "X-Vault-Namespace: a",
                "X-Wrap-TTL: 5", "X-Vault-Wrap-TTLs: 5")]
            run.event(request(method, run.pick(target, target, "/v2/x"), fields, run.pick(None, '{"a":1}')))
        else:
            head = request(method, target, [*run.fields(), "X-Vault-Wrap-TTL: @"]).encode()
            run.add(in_digits(run, head.replace(b"@", run.pick(b"\xff", b"5\xff", b"\xc3", b"5", b"\xed\xa0\x80"))))


def times_of_responses(run):
    """Responses looked up, rewrapped and unwrapped at moments around their ends, some of which go back."""
    longer(run)
    responses = Responses(run)
    ttl = run.pick(5, 60, 3600)
    responses.wrap(ttl=ttl)
    start = run.moment
    while run.room() > 0:
        moment = min(start + run.pick(0, 1, ttl // 2, ttl - 1, ttl - 1, ttl, ttl + 1, ttl * 2 - 2, ttl * 2),
                     GREATEST_MOMENT)
        way = run.random.randrange(10)
        if way < 7:
            responses.take(run.pick("lookup", "lookup", "rewrap", "rewrap", "unwrap"), moment=moment)
        elif way < 9:
            responses.wrap(ttl=run.pick(1, ttl, ttl), moment=moment)
        else:
            run.call("GET", "auth/token/lookup-self", moment=moment)


def rewraps(run):
    """Responses rewrapped again and again, by words that are used among others, and unwrapped by all their tokens."""
    path, responses = with_path(run)
    responses.call("GET", path, ttl=run.pick(*TTLS))
    while run.room() > 0:
        way = run.random.randrange(10)
        if way < 5:
            word = None if not run.chance(4) else 0x10 * run.random.randrange(1, len(run.lines) + 1)
            responses.take("rewrap", word=word)
        elif way < 8:
            responses.take(run.pick("unwrap", "lookup"))
        else:
            responses.call("GET", path, ttl=run.pick(*TTLS))


def open_requests(run):
    """Who asks about a wrapping token: itself, a caller with uses, a caller without rights, nobody; and by which body.
    """
    with_callers(run)
    creation(run, num_uses=run.pick(None, 1, 2, 3))
    responses = Responses(run)
    responses.wrap()
    while run.room() > 0:
        client = run.pick(responses.token(), responses.token(), run.token(), run.token(), run.root(), "",
                          run.stranger())
        named = run.pick(client, responses.token(), responses.token(), run.token())
        body = run.pick(None, "null", "{}", {"token": ""}, {"token": None}, *[{"token": named}] * 5)
        if run.chance(5):
            body = run.pick(*ODD_BODIES)
        responses.write(run.pick("lookup", "unwrap", "unwrap", "rewrap") + run.pick("", "", "", "/"), body, client,
                        run.pick(*TTLS, *ODD_TTLS) if run.chance(8) else None)
        if run.chance(3):
            responses.wrap(run.pick(None, run.token()))
        if run.chance(5):
            run.look(run.token())


def spent_wrapping_tokens(run):
    """Wrapping tokens as client tokens of other requests, and whether their responses still wait."""
    longer(run)
    responses = Responses(run)
    responses.wrap()
    while run.room() > 0:
        token = responses.token()
        requests = (("GET", "sys/wrapping/lookup", None), ("DELETE", "sys/wrapping/unwrap", None),
                    ("POST", "sys/wrapping/wrap", '{"a":1}'), ("PUT", "sys/wrapping/none", "{}"),
                    *run.pick(*SUBJECTS)[run.pick(1, 2)])
        method, path, body = drawn(run, requests, {"TOKEN": token})
        responses.call(method, path + run.pick("", "", "", "/"), body, token,
                       run.pick(*TTLS, "1d") if run.chance(5) else None)
        if not run.chance(3):
            responses.take(run.pick("lookup", "unwrap", "rewrap"), token=token)
        if run.chance(2):
            responses.wrap()


def revoked_responses(run):
    """Wrapping tokens and their accessors on the routes of tokens: revoked, looked up, renewed."""
    with_callers(run)
    run.size = run.random.randrange(8, 17)
    creation(run, num_uses=None)
    responses = Responses(run)
    for _ in range(run.pick(1, 2)):
        responses.wrap(run.pick(None, run.token()))
    while run.room() > 0:
        token, accessor = responses.one()
        way = run.random.randrange(10)
        if way < 3:
            run.ask(run.pick("revoke", "revoke", "revoke-orphan", "lookup", "renew"), {"token": token})
        elif way < 5:
            run.ask(run.pick("revoke-accessor", "revoke-accessor", "lookup-accessor"), {"accessor": accessor})
        elif way == 5:
            run.ask("revoke", {"token": run.made[0][0]})
        elif way == 6:
            run.call("LIST", "auth/token/accessors")
        elif way == 7:
            responses.wrap(run.pick(None, run.token()))
        else:
            responses.take(run.pick("unwrap", "lookup", "lookup"), run.pick(None, run.token()), token)


def wrapped_creations(run):
    """Tokens whose creation is wrapped: looked up, revoked and used before and after they are handed out."""
    with_callers(run)
    run.size = run.random.randrange(8, 17)
    responses = Responses(run)
    while run.room() > 0:
        first = 0x10 * len(run.lines)
        responses.call(run.pick("POST", "PUT"), "auth/token/" + run.pick("create", "create", "create-orphan"),
                       {**asked(run, GOOD_MEMBERS, 0, 2), "policies": run.pick(["a"], ["a", "b"], [])},
                       run.pick(None, None, run.token()), run.pick(*TTLS))
        run.made.append(("hvs." + identifier(first + 1), identifier(first + 2)))
        for _ in range(run.pick(1, 2, 3)):
            way = run.random.randrange(8)
            if way < 4:
                responses.take(run.pick("unwrap", "unwrap", "lookup", "rewrap"), run.pick(None, run.token()))
            elif way < 6:
                run.look(run.token())
            else:
                run.ask("revoke-accessor", {"accessor": run.pick(run.made[-1], run.made[-1], responses.one())[1]})


def wrapping_callers(run):
    """Callers that some policies let wrap, unwrap and rewrap, with uses and with an end."""
    run.size = run.random.randrange(10, 17)
    paths = ("sys/wrapping/wrap", "sys/wrapping/unwrap", "sys/wrapping/rewrap", "sys/wrapping/lookup",
             "sys/wrapping/*", "*", "secret/*")
    for name in ("a", "b")[:run.pick(1, 1, 2)]:
        run.grant(name, {pattern: run.pick(["update"], ["update"], ["update", "create", "read"], ["deny"], ["read"], [])
                         for pattern in run.random.sample(paths, run.pick(1, 2, 3))})
    for policies in (["a"], run.pick(["b"], ["a", "b"], ["default"])):
        run.make({"policies": policies, "no_default_policy": run.pick(True, True, False),
                  "num_uses": run.pick(0, 0, 2, 3), "ttl": run.pick(0, 0, 3600)})
    responses = Responses(run)
    responses.wrap()
    while run.room() > 0:
        by = run.pick(*run.made)[0]
        way = run.random.randrange(8)
        if way < 2:
            responses.wrap(run.pick(by, by, None), None if not run.chance(5) else run.pick("", "0", "1d"))
        elif way < 6:
            name = run.pick("unwrap", "unwrap", "rewrap", "lookup")
            responses.write(name, {"token": responses.token()}, by, None if not run.chance(6) else "60")
        else:
            responses.call("GET", run.pick("secret/data/x", "auth/token/lookup-self"), None, by, run.pick(*TTLS))


def wrapping_words(run):
    """Words that are used, or needed twice, by requests with a wrap TTL and by rewraps."""
    path, responses = with_path(run)
    while run.room() > 0:
        near = 0x10 * run.random.randrange(1, len(run.lines) + 1) + run.pick(0, 0, 4, -4, 1, -1, 5, -5, 2)
        word = run.pick(None, None, near, near, run.first_word - 4, 2**128 - 5, 2**128 - 6)
        word = word if word is None else word % 2**128
        way = run.random.randrange(10)
        if way < 2:
            responses.wrap(word=word)
        elif way < 5:
            method, target, body = run.pick(("GET", path, None), ("POST", path, '{"a":1}'), ("GET", "none", None),
                                            ("POST", "auth/token/create", "{}"), ("LIST", "cubbyhole", None))
            responses.call(method, target, body, None, run.pick(*TTLS, "0"), word)
        elif way < 8:
            responses.take(run.pick("rewrap", "rewrap", "unwrap", "lookup"), word=word)
        else:
            words = eight_words(run, 0x10 * len(run.lines))
            words[6] = run.pick(words[5], words[1], words[6], words[0])
            piece = request("POST", "/v1/" + run.pick("sys/wrapping/wrap", "auth/token/create"),
                            [*run.fields(), "X-Vault-Wrap-TTL: 60"], run.pick('{"a":1}', "{}"))
            run.add({"conn": 1, "moment": run.moment, "words": words, "piece": piece})


def wrapped_credentials(run):
    """Credentials whose issue is wrapped, and their leases before and after they are handed out."""
    with_callers(run)
    run.size = run.random.randrange(11, 17)
    leases, responses = Leases(run), Responses(run)
    leases.begin(**run.pick({}, {"ttl": 60}, {"ttl": 10, "max_ttl": 20}))
    creation(run, num_uses=run.pick(None, None, 2, 1))
    mount, role = leases.mounts[0], leases.roles[0]
    while run.room() > 0:
        way = run.random.randrange(10)
        if way < 3:
            first = 0x10 * len(run.lines)
            responses.call("GET", f"{mount}/creds/{role}", None, run.pick(None, run.token()), run.pick(*TTLS))
            leases.asked.append((f"{mount}/creds/{role}/{identifier(first + 3)}", identifier(first + 4)))
        elif way < 6:
            responses.take(run.pick("unwrap", "unwrap", "unwrap", "lookup"), run.pick(None, run.token()))
        elif way < 9:
            leases.look(run.pick(None, None, run.token()))
        elif run.chance(2):
            leases.ask("sys/leases/revoke", {"lease_id": leases.lease()})
        else:
            run.ask("revoke", {"token": run.made[0][0]})


def wrapping_routes(run):
    """Methods of each route of wrapping, paths that are nearly one, and bodies that are not read."""
    longer(run)
    responses = Responses(run)
    responses.wrap()
    while run.room() > 0:
        path = "sys/wrapping/" + run.pick("wrap", "lookup", "rewrap", "unwrap")
        method = run.pick("POST", "PUT", "GET", "LIST", "DELETE", "PATCH")
        if run.chance(4):
            path = run.pick("sys/wrapping", "sys/wrapping/", path + "/x", path + "/", path + "?list=true", path[:-1],
                            "sys/wrapping/wraps", "cubbyhole/response", "wrapping/unwrap", "sys/wrapping/pubkey",
                            "sys/wrapping/un%77rap", path.replace("/wrapping", "/Wrapping"))
        body = run.pick({"token": responses.token()}, {"token": responses.token()}, *BODIES, *ODD_BODIES)
        if body is None and method in ("POST", "PUT"):
            body = run.pick(None, "null")
        responses.call(method, path, body, run.pick(None, None, responses.token()),
                       run.pick(*TTLS) if run.chance(3) else None)


def mixed_wrapping(run):
    """Responses on three connections, with tokens and secrets beside them, requests cut and pipelined."""
    with_callers(run)
    run.size = run.random.randrange(9, 17)
    creation(run, num_uses=None)
    responses = Responses(run)
    responses.wrap()
    while run.room() > 0:
        by, token = run.token(), responses.token()
        first = 0x10 * len(run.lines)
        ttl = f"X-Vault-Wrap-TTL: {run.pick(*TTLS)}"
        named = json.dumps({"token": token}, ensure_ascii=run.chance(4))
        texts = [request(method, "/v1/" + target, fields, body) for method, target, fields, body in (
            ("POST", "sys/wrapping/wrap", [*run.fields(by), ttl], run.pick(*BODIES)),
            ("POST", "sys/wrapping/unwrap", run.fields(token), None),
            ("PUT", "sys/wrapping/unwrap", run.fields(), named),
            ("POST", "sys/wrapping/rewrap", run.fields(by), named), ("POST", "sys/wrapping/lookup", ["Host: b"], named),
            ("POST", "auth/token/create", [ttl, *run.fields(by)], '{"policies":["a"],"ttl":3600}'),
            ("GET", "auth/token/lookup-self", run.fields(run.pick(by, token)), None),
            ("POST", "secret/data/a", [*run.fields(by), ttl], '{"data":{"k":1}}'),
            ("POST", "auth/token/revoke", run.fields(), named))]
        text = "".join(run.random.choices(texts, weights=(6, 6, 4, 3, 4, 3, 2, 2, 1), k=run.pick(1, 1, 2)))
        responses.asked.append(("hvs." + identifier(first + 5), identifier(first + 6)))
        connection = run.pick(1, 1, 2, 3)
        for piece in run.pieces(text, run.pick(1, 1, 1, 2)):
            run.event(piece, connection)
        if run.chance(3):
            run.event("", connection)
