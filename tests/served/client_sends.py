#!/usr/bin/env python3
"""Command lines of `client`, in front of a server that keeps the bytes of each request: what is sent, what is printed
on which stream, and the status, as docs/CLIENT.md has them.

    python3 tests/served/client_sends.py [PROGRAM]
    python3 tests/served/client_sends.py --keep CLIENT > tests/served/client_kept.json

PROGRAM, a `brokerd`, is not asked; CLIENT names another client. It tries each command and each option, bodies, members
of replies, refusals, where the token comes from, wrong command lines, and the help. client_kept.json has what version
0.2.0 sent and printed for lines that it took, with replies of all kinds: that is still so, byte for byte. With --keep
such a file is made by a program. It takes some ten seconds. The last line is 'N passed, M failed'.
"""

import json
import re
import shlex
import sys
import tempfile
from pathlib import Path

from calling import Checks, Client, Listener, client_program, reply, sent

KEPT = Path(__file__).resolve().parent / "client_kept.json"
TOKEN = "hvs.t"
LONGEST = 1_048_576  # bytes of a body

POLICY = '{"path": {"secret/data/app": {"capabilities": ["read"]}}}\n'

# Command lines, each with the method, the target and the body of its request.
REQUESTS = (
    ("read secret/data/app", "GET", "secret/data/app", None),
    ("write cubbyhole/a", "POST", "cubbyhole/a", "{}"),
    ("write cubbyhole/a '{\"k\": \"v\"}'", "POST", "cubbyhole/a", '{"k": "v"}'),
    ("write cubbyhole/a a=1 b=2", "POST", "cubbyhole/a", '{"a":"1","b":"2"}'),
    ("list secret/metadata", "LIST", "secret/metadata", None),
    ("delete secret/data/app", "DELETE", "secret/data/app", None),
    ("unwrap", "POST", "sys/wrapping/unwrap", "{}"),
    ("unwrap hvs.w", "POST", "sys/wrapping/unwrap", '{"token":"hvs.w"}'),
    ("kv get secret/app", "GET", "secret/data/app", None),
    ("kv get team/a/b --version 3", "GET", "team/data/a/b?version=3", None),
    ("kv get secret/a%2Fb", "GET", "secret/data/a%252Fb", None),
    ("kv get 'secret/a b?version=1'", "GET", "secret/data/a%20b%3Fversion%3D1", None),
    ("kv put secret/app user=app", "POST", "secret/data/app", '{"data":{"user":"app"}}'),
    ("kv put team/a/b user=app n:=5 --cas 0", "POST", "team/data/a/b",
     '{"data":{"n":5,"user":"app"},"options":{"cas":0}}'),
    ("kv put --cas 18446744073709551615 secret/app {}", "POST", "secret/data/app",
     '{"data":{},"options":{"cas":18446744073709551615}}'),
    ("kv put secret/app '{ \"user\": \"app\" }' --cas=3", "POST", "secret/data/app",
     '{"data":{"user":"app"},"options":{"cas":3}}'),
    ("kv list secret", "LIST", "secret/metadata", None),
    ("kv list secret/team/db", "LIST", "secret/metadata/team/db", None),
    ("kv delete secret/team/db", "DELETE", "secret/data/team/db", None),
    ("token create", "POST", "auth/token/create", "{}"),
    ("token create --policy app", "POST", "auth/token/create", '{"policies":["app"]}'),
    ("token create --policy b --ttl 1h --policy a --period 24h --use-limit 5", "POST", "auth/token/create",
     '{"num_uses":5,"period":"24h","policies":["b","a"],"ttl":"1h"}'),
    ("token create --orphan", "POST", "auth/token/create-orphan", "{}"),
    ("token create --orphan --period=24h", "POST", "auth/token/create-orphan", '{"period":"24h"}'),
    ("token lookup", "GET", "auth/token/lookup-self", None),
    ("token lookup --accessor 1-2", "POST", "auth/token/lookup-accessor", '{"accessor":"1-2"}'),
    ("token renew", "POST", "auth/token/renew-self", "{}"),
    ("token revoke", "POST", "auth/token/revoke-self", "{}"),
    ("token revoke --accessor 1-2", "POST", "auth/token/revoke-accessor", '{"accessor":"1-2"}'),
    ("policy write app policy.json", "POST", "sys/policies/acl/app",
     '{"policy":"{\\"path\\": {\\"secret/data/app\\": {\\"capabilities\\": [\\"read\\"]}}}\\n"}'),
    ("policy write app -", "POST", "sys/policies/acl/app",
     '{"policy":"{\\"path\\": {\\"secret/data/app\\": {\\"capabilities\\": [\\"read\\"]}}}\\n"}'),
    ("policy read app", "GET", "sys/policies/acl/app", None),
    ("policy list", "LIST", "sys/policies/acl", None),
    ("policy delete app", "DELETE", "sys/policies/acl/app", None),
    ("lease renew db/creds/app/1-2", "POST", "sys/leases/renew", '{"lease_id":"db/creds/app/1-2"}'),
    ("lease renew db/creds/app/1-2 --increment 1h", "POST", "sys/leases/renew",
     '{"increment":"1h","lease_id":"db/creds/app/1-2"}'),
    ("lease revoke db/creds/app/1-2", "POST", "sys/leases/revoke", '{"lease_id":"db/creds/app/1-2"}'),
)

# The same request with its options at other places, or with one dash.
PLACES = (
    "kv get secret/app --version 2 --field a",
    "--field a kv get secret/app --version 2",
    "kv --field=a get --version=2 secret/app",
    "kv get --version 2 --field a secret/app",
    "kv get -version 2 secret/app -field=a",
    "-field a kv get secret/app -version=2",
    "kv get --field a --version 2 -- secret/app",
    "--timeout 30 kv get secret/app --version 2 --wait 1 --field a",
    "kv get secret/app --exit-codes -timeout=86400 -wait=86400 --version 2 --field a",
)

# Words of `write`, what is on standard input, and the body that is sent.
BODIES = (
    ("user=app password=x", "", '{"password":"x","user":"app"}'),
    ("a=1 b=2 a=3", "", '{"a":"3","b":"2"}'),
    ("a=", "", '{"a":""}'),
    ("a==b=c", "", '{"a":"=b=c"}'),
    ("a.b=c", "", '{"a.b":"c"}'),
    ("'a b=c d'", "", '{"a b":"c d"}'),
    ("a=x@y b=-x", "", '{"a":"x@y","b":"-x"}'),
    ("'a=\"\\'", "", '{"a":"\\"\\\\"}'),
    ("a=é", "", '{"a":"é"}'),
    ("a=@text", "", '{"a":"two\\nlines\\n"}'),
    ("a=@text b=@text", "", '{"a":"two\\nlines\\n","b":"two\\nlines\\n"}'),
    ("a=@empty", "", '{"a":""}'),
    ("a=-", "from input\n", '{"a":"from input\\n"}'),
    ("a=- b=c", "", '{"a":"","b":"c"}'),
    ("a:=5 b:=true c:=null", "", '{"a":5,"b":true,"c":null}'),
    ("a:=18446744073709551615 b:=-9223372036854775808", "",
     '{"a":18446744073709551615,"b":-9223372036854775808}'),
    ("'a:=[1, \"x\", {\"k\": []}]'", "", '{"a":[1,"x",{"k":[]}]}'),
    ("'a:=\"x\"' b=5", "", '{"a":"x","b":"5"}'),
    ("{}", "", "{}"),
    ("'{\"a\": \"b=c\"}'", "", '{"a": "b=c"}'),
    ("'[a=b'", "", "[a=b"),
    ("'\"a=b\"'", "", '"a=b"'),
    ("' a=b'", "", " a=b"),
    ("=b", "", "=b"),
    ("a@b", "", "a@b"),
    ("null", "", "null"),
    ("-", '{"k": "v"}\n', '{"k": "v"}\n'),
    ("-", "a=b", "a=b"),
    ("@object", "", '{"k": "v"}\n'),
    ("@text", "", "two\nlines\n"),
)

REPLY = {
    "auth": {"client_token": "hvs.new", "policies": ["app", "default"]}, "request_id": "1-2", "renewable": False,
    "data": {"data": {"a.b": "dotted", "auth": "member", "empty": "", "lines": "one\ntwo", "n": 5, "none": None,
                      "o": {"k": [1, "x"]}, "user": "app", "yes": True, "ü": "ö"},
             "keys": ["a", "b/"], "metadata": {"version": 3}, "user": "another"},
    "wrap_info": {"n": 6, "token": "hvs.w", "ttl": 300},
}

# Names, and what is printed for them: None where there is no such member.
FIELDS = (
    ("user", "app"), ("data.data.user", "app"), ("data.user", "another"), ("empty", ""), ("lines", "one\ntwo"),
    ("n", "5"), ("data.data.n", "5"), ("wrap_info.n", "6"), ("none", "null"), ("yes", "true"), ("ü", "ö"),
    ("o", '{"k":[1,"x"]}'), ("data.data.o.k", '[1,"x"]'), ("keys", '["a","b/"]'), ("a.b", "dotted"),
    ("data.data.a.b", None), ("metadata", '{"version":3}'), ("data.metadata.version", "3"), ("version", None),
    ("client_token", "hvs.new"), ("policies", '["app","default"]'), ("token", "hvs.w"), ("ttl", "300"),
    ("request_id", "1-2"), ("renewable", "false"), ("auth", "member"), ("data.data.x", None),
    ("wrap_info", '{"n":6,"token":"hvs.w","ttl":300}'),
    ("data.data.user.x", None), ("x", None), ("x.y", None),
)

# Replies that refuse, what is told of them, and the status with --exit-codes.
REFUSALS = (
    ("403 Forbidden", '{"errors":["permission denied"]}\n', "403 permission denied", 4),
    ("400 Bad Request", '{"errors":["one","two"]}\n', "400 one; two", 1),
    ("404 Not Found", '{"errors":[]}\n', "404 Not Found", 5),
    ("404 Not Found", '{"data":{"data":null,"metadata":{"version":2}}}\n', "404 Not Found", 5),
    ("405 Method Not Allowed", '{"errors":["unsupported operation"]}', "405 unsupported operation", 1),
    ("500 Internal Server Error", "<html>", "500 Internal Server Error", 1),
    ("501 Not Implemented", "", "501 Not Implemented", 1),
    ("301 Moved Permanently", "", "301 Moved Permanently", 1),
)

# Command lines that are wrong.
WRONG = (
    "", "nothing", "kv", "token", "policy", "lease", "kv nothing", "token nothing", "policy nothing", "lease nothing",
    "read", "read a b", "list", "delete", "write", "read --field", "read a --field", "--nothing read a",
    "read a --cas 1", "read a --policy app", "write a --keep",
    "kv get", "kv get secret", "kv get secret/a b", "kv get secret/a --version x", "kv get secret/a --version -1",
    "kv get /secret/a", "kv delete", "kv delete secret", "kv list",
    "kv put secret/a", "kv put secret a=b", "kv put secret/a text", "kv put secret/a =b", "kv put secret/a [1]",
    "kv put secret/a a=b --cas x", "kv put secret/a a=b text", "kv put secret/a {} a=b", "kv put secret/a @text",
    "kv put secret/a a=- b=-", "kv put secret/a a:=x", "kv put secret/a a:=1.5", "kv put secret/a a:=",
    "write a b c", "write a a=b c", "write a a=- b=-", "write a a:=x",
    "token create app", "token create --ttl", "token create --use-limit x", "token create --use-limit -1",
    "token lookup 1-2", "token lookup --accessor", "token renew hvs.x", "token revoke hvs.x", "token list app",
    "policy write", "policy write app", "policy write app policy.json more", "policy read", "policy delete",
    "policy list app", "lease renew", "lease revoke", "lease renew a --increment", "lease revoke a --increment 1h",
    "read a --wait 0", "read a --wait 86401", "read a --wait x", "read a --wait", "read a --timeout 0",
    "read a --timeout 86401", "read a --timeout 1.5", "read a --timeout -1", "read a --exit-codes=1",
    "read a --token-file",
)

# First words of two, each with the command whose example stands for a second one that there is not.
GROUPS = {"kv": "kv get", "token": "token lookup", "policy": "policy read", "lease": "lease renew"}

# All commands.
EACH = ("read", "write", "list", "delete", "unwrap", "kv get", "kv put", "kv list", "kv delete", "token create",
        "token lookup", "token renew", "token revoke", "token list", "policy write", "policy read", "policy delete",
        "policy list", "lease renew", "lease revoke")

# Command lines whose last word is an option that lacks its value; the words before it would be another command.
UNVALUED = (("read unwrap --field", "--field <NAME>"), ("kv get unwrap -field", "--field <NAME>"),
            ("--field", "--field <NAME>"), ("write unwrap --token-file", "--token-file <FILE>"),
            ("read list b --timeout", "--timeout <SECONDS>"), ("token create unwrap --wrap-ttl", "--wrap-ttl <D>"))

# Command lines that name what is no text, or too long.
UNUSABLE = ("write a a=@bytes", "write a @bytes", "policy write app bytes", "read a --token-file bytes",
            "write a @long", "kv put secret/a a=@long", "policy write app long")

# Command lines that name what is no file.
UNREADABLE = ("write a @nowhere", "write a a=@nowhere", "write a a=@.", "kv put secret/a a=@nowhere",
              "kv put secret/a @nowhere", "policy write app nowhere", "policy write app @policy.json",
              "read a --token-file nowhere")

# Policies that the client does not send. The mistake is where the mark is: at the capability, or at the name of the
# member, if it is at one place.
MARK = "¦"
POLICIES = (
    '¦path "a" {}\n',
    "",
    '{"path": {"a": {"capabilities": ["read"]}}\n',
    '{"path": {"a": {"capabilities": [¦"raed"]}}}\n',
    '{"path": {\n  "a": {"capabilities": ["read"]},\n  ¦"b": {"capabilities": "read"}\n}}\n',
    '{"path": {\n  ¦"a/+/b": {"capabilities": ["read"]}}}\n',
    '{"path": {"ü": {"capabilities": ["read"],\n ¦"allowed_parameters": {}}}}\n',
    '{¦"path": []}\n',
    '{"name": "app"}\n',
)

# Command lines that version 0.2.0 took, each with variables, standard input and the reply.
FOUND, ABSENT = reply('{"data":{"data":{"user":"app"}}}\n'), reply('{"errors":[]}\n', "404 Not Found")
DONE = b"HTTP/1.1 204 No Content\r\n\r\n"
BY_OPTIONS = "--addr ADDR --token hvs.x"
BY_VARIABLES = {"VAULT_ADDR": "http://ADDR", "VAULT_TOKEN": "hvs.v"}
BEFORE = (
    (f"{BY_OPTIONS} read secret/data/app", {}, "", FOUND),
    ("--addr=ADDR --token=hvs.x read secret/data/app", {}, "", FOUND),
    ("--addr ADDR read secret/data/app", {}, "", reply('{"errors":["permission denied"]}\n', "403 Forbidden")),
    (f"{BY_OPTIONS} --wrap-ttl 5m read secret/data/app", {}, "", FOUND),
    (f"{BY_OPTIONS} --wrap-ttl=1h30m write auth/token/create", {}, "", FOUND),
    ("read secret/data/app", BY_VARIABLES, "", FOUND),
    ("read secret/data/app", {**BY_VARIABLES, "VAULT_ADDR": "http://ADDR/"}, "", ABSENT),
    ("read secret/data/app", {**BY_VARIABLES, "VAULT_TOKEN": "-abc"}, "", FOUND),
    ("read secret/data/app", {**BY_VARIABLES, "VAULT_TOKEN": ""}, "", FOUND),
    (f"{BY_OPTIONS} read secret/data/app", {"VAULT_ADDR": "http://127.0.0.1:1", "VAULT_TOKEN": "hvs.v"}, "", FOUND),
    ("read 'a b/ü?x=%2F&y+z'", BY_VARIABLES, "", FOUND),
    ("read -", BY_VARIABLES, "", ABSENT),
    ("read -- secret/data/app", BY_VARIABLES, "", FOUND),
    ("--addr ADDR --token=-field read -- -field", {}, "", FOUND),
    ("unwrap -- -w", BY_VARIABLES, "", FOUND),
    ("write cubbyhole/a -- -x", BY_VARIABLES, "", FOUND),
    ("list secret/metadata", BY_VARIABLES, "", FOUND),
    ("list secret/metadata/team/", BY_VARIABLES, "", FOUND),
    ("delete secret/metadata/app", BY_VARIABLES, "", DONE),
    ("write secret/undelete/app '{\"versions\":[2]}'", BY_VARIABLES, "", DONE),
    ("write secret/data/app '{\"data\":{\"user\":\"a=b\"}}'", BY_VARIABLES, "", FOUND),
    ("write cubbyhole/a", BY_VARIABLES, "", DONE),
    ("write cubbyhole/a ''", BY_VARIABLES, "", DONE),
    ("write cubbyhole/a ' { \"k\" : \"ü\" } '", BY_VARIABLES, "", DONE),
    ("write cubbyhole/a null", BY_VARIABLES, "", reply('{"errors":["missing data fields"]}\n', "400 Bad Request")),
    ("write cubbyhole/a text@text", BY_VARIABLES, "", reply("<html>", "500 Internal Server Error")),
    ("write cubbyhole/a -", BY_VARIABLES, '{"k":"v"}\n', DONE),
    ("write cubbyhole/a -", BY_VARIABLES, "", DONE),
    ("write - -", BY_VARIABLES, "a=b", DONE),
    ("write -- cubbyhole/a {}", BY_VARIABLES, "", DONE),
    ("unwrap", BY_VARIABLES, "", FOUND),
    ("unwrap hvs.w", BY_VARIABLES, "", FOUND),
    ("unwrap 'a\"b\\c ü'", BY_VARIABLES, "", FOUND),
    ("unwrap ''", BY_VARIABLES, "", FOUND),
    ("read secret/data/app", BY_VARIABLES, "", b"HTTP/1.1 200 OK\r\n\r\n"),
    ("read secret/data/app", BY_VARIABLES, "", b"HTTP/1.1 200 OK\r\nContent-Length: 9\r\n\r\nshort"),
    ("read secret/data/app", BY_VARIABLES, "", b"no reply\r\n\r\n"),
    ("read secret/data/app", BY_VARIABLES, "", reply(b"\xff\x00")),
)


class Tried(Checks):
    """The client in front of a server, with the files that command lines name."""

    def __init__(self, program, folder, server):
        super().__init__("client sends")
        self.server = server
        self.client = Client(program, folder, VAULT_ADDR=server.url, VAULT_TOKEN=TOKEN)
        for name, text in (("text", "two\nlines\n"), ("empty", ""), ("object", '{"k": "v"}\n'), ("bytes", b"\xff"),
                           ("long", b"x" * (LONGEST + 1)), ("policy.json", POLICY)):
            self.client.file(name, text)

    def call(self, line, *replies, given="", **variables):
        """What came of a command line, where the server gives these replies."""
        self.server.answer(*replies or (reply(),))
        return self.client(*shlex.split(line), given=given.encode(), **variables)

    def sends(self, what, said, *requests):
        """The client has sent these requests, whose last reply was good."""
        self.same(what, self.server.sent, list(requests))
        self.holds(what, said.status == 0 and said.err == b"", f"it ends with {said}")

    def request(self, method, target, body=None, token=TOKEN, **more):
        return sent(self.server.address, method, target, body, token, **more)


def requests(tried):
    """What each command sends. The body of the reply is printed, but where that has a token."""
    for line, *request in REQUESTS:
        said = tried.call(line, given=POLICY)
        tried.sends(line, said, tried.request(*request))
        tried.same(f"what {line} prints", said.out, b"" if line == "token renew" else b'{"a":1}\n')
        said = tried.call(f"{line} --wrap-ttl 5m --field a", given=POLICY)
        tried.sends(f"{line}, wrapped", said, tried.request(*request, wrap_ttl="5m"))
        tried.same(f"the field of {line}", said.out, b"1\n")
    for line in PLACES:
        said = tried.call(line)
        tried.sends(line, said, tried.request("GET", "secret/data/app?version=2"))
        tried.same(f"what {line} prints", said.out, b"1\n")
    said = tried.call("kv put secret/a -- --a=b")
    tried.sends("words after --", said, tried.request("POST", "secret/data/a", '{"data":{"--a":"b"}}'))


def lists_of_tokens(tried):
    """A line for each token, and no token. One that has ended meanwhile is left out."""
    def of(accessor):
        return tried.request("POST", "auth/token/lookup-accessor", f'{{"accessor":"{accessor}"}}')

    def token(accessor, policies, end):
        data = {"accessor": accessor, "expire_time": end, "id": "", "policies": policies, "ttl": 600 if end else 0}
        return reply(json.dumps({"data": data}))

    def keys(*accessors):
        return reply(json.dumps({"data": {"keys": accessors}}))

    ask = tried.request("LIST", "auth/token/accessors")
    ended = reply('{"errors":["invalid accessor"]}\n', "400 Bad Request")
    said = tried.call("token list", keys("1-a", "2-b"), token("1-a", ["root"], None),
                      token("2-b", ["app", "default"], "2026-11-30T21:00:00Z"))
    tried.sends("token list", said, ask, of("1-a"), of("2-b"))
    tried.same("what token list prints", said.out, b"1-a  root  never\n2-b  app,default  2026-11-30T21:00:00Z\n")
    said = tried.call("token list", keys("1-a", "2-b"), ended, token("2-b", ["app"], None))
    tried.sends("token list, of one that ends", said, ask, of("1-a"), of("2-b"))
    tried.same("what it prints then", said.out, b"2-b  app  never\n")
    said = tried.call("token list", reply('{"errors":["permission denied"]}\n', "403 Forbidden"))
    tried.same("token list, refused", (said.status, said.out, said.err), (1, b"", b"client: 403 permission denied\n"))


def bodies(tried):
    """The words of a body."""
    for words, given, body in BODIES:
        said = tried.call(f"write cubbyhole/a {words}", given=given)
        tried.sends(f"the body {words}", said, tried.request("POST", "cubbyhole/a", body))
        if "=" in words and body.startswith("{") and not words.startswith("'{"):
            said = tried.call(f"kv put secret/a {words}", given=given)
            tried.sends(f"the secret {words}", said, tried.request("POST", "secret/data/a", f'{{"data":{body}}}'))
    said = tried.call("kv put secret/a @object --cas 1")
    tried.sends("a secret of a file", said,
                tried.request("POST", "secret/data/a", '{"data":{"k":"v"},"options":{"cas":1}}'))
    said = tried.call("kv put secret/a -", given='{"k":"v"}')
    tried.sends("a secret of standard input", said, tried.request("POST", "secret/data/a", '{"data":{"k":"v"}}'))
    longest = " " * LONGEST
    tried.client.file("longest", longest)
    tried.sends("the longest body", tried.call("write a @longest"), tried.request("POST", "a", longest))


def fields(tried):
    """The members of a reply."""
    found = reply(json.dumps(REPLY))
    for name, wanted in FIELDS:
        said = tried.call(f"read a --field {name}", found)
        told = (0, f"{wanted}\n", "") if wanted is not None else (1, "", f"client: no field {name}\n")
        tried.same(f"--field {name}", (said.status, said.out.decode(), said.err.decode()), told)
    for line, body in (("read a --field a", "<html>"), ("kv get a/b --field a", ""), ("read a --field a", '{"a":1')):
        said = tried.call(line, reply(body))
        tried.same(f"a field of {body!r}", (said.status, said.out, said.err), (1, b"", b"bad reply\n"))
    for line in ("write a b=c --field d", "kv delete a/b --field d", "token revoke --field d"):
        said = tried.call(line, DONE)
        tried.same(f"{line}, without content", (said.status, said.out, said.err), (1, b"", b"client: no field d\n"))


def refusals(tried):
    """A refusal is told on standard error, in the new form; else its body is printed, as ever."""
    for status, body, told, code in REFUSALS:
        refusal, line = reply(body, status), f"client: {told}\n".encode()
        for words in ("read a --field b", "kv get secret/a", "write a --wait 1", "token create", "read a --timeout 5",
                      "token renew", "policy list", "lease revoke a", "kv put secret/a b=c --field d"):
            said = tried.call(words, refusal)
            tried.same(f"{words} and {status}", (said.status, said.out, said.err), (1, b"", line))
        said = tried.call("read a --exit-codes", refusal)
        tried.same(f"--exit-codes and {status}", (said.status, said.out, said.err), (code, b"", line))
        said = tried.call("read a", refusal)
        tried.same(f"the old form and {status}", (said.status, said.out, said.err), (1, body.encode(), b""))
    said = tried.call("write a b=c", reply('{"errors":["no"]}\n', "400 Bad Request"))
    tried.same("members alone are the old form", (said.status, said.out, said.err), (1, b'{"errors":["no"]}\n', b""))


def asked_with(tried, what, token, line="kv get secret/app", **variables):
    """The client sends this token, and warns of nothing."""
    tried.sends(what, tried.call(line, VAULT_TOKEN=None, **variables),
                tried.request("GET", "secret/data/app", token=token))


def tokens(tried):
    """Where the token comes from. Of two places the first one counts."""
    client, path = tried.client, "kv get secret/app"
    asked_with(tried, "no token", None)
    home = client.file(".vault-token", "hvs.home\nhvs.other\n")
    asked_with(tried, "the file of the home", "hvs.home")
    asked_with(tried, "no home", None, HOME=None)
    client.file("named", "hvs.named\n")
    client.file("given", "hvs.given")
    asked_with(tried, "VAULT_TOKEN_FILE", "hvs.named", VAULT_TOKEN_FILE="named")
    asked_with(tried, "an empty VAULT_TOKEN_FILE", "hvs.home", VAULT_TOKEN_FILE="")
    for line in (f"--token-file given {path}", f"{path} -token-file=given"):
        asked_with(tried, line, "hvs.given", line, VAULT_TOKEN_FILE="named")
    variable = tried.call(f"{path} --token-file given", VAULT_TOKEN="hvs.v", VAULT_TOKEN_FILE="named")
    tried.sends("VAULT_TOKEN", variable, tried.request("GET", "secret/data/app", token="hvs.v"))
    option = tried.call(f"{path} --token hvs.o --token-file given", VAULT_TOKEN="hvs.v", VAULT_TOKEN_FILE="named")
    tried.sends("--token", option, tried.request("GET", "secret/data/app", token="hvs.o"))
    asked_with(tried, "the old form", "hvs.home", "read secret/data/app")
    asked_with(tried, "an empty VAULT_TOKEN", "hvs.given", f"{path} --token-file given")
    home.unlink()


def files_of_tokens(tried):
    """Files that others can read are used with a warning; what is no token is not."""
    client, path = tried.client, "kv get secret/app"
    for mode in (0o644, 0o640, 0o604, 0o620, 0o601):
        client.file("open", "hvs.open\n", mode)
        said = tried.call(f"{path} --token-file open", VAULT_TOKEN=None)
        tried.same(f"mode {mode:o}", tried.server.sent, [tried.request("GET", "secret/data/app", token="hvs.open")])
        is_told = said.err.startswith(b"client: warning: ") and said.err.count(b"\n") == 1 and b"hvs." not in said.err
        tried.holds(f"the warning of mode {mode:o}", is_told and said.status == 0, str(said))
    said = tried.call(f"{path} --token-file open", VAULT_TOKEN="hvs.v")
    tried.sends("a file that is not used", said, tried.request("GET", "secret/data/app", token="hvs.v"))
    for mode in (0o600, 0o400, 0o700):
        client.file("closed", "hvs.closed\n").chmod(mode)
        asked_with(tried, f"mode {mode:o}", "hvs.closed", f"{path} --token-file closed")
        (client.folder / "closed").unlink()
    client.file("spaces", "hvs.a b\n")
    client.file("line", "\nhvs.second\n")
    client.file("much", "x" * 2000)
    for name in ("nowhere", "empty", "bytes", "spaces", "line", "much", "."):
        for line, variables in ((f"{path} --token-file {name}", {}), (path, {"VAULT_TOKEN_FILE": name})):
            said = tried.call(line, VAULT_TOKEN=None, **variables)
            is_refused = (said.status, said.out, tried.server.sent) == (2, b"", []) and said.err.startswith(b"client: ")
            tried.holds(f"the token file {name} {variables or ''}", is_refused, f"{said}, {tried.server.sent}")
    for token in ("hvs.a b", "hvs.ü", "x" * 1025):
        said = tried.call(path, VAULT_TOKEN=token)
        is_refused = (said.status, said.out, tried.server.sent) == (2, b"", []) and said.err.startswith(b"client: ")
        tried.holds(f"the token {token[:10]}", is_refused, f"{said}, {tried.server.sent}")


def example_for(tried, line):
    """The example that is right for a command line: that of its command's help; where the client has no such command,
    that of another one with its first word, or of `kv get`."""
    words = [word for word in shlex.split(line) if not word.startswith("-")]
    name = " ".join(words[:2 if words[:1] and words[0] in GROUPS else 1])
    found = re.search(r"^Example: .*$", tried.call(f"{name} --help").out.decode(), re.MULTILINE)
    if found is None or name == "":
        return example_for(tried, GROUPS.get(name.split(" ")[0], "kv get"))
    return found[0]


def has_example(tried, told, example, server=""):
    """Whether what is told ends in this example, and has one alone; the example is sent."""
    lines = told.decode().splitlines()
    examples = [line for line in lines if line.startswith("Example")]
    return lines[-1:] == examples == [example.replace("Example: ", f"Example: {server}")]


def examples(tried):
    """Each example is a command line that is sent. Where no server is known, it names one."""
    for name, text in (("app.json", POLICY), ("password", "p w"), ("wrapping-token", "hvs.w\n")):
        tried.client.file(name, text)
    for name in EACH:
        line = example_for(tried, name)
        words = shlex.split(line, comments=True)[2:]
        said = tried.call(shlex.join(words), VAULT_TOKEN=None)
        tried.holds(line, said.status in (0, 1) and len(tried.server.sent) == 1, f"{said}, sent {tried.server.sent}")
        tried.holds(f"the command of {line}", re.fullmatch(rf"Example: client (?:--\S+ \S+ )*{name}\b.*", line), name)
        said = tried.call(f"{name} --nothing", VAULT_ADDR=None)
        is_told = has_example(tried, said.err, line, "VAULT_ADDR=http://127.0.0.1:8200 ")
        tried.holds(f"{name}, without a server", said.status == 2 and is_told, str(said))
    for line, option in UNVALUED:
        said = tried.call(line)
        is_told = f"a value is required for '{option}" in said.err.decode() and tried.server.sent == []
        tried.holds(f"'{line}', which lacks a value", is_told, f"{said}, sent {tried.server.sent}")


def wrong_lines(tried):
    """Wrong command lines are told with an example that is right; nothing is sent."""
    for line in WRONG:
        said = tried.call(line, given="x")
        is_usage = said.status == 2 and said.out == b"" and tried.server.sent == []
        tried.holds(f"the line '{line}'", is_usage, f"{said}, sent {tried.server.sent}")
        if said.err.startswith(b"client: "):
            is_told = re.search(rb"such as|as in|: .*: ", said.err)
        else:
            is_told = has_example(tried, said.err, example_for(tried, line))
        tried.holds(f"what is right for '{line}'", is_told, str(said))
    for line in UNREADABLE:
        said, name = tried.call(line, VAULT_TOKEN=None), line.split()[-1].rpartition("=")[2]
        name = name if line.startswith("policy") else name.removeprefix("@")
        is_told = re.fullmatch(rf"client: {re.escape(name)}: .*\S.*\n", said.err.decode())
        tried.holds(f"the line '{line}'", is_told and (said.status, said.out, tried.server.sent) == (2, b"", []),
                    f"{said}, sent {tried.server.sent}")
    for line in UNUSABLE:
        said, name = tried.call(line, VAULT_TOKEN=None), re.split("[ =@]", line)[-1]
        is_told = said.err.startswith(f"client: {name} is ".encode())
        tried.holds(f"the line '{line}'", is_told and (said.status, said.out, tried.server.sent) == (2, b"", []),
                    f"{said}, sent {tried.server.sent}")
    for line in ("write a a=- b=-", "kv put secret/a a=- b=-"):
        told = tried.call(line).err
        tried.holds(f"what '{line}' tells", told.startswith(b"client: standard input is named twice: "), str(told))
    said = tried.call("read a", VAULT_ADDR="https://127.0.0.1:8200")
    tried.holds("https", said.status == 2 and b"TLS" in said.err, str(said))


def policies(tried):
    """A policy that a broker would refuse is not sent, and the client says what is wrong where."""
    for marked in POLICIES:
        text, (before, mark, _) = marked.replace(MARK, ""), marked.partition(MARK)
        place = (before.count("\n") + 1, len(before.rpartition("\n")[2].encode()) + 1) if mark else None
        tried.client.file("wrong", text)
        for line in ("policy write app wrong", "policy write app -"):
            said = tried.call(line, given=text)
            is_refused = (said.status, said.out, tried.server.sent) == (2, b"", [])
            tried.holds(f"{line} of {text!r}", is_refused, f"{said}, sent {tried.server.sent}")
            told = re.fullmatch(rf"client: {line.split()[-1]}:(\d+):(\d+): .*\S.*\n", said.err.decode())
            has_place = told and (place is None or (int(told[1]), int(told[2])) == place)
            tried.holds(f"the place in {text!r}", has_place, f"{said} in place of {place}")


def help_of(tried):
    """The help has each command, with an example that has no token."""
    commands = {" ".join(line.split()[:1 if line.split()[0] not in ("kv", "token", "policy", "lease") else 2])
                for line, *_ in REQUESTS} | {"token list"}
    said = tried.call("--help", VAULT_ADDR="https://nowhere")
    tried.same("the status of --help", (said.status, said.err, tried.server.sent), (0, b"", []))
    examples = said.out.decode().partition("Examples:")[2]
    tried.holds("the examples", not re.search(r"hvs\.|--token[ =]", examples), "they have a token")
    for command in sorted(commands):
        one = rf"\bclient (?:--\S+ \S+ )*{command}(?!\S)"
        tried.holds(f"the example of {command}", re.search(one, examples), "there is none")
        said = tried.call(f"{command} --help")
        is_right = said.status == 0 and said.err == b"" and not re.search(rb"hvs\.|--token[ =]", said.out)
        has_one = re.search(rf"Example: {one}", said.out.decode())
        tried.holds(f"{command} --help", is_right and has_one, str(said))
        tried.same(f"help {command}", tried.call(f"help {command}"), said)
    for line in ("--version", "-V"):
        said = tried.call(line)
        tried.holds(line, said.status == 0 and re.fullmatch(rb"client \d+\.\d+\.\d+\n", said.out), str(said))


def outputs(tried):
    """What cannot be printed."""
    for line in ("read a", "read a --field a", "kv get secret/a", "token renew --field a"):
        tried.server.answer(reply())
        with open("/dev/full", "wb") as full:
            said = tried.client(*line.split(), stdout=full)
        tried.same(f"{line}, on a full disk", (said.status, said.err), (1, b"fault 6\n"))


def kept(tried):
    """What version 0.2.0 sent and printed is what is sent and printed."""
    wanted = [json.loads(line) for line in KEPT.read_text(encoding="utf-8").splitlines()]
    tried.same("the lines of the file", [it["line"] for it in wanted], [line for line, *_ in BEFORE])
    for case, was in zip(BEFORE, wanted):
        tried.same(f"as before: {case[0]}", taken_down(tried, *case), was)


def taken_down(tried, line, variables, given, answer):
    """What a program sends and prints for a command line, with ADDR in place of the server's address."""
    address = tried.server.address
    tried.server.answer(answer)
    variables = {"VAULT_ADDR": None, "VAULT_TOKEN": None,
                 **{name: value.replace("ADDR", address) for name, value in variables.items()}}
    said = tried.client(*shlex.split(line.replace("ADDR", address)), given=given.encode(), **variables)
    texts = {"sent": b"".join(tried.server.sent).replace(address.encode(), b"ADDR"), "out": said.out, "err": said.err}
    return {"line": line, "status": said.status, **{name: text.decode("latin-1") for name, text in texts.items()}}


def main():
    is_kept = sys.argv[1:2] == ["--keep"]
    program = sys.argv[2] if is_kept else client_program()
    with tempfile.TemporaryDirectory() as folder, Listener() as server:
        tried = Tried(program, folder, server)
        if is_kept:
            print("".join(f"{json.dumps(taken_down(tried, *case))}\n" for case in BEFORE), end="")
            return 0
        for part in (requests, lists_of_tokens, bodies, fields, refusals, tokens, files_of_tokens, wrong_lines,
                     examples, policies, help_of, outputs, kept):
            part(tried)
    return tried.end()


if __name__ == "__main__":
    sys.exit(main())
