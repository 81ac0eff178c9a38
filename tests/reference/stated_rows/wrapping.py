"""Rows of response wrapping."""

import json

from .tools import (BAD_JSON, BAD_PATH, DENIED, FIRST_BODY, MALFORMED, ROOT, USED, expand, ident, policy, request, row,
                    set_policy_p)

NO_DURATION = "invalid duration"
NO_RESPONSE = "wrapping token is not valid or does not exist"
NOT_WRAPPED = "response wrapping is required"


def unwrap(r, token, **more):
    """Unwraps by the wrapping token as the client token."""
    return r.post("sys/wrapping/unwrap", None, token=token, **more)


def wrapped_read(r):
    """The first run's write, and its read wrapped for five seconds."""
    r.ask("PUT", "cubbyhole/a", '{"k":"v"}').is_(204)
    r.get("cubbyhole/a", wrap="5").is_(200, data=None, auth=None, wrap_info={
        "accessor": "#26", "creation_path": "cubbyhole/a", "creation_time": "1970-01-01T00:01:40Z",
        "token": "hvs.#25", "ttl": 5})


def is_first_body(got):
    assert got.status == 200 and got.body.decode() == expand(FIRST_BODY) and len(got.body) == 167


@row("A secret is wrapped, handed on, looked up and unwrapped once (`examples/wrapping.replay`)", "tokens", "secrets",
     "policies", "wrapping", start=1700000000)
def life_of_a_response(r):
    r.post("secret/data/team/db", {"data": {"password": "new"}}).is_(200)
    r.post("sys/policies/acl/deploy", policy({"secret/data/team/db": ["read"]})).is_(204)
    r.post("auth/token/create", {"policies": ["deploy"], "ttl": "2h"}, at=1700000060).is_(200).has(
        "auth", client_token="hvs.#31")
    r.get("secret/data/team/db", token="hvs.#31", wrap="5m", at=1700000120).is_(200, data=None, wrap_info={
        "accessor": "#46", "creation_path": "secret/data/team/db", "creation_time": "2023-11-14T22:15:20Z",
        "token": "hvs.#45", "ttl": 300})
    app = {"conn": 2, "at": 1700000150}
    r.post("sys/wrapping/lookup", None, token="hvs.#45", **app).is_(200, data={
        "creation_path": "secret/data/team/db", "creation_time": "2023-11-14T22:15:20Z", "creation_ttl": 300})
    unwrap(r, "hvs.#45", **app).is_(200, request_id="#40", wrap_info=None).has("data", data={"password": "new"})
    unwrap(r, "hvs.#45", **app).refused(400, NO_RESPONSE)


@row("A wrapped reply is handed out once, byte for byte", "wrapping", start=100)
def wrapped_reply_once(r):
    wrapped_read(r)
    is_first_body(unwrap(r, "hvs.#25", at=104))
    unwrap(r, "hvs.#25", at=104).refused(400, NO_RESPONSE)


@row("A wrapped reply that is unwrapped too late", "wrapping", start=100)
def wrapped_reply_too_late(r):
    wrapped_read(r)
    unwrap(r, "hvs.#25", at=105).refused(400, NO_RESPONSE)


def rewrapped_read(r):
    wrapped_read(r)
    r.post("sys/wrapping/rewrap", None, token="hvs.#25", at=104).is_(200, wrap_info={
        "accessor": "#36", "creation_path": "cubbyhole/a", "creation_time": "1970-01-01T00:01:44Z",
        "token": "hvs.#35", "ttl": 5})
    unwrap(r, "hvs.#25", at=104).refused(400, NO_RESPONSE)


@row("A rewrapped reply moves to a new token, with its time anew", "wrapping", start=100)
def rewrapped_reply(r):
    rewrapped_read(r)
    is_first_body(unwrap(r, "hvs.#35", at=108))


@row("A rewrapped reply that is unwrapped too late", "wrapping", start=100)
def rewrapped_reply_too_late(r):
    rewrapped_read(r)
    unwrap(r, "hvs.#35", at=109).refused(400, NO_RESPONSE)


@row("A wrapped creation, revoked by the wrapping token's accessor", "tokens", "wrapping")
def wrapped_creation_revoked(r):
    r.post("auth/token/create", {}, wrap="60").is_(200, auth=None, data=None).has(
        "wrap_info", wrapped_accessor="#12", accessor="#16", token="hvs.#15", creation_path="auth/token/create")
    r.post("auth/token/revoke-accessor", {"accessor": "#16"}).is_(204)
    unwrap(r, "hvs.#15").refused(400, NO_RESPONSE)
    r.list("auth/token/accessors").is_(200, data={"keys": ["#2", "#12"]})


@row("A use is spent by a 500, and a last use may wrap", "tokens", "wrapping")
def used_words_refused(r):
    r.post("auth/token/create", {"policies": ["default"], "num_uses": 2}).is_(200)
    r.post("sys/wrapping/wrap", {"a": 1}, token="hvs.#11", wrap="5", words=0xC).refused(
        500, USED)
    r.post("sys/wrapping/wrap", {"a": 1}, token="hvs.#11", wrap="5", words=0x30).is_(200).has(
        "wrap_info", token="hvs.#35", creation_path="sys/wrapping/wrap")
    r.whoami("hvs.#11").refused(403, DENIED)
    unwrap(r, "hvs.#35").is_(200, data={"a": 1}, request_id="#30")


@row("Durations as a wrap TTL", "tokens", "wrapping")
def wrap_durations(r):
    r.get("auth/token/lookup-self", wrap="1h30m").is_(200).has("wrap_info", ttl=5400)
    r.get("auth/token/lookup-self", wrap="1d").refused(400, NO_DURATION)
    r.get("auth/token/lookup-self", wrap="0").is_(200, wrap_info=None).has("data", id="hvs.#1")


def wrap_one(r):
    r.post("sys/wrapping/wrap", {"a": 1}, wrap="5").is_(200).has("wrap_info", token="hvs.#15")


@row("Look-up of a wrapping token without a client token", "wrapping", start=100)
def wrapping_lookup_without_caller(r):
    wrap_one(r)
    r.post("sys/wrapping/lookup", {"token": "hvs.#15"}, token=None).is_(200, data={
        "creation_path": "sys/wrapping/wrap", "creation_time": "1970-01-01T00:01:40Z", "creation_ttl": 5})


@row("A wrapping token that is used as client token is spent", "wrapping", start=100)
def wrapping_token_as_caller(r):
    wrap_one(r)
    r.get("cubbyhole/a", token="hvs.#15").refused(403, DENIED)
    r.post("sys/wrapping/unwrap", {"token": "hvs.#15"}, token=None).refused(403, DENIED)
    r.post("sys/wrapping/unwrap", {"token": "hvs.#15"}).refused(400, NO_RESPONSE)
    unwrap(r, "hvs.#15").refused(400, NO_RESPONSE)


@row("Unwrap by the client token, with no body", "wrapping", start=100)
def unwrap_by_client_token(r):
    wrap_one(r)
    unwrap(r, "hvs.#15").is_(200, data={"a": 1}, request_id="#10")


@row("`wrap` without a TTL", "wrapping", start=100)
def wrap_without_ttl(r):
    r.post("sys/wrapping/wrap", {"a": 1}).refused(400, NOT_WRAPPED)


@row("A 404 is not wrapped and takes no identifier", "wrapping", start=100)
def not_found_is_not_wrapped(r):
    r.get("cubbyhole/a", wrap="5").refused(404)
    r.post("sys/wrapping/wrap", {"a": 1}, wrap="5", words=0x10).is_(200).has("wrap_info", token="hvs.#15")


@row("Rewrapped again and again, a moment that goes back among them", "wrapping", start=100)
def rewrapped_three_times(r):
    wrapped_read(r)

    def rewrap(token, at):
        return r.post("sys/wrapping/rewrap", None, token=token, at=at)

    rewrap("hvs.#25", 104).is_(200).has("wrap_info", token="hvs.#35", creation_time="1970-01-01T00:01:44Z")
    got = rewrap("hvs.#35", 90).is_(200).has("wrap_info", token="hvs.#45", creation_time="1970-01-01T00:01:44Z")
    assert got.fields["Date"] == "Thu, 01 Jan 1970 00:01:30 GMT"
    rewrap("hvs.#45", 108).is_(200).has("wrap_info", token="hvs.#55", creation_time="1970-01-01T00:01:48Z")
    is_first_body(unwrap(r, "hvs.#55", at=112))
    unwrap(r, "hvs.#55", at=112).refused(400, NO_RESPONSE)


@row("Rewrap by root, refused once for a used identifier", "wrapping", start=100)
def rewrap_with_used_words(r):
    wrapped_read(r)
    r.post("sys/wrapping/rewrap", {"token": "hvs.#25"}, words=0x20).refused(500, USED)
    r.post("sys/wrapping/rewrap", {"token": "hvs.#25"}, words=0x40).is_(200).has("wrap_info", token="hvs.#45")


@row("A waiting response outlives the token that made it", "tokens", "wrapping", start=100)
def waiting_outlives_its_maker(r):
    r.post("auth/token/create", {"policies": ["default"]}).is_(200)
    r.post("sys/wrapping/wrap", {"a": 1}, token="hvs.#11", wrap="5").is_(200)
    r.post("auth/token/revoke", {"token": "hvs.#11"}).is_(204)
    unwrap(r, "hvs.#25", at=104).is_(200, data={"a": 1})


@row("A lease in a kept text ended with its token", "tokens", "policies", "mounts", "wrapping")
def lease_in_a_kept_text(r):
    set_policy_p(r).is_(204)
    r.post("sys/mounts/db", {"type": "issued"}).is_(204)
    r.post("db/roles/r", {}).is_(204)
    r.post("auth/token/create", {"policies": ["p"]}).is_(200)
    r.get("db/creds/r", token="hvs.#41", wrap="60").is_(200, lease_id="", lease_duration=0, renewable=False)
    r.post("auth/token/revoke", {"token": "hvs.#41"}).is_(204)
    unwrap(r, "hvs.#55").is_(200, lease_id="db/creds/r/#53", lease_duration=2764800, renewable=True)
    r.post("sys/leases/lookup", {"lease_id": "db/creds/r/#53"}).refused(400, "invalid lease")


@row("Two words that are needed and equal", "tokens", "wrapping", "lines")
def equal_words(r):
    r.get("auth/token/lookup-self", wrap="5", words=[0x10, 0x11, 0x12, 0x13, 0x14, 0x15, 0x15, 0x17]).refused(
        500, USED)


def wrap_it(r, ttl="60", **more):
    """A waiting response; its wrapping token."""
    return r.post("sys/wrapping/wrap", {"a": 1}, wrap=ttl, **more).is_(200)["wrap_info"]["token"]


@row("Requests about wrapping tokens whose body cannot be read", "wrapping")
def wrapping_with_bad_bodies(r):
    # unwrap and rewrap: the wrapping token is then a client token, and spent
    for path in ("unwrap", "rewrap"):
        for body in ("{", '{"token":1}', '{"token":[]}', "[]"):
            token = wrap_it(r)
            r.post(f"sys/wrapping/{path}", body, token=token).refused(403, DENIED)
            r.post("sys/wrapping/unwrap", None, token=token).refused(400, NO_RESPONSE)
    # by another caller the body is told of, and nothing is lost
    token = wrap_it(r)
    r.post("sys/wrapping/unwrap", "{").refused(400, BAD_JSON)
    r.post("sys/wrapping/unwrap", '{"token":1}').refused(400, "invalid field: token")
    r.post("sys/wrapping/unwrap", "{", token=None).refused(403, DENIED)
    # lookup asks no caller, whatever its body
    r.post("sys/wrapping/lookup", "{", token=token).refused(400, BAD_JSON)
    r.post("sys/wrapping/lookup", '{"token":1}', token=token).refused(400, "invalid field: token")
    r.post("sys/wrapping/lookup", "{", token=None).refused(400, BAD_JSON)
    r.get("sys/wrapping/lookup", token="x").refused(403, DENIED)
    unwrap(r, token).is_(200, data={"a": 1})


@row("Which token an unwrap means", "wrapping")
def tokens_of_unwraps(r):
    def ask(path, body=None, token=None):
        return r.post(f"sys/wrapping/{path}", body, token=token)

    for path in ("unwrap", "rewrap", "lookup"):
        ask(path).refused(400, NO_RESPONSE)
        ask(path, {"token": ""}).refused(400, NO_RESPONSE)
        ask(path, {"token": None}, ROOT).refused(400, NO_RESPONSE)
        ask(path, {"token": ROOT}, ROOT).refused(400, NO_RESPONSE)
        ask(path, {}, "nobody").refused(400, NO_RESPONSE)
        ask(path, {"token": "x"}, ROOT).refused(400, NO_RESPONSE)
    for path in ("unwrap", "rewrap"):
        ask(path, {"token": "x"}).refused(403, DENIED)
        ask(path, {"token": "x"}, "nobody").refused(403, DENIED)
    ask("lookup", {"token": "x"}).refused(400, NO_RESPONSE)
    for body in (None, "null", {}, {"token": ""}, {"token": None}):
        ask("unwrap", body, wrap_it(r)).is_(200, data={"a": 1})
    token = wrap_it(r)
    ask("unwrap", {"token": token}, token).is_(200, data={"a": 1})
    token = wrap_it(r)
    ask("unwrap", {"token": token}, ROOT).is_(200, data={"a": 1})
    # a wrapping token that names another one is spent, the other is not
    one, two = wrap_it(r), wrap_it(r)
    ask("unwrap", {"token": two}, one).refused(403, DENIED)
    ask("unwrap", None, one).refused(400, NO_RESPONSE)
    ask("lookup", {"token": two}, one).is_(200)
    ask("lookup", None, two).is_(200)
    ask("unwrap", None, two).is_(200)


@row("Callers of unwrap with limited uses", "tokens", "policies", "wrapping")
def unwraps_by_limited_callers(r):
    r.post("auth/token/create", {"policies": ["default"], "num_uses": 2}).is_(200)
    token = wrap_it(r)
    # as client token of an open ask nothing is spent
    r.post("sys/wrapping/unwrap", None, token="hvs.#11").refused(400, NO_RESPONSE)
    r.post("sys/wrapping/lookup", {"token": token}, token="hvs.#11").is_(200)
    r.post("sys/wrapping/unwrap", {"token": "x"}, token="hvs.#11").refused(400, NO_RESPONSE)
    r.post("sys/wrapping/rewrap", {"token": token}, token="hvs.#11").refused(403, DENIED)
    r.whoami("hvs.#11").refused(403, DENIED)
    r.post("sys/wrapping/unwrap", {"token": token}).is_(200, data={"a": 1})


@row("The wrap TTL: forms, its greatest, and where it is ignored", "tokens", "wrapping")
def forms_of_wrap_ttls(r):
    for text, ttl in (("1", 1), ("0005", 5), ("1h1s", 3601), ("2764801", 2764800), ("4294967295", 2764800)):
        r.whoami(ROOT, wrap=text).is_(200).has("wrap_info", ttl=ttl)
    for text in ("", "0", "0s", "0h0m"):
        r.whoami(ROOT, wrap=text).is_(200, wrap_info=None)
    for text in ("4294967296", "1x", "-1", "1h ago", "1.5", "5;"):
        r.whoami(ROOT, wrap=text).refused(400, NO_DURATION)
    token = wrap_it(r)
    r.post("sys/wrapping/lookup", None, token=token, wrap="5", words=2**128 - 4).is_(200, wrap_info=None)
    r.post("sys/wrapping/rewrap", None, token=token, wrap="5").is_(200).has("wrap_info", ttl=60)
    new = r.last_made(5)
    # read before the route is known
    r.post("sys/wrapping/unwrap", None, token=new, wrap="1d").refused(400, NO_DURATION)
    r.post("sys/wrapping/unwrap", None, token=new, wrap="5", words=2**128 - 4).is_(200, data={"a": 1})
    # a 204 is not wrapped and takes no words, but needs fresh ones
    r.post("cubbyhole/a", {"a": 1}, wrap="5", words=2**128 - 4).refused(500, USED)
    r.get("cubbyhole/a").refused(404)
    r.post("cubbyhole/a", {"a": 1}, wrap="5", words=0x7770).is_(204)
    r.get("cubbyhole/a", wrap="5", words=0x7770).is_(200).has("wrap_info", token="hvs.#7775")


@row("What of a reply is kept, and what the caller gets", "tokens", "secrets", "mounts", "wrapping")
def kept_replies(r):
    r.post("sys/mounts/db", {"type": "issued"}).is_(204)
    r.post("db/roles/r", {"ttl": 60}).is_(204)
    got = r.get("db/creds/r", wrap="9").is_(200, auth=None, data=None, lease_duration=0, lease_id="", renewable=False)
    assert got["wrap_info"] == expand({"accessor": "#36", "creation_path": "db/creds/r",
                                       "creation_time": "1970-01-01T00:16:40Z", "token": "hvs.#35", "ttl": 9})
    unwrap(r, "hvs.#35", wrap="7").is_(200, data={"credential": "#34"}, lease_id="db/creds/r/#33", request_id="#30",
                                       wrap_info=None)
    got = r.post("auth/token/create-orphan/", {"ttl": 60}, wrap="9").is_(200)
    assert got["wrap_info"] == expand({
        "accessor": "#56", "creation_path": "auth/token/create-orphan", "creation_time": "1970-01-01T00:16:40Z",
        "token": "hvs.#55", "ttl": 9, "wrapped_accessor": "#52"})
    # a renewal makes no token
    got = r.post("auth/token/renew", {"token": "hvs.#51"}, wrap="9").is_(200)
    assert "wrapped_accessor" not in got["wrap_info"]
    r.post("sys/wrapping/rewrap", {"token": "hvs.#55"}).is_(200)
    assert "wrapped_accessor" not in json.loads(r.replies[-1].partition(b"\r\n\r\n")[2])["wrap_info"]
    r.post("sys/wrapping/wrap", None, wrap="9").is_(200)
    unwrap(r, "hvs.#85").is_(200, data={})
    # a deleted version is a 404, which is not wrapped
    r.post("secret/data/x", {"data": {}}).is_(200)
    r.delete("secret/data/x").is_(204)
    r.get("secret/data/x", wrap="9").is_(404).has("data", data=None)


@row("Wrapping tokens on the routes of tokens", "tokens", "wrapping")
def wrapping_tokens_among_tokens(r):
    token = wrap_it(r)
    accessor = "#16"
    r.list("auth/token/accessors").is_(200, data={"keys": ["#2"]})
    r.post("auth/token/lookup", {"token": token}).refused(403, "bad token")
    r.post("auth/token/renew", {"token": token}).refused(403, "bad token")
    r.post("auth/token/lookup-accessor", {"accessor": accessor}).refused(400, "invalid accessor")
    r.post("auth/token/revoke-accessor", {"accessor": token}).refused(400, "invalid accessor")
    r.post("sys/wrapping/lookup", {"token": accessor}).refused(400, NO_RESPONSE)
    r.post("auth/token/revoke-accessor", {"accessor": accessor}).is_(204)
    r.post("auth/token/revoke-accessor", {"accessor": accessor}).refused(400, "invalid accessor")
    for call in ("revoke", "revoke-orphan"):
        token = wrap_it(r)
        r.post(f"auth/token/{call}", {"token": token}).is_(204)
        unwrap(r, token).refused(400, NO_RESPONSE)
    # a client token that is one is spent on any path, even one that is not there
    token = wrap_it(r)
    r.get("no/route", token=token).refused(403, DENIED)
    unwrap(r, token).refused(400, NO_RESPONSE)
    # and by a wrapped ask too
    token = wrap_it(r)
    r.post("sys/wrapping/wrap", {"b": 2}, token=token, wrap="5").refused(403, DENIED)
    unwrap(r, token).refused(400, NO_RESPONSE)
    # an ask that is refused before it is an ask leaves it
    token = wrap_it(r)
    r.get("a//b", token=token).refused(400, BAD_PATH)
    unwrap(r, token).is_(200)


@row("The wrap TTL twice, or not UTF-8: refused, and the connection stays", "tokens", "lines", "wrapping")
def two_wrap_ttls(r):
    r.whoami(ROOT, wrap="5", fields=("X-Vault-Wrap-TTL: 5",)).refused(400, MALFORMED)
    r.whoami(ROOT, wrap="", fields=("x-vault-wrap-ttl: 5",)).refused(400, MALFORMED)
    r.whoami(ROOT, wrap="1d", fields=("X-Vault-Wrap-TTL: 1d",)).refused(400, MALFORMED)
    r.raw(b"GET /v1/a//b HTTP/1.1\r\nHost: b\r\nX-Vault-Token: hvs." + ident(1).encode()
          + b"\r\nX-Vault-Wrap-TTL: 5\xff\r\n\r\n", 1).refused(400, MALFORMED)
    # before the target is looked at
    r.event(request("GET", "/v2/x", wrap="5", fields=("X-Vault-Wrap-TTL: 5",))).refused(400, MALFORMED)
    r.whoami(ROOT, wrap="5").is_(200).has("wrap_info", token="hvs.#65", ttl=5)


@row("A wrap TTL that is no duration is told after the path, and before the client token", "tokens", "wrapping")
def wrap_ttl_that_is_no_duration(r):
    r.post("auth/token/create", {"policies": ["default"], "num_uses": 1, "ttl": 60}).is_(200)
    r.event(request("GET", "/v2/x", wrap="1d")).refused(404)
    r.event(request("GET", "/v1/a//b", wrap="1d")).refused(400, BAD_PATH)
    r.get("no/route", token=None, wrap="1d").refused(400, NO_DURATION)
    r.post("cubbyhole/a", "{", wrap="5 m").refused(400, NO_DURATION)
    # it spends no use, and moves no clock
    r.whoami("hvs.#11", wrap="1.5h", at=1060).refused(400, NO_DURATION)
    r.whoami("hvs.#11", at=1059).is_(200).has("data", num_uses=0, ttl=1)
    r.event(request("PATCH", "/v1/a", wrap="1d")).refused(501, closing=True)


@row("A wrap TTL above 32 days is cut to them", "tokens", "wrapping")
def longest_wrap_ttl(r):
    r.whoami(ROOT, wrap="769h").is_(200).has("wrap_info", token="hvs.#15", ttl=2764800)
    r.post("sys/wrapping/lookup", {"token": "hvs.#15"}, at=2765799).is_(200).has("data", creation_ttl=2764800)
    r.post("sys/wrapping/lookup", {"token": "hvs.#15"}, at=2765800).refused(400, NO_RESPONSE)


@row("A wrap TTL that is 0 or empty: the reply is not wrapped, and words 5 and 6 are not needed", "wrapping")
def wrap_ttl_of_zero(r):
    r.ask("PUT", "cubbyhole/a", '{"k":"v"}', wrap="0").is_(204)
    for text in ("0", "", "0s"):
        # its word 5 is that of the root token
        r.get("cubbyhole/a", wrap=text, words=2**128 - 4).is_(200, data={"k": "v"}, wrap_info=None)
    r.get("cubbyhole/a", wrap="1", words=2**128 - 4).refused(500, USED)
    r.post("sys/wrapping/wrap", {"a": 1}, wrap="0").refused(400, NOT_WRAPPED)
    r.post("sys/wrapping/wrap", {"a": 1}, wrap="").refused(400, NOT_WRAPPED)


@row("A deleted version is a 404 with an object: not wrapped, and its words stay unused", "secrets", "wrapping")
def deleted_version_is_not_wrapped(r):
    r.post("secret/data/x", {"data": {"a": 1}}).is_(200)
    r.delete("secret/data/x", wrap="60").is_(204)
    r.get("secret/data/x", wrap="60").is_(404, wrap_info=None, request_id="#30").has("data", data=None)
    r.post("sys/wrapping/wrap", {"b": 2}, wrap="60", words=0x30).is_(200).has("wrap_info", token="hvs.#35")


@row("A wrapped creation: the accessor of the token, and the token when it is unwrapped", "tokens", "wrapping")
def wrapped_creation(r):
    r.post("auth/token/create", {"ttl": 100}, wrap="60").is_(
        200, auth=None, data=None, lease_duration=0, renewable=False, request_id="#10", wrap_info={
            "accessor": "#16", "creation_path": "auth/token/create", "creation_time": "1970-01-01T00:16:40Z",
            "token": "hvs.#15", "ttl": 60, "wrapped_accessor": "#12"})
    r.post("auth/token/lookup-accessor", {"accessor": "#12"}).is_(200).has("data", id="", creation_ttl=100)
    # the text is that of the creation, although less of the token's time is left
    unwrap(r, "hvs.#15", at=1040).is_(200, data=None, request_id="#10", wrap_info=None).has(
        "auth", client_token="hvs.#11", accessor="#12", lease_duration=100)
    r.whoami("hvs.#11", at=1040).is_(200).has("data", ttl=60)
    unwrap(r, "hvs.#15", at=1040).refused(400, NO_RESPONSE)


@row("A wrapping token as client token of other requests: 403, and the response is gone", "wrapping")
def wrapping_token_on_other_requests(r):
    for method, path, body in (
            ("GET", "cubbyhole/a", None), ("LIST", "cubbyhole", None), ("POST", "cubbyhole/a", {"a": 1}),
            ("DELETE", "cubbyhole/a", None), ("GET", "sys/wrapping/lookup", None), ("GET", "sys/wrapping/unwrap", None),
            ("LIST", "sys/wrapping/rewrap", None), ("POST", "sys/wrapping/wrap", {"a": 1}),
            ("POST", "sys/wrapping/unwrap/x", None), ("POST", "sys/wrapping", None), ("POST", "no/route", "{")):
        token = wrap_it(r)
        r.ask(method, path, body, token=token).refused(403, DENIED)
        r.post("sys/wrapping/lookup", {"token": token}).refused(400, NO_RESPONSE)
    # a slash at the end is not of the path
    token = wrap_it(r)
    r.post("sys/wrapping/lookup/", None, token=token).is_(200)
    r.post("sys/wrapping/unwrap/", None, token=token).is_(200, data={"a": 1})


@row("A request that needs no caller spends no use of its client token", "tokens", "policies", "wrapping")
def open_requests_spend_no_use(r):
    r.post("auth/token/create", {"policies": ["none"], "no_default_policy": True, "num_uses": 2}).is_(200)
    token = wrap_it(r)
    r.post("sys/wrapping/lookup", {"token": token}, token="hvs.#11").is_(200)
    for path in ("lookup", "rewrap", "unwrap"):
        r.post(f"sys/wrapping/{path}", None, token="hvs.#11").refused(400, NO_RESPONSE)
        r.post(f"sys/wrapping/{path}", {"token": "hvs.#11"}, token="hvs.#11").refused(400, NO_RESPONSE)
    r.post("auth/token/lookup", {"token": "hvs.#11"}).is_(200).has("data", num_uses=2)
    r.post("sys/wrapping/unwrap", {"token": token}, token="hvs.#11").refused(403, DENIED)
    r.post("auth/token/lookup", {"token": "hvs.#11"}).is_(200).has("data", num_uses=1)
    unwrap(r, token).is_(200, data={"a": 1})


@row("An unwrap by a caller who names the token: it needs the policy, and spends a use", "tokens", "policies",
     "wrapping")
def unwrap_by_a_caller(r):
    r.post("sys/policies/acl/q", policy({"secret/*": ["read"]})).is_(204)
    r.post("auth/token/create", {"policies": ["q"], "no_default_policy": True}).is_(200)
    r.post("auth/token/create", {"policies": ["default"], "num_uses": 2}).is_(200)
    token = wrap_it(r)
    r.post("sys/wrapping/unwrap", {"token": token}, token="hvs.#21").refused(403, DENIED)
    # `default` allows unwrap, and not rewrap
    r.post("sys/wrapping/rewrap", {"token": token}, token="hvs.#31").refused(403, DENIED)
    r.post("sys/wrapping/unwrap", {"token": token}, token="hvs.#31").is_(200, data={"a": 1}, request_id="#40")
    r.whoami("hvs.#31").refused(403, DENIED)
    r.post("sys/wrapping/unwrap", {"token": token}).refused(400, NO_RESPONSE)


@row("A rewrap that is refused leaves the response with its token", "wrapping", start=100)
def refused_rewrap(r):
    wrapped_read(r)
    r.post("sys/wrapping/rewrap", None, token="hvs.#25", words=0x20).refused(500, USED)
    r.post("sys/wrapping/rewrap", {"token": "hvs.#25"}, words=0x20, at=103).refused(500, USED)
    r.post("sys/wrapping/lookup", {"token": "hvs.#25"}).is_(200, data={
        "creation_path": "cubbyhole/a", "creation_time": "1970-01-01T00:01:40Z", "creation_ttl": 5})
    is_first_body(unwrap(r, "hvs.#25", at=104))


@row("A response whose time is over is gone, for every request that names it", "tokens", "wrapping", start=100)
def ended_responses(r):
    short, long = wrap_it(r, "5"), wrap_it(r, "6")
    r.post("sys/wrapping/lookup", {"token": short}, at=104).is_(200)
    r.post("sys/wrapping/lookup", {"token": short}, at=105).refused(400, NO_RESPONSE)
    # the clock does not go back
    for path in ("lookup", "unwrap", "rewrap"):
        r.post(f"sys/wrapping/{path}", {"token": short}, at=104).refused(400, NO_RESPONSE)
        r.post(f"sys/wrapping/{path}", None, token=short, at=104).refused(400, NO_RESPONSE)
    r.post("auth/token/revoke-accessor", {"accessor": "#16"}).refused(400, "invalid accessor")
    r.get("cubbyhole/a", token=short).refused(403, DENIED)
    # its identifiers stay used
    r.post("sys/wrapping/wrap", {"b": 2}, wrap="5", words=0x10).refused(500, USED)
    unwrap(r, long, at=105).is_(200, data={"a": 1})


@row("Wrapping tokens revoked by their texts and by their accessors", "tokens", "wrapping")
def revoked_wrapping_tokens(r):
    one, two, three = wrap_it(r), wrap_it(r), wrap_it(r)
    r.post("auth/token/revoke", {"token": one}).is_(204)
    unwrap(r, one).refused(400, NO_RESPONSE)
    r.post("auth/token/revoke", {"token": one}).is_(204)
    r.post("auth/token/revoke-accessor", {"accessor": "#26"}).is_(204)
    unwrap(r, two).refused(400, NO_RESPONSE)
    r.post("auth/token/revoke-accessor", {"accessor": "#26"}).refused(400, "invalid accessor")
    unwrap(r, three).is_(200, data={"a": 1}, request_id="#30")


@row("A wrapped credential: its lease runs from its issue on", "tokens", "mounts", "wrapping")
def wrapped_credential(r):
    r.post("sys/mounts/db", {"type": "issued"}).is_(204)
    r.post("db/roles/r", {"ttl": 60}).is_(204)
    r.get("db/creds/r", wrap="5m").is_(200, data=None, lease_duration=0, lease_id="", renewable=False).has(
        "wrap_info", creation_path="db/creds/r", token="hvs.#35", ttl=300)
    r.post("db/verify", {"credential": "#34"}, at=1059).is_(200, data={"valid": True})
    # the text stays as it was
    unwrap(r, "hvs.#35", at=1060).is_(200, data={"credential": "#34"}, lease_id="db/creds/r/#33", lease_duration=60,
                                      renewable=True)
    r.post("db/verify", {"credential": "#34"}, at=1060).is_(200, data={"valid": False})


@row("A wrapped list has the names of its time, and its path no query", "secrets", "queries", "wrapping")
def wrapped_list(r):
    r.post("secret/data/team/x", {"data": {}}).is_(200)
    r.get("secret/metadata/team?list=true", wrap="60").is_(200, data=None).has(
        "wrap_info", creation_path="secret/metadata/team", token="hvs.#25")
    r.list("cubbyhole", wrap="60").refused(404)
    r.post("secret/data/team/y", {"data": {}}).is_(200)
    unwrap(r, "hvs.#25").is_(200, data={"keys": ["x"]}, request_id="#20")


@row("A wrapped secret is handed out as it was read, although it is destroyed by then", "secrets", "wrapping")
def wrapped_secret(r):
    r.post("secret/data/x", {"data": {"password": "p"}}).is_(200)
    r.get("secret/data/x", wrap="60").is_(200, data=None).has(
        "wrap_info", creation_path="secret/data/x", token="hvs.#25")
    r.post("secret/destroy/x", {"versions": [1]}).is_(204)
    r.get("secret/data/x").is_(404).has("data", data=None)
    unwrap(r, "hvs.#25", at=1059).is_(200, data={"data": {"password": "p"}, "metadata": {
        "created_time": "1970-01-01T00:16:40Z", "custom_metadata": None, "deletion_time": "", "destroyed": False,
        "version": 1}})


@row("An object that is wrapped: its names ascend, and what is null stays", "wrapping")
def wrapped_object(r):
    r.post("sys/wrapping/wrap", '{"z": 1, "a": {"y": null, "b": []}, "z": "\\u00e9"}', wrap="60").is_(200)
    assert '"data":{"a":{"b":[],"y":null},"z":"é"}' in unwrap(r, "hvs.#15").is_(200).body.decode()
    r.post("sys/wrapping/wrap", '{"a":1.5}', wrap="60").refused(400, BAD_JSON)
    r.post("sys/wrapping/wrap", "[]", wrap="60").refused(400, BAD_JSON)
