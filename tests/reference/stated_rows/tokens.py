"""Rows of tokens: creation, look-up, renewal, expiry, uses and revocation."""

from .tools import BAD_JSON, BAD_PATH, DENIED, NO_SUDO, ROOT, USED, expand, policy, request, row, set_policy_p


@row("A token is created, looked up, renewed and revoked, and is then denied (`examples/tokens.replay`)", "tokens",
     start=1700000000)
def life_of_a_token(r):
    r.post("auth/token/create", {"policies": ["app"], "ttl": "1h"}).is_(200).has(
        "auth", client_token="hvs.#11", accessor="#12", policies=["app", "default"], lease_duration=3600)
    r.whoami("hvs.#11", at=1700000600).is_(200).has("data", ttl=3000)
    r.post("auth/token/renew-self", {"increment": "2h"}, token="hvs.#11", at=1700001800).is_(200).has(
        "auth", lease_duration=7200)
    r.post("auth/token/revoke", {"token": "hvs.#11"}, at=1700001860).is_(204)
    r.whoami("hvs.#11", at=1700001860).refused(403, DENIED)


@row("A token revoked on one connection while half of its request is there on another", "tokens", start=1700000000)
def revoked_between_halves(r):
    r.post("auth/token/create", {}, conn=9).is_(200).has("auth", client_token="hvs.#11")
    whole = request("GET", "/v1/auth/token/lookup-self", token="hvs.#11")
    r.event(whole[:40], conn=1).nothing()
    r.post("auth/token/revoke", {"token": "hvs.#11"}, conn=2).is_(204)
    r.event(whole[40:], conn=1).refused(403, DENIED).is_(403)
    assert len(r.replies[-1].partition(b"\r\n\r\n")[2]) == 33


@row("A child made as an orphan stays when its maker's line is revoked", "tokens", "policies")
def orphan_survives(r):
    set_policy_p(r).is_(204)
    r.post("auth/token/create", {"policies": ["p"]}).is_(200).has(
        "auth", client_token="hvs.#21", policies=["default", "p"])
    r.post("auth/token/create", {}, token="hvs.#21").is_(200).has("auth", client_token="hvs.#31", orphan=False)
    r.post("auth/token/create-orphan", {}, token="hvs.#31").is_(200).has("auth", client_token="hvs.#41", orphan=True)
    r.post("auth/token/revoke", {"token": "hvs.#21"}).is_(204)
    r.whoami("hvs.#41").is_(200)
    r.whoami("hvs.#31").refused(403, DENIED)
    r.whoami("hvs.#21").refused(403, DENIED)


@row("`revoke-orphan` ends one token and leaves its children without a parent", "tokens", "policies")
def freed_child_survives(r):
    set_policy_p(r).is_(204)
    r.post("auth/token/create", {"policies": ["p"]}).is_(200)
    r.post("auth/token/create", {}, token="hvs.#21").is_(200)
    r.post("auth/token/create-orphan", {}, token="hvs.#31").is_(200)
    r.post("auth/token/revoke-orphan", {"token": "hvs.#21"}).is_(204)
    r.whoami("hvs.#21").refused(403, DENIED)
    r.whoami("hvs.#31").is_(200)
    r.post("auth/token/lookup-accessor", {"accessor": "#32"}).is_(200).has("data", id="", orphan=True)


@row("A refused request spends a use too, and the last use ends the token", "tokens", "policies")
def limited_uses_spent_by_refusal(r):
    r.post("auth/token/create", {"policies": ["default"], "num_uses": 2}).is_(200).has("auth", num_uses=2)
    r.get("secret/data/x", token="hvs.#11").refused(403, DENIED)
    r.whoami("hvs.#11").is_(200).has("data", num_uses=0, expire_time="1970-02-02T00:16:40Z", ttl=2764800)
    r.whoami("hvs.#11").refused(403, DENIED)


@row("A token that has ended stays ended when a later event has an earlier moment", "tokens")
def clock_never_goes_back(r):
    r.post("auth/token/create", {"ttl": 10}).is_(200).has("auth", lease_duration=10)
    r.whoami(ROOT, at=1010).is_(200)
    got = r.whoami("hvs.#11", at=1005).refused(403, DENIED)
    assert got.fields["Date"] == "Thu, 01 Jan 1970 00:16:45 GMT"


@row("A token renews itself, up to its explicit maximum", "tokens")
def renew_self_limits(r):
    r.post("auth/token/create", {"ttl": 100, "explicit_max_ttl": 150}).is_(200).has("auth", lease_duration=100)
    r.post("auth/token/renew-self", {}, token="hvs.#11", at=1040).is_(200).has("auth", lease_duration=100)
    r.whoami("hvs.#11", at=1040).is_(200).has("data", expire_time="1970-01-01T00:19:00Z")
    r.post("auth/token/renew-self", {"increment": 500}, token="hvs.#11", at=1060).is_(200).has(
        "auth", lease_duration=90)
    r.whoami("hvs.#11", at=1060).is_(200).has("data", expire_time="1970-01-01T00:19:10Z")


@row("A token without an end is not renewed", "tokens")
def root_not_renewable(r):
    r.post("auth/token/renew-self", {}).refused(400, "lease is not renewable")


@row("Words that would give an identifier out a second time: 500, and nothing is made", "tokens")
def identifier_twice(r):
    r.post("auth/token/create", {}).is_(200)
    got = r.post("auth/token/create", {}, words=0x10).refused(500, USED)
    assert got.fields["Content-Length"] == "39"
    r.list("auth/token/accessors").is_(200, data={"keys": ["#2", "#12"]})


@row("A token of one use is served once", "tokens")
def one_use(r):
    r.post("auth/token/create", {"num_uses": 1}).is_(200)
    r.whoami("hvs.#11").is_(200).has("data", num_uses=0)
    r.whoami("hvs.#11").refused(403, DENIED)


@row("A token of limited uses makes no child", "tokens")
def restricted_child(r):
    r.post("auth/token/create", {"num_uses": 2}).is_(200)
    r.post("auth/token/create", {}, token="hvs.#11").refused(
        400, "restricted use token cannot generate child tokens")


@row("Only a token with the policy `root` makes root tokens", "tokens", "policies")
def root_child_refused(r):
    set_policy_p(r).is_(204)
    r.post("auth/token/create", {"policies": ["p"]}).is_(200)
    r.post("auth/token/create", {"policies": ["root"]}, token="hvs.#21").refused(
        400, "only a root token can create root tokens")


@row("A chain of 200 tokens, each made by the one before, goes with its first", "tokens")
def chain_of_200(r):
    parent = ROOT
    for k in range(1, 201):
        r.post("auth/token/create", {}, token=parent).is_(200)
        parent = f"hvs.#{0x10 * k + 1:x}"
    assert len(r.list("auth/token/accessors").is_(200)["data"]["keys"]) == 201
    r.post("auth/token/revoke", {"token": "hvs.#11"}).is_(204)
    r.list("auth/token/accessors").is_(200, data={"keys": ["#2"]})


@row("Empty and unknown texts where a token or an accessor is named", "tokens")
def unknown_tokens(r):
    r.post("auth/token/create", {}).is_(200)
    for text in ("", "x", "hvs.#12", "#11", "HVS.#11"):
        r.post("auth/token/lookup", {"token": text}).refused(403, "bad token")
        r.post("auth/token/renew", {"token": text}).refused(403, "bad token")
        r.post("auth/token/revoke", {"token": text}).is_(204)
        r.post("auth/token/revoke-orphan", {"token": text}).is_(204)
    for text in ("", "x", "hvs.#11", "#11"):
        r.post("auth/token/revoke-accessor", {"accessor": text}).refused(400, "invalid accessor")
        r.post("auth/token/lookup-accessor", {"accessor": text}).refused(400, "invalid accessor")
    r.list("auth/token/accessors").is_(200, data={"keys": ["#2", "#12"]})
    r.post("auth/token/revoke-accessor", {"accessor": "#12"}).is_(204)
    r.list("auth/token/accessors").is_(200, data={"keys": ["#2"]})


@row("Of several refusals of a creation the first is told", "tokens", "policies")
def order_of_creation_refusals(r):
    set_policy_p(r, NO_SUDO, "n").is_(204)
    set_policy_p(r).is_(204)
    r.post("auth/token/create", {"policies": ["n"], "num_uses": 9}).is_(200)   # limited: hvs.#31
    r.post("auth/token/create", {"policies": ["n"]}).is_(200)                  # no sudo: hvs.#41
    r.post("auth/token/create", {"policies": ["p"]}).is_(200)                  # sudo: hvs.#51
    all_wrong = {"policies": ["a b", "root", "x"], "no_parent": True}

    def create(token, body, path="create"):
        return r.post(f"auth/token/{path}", body, token=token)

    create("hvs.#31", all_wrong).refused(400, "restricted use token cannot generate child tokens")
    create("hvs.#41", all_wrong).refused(400, "invalid name")
    create(ROOT, {"policies": [""]}).refused(400, "invalid name")
    create(ROOT, {"policies": ["x" * 129]}).refused(400, "invalid name")
    create("hvs.#41", {**all_wrong, "policies": ["root", "x"]}).refused(400, "only a root token can create root tokens")
    create("hvs.#51", {"policies": ["root"]}).refused(400, "only a root token can create root tokens")
    create("hvs.#41", {**all_wrong, "policies": ["x"]}).refused(400, "child policies must be subset of parent")
    create("hvs.#51", {"policies": ["x"]}).is_(200).has("auth", policies=["default", "x"])
    create("hvs.#41", {"policies": ["n"], "no_parent": True}).refused(
        400, "root or sudo privileges required to create orphan token")
    create("hvs.#41", {"policies": ["n"], "no_parent": True}, "create-orphan").is_(200).has("auth", orphan=True)
    create("hvs.#41", {"no_default_policy": True}).is_(200).has("auth", policies=["n"])
    create("hvs.#41", {"policies": ["default"], "no_default_policy": True}).is_(200).has("auth", policies=[])


@row("Root tokens with an end and without", "tokens")
def expiring_root(r):
    r.post("auth/token/create", {"ttl": 100}).is_(200).has("auth", policies=["root"], renewable=True)
    expiring = "expiring root tokens cannot create non-expiring root tokens"
    r.post("auth/token/create", {}, token="hvs.#11").refused(400, expiring)
    r.post("auth/token/create-orphan", {"policies": ["root"]}, token="hvs.#11").refused(400, expiring)
    r.post("auth/token/create", {"ttl": 5000000}, token="hvs.#11").is_(200).has("auth", lease_duration=2764800)
    r.post("auth/token/create", {"explicit_max_ttl": 7}, token="hvs.#11").is_(200).has("auth", lease_duration=7)
    r.post("auth/token/create", {"policies": ["x"]}, token="hvs.#11").is_(200).has("auth", lease_duration=2764800)
    got = r.whoami(ROOT).is_(200, data={
        "accessor": "#2", "creation_time": 1000, "creation_ttl": 0, "expire_time": None, "explicit_max_ttl": 0,
        "id": "hvs.#1", "issue_time": "1970-01-01T00:16:40Z", "meta": None, "num_uses": 0, "orphan": True,
        "policies": ["root"], "renewable": False, "ttl": 0, "type": "service"})
    assert list(got["data"]) == sorted(got["data"])


@row("A parent's end takes its children along, but no orphan", "tokens")
def ends_of_families(r):
    r.post("auth/token/create", {"ttl": 10}).is_(200)
    r.post("auth/token/create", {"ttl": 100}, token="hvs.#11").is_(200)
    r.post("auth/token/create", {"ttl": 100}, token="hvs.#21").is_(200)
    r.post("auth/token/create-orphan", {"ttl": 100}, token="hvs.#21").is_(200)
    r.whoami("hvs.#31", at=1009).is_(200)
    r.whoami("hvs.#31", at=1010).refused(403, DENIED)
    r.whoami("hvs.#41", at=1010).is_(200)
    r.list("auth/token/accessors", at=1010).is_(200, data={"keys": ["#2", "#42"]})


@row("A revocation reaches every generation, and stops at orphans", "tokens")
def every_generation(r):
    for parent in (ROOT, "hvs.#11", "hvs.#21", "hvs.#31"):
        r.post("auth/token/create", {}, token=parent).is_(200)
    r.post("auth/token/create", {"no_parent": True}, token="hvs.#31").is_(200).has("auth", orphan=True)
    r.post("auth/token/create", {}, token="hvs.#51").is_(200)
    r.post("auth/token/revoke-accessor", {"accessor": "#22"}).is_(204)
    r.list("auth/token/accessors").is_(200, data={"keys": ["#2", "#12", "#52", "#62"]})
    r.whoami("hvs.#61").is_(200)


@row("`default` is added for a caller that has `sudo` on the path, and for one that has `default` itself",
     "tokens", "policies")
def added_default(r):
    set_policy_p(r).is_(204)
    set_policy_p(r, NO_SUDO, "n").is_(204)

    def create(body, token=ROOT):
        return r.post("auth/token/create", body, token=token).is_(200)["auth"]["policies"]

    assert create({"policies": ["p"], "no_default_policy": True}) == ["p"]                    # hvs.#31
    assert create({"policies": ["n"], "no_default_policy": True}) == ["n"]                    # hvs.#41
    assert create({"policies": ["p"]}, "hvs.#31") == ["default", "p"]
    assert create({}, "hvs.#31") == ["p"]
    assert create({"policies": ["n"]}, "hvs.#41") == ["n"]
    assert create({"policies": "n,default"}) == ["default", "n"]                              # hvs.#81
    assert create({"policies": ["n"]}, "hvs.#81") == ["default", "n"]
    assert create({"policies": ["n"], "no_default_policy": True}, "hvs.#81") == ["n"]
    assert create({}, "hvs.#81") == ["default", "n"]


@row("Tokens that revoke themselves", "tokens", "policies")
def tokens_that_end_themselves(r):
    set_policy_p(r).is_(204)

    def make(uses, token=ROOT):
        r.post("auth/token/create", {"policies": ["p"], "num_uses": uses}, token=token).is_(200)

    make(0)  # hvs.#21
    make(0, "hvs.#21")  # hvs.#31
    r.post("auth/token/revoke-self", None, token="hvs.#21").is_(204)
    r.whoami("hvs.#31").refused(403, DENIED)
    make(1)  # hvs.#61
    r.post("auth/token/revoke-self", {}, token="hvs.#61").is_(204)
    make(0)  # hvs.#81
    make(0, "hvs.#81")  # hvs.#91
    r.post("auth/token/revoke-orphan", {"token": "hvs.#81"}, token="hvs.#81").is_(204)
    r.whoami("hvs.#81").refused(403, DENIED)
    r.whoami("hvs.#91").is_(200).has("data", orphan=True)
    r.post("auth/token/revoke", {"token": ROOT}, token="hvs.#91").is_(204)
    r.whoami(ROOT).refused(403, DENIED)
    r.whoami("hvs.#91").is_(200)


@row("The last use of a token: what it still does", "tokens", "queries", "policies", "wrapping")
def last_uses(r):
    def make():
        return r.post("auth/token/create", {"policies": ["default"], "num_uses": 1}).is_(200)

    make()
    r.post("cubbyhole/a", {"a": 1}, token="hvs.#11").is_(204)
    assert not [key for key in r.broker.rows() if key[0] == 5]
    make()
    r.post("auth/token/renew-self", {}, token="hvs.#31").is_(200).has("auth", num_uses=0, lease_duration=2764800)
    r.whoami("hvs.#31").refused(403, DENIED)
    make()
    r.get("no/route", token="hvs.#61").refused(403, DENIED)
    r.whoami("hvs.#61").refused(403, DENIED)
    make()
    r.get("cubbyhole/none", token="hvs.#91").refused(404)
    r.whoami("hvs.#91").refused(403, DENIED)
    make()
    r.post("cubbyhole/a", "{", token="hvs.#c1").refused(400, BAD_JSON)
    r.whoami("hvs.#c1").refused(403, DENIED)
    make()
    r.get("cubbyhole/a?version=", wrap="1d", token="hvs.#f1").refused(400, "invalid duration")
    r.get("cubbyhole/a//", token="hvs.#f1").refused(400, BAD_PATH)
    r.whoami("hvs.#f1").is_(200).has("data", num_uses=0)
    r.post("auth/token/create", {"policies": ["default"], "num_uses": 5}).is_(200)
    r.post("auth/token/lookup", {"token": "hvs.#131"}).is_(200).has("data", num_uses=5)


@row("Renewals of another token, by numbers and by texts, up to the longest life", "tokens")
def renewals(r):
    r.post("auth/token/create", {"ttl": "1h", "policies": ["x"]}).is_(200)

    def renew(body, at):
        return r.post("auth/token/renew", {"token": "hvs.#11", **body}, at=at).is_(200)["auth"]

    assert renew({"increment": "30m"}, 2000)["lease_duration"] == 1800
    assert renew({"increment": "0"}, 2000)["lease_duration"] == 3600
    assert renew({"increment": 1}, 2000)["lease_duration"] == 1
    assert renew({"increment": 4294967295}, 2000)["lease_duration"] == 2763800
    got = renew({}, 2000)
    assert got == expand({
        "accessor": "#12", "client_token": "hvs.#11", "entity_id": "", "lease_duration": 3600, "metadata": None,
        "num_uses": 0, "orphan": False, "policies": ["default", "x"], "renewable": True,
        "token_policies": ["default", "x"], "token_type": "service"})


@row("Words that are used already: which of them count, and what a refusal leaves", "tokens", "lines")
def fresh_words(r):
    def create(words, **more):
        return r.post("auth/token/create", {}, words=words, **more)

    create([9, 20, 20, 1, 1, 1, 1, 1]).refused(500, USED)
    create([9, 1, 20, 1, 1, 1, 1, 1]).refused(500, USED)
    create([9, 20, 2, 1, 1, 1, 1, 1]).refused(500, USED)
    create([1, 20, 21, 1, 1, 1, 1, 1]).is_(200, request_id="#1")
    # a wrapped reply needs words 5 and 6 too
    wraps = r.serves("wrapping")
    create([9, 22, 23, 1, 1, 22, 24, 1], wrap="5").is_(500 if wraps else 200)
    create([9, 22, 23, 1, 1, 24, 24, 1], wrap="5").refused(500, USED)
    create([9, 22, 23, 1, 1, 24, 25, 1], wrap="5").is_(200 if wraps else 500)
    for n in (20, 21, 22, 23):
        create([9, n, 99, 0, 0, 0, 0, 0]).refused(500, USED)
    create([9, 24, 99, 0, 0, 0, 0, 0]).is_(500 if wraps else 200)
    create([9, 25, 99, 0, 0, 0, 0, 0]).refused(500, USED)
    create([9, 9, 0, 0, 0, 0, 0, 0]).is_(200)
    r.get("cubbyhole/a", words=[1] * 8).refused(404)
    r.get("cubbyhole/a", words=[9, 0, 0, 0, 0, 30, 30, 0], wrap="5").is_(500 if wraps else 404)
    # words of revoked tokens stay used
    r.post("auth/token/revoke", {"token": "hvs.#14"}).is_(204)
    create([9, 0x14, 99, 0, 0, 0, 0, 0]).refused(500, USED)
    create(2**128 - 3).is_(200).has("auth", client_token="hvs.ffffffff-ffff-ffff-ffff-fffffffffffe",
                                    accessor="ffffffff-ffff-ffff-ffff-ffffffffffff")


@row("The greatest moment, and moments that go back", "tokens", start=0)
def moments(r):
    got = r.whoami(ROOT, at=250_000_000_000).is_(200)
    assert got.fields["Date"] == "Tue, 08 Mar 9892 12:26:40 GMT"
    r.post("auth/token/create", {"ttl": "768h"}, at=0).is_(200)
    r.whoami("hvs.#21", at=0).is_(200).has("data", issue_time="9892-03-08T12:26:40Z", creation_time=250_000_000_000)
    assert r.replies[-1].split(b"\r\n")[1] == b"Date: Thu, 01 Jan 1970 00:00:00 GMT"


@row("A periodic token is renewed by its period", "tokens", "periods")
def periodic_token(r):
    r.post("auth/token/create", {"period": 60, "ttl": 10}).is_(200).has("auth", lease_duration=60)
    r.post("auth/token/renew-self", {"increment": 5}, token="hvs.#11", at=1050).is_(200).has(
        "auth", lease_duration=60)
    r.whoami("hvs.#11", at=1110).refused(403, DENIED)


@row("A service renews a periodic token for longer than 32 days (`examples/periods.replay`)", "tokens", "periods",
     start=1700000000)
def life_of_a_service(r):
    r.post("auth/token/create-orphan", {"policies": ["app"], "period": "240h"}).is_(200).has(
        "auth", client_token="hvs.#11", policies=["app", "default"], lease_duration=864000, orphan=True)
    for days in (9, 18, 27):
        r.post("auth/token/renew-self", None, token="hvs.#11", at=1700000000 + days * 86400).is_(200).has(
            "auth", lease_duration=864000)
    r.whoami("hvs.#11", at=1703110400).is_(200).has(
        "data", creation_ttl=864000, period=864000, ttl=86400, expire_time="2023-12-21T22:13:20Z")
    r.whoami("hvs.#11", at=1703196800).refused(403, DENIED)


@row("A periodic token with an explicit maximum", "tokens", "periods")
def periodic_token_with_maximum(r):
    r.post("auth/token/create", {"period": 60, "ttl": 10, "explicit_max_ttl": 100}).is_(200).has(
        "auth", lease_duration=60)
    r.post("auth/token/renew-self", {"increment": 5}, token="hvs.#11", at=1050).is_(200).has(
        "auth", lease_duration=50)


@row("The longest period", "tokens", "periods")
def longest_period(r):
    r.post("auth/token/create", {"period": "800h"}).is_(200).has("auth", lease_duration=2764800)
    r.post("auth/token/renew-self", {}, token="hvs.#11", at=2001000).is_(200).has("auth", lease_duration=2764800)
    r.whoami("hvs.#11", at=3000000).is_(200).has(
        "data", expire_time="1970-02-25T03:50:00Z", period=2764800)


@row("A period needs root or sudo", "tokens", "policies", "periods")
def period_needs_sudo(r):
    r.post("sys/policies/acl/c", policy({"auth/token/create": ["update"]})).is_(204)
    r.post("auth/token/create", {"policies": ["c"]}).is_(200).has("auth", policies=["c", "default"])
    r.post("auth/token/create", {"period": 60}, token="hvs.#21").refused(
        400, "root or sudo privileges required to create periodic token")


@row("Periods in every form, their refusals, and root tokens with one", "tokens", "periods")
def forms_of_periods(r):
    def create(body, token=ROOT):
        return r.post("auth/token/create", body, token=token)

    create({"period": "1h"}).is_(200).has("auth", policies=["root"], lease_duration=3600, renewable=True)
    create({}, "hvs.#11").refused(400, "expiring root tokens cannot create non-expiring root tokens")
    create({"period": 5}, "hvs.#11").is_(200).has("auth", lease_duration=5)
    create({"period": 0}).is_(200).has("auth", renewable=False)
    create({"period": "", "ttl": 9}).is_(200).has("auth", lease_duration=9)
    create({"period": 4294967296}).refused(400, "invalid field: period")
    create({"period": "1d"}).refused(400, "invalid field: period")
    create({"period": 4294967295, "policies": ["x"]}).is_(200).has("auth", lease_duration=2764800)
    r.whoami("hvs.#81").is_(200).has("data", period=2764800, creation_ttl=2764800)
    got = r.whoami("hvs.#51").is_(200)
    assert "period" not in got["data"]
    r.post("auth/token/renew-self", {"increment": -1}, token="hvs.#81").refused(400, "invalid field: increment")
    got = r.post("auth/token/lookup-accessor", {"accessor": "#82"}).is_(200)
    assert list(got["data"]) == sorted(got["data"]) and got["data"]["period"] == 2764800
