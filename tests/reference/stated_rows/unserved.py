"""Rows of what is not served so far: each goes, or changes, when its part is served."""

from .tools import BAD_PATH, DENIED, NO_METHOD, NO_SUDO, ROOT, policy, request, row


@row("Paths, escapes and fields, most of them not served so far, and queries", until=("wrapping",))
def unserved_routes(r):
    decoding = r.serves("decoding")
    r.post("cubbyhole/a", {"a": 1}).is_(204)
    routes_of_parts(r)
    r.post("sys/wrapping/lookup", {"token": "x"}, token=None).refused(403, DENIED)
    queries_of_parts(r)
    r.event(request("GET", "/v2/x?%")).refused(404)
    r.get("cubbyhole/a", token="other").refused(403, DENIED)
    there = 404 if r.serves("cubbyhole-lists") else 200
    bearer = r.get("cubbyhole/a", token=None, fields=("Authorization: Bearer hvs.#1",))
    if decoding:
        bearer.is_(there)
    else:
        bearer.refused(403, DENIED)
    twice = r.get("cubbyhole/a", fields=("Authorization: a", "Authorization: b"))
    twice.is_(400 if decoding else there)
    r.get("cubbyhole/a", wrap="1d", fields=("X-Vault-Wrap-TTL: 5",)).is_(there)
    r.get("cubbyhole/a", wrap="60", words=0).is_(there)


def routes_of_parts(r):
    """One route or more of each part, whether it is served or not."""
    if r.serves("cubbyhole-lists"):
        r.list("cubbyhole/a").refused(404)
        r.delete("cubbyhole/a").is_(204)
        r.get("cubbyhole").no_method("LIST")
        r.list("cubbyhole").refused(404)
    else:
        r.list("cubbyhole/a").no_method("GET, POST, PUT")
        r.delete("cubbyhole/a").no_method("GET, POST, PUT")
        r.get("cubbyhole").refused(404)
        r.list("cubbyhole").refused(404)
    for part, method, path, status in (
            ("tokens", "GET", "auth/token/lookup-self", 200), ("tokens", "POST", "auth/token/create", 200),
            ("secrets", "GET", "secret/data/x", 404), ("mounts", "GET", "sys/mounts", 200)):
        got = r.ask(method, path)
        if r.serves(part):
            got.is_(status)
        else:
            got.refused(404)


def queries_of_parts(r):
    """Targets with a query and with a percent sign."""
    there = 404 if r.serves("cubbyhole-lists") else 200
    for target, part, status in (
            ("/v1/cubbyhole/a?list=true", "queries", 404 if r.serves("cubbyhole-lists") else 405),
            ("/v1/cubbyhole/a?", "queries", there), ("/v1/cubbyhole/%61", "decoding", there),
            ("/v1/cubbyhole/a?%", "decoding", there)):
        got = r.event(request("GET", target))
        if r.serves(part):
            got.is_(status)
        else:
            got.refused(400, BAD_PATH)


@row("Mounts and leases are not served so far, but for the mount `secret`", "secrets", "policies",
     until=("mounts", "key-settings"))
def unserved_mounts(r):
    r.post("sys/policies/acl/q", policy({"*": NO_SUDO})).is_(204)
    for method, path in (("GET", "sys/mounts"), ("POST", "sys/mounts/db"), ("POST", "sys/leases/lookup"),
                         ("POST", "sys/leases/revoke-prefix/db"), ("GET", "db/creds/r")):
        r.ask(method, path).refused(404)
    r.post("secret/metadata/x", {}).no_method("GET, LIST, DELETE")


@row("Listing and deleting in a cubbyhole are refused so far", "queries", until=("cubbyhole-lists",))
def unserved_cubbyhole_lists(r):
    r.post("cubbyhole/a", {"a": 1}).is_(204)
    for method in ("LIST", "DELETE"):
        r.ask(method, "cubbyhole/a").no_method("GET, POST, PUT")
    r.list("cubbyhole").refused(404)
    r.get("cubbyhole/a?list=true").refused(405, NO_METHOD)


@row("A write to the metadata of a secret is refused so far", "secrets", until=("key-settings",))
def unserved_key_settings(r):
    r.post("secret/metadata/x", {"max_versions": 1}).no_method("GET, LIST, DELETE")
    r.post("secret/data/x", {"data": {}}).is_(200)
    _, _, body = r.broker.rows()[8, "secret/x"]
    numbers, settings = "0000000000000001" "00000000000003e8" "00000000000003e8", "00" "0000000000000000" "00000000"
    assert body == bytes.fromhex("02" + numbers + settings)


@row("The wrap TTL is ignored, and the routes of wrapping are not served so far", "tokens", until=("wrapping",))
def unserved_wrapping(r):
    r.post("auth/token/create", {"num_uses": 2}, wrap="60").is_(200, wrap_info=None).has("auth", client_token="hvs.#11")
    r.whoami(ROOT, wrap="1d", fields=("X-Vault-Wrap-TTL: 5",)).is_(200, wrap_info=None)
    for path in ("wrap", "lookup", "rewrap", "unwrap"):
        r.post(f"sys/wrapping/{path}", {}, wrap="60").refused(404)
        r.post(f"sys/wrapping/{path}", {}, token=None).refused(403, DENIED)
    r.post("sys/wrapping/lookup", {}, token="hvs.#11").refused(404)
    r.whoami("hvs.#11").is_(200).has("data", num_uses=0)


@row("A target with `%` is refused, and Authorization is ignored so far", "tokens", until=("decoding",))
def unserved_escapes(r):
    for target in ("/v1/cubbyhole/a%20b", "/v1/secret/data/x?version=1%", "/v1/%"):
        r.event(request("GET", target)).refused(400, BAD_PATH)
    r.event(request("GET", "/v2/%")).refused(404)
    r.get("auth/token/lookup-self", token="", fields=("Authorization: Bearer hvs.#1",)).refused(403, DENIED)
    r.whoami(ROOT, fields=("Authorization: a", "Authorization: b")).is_(200)


@row("A period of a token is refused so far, unless it is zero or empty", "tokens", until=("periods",))
def unserved_periods(r):
    for period in (1, "1", "1h", 4294967295, 4294967296, "1d", -1):
        r.post("auth/token/create", {"period": period}).refused(400, "invalid field: period")
    for period in (0, "0", "", None, "0h"):
        r.post("auth/token/create", {"period": period, "ttl": 9}).is_(200).has("auth", lease_duration=9)
    r.post("auth/token/create", {"period": 5, "num_uses": -1}).refused(400, "invalid field: num_uses")
    r.post("auth/token/create", {"period": 5, "id": "x"}, words=0).refused(400, "invalid field: period")
