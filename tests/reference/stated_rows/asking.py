"""Rows of what a request asks: its client token, its path, its query and its method."""

from .tools import (BAD_PATH, DENIED, FIRST_200, FIRST_204, FIRST_PUT, MALFORMED, NO_METHOD, ROOT, ident, request, row)


@row("Two client tokens: refused, and the connection stays")
def two_client_tokens(r):
    r.get("cubbyhole/a", fields=("X-Vault-Token: hvs.#1",)).refused(400, MALFORMED)
    r.get("cubbyhole/a").refused(404)


@row("Fields of the client that are not UTF-8", "decoding", "lines")
def fields_past_ascii(r):
    head = b"GET /v1/cubbyhole/a HTTP/1.1\r\nHost: b\r\n"
    for conn, name in enumerate((b"X-Vault-Token", b"Authorization", b"X-Vault-Wrap-TTL")):
        ignored = name == b"X-Vault-Wrap-TTL" and not r.serves("wrapping")
        bytes_alone = r.raw(head + name + b": \xff\r\n\r\n", conn)
        if ignored:
            bytes_alone.refused(403, DENIED)
        else:
            bytes_alone.refused(400, MALFORMED)
        text = r.raw(head + name + b": \xc3\xa9\r\n\r\n", conn)
        if conn == 2 and not ignored:
            text.refused(400, "invalid duration")
        else:
            text.refused(403, DENIED)
    r.raw(head + b"Other: \xff\r\nX-Vault-Token: hvs." + ident(1).encode() + b"\r\n\r\n", 9).refused(404)


@row("An empty X-Vault-Token leaves it to the Authorization field", "tokens", "decoding")
def empty_vault_token(r):
    r.whoami("", fields=("Authorization: Bearer hvs.#1",)).is_(200).has("data", id="hvs.#1")


@row("The client token in an Authorization field", "decoding", start=1700000000)
def bearer_token(r):
    r.event(FIRST_PUT).bytes_are(FIRST_204)
    r.event("GET /v1/cubbyhole/a HTTP/1.1\r\nHost: b\r\nAuthorization: bearer  hvs.#1\r\n\r\n").bytes_are(FIRST_200)


@row("The forms of an Authorization field", "tokens", "decoding")
def forms_of_authorization(r):
    for text, status in (("Bearer hvs.#1", 200), ("BEARER    hvs.#1", 200), ("Bearerhvs.#1", 403),
                         ("Bearer", 403), ("Bearer ", 403), ("Bearer\thvs.#1", 403), ("Basic hvs.#1", 403),
                         ("Bearer x hvs.#1", 403), ("hvs.#1", 403), (" Bearer hvs.#1 ", 200)):
        r.get("auth/token/lookup-self", token=None, fields=(f"Authorization: {text}",)).is_(status)
    r.get("auth/token/lookup-self", token="x", fields=("Authorization: Bearer hvs.#1",)).refused(403, DENIED)


@row("The order of the checks that read what a request asks", "tokens", "wrapping", "decoding")
def order_of_reading(r):
    twice = ("X-Vault-Token: x",)
    r.event(request("GET", "/v2/x", fields=twice)).refused(400, MALFORMED)
    r.event(request("GET", "/v1/a//b", wrap="1d")).refused(400, BAD_PATH)
    r.event(request("GET", "/v2/x", wrap="1d")).refused(404)
    r.event(request("GET", "/v1/a", wrap="1d", token=None)).refused(400, "invalid duration")
    r.event(request("GET", "/v1/a", fields=("Authorization: a", "Authorization: b"))).refused(400, MALFORMED)
    r.event(request("GET", "/v1/a", wrap="5", fields=("X-Vault-Wrap-TTL: 5",))).refused(400, MALFORMED)
    # none of these moved the clock
    r.event(request("GET", "/v1/a", wrap="1d"), at=5000).refused(400, "invalid duration")
    r.whoami(ROOT).is_(200)
    r.post("cubbyhole/a", {"a": 1}, wrap="60").is_(204)
    r.get("cubbyhole/a", wrap="60").is_(200).has("wrap_info", creation_time="1970-01-01T00:16:40Z")


def is_listed(r, path, keys):
    """The keys of a cubbyhole, as soon as they can be listed."""
    got = r.list(path)
    if r.serves("cubbyhole-lists"):
        got.is_(200, data={"keys": keys})
    else:
        got.refused(404)


@row("A path with a space, percent-encoded", "decoding", start=1700000000)
def path_with_a_space(r):
    r.ask("PUT", "cubbyhole/a%20b", '{"k":"v"}').is_(204)
    r.event("GET /v1/cubbyhole/a%20b HTTP/1.1\r\nHost: b\r\nX-Vault-Token: hvs.#1\r\n\r\n").bytes_are(FIRST_200)
    is_listed(r, "cubbyhole", ["a b"])


@row("A slash, an empty segment and a control byte in a target", "decoding")
def percent_in_paths(r):
    r.get("a%2Fb").refused(404)
    r.get("a//b").refused(400, BAD_PATH)
    r.get("a%00").refused(400, BAD_PATH)


@row("Paths: their length, their segments, their bytes", "decoding")
def forms_of_paths(r):
    long = "cubbyhole/" + "x" * 502
    r.get(long).refused(404)
    r.get(long + "/").refused(404)
    r.get(long + "y").refused(400, BAD_PATH)
    r.get("cubbyhole/" + "%c3%a9" * 251).refused(404)
    for bad in ("", "/", "//", "a//", "./a", "a/.", "a/..", "a/%2e%2e/b", "a/%2E", "a%7f", "a%1f", "%ff", "a%00b",
                "%2F", "%2f%2f", "a/%2F"):
        r.get(bad).refused(400, BAD_PATH)
    r.event(request("GET", "/v1")).refused(404)
    r.event(request("GET", "*")).refused(404)
    r.event(request("GET", "http://b/v1/cubbyhole/a")).refused(404)
    r.event(request("GET", "/V1/cubbyhole/a")).refused(404)
    r.post("cubbyhole/a%", {"n": 1}).is_(204)
    r.post("cubbyhole/%zz%4", {"n": 2}).is_(204)
    r.post("cubbyhole/%%34", {"n": 3}).is_(204)
    r.post("cubbyhole/a+b", {"n": 4}).is_(204)
    r.post("cubbyhole/...", {"n": 5}).is_(204)
    r.post("cubbyhole/x%3Fy%23z", {"n": 6}).is_(204)
    r.post("cubbyhole/%2541", {"n": 7}).is_(204)
    r.post("cubbyhole/é", {"n": 8}).is_(204)
    r.post("cubbyhole/a%2Fb/", {"n": 9}).is_(204)
    is_listed(r, "cubbyhole/", ["%4", "%41", "%zz%4", "...", "a%", "a+b", "a/", "x?y#z", "é"])
    r.get("cubbyhole/a/b").is_(200, data={"n": 9})
    r.get("cubbyhole/%C3%A9").is_(200, data={"n": 8})


@row("The parts of a query: `list=true`, versions, and what is ignored", "queries")
def queries(r):
    lists = r.serves("cubbyhole-lists")

    def is_refused_list(got):
        if lists:
            got.refused(404)  # a folder without a name in it
        else:
            got.no_method("GET, POST, PUT")

    r.ask("PUT", "cubbyhole/a?list=true&version=2", {"a": 1}).is_(204)
    for query in ("list=true", "a=b&list=true", "list=true&list=false"):
        is_refused_list(r.get("cubbyhole/a?" + query))
    for query in ("list=1", "list=TRUE", "list=true=", "list=tru", "list", "&&", "", "version=2", "version=1&version=x",
                  "list=true?", "a?list=true", "?list=true", "a&b/../c&d=e?f"):
        r.get("cubbyhole/a?" + query).is_(200, data={"a": 1})
    deleted = r.delete("cubbyhole/a?list=true")
    if lists:
        deleted.is_(204)
    else:
        deleted.no_method("GET, POST, PUT")
    is_refused_list(r.list("cubbyhole/a?list=false"))
    r.get("cubbyhole/a/?list=false").is_(404 if lists else 200)
    without_path = r.get("cubbyhole/?/a")
    if lists:
        without_path.no_method("LIST")
    else:
        without_path.refused(404)
    r.event(request("GET", "/v1/?cubbyhole/a")).refused(400, BAD_PATH)
    r.event(request("GET", "/v1?/cubbyhole/a")).refused(404)
    r.event(request("GET", "?/v1/cubbyhole/a")).refused(404)
    encoded = r.get("cubbyhole/a?list=tru%65")
    if r.serves("decoding"):
        encoded.is_(404 if lists else 200)
    else:
        encoded.refused(400, BAD_PATH)


@row("The version that a read asks for, in every form, and lists by GET", "secrets", "queries")
def queries_of_secrets(r):
    for n in range(3):
        r.post("secret/data/x", {"data": {"n": n}}).is_(200)

    def version(text):
        return r.get("secret/data/x?" + text)

    for text, number in (("", 3), ("version=2", 2), ("version=0", 3), ("version=00", 3), ("version=002", 2),
                         ("version=1&version=2", 1), ("x=1&version=2&", 2), ("Version=1", 3), ("xversion=1", 3),
                         ("version", 3), ("version=", 3), ("version=&version=1", 3), ("version=" + "0" * 17 + "1", 1)):
        assert version(text).is_(200)["data"]["metadata"]["version"] == number, text
    for text in ("version=-1", "version=+1", "version=1a", "version=%31", "version=" + "0" * 18 + "1", "version=1?"):
        encoded = "%" in text and not r.serves("decoding")
        version(text).refused(400, BAD_PATH if encoded else "invalid field: version")
    version("version=4").refused(404)
    version("version=999999999999999999").refused(404)
    # the version is read on that route alone
    r.get("secret/metadata/x?version=a").is_(200)
    r.delete("secret/data/x?version=a").is_(204)
    r.get("secret/data/none?version=a").refused(400, "invalid field: version")
    # a list by GET
    for text in ("list=true", "a&list=true&b", "list=false&list=true"):
        r.get("secret/metadata?" + text).is_(200, data={"keys": ["x"]})
    for text in ("list=TRUE", "list=1", "list", "list=true1", "xlist=true", "?list=true"):
        r.get("secret/metadata?" + text).refused(405, NO_METHOD)
    encoded = r.get("secret/metadata?list%3Dtrue")
    if r.serves("decoding"):
        encoded.refused(405, NO_METHOD)
    else:
        encoded.refused(400, BAD_PATH)
    r.get("secret/data/x?list=true").refused(405, NO_METHOD)
    r.delete("secret/metadata/x?list=true").is_(204)


@row("Methods of a path", "tokens", "secrets", "policies", "mounts", "cubbyhole-lists", "wrapping")
def methods_of_paths(r):
    r.post("sys/mounts/db", {"type": "issued"}).is_(204)
    for path, allow in (
            ("auth/token/create", "POST, PUT"), ("auth/token/lookup-self", "GET"), ("auth/token/accessors", "LIST"),
            ("sys/mounts", "GET"), ("sys/mounts/x", "POST, PUT, DELETE"), ("sys/policies/acl", "LIST"),
            ("sys/policies/acl/x", "GET, POST, PUT, DELETE"), ("cubbyhole", "LIST"),
            ("cubbyhole/x", "GET, LIST, POST, PUT, DELETE"), ("secret/config", "GET, POST, PUT"),
            ("secret/data/x", "GET, POST, PUT, DELETE"), ("secret/delete/x", "POST, PUT"),
            ("secret/metadata", "LIST"), ("secret/metadata/x", "GET, LIST, POST, PUT, DELETE"),
            ("db/roles/r", "GET, POST, PUT, DELETE"), ("db/creds/r", "GET"), ("db/verify", "POST, PUT"),
            ("sys/wrapping/unwrap", "POST, PUT"), ("sys/leases/revoke-prefix/db", "POST, PUT")):
        for method in ("GET", "LIST", "POST", "DELETE"):
            if method not in allow.split(", "):
                r.ask(method, path).no_method(allow)
    for path in ("auth", "auth/token", "auth/token/create/x", "sys", "sys/mounts/a/b", "sys/policies/acl/a/b",
                 "sys/leases/revoke-prefix", "secret", "secret/data", "secret/config/x", "secret/x", "secret/delete",
                 "db", "db/roles", "db/roles/a/b", "db/creds", "db/data/x", "db/verify/x", "none/x", "identity/x",
                 "cubbyholes/x"):
        for method in ("GET", "LIST", "POST", "DELETE"):
            r.ask(method, path).refused(404)
