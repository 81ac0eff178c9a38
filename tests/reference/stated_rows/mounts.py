"""Rows of mounts, roles, issued credentials and leases."""

from .tools import BAD_JSON, DENIED, USED, row, set_policy_p


@row("A lease ends with its token", "tokens", "policies", "mounts")
def lease_ends_with_token(r):
    set_policy_p(r).is_(204)
    r.post("sys/mounts/db", {"type": "issued"}).is_(204)
    r.post("db/roles/r", {"ttl": 60}).is_(204)
    r.post("auth/token/create", {"policies": ["p"], "ttl": 30}).is_(200).has("auth", client_token="hvs.#41")
    r.get("db/creds/r", token="hvs.#41").is_(
        200, data={"credential": "#54"}, lease_id="db/creds/r/#53", lease_duration=60, renewable=True)
    r.post("db/verify", {"credential": "#54"}).is_(200, data={"valid": True})
    r.post("db/verify", {"credential": "#54"}, at=1030).is_(200, data={"valid": False})
    r.post("sys/leases/lookup", {"lease_id": "db/creds/r/#53"}, at=1030).refused(400, "invalid lease")


@row("A lease's ttl is held to the role's maximum, also in renewal", "mounts")
def lease_limits(r):
    r.post("sys/mounts/db", {"type": "issued"}).is_(204)
    r.post("db/roles/r", {"ttl": "1h", "max_ttl": "30m"}).is_(204)
    r.get("db/creds/r").is_(200, lease_duration=1800, lease_id="db/creds/r/#33")
    r.post("sys/leases/renew", {"lease_id": "db/creds/r/#33", "increment": 5000}, at=2000).is_(
        200, lease_duration=800, lease_id="db/creds/r/#33", renewable=True, data=None)


@row("Disabling a mount leaves another one whose name begins with its name", "mounts")
def disable_one_of_two(r):
    for name in ("db", "db2"):
        r.post(f"sys/mounts/{name}", {"type": "issued"}).is_(204)
        r.post(f"{name}/roles/r", {}).is_(204)
    r.get("db/creds/r").is_(200, lease_id="db/creds/r/#53", lease_duration=2764800)
    r.get("db2/creds/r").is_(200, lease_id="db2/creds/r/#63")
    r.delete("sys/mounts/db").is_(204)
    r.post("sys/leases/lookup", {"lease_id": "db/creds/r/#53"}).refused(400, "invalid lease")
    r.post("sys/leases/lookup", {"lease_id": "db2/creds/r/#63"}).is_(200, data={
        "expire_time": "1970-02-02T00:16:40Z", "id": "db2/creds/r/#63", "issue_time": "1970-01-01T00:16:40Z",
        "last_renewal": None, "renewable": True, "ttl": 2764800})


@row("A last use takes no lease", "tokens", "policies", "mounts")
def last_use_takes_no_lease(r):
    set_policy_p(r).is_(204)
    r.post("sys/mounts/db", {"type": "issued"}).is_(204)
    r.post("db/roles/r", {}).is_(204)
    r.post("auth/token/create", {"policies": ["p"], "num_uses": 1}).is_(200)
    r.get("db/creds/r", token="hvs.#41").refused(400, "a last use cannot take a lease")
    r.whoami("hvs.#41").refused(403, DENIED)


@row("Mounts: names, types, and the order of refusals", "mounts")
def forms_of_mounts(r):
    def put(name, body):
        return r.post(f"sys/mounts/{name}", body)

    put("a:b", {"type": "x"}).refused(400, "invalid name")
    put("x" * 129, {"type": "kv-v2"}).refused(400, "invalid name")
    for name in ("sys", "auth", "cubbyhole", "identity", "secret"):
        put(name, {"type": "x"}).refused(400, "path is already in use")
    put("m", {}).refused(400, "missing field: type")
    put("sys", {}).refused(400, "missing field: type")
    put("m", {"type": 1}).refused(400, "invalid field: type")
    put("m", {"type": "issued", "options": []}).refused(400, "invalid field: options")
    for version in ("x", -1, "", True, []):
        put("m", {"type": "issued", "options": {"version": version}}).refused(400, "invalid field: version")
    for body in ({"type": ""}, {"type": "kv"}, {"type": "kv", "options": {}}, {"type": "kv", "options": {"version": 1}},
                 {"type": "kv", "options": {"version": None}}, {"type": "kv-v1"}, {"type": "KV-V2"}, {"type": "pki"}):
        put("m", body).refused(400, "unsupported mount")
    put("m1", {"type": "kv", "options": {"version": "2"}}).is_(204)
    put("m2", {"type": "kv", "options": {"version": 2}}).is_(204)
    put("m3", {"type": "kv-v2", "options": {"version": 1}}).is_(204)
    put("m4", {"type": "issued", "options": {"version": 7}}).is_(204)
    put("Sys", {"type": "issued"}).is_(204)
    put("m1", {"type": "issued"}).refused(400, "path is already in use")
    kv = {"options": {"version": "2"}, "type": "kv"}
    issued = {"options": None, "type": "issued"}
    r.get("sys/mounts").is_(200, data={
        "Sys/": issued, "cubbyhole/": {"options": None, "type": "cubbyhole"}, "m1/": kv, "m2/": kv, "m3/": kv,
        "m4/": issued, "secret/": kv, "sys/": {"options": None, "type": "system"}})


@row("Disabling a mount, and enabling it anew", "secrets", "mounts")
def disabled_mounts(r):
    for name in ("sys", "auth", "cubbyhole"):
        r.delete(f"sys/mounts/{name}").refused(400, "cannot be disabled")
    for name in ("identity", "none", "a:b"):
        r.delete(f"sys/mounts/{name}").is_(204)
    r.post("secret/data/x", {"data": {}}).is_(200)
    r.post("secret/config", {"max_versions": 3}).is_(204)
    r.delete("sys/mounts/secret").is_(204)
    r.get("secret/data/x").refused(404)
    r.get("secret/config").refused(404)
    r.post("sys/mounts/secret", {"type": "kv-v2"}).is_(204)
    r.get("secret/config").is_(200).has("data", max_versions=0)
    r.get("secret/data/x").refused(404)
    r.post("sys/mounts/db", {"type": "issued"}).is_(204)
    r.post("db/roles/r", {}).is_(204)
    r.get("db/creds/r").is_(200)
    r.delete("sys/mounts/db").is_(204)
    r.post("sys/mounts/db", {"type": "issued"}).is_(204)
    r.get("db/roles/r").refused(404)
    r.delete("sys/mounts/db").is_(204)
    r.post("sys/mounts/db", {"type": "kv-v2"}).is_(204)
    r.get("db/roles/r").refused(404)
    r.post("db/data/creds/r", {"data": {}}).is_(200)


@row("Roles, credentials, and the order of their refusals", "mounts")
def forms_of_roles(r):
    r.post("sys/mounts/db", {"type": "issued"}).is_(204)
    r.post("db/roles/a:b", {}).refused(400, "invalid name")
    r.post("db/roles/r", {"ttl": "1d", "max_ttl": -1}).refused(400, "invalid field: ttl")
    r.post("db/roles/r", {"max_ttl": -1}).refused(400, "invalid field: max_ttl")
    r.get("db/creds/r").refused(404)
    r.get("db/creds/r", words=2**128 - 2).refused(500, USED)
    for body, data, seconds in (({}, {"max_ttl": 0, "ttl": 0}, 2764800),
                                ({"ttl": "1h"}, {"max_ttl": 0, "ttl": 3600}, 3600),
                                ({"max_ttl": 60}, {"max_ttl": 60, "ttl": 0}, 60),
                                ({"ttl": 61, "max_ttl": 60}, {"max_ttl": 60, "ttl": 61}, 60),
                                ({"ttl": 4294967295, "max_ttl": 4294967295},
                                 {"max_ttl": 4294967295, "ttl": 4294967295}, 2764800)):
        r.post("db/roles/r", body).is_(204)
        r.get("db/roles/r").is_(200, data=data)
        r.get("db/creds/r").is_(200, lease_duration=seconds)
    r.delete("db/roles/r").is_(204)
    r.delete("db/roles/r").is_(204)
    r.get("db/roles/r").refused(404)
    r.post("db/verify", {}).refused(400, "missing field: credential")
    r.post("db/verify", {"credential": ""}).is_(200, data={"valid": False})


@row("Leases looked up, renewed and revoked, whichever token has them", "mounts")
def lives_of_leases(r):
    for name in ("db", "db2"):
        r.post(f"sys/mounts/{name}", {"type": "issued"}).is_(204)
        r.post(f"{name}/roles/r", {"ttl": 100, "max_ttl": 300}).is_(204)
        r.post(f"{name}/roles/r.s", {}).is_(204)

    def lease(path):
        return r.get(path).is_(200)["lease_id"]

    one, two, three, four = lease("db/creds/r"), lease("db/creds/r.s"), lease("db2/creds/r"), lease("db/creds/r")

    def ask(call, at=1000, **body):
        return r.post(f"sys/leases/{call}", body, at=at)

    assert ask("renew", 1050, lease_id=one, increment="30s").is_(200, lease_duration=30, data=None)["lease_id"] == one
    ask("lookup", 1050, lease_id=one).is_(200).has(
        "data", ttl=30, last_renewal="1970-01-01T00:17:30Z", expire_time="1970-01-01T00:18:00Z",
        issue_time="1970-01-01T00:16:40Z")
    ask("renew", 1050, lease_id=four).is_(200, lease_duration=100)
    ask("renew", 1050, lease_id=four, increment=1000).is_(200, lease_duration=250)
    for call in ("lookup", "renew"):
        ask(call).refused(400, "missing field: lease_id")
        ask(call, lease_id="").refused(400, "invalid lease")
        ask(call, lease_id="db/creds/r").refused(400, "invalid lease")
        ask(call, 1080, lease_id=one).refused(400, "invalid lease")
    ask("revoke").refused(400, "missing field: lease_id")
    ask("revoke", lease_id="none").is_(204)
    ask("revoke", lease_id=four).is_(204)
    ask("lookup", lease_id=four).refused(400, "invalid lease")
    revoked_by_prefix(r, ask, {2: two, 3: three, 5: lease("db/creds/r")})


def revoked_by_prefix(r, ask, leases):
    """Three leases, revoked by prefixes of their ids."""
    for prefix, left in (("d", [2, 3, 5]), ("db/cred", [2, 3, 5]), ("db/creds/r", [2, 3]), ("db", [3]),
                         ("db2/creds/r", [])):
        r.post(f"sys/leases/revoke-prefix/{prefix}").is_(204)
        assert [n for n in leases if ask("lookup", lease_id=leases[n]).status == 200] == left, prefix
    r.post("sys/leases/revoke-prefix/db", "{").refused(400, BAD_JSON)
