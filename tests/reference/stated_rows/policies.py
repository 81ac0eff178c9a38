"""Rows of policies, and of what they allow."""

from .tools import ALL_CAPABILITIES, BAD_JSON, BAD_PATH, DENIED, NO_METHOD, NO_SUDO, policy, row, set_policy_p


@row("`deny` on an exact pattern beats a grant on all", "tokens", "policies")
def deny_on_exact(r):
    r.post("sys/policies/acl/q", policy({"*": NO_SUDO, "secret/data/x": ["deny"]})).is_(204)
    r.post("auth/token/create", {"policies": ["q"]}).is_(200)
    r.get("secret/data/x", token="hvs.#21").refused(403, DENIED)
    r.get("secret/data/y", token="hvs.#21").refused(404)


@row("A policy with a capability that does not exist", "policies")
def unknown_capability(r):
    r.post("sys/policies/acl/q", policy({"a*": ["read", "run"]})).refused(400, "unsupported policy")


def team_rules(r, rules):
    r.post("sys/policies/acl/q", policy(rules)).is_(204)
    r.post("auth/token/create", {"policies": ["q"]}).is_(200).has("auth", client_token="hvs.#21")
    r.post("secret/data/team/x", {"data": {}}).is_(200)


@row("LIST of a folder that a longer prefix denies", "tokens", "secrets", "policies")
def list_denied_folder(r):
    team_rules(r, {"secret/metadata/*": ["list"], "secret/metadata/team/*": ["deny"]})
    r.list("secret/metadata/team", token="hvs.#21").refused(403, DENIED)
    r.list("secret/metadata", token="hvs.#21").is_(200, data={"keys": ["team/"]})


@row("LIST of a folder that its exact path allows", "tokens", "secrets", "policies")
def list_exact_folder(r):
    team_rules(r, {"secret/metadata/*": ["list"], "secret/metadata/team/*": ["deny"],
                   "secret/metadata/team": ["list"]})
    r.list("secret/metadata/team", token="hvs.#21").is_(200, data={"keys": ["x"]})


@row("`create` allows the first write alone", "tokens", "secrets", "policies")
def create_but_not_update(r):
    r.post("sys/policies/acl/q", policy({"secret/data/*": ["create"]})).is_(204)
    r.post("auth/token/create", {"policies": ["q"]}).is_(200)
    r.post("secret/data/x", {"data": {}}, token="hvs.#21").is_(200)
    r.post("secret/data/x", {"data": {}}, token="hvs.#21").refused(403, DENIED)


@row("A policy that was deleted grants nothing", "tokens", "secrets", "policies")
def deleted_policy(r):
    r.post("sys/policies/acl/q", policy({"secret/data/*": ["create", "read"]})).is_(204)
    r.post("auth/token/create", {"policies": ["q"]}).is_(200)
    r.post("secret/data/x", {"data": {}}, token="hvs.#21").is_(200)
    r.delete("sys/policies/acl/q").is_(204)
    r.get("secret/data/x", token="hvs.#21").refused(403, DENIED)


@row("The list of accessors needs `sudo`", "tokens", "policies")
def sudo_for_accessors(r):
    set_policy_p(r).is_(204)
    set_policy_p(r, NO_SUDO, "n").is_(204)
    r.post("auth/token/create", {"policies": ["p"]}).is_(200)
    r.post("auth/token/create", {"policies": ["n"]}).is_(200)
    r.list("auth/token/accessors", token="hvs.#31").is_(200, data={"keys": ["#2", "#32", "#42"]})
    r.list("auth/token/accessors", token="hvs.#41").refused(403, DENIED)


@row("`no_parent` needs the policy `root` or `sudo`", "tokens", "policies")
def sudo_for_no_parent(r):
    set_policy_p(r).is_(204)
    set_policy_p(r, NO_SUDO, "n").is_(204)
    r.post("auth/token/create", {"policies": ["p"]}).is_(200)
    r.post("auth/token/create", {"policies": ["n"]}).is_(200)
    r.post("auth/token/create", {"no_parent": True}, token="hvs.#41").refused(
        400, "root or sudo privileges required to create orphan token")
    r.post("auth/token/create", {"no_parent": True}, token="hvs.#31").is_(200).has("auth", orphan=True)


@row("A caller without `default` gives its children none", "tokens", "policies")
def child_without_default(r):
    set_policy_p(r, NO_SUDO).is_(204)
    r.post("auth/token/create", {"policies": ["p"], "no_default_policy": True}).is_(200).has("auth", policies=["p"])
    r.post("auth/token/create", {"policies": ["p"]}, token="hvs.#21").is_(200).has("auth", policies=["p"])
    r.post("auth/token/create", {"policies": ["default"]}, token="hvs.#21").refused(
        400, "child policies must be subset of parent")


@row("A child with one policy of the caller's and one that it lacks is refused as a whole", "tokens", "policies")
def one_policy_of_two(r):
    r.post("sys/policies/acl/c", policy({"auth/token/create": ["update"]})).is_(204)
    r.post("auth/token/create", {"policies": ["c", "d"], "no_default_policy": True}).is_(200)
    r.post("auth/token/create", {"policies": ["c", "d"], "num_uses": 3}).is_(200)

    def create(policies, token="hvs.#21", **event):
        return r.post("auth/token/create", {"policies": policies}, token=token, **event)

    for policies in (["d", "x"], ["x", "d"], ["c", "d", "default"]):
        create(policies).refused(400, "child policies must be subset of parent")
    r.list("auth/token/accessors").is_(200, data={"keys": ["#2", "#22", "#32"]})
    # nor were the words of the refused request taken
    create(["d", "c"], words=0x40).is_(200).has("auth", client_token="hvs.#41", policies=["c", "d"], orphan=False)
    create(["d"]).is_(200).has("auth", policies=["d"])
    # a caller with limited uses is refused before that, and each refusal spends one
    for policies in (["d", "x"], ["c", "d"]):
        create(policies, "hvs.#31").refused(400, "restricted use token cannot generate child tokens")
    r.post("auth/token/lookup", {"token": "hvs.#31"}).is_(200).has("data", num_uses=1)
    r.list("auth/token/accessors").is_(200, data={"keys": ["#2", "#22", "#32", "#42", "#92"]})


@row("`sudo` on `auth/token/create` does not count on `auth/token/create-orphan`, nor the other way round",
     "tokens", "policies")
def sudo_on_one_route(r):
    child, orphan = "auth/token/create", "auth/token/create-orphan"
    r.post("sys/policies/acl/c", policy({child: ["update", "sudo"]})).is_(204)
    r.post("sys/policies/acl/o", policy({child: ["update"], orphan: ["update", "sudo"]})).is_(204)
    r.post(child, {"policies": ["c"], "no_default_policy": True}).is_(200)  # hvs.#31
    r.post(child, {"policies": ["o"], "no_default_policy": True}).is_(200)  # hvs.#41
    beyond = "child policies must be subset of parent"
    no_orphan = "root or sudo privileges required to create orphan token"
    # `update` on the one is none on the other either
    r.post(orphan, {}, token="hvs.#31").refused(403, DENIED)
    r.post("sys/policies/acl/c", policy({child: ["update", "sudo"], orphan: ["update"]})).is_(204)
    r.post(orphan, {"policies": ["x"]}, token="hvs.#31").refused(400, beyond)
    r.post(orphan, {"policies": ["c"]}, token="hvs.#31").is_(200).has("auth", policies=["c"], orphan=True)
    r.post(child, {"policies": ["x"]}, token="hvs.#31").is_(200).has("auth", policies=["default", "x"], orphan=False)
    r.post(child, {"no_parent": True}, token="hvs.#31").is_(200).has("auth", policies=["c"], orphan=True)
    r.post(child, {"policies": ["x"]}, token="hvs.#41").refused(400, beyond)
    r.post(child, {"no_parent": True}, token="hvs.#41").refused(400, no_orphan)
    r.post(child, {"policies": ["o"]}, token="hvs.#41").is_(200).has("auth", policies=["o"], orphan=False)
    r.post(orphan, {"policies": ["x"]}, token="hvs.#41").is_(200).has("auth", policies=["default", "x"], orphan=True)
    # the children go with their makers, and the orphans stay
    r.post("auth/token/revoke", {"token": "hvs.#31"}).is_(204)
    r.post("auth/token/revoke", {"token": "hvs.#41"}).is_(204)
    r.list("auth/token/accessors").is_(200, data={"keys": ["#2", "#82", "#a2", "#e2"]})


@row("A policy whose name begins with `root` is not `root`", "tokens", "secrets", "policies")
def named_like_root(r):
    r.post("auth/token/create", {"policies": ["root2"], "no_default_policy": True}).is_(200).has(
        "auth", client_token="hvs.#11", policies=["root2"], lease_duration=2764800, renewable=True)
    token = "hvs.#11"
    r.whoami(token).refused(403, DENIED)
    rules = {"auth/token/*": ["create", "read", "update", "list"], "secret/data/x": ["read"]}
    r.post("sys/policies/acl/root2", policy(rules)).is_(204)
    r.get("secret/data/x", token=token).refused(404)
    for method, path in (("GET", "secret/data/y"), ("POST", "secret/data/x"), ("GET", "sys/mounts"),
                         ("LIST", "auth/token/accessors"), ("POST", "auth/token/revoke-orphan")):
        r.ask(method, path, token=token).refused(403, DENIED)

    def create(body):
        return r.post("auth/token/create", body, token=token)

    create({"policies": ["root"]}).refused(400, "only a root token can create root tokens")
    create({"policies": ["default"]}).refused(400, "child policies must be subset of parent")
    create({"no_parent": True}).refused(400, "root or sudo privileges required to create orphan token")
    create({}).is_(200).has("auth", policies=["root2"], lease_duration=2764800, orphan=False)
    create({"policies": ["root2"], "ttl": 5000000}).is_(200).has("auth", policies=["root2"], lease_duration=2764800)
    r.post("auth/token/renew-self", {"increment": 5000000}, token=token, at=2000).is_(200).has(
        "auth", lease_duration=2763800)
    r.delete("sys/policies/acl/root2").is_(204)
    r.whoami(token).refused(403, DENIED)
    r.list("auth/token/accessors", at=2765800).is_(200, data={"keys": ["#2"]})


@row("Texts that are policies, and texts that are not", "policies")
def forms_of_policies(r):
    def put(text):
        return r.post("sys/policies/acl/x", {"policy": text})

    for good in ('{"path":{}}', '{"name":"x","path":{}}', '{"name":1,"path":{"a":{"capabilities":[]}}}',
                 ' { "path" : { "*" : { "capabilities" : ["patch","patch"] } } } ',
                 '{"path":{"a+b/*":{"capabilities":["deny"]}}}', '{"path":{"":{"capabilities":["read"]}}}',
                 '{"path":{"a/+*":{"capabilities":["read"]}}}', '{"path":1,"path":{}}'):
        put(good).is_(204)
        r.get("sys/policies/acl/x").is_(200, data={"name": "x", "policy": good})
    for bad in ("", "null", "{}", "[]", '{"name":"x"}', '{"path":null}', '{"path":[]}', '{"path":{},"x":1}',
                '{"path":{"a":{}}}', '{"path":{"a":null}}', '{"path":{"a":{"capabilities":null}}}',
                '{"path":{"a":{"capabilities":"read"}}}', '{"path":{"a":{"capabilities":["Read"]}}}',
                '{"path":{"a":{"capabilities":[1]}}}', '{"path":{"a":{"capabilities":[["read"]]}}}',
                '{"path":{"a":{"capabilities":["read"],"min_wrapping_ttl":"1"}}}', '{"path":{"+":{"capabilities":[]}}}',
                '{"path":{"a/+/b":{"capabilities":[]}}}', '{"path":{"a/+":{"capabilities":[]}}}',
                '{"name":1.5,"path":{}}', '{"path":{}', 'path "a" { capabilities = ["read"] }'):
        put(bad).refused(400, "unsupported policy")
    r.post("sys/policies/acl/x", {}).refused(400, "missing field: policy")
    r.post("sys/policies/acl/x", {"policy": {"path": {}}}).refused(400, "invalid field: policy")


@row("Names of policies, and the two that are always there", "tokens", "policies")
def names_of_policies(r):
    good = {"policy": '{"path":{}}'}
    r.post("sys/policies/acl/a:b", {"policy": "{"}).refused(400, "invalid name")
    r.post("sys/policies/acl/" + "x" * 129, good).refused(400, "invalid name")
    r.post("sys/policies/acl/" + "x" * 128, good).is_(204)
    r.delete("sys/policies/acl/" + "x" * 128).is_(204)
    r.post("sys/policies/acl/root", {"policy": "{"}).refused(400, "policy cannot be changed")
    r.post("sys/policies/acl/default", {"policy": "{"}).refused(400, "unsupported policy")
    r.post("sys/policies/acl/Root", good).is_(204)
    r.delete("sys/policies/acl/root").refused(400, "policy cannot be changed")
    r.delete("sys/policies/acl/default").refused(400, "policy cannot be changed")
    r.delete("sys/policies/acl/none").is_(204)
    r.delete("sys/policies/acl/a:b").is_(204)
    r.get("sys/policies/acl/none").refused(404)
    r.get("sys/policies/acl/root").is_(200, data={"name": "root", "policy": ""})
    r.list("sys/policies/acl").is_(200, data={"keys": ["Root", "default", "root"]})
    # `default` may be written, and then says what was written
    r.post("auth/token/create", {"policies": ["default"]}).is_(200)
    token = r.last_made()
    r.whoami(token).is_(200)
    r.post("sys/policies/acl/default", good).is_(204)
    r.whoami(token).refused(403, DENIED)


def by_rules(r, rules, more=None):
    """A way to ask as a token with the policy q of these rules, and with a second policy of more rules."""
    r.post("sys/policies/acl/q", policy(rules)).is_(204)
    names = ["q"]
    if more:
        r.post("sys/policies/acl/s", policy(more)).is_(204)
        names.append("s")
    r.post("auth/token/create", {"policies": names, "no_default_policy": True}).is_(200)
    token = r.last_made()

    def ask(method, path, body=None):
        return r.ask(method, path, body, token=token)

    return ask


@row("Which pattern is chosen for a path", "tokens", "secrets", "policies")
def chosen_patterns(r):
    served, denied = 404, 403
    ask = by_rules(r, {"secret/data/*": ["read"], "secret/data/a*": ["deny"], "secret/data/ab": ["read"],
                       "secret/data/c*d": ["deny"], "secret/data/e*": ["update"], "secret/data/e": ["list"]})
    for path, status in (("x", served), ("a", denied), ("ax", denied), ("ab", served), ("abc", denied),
                         ("cxd", served), ("c*d", denied), ("e", denied), ("ex", denied), ("c*", served)):
        ask("GET", "secret/data/" + path).is_(status)
    ask("GET", "secret/dat").is_(denied)
    # what two policies say for one pattern is united, and `deny` of one beats the other
    ask = by_rules(r, {"secret/data/*": ["read"], "secret/data/x": ["list"], "cubbyhole/*": ["read"]},
                   {"secret/data/x": ["read"], "cubbyhole/*": ["deny"], "secret/data/xy": ["update"]})
    ask("GET", "secret/data/x").is_(served)
    ask("GET", "secret/data/xy").is_(denied)
    ask("GET", "cubbyhole/a").is_(denied)
    # for LIST: the path with `/`, then the path, then prefixes of the first
    ask = by_rules(r, {"secret/metadata/a/": ["list"], "secret/metadata/a": ["deny"], "secret/metadata/b/*": ["list"],
                       "secret/metadata/b/": ["deny"], "secret/metadata/c": ["list"], "secret/metadata/c/*": ["deny"],
                       "secret/metadata/d*": ["list"], "secret/metadata/e/*": ["list"],
                       "secret/metadata/f/*": ["read"]})
    for path, status in (("a", served), ("b", denied), ("c", served), ("c/x", denied), ("d", served), ("dx/y", served),
                         ("e", served), ("f", denied)):
        ask("LIST", "secret/metadata/" + path).is_(status)
    ask("GET", "secret/metadata/a").is_(denied)
    ask("GET", "secret/metadata/f").is_(denied)
    ask("GET", "secret/metadata/f/x").is_(served)


@row("Writes that need `create`, and writes that need `update`", "tokens", "secrets", "policies", "cubbyhole-lists")
def create_or_update(r):
    ask = by_rules(r, {"cubbyhole/*": ["create", "delete"], "secret/data/*": ["create", "delete"],
                       "cubbyhole": ["create"], "secret/delete/*": ["create"], "secret/metadata/*": ["create"]})
    ask("POST", "cubbyhole/a", {"a": 1}).is_(204)
    ask("POST", "cubbyhole/a", {"a": 1}).is_(403)
    ask("DELETE", "cubbyhole/a").is_(204)
    ask("POST", "cubbyhole/a", {}).refused(400, "missing data fields")
    ask("POST", "cubbyhole/a", {"a": 1}).is_(204)
    ask("POST", "cubbyhole", {"a": 1}).is_(403)
    ask("POST", "secret/data/x", {"data": {}}).is_(200)
    ask("DELETE", "secret/data/x").is_(204)
    ask("POST", "secret/data/x", {"data": {}}).is_(403)
    ask("POST", "secret/delete/x", {"versions": [1]}).is_(403)
    ask("POST", "secret/metadata/y", {}).is_(403)
    r.delete("secret/metadata/x").is_(204)
    ask("POST", "secret/data/x", {"data": {}}).is_(200)


@row("Paths that need `sudo`", "tokens", "policies")
def paths_with_sudo(r):
    ask = by_rules(r, {"*": NO_SUDO})
    for method, path in (("LIST", "auth/token/accessors"), ("GET", "auth/token/accessors"),
                         ("POST", "auth/token/revoke-orphan"), ("POST", "sys/leases/revoke-prefix/a"),
                         ("GET", "sys/leases/revoke-prefix/a")):
        ask(method, path).refused(403, DENIED)
    ask("GET", "sys/leases/revoke-prefix").refused(404)
    ask("POST", "auth/token/revoke-accessor", {}).refused(400, "missing field: accessor")
    ask = by_rules(r, {"*": ALL_CAPABILITIES, "auth/token/accessors/": ["list"]})
    ask("LIST", "auth/token/accessors").refused(403, DENIED)
    ask("GET", "auth/token/accessors").refused(405, NO_METHOD)
    ask = by_rules(r, {"*": ["sudo"]})
    ask("LIST", "auth/token/accessors").refused(403, DENIED)


@row("A refusal by policies comes before routes, methods and bodies", "tokens", "policies")
def order_of_one_request(r):
    r.post("auth/token/create", {"policies": ["default"]}).is_(200)
    token = "hvs.#11"
    for method, path in (("GET", "no/such/route"), ("DELETE", "sys/mounts"), ("POST", "secret/data/x")):
        r.ask(method, path, "{" if method == "POST" else None, token=token).refused(403, DENIED)
    r.ask("POST", "auth/token/lookup-self", "{").refused(405, NO_METHOD)
    r.ask("POST", "none/x", "{").refused(404)
    r.ask("POST", "none/x", "{", token=None).refused(403, DENIED)
    r.ask("POST", "auth/token/create", "{", words=0).refused(400, BAD_JSON)


@row("Before policies: every token may do all, and root alone has sudo", "tokens", "secrets", "queries",
     until=("policies", "mounts", "decoding"))
def callers_before_policies(r):
    r.post("sys/policies/acl/p", {"policy": "{"}).refused(404)
    r.post("auth/token/create", {"policies": ["p"]}).is_(200).has("auth", policies=["default", "p"])
    token = "hvs.#21"
    r.post("secret/data/x", {"data": {}}, token=token).is_(200)
    r.get("secret/data/x?version=1", token=token).is_(200)
    r.list("auth/token/accessors", token=token).refused(403, DENIED)
    r.post("auth/token/revoke-orphan", {"token": "x"}, token=token).refused(403, DENIED)
    r.post("auth/token/create", {"no_parent": True}, token=token).refused(
        400, "root or sudo privileges required to create orphan token")
    r.post("auth/token/create", {"policies": ["x"]}, token=token).refused(
        400, "child policies must be subset of parent")
    r.get("none/x", token=token).refused(404)
    r.get("sys/mounts", token=token).refused(404)
    r.get("secret/data/x?version=%31").refused(400, BAD_PATH)
