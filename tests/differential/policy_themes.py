"""The themes about policies: which pattern is chosen, what its capabilities allow, and who asks."""

import json

from drawing import request
from token_themes import longer

KEYS = ("a", "a/b", "ab", "b", "a/b/c", "team/x", "team", "a*", "A")
ALL = ("create", "read", "update", "delete", "list", "sudo")
NO_SUDO = ALL[:-1]
NAMES = ("p", "q", "r")
WRITTEN = {"data": '{"data":{"k":1}}', "delete": '{"versions":[1]}', "undelete": '{"versions":[1]}',
           "destroy": '{"versions":[1]}', "config": '{"max_versions":3}'}


def some(run, *capabilities):
    """Some of the capabilities, all if none are given: mostly more than one, in any order."""
    chosen = [c for c in capabilities or ALL if not run.chance(3)]
    run.random.shuffle(chosen)
    return chosen


def granted(run):
    """The capabilities of one rule."""
    return run.pick(some(run), some(run), some(run), list(NO_SUDO), list(ALL), ["deny"], [*some(run), "deny"],
                    [run.pick(*ALL)], [run.pick(*ALL)], [], ["patch"], ["patch", "create", "read"])


def pattern(run, path):
    """A pattern that is chosen for a path, or nearly."""
    place = run.random.randrange(len(path) + 1)
    folder = path.rpartition("/")[0]
    return run.pick(path, path, path, path[:place] + "*", path[:place] + "*", path + "*", path + "/*", path + "/",
                    folder + "/*", folder + "/*", folder, "*", path[:-1] + "*", path[:-1], path + "/x",
                    path[:place] + "*" + path[place:], path.partition("/")[0] + "/*", "")


def rules(run, paths, count):
    """Rules of so many patterns that have to do with the paths."""
    return {pattern(run, run.pick(*paths)): granted(run) for _ in range(count)}


def holder(run, *names, by=None, **members):
    """A token that has the policies, mostly without `default`."""
    body = {"policies": list(names), **members}
    if not run.chance(4):
        body["no_default_policy"] = True
    return run.make(body, by)[0]


def places(key):
    """The paths of a secret and of its cubbyhole path."""
    return (f"secret/data/{key}", f"secret/data/{key}", f"secret/metadata/{key}", f"secret/delete/{key}",
            f"secret/undelete/{key}", f"secret/destroy/{key}", f"cubbyhole/{key}")


def visit(run, path, token, method=None, **event):
    """A request for a path, of any method or of the one that is given, with a body that is mostly good."""
    method = method or run.pick("GET", "GET", "PUT", "POST", "LIST", "DELETE")
    route = path.split("/")[1] if path.startswith("secret/") else ""
    body = WRITTEN.get(route, '{"a":1}') if method in ("PUT", "POST") else None
    if method in ("PUT", "POST") and run.chance(12):
        body = run.pick(None, "{", "{}")
    run.call(method, path + run.pick("", "", "", "/"), body, token, **event)


def put(run, key, token=None):
    """A version of a secret, by root if no other is given."""
    run.call(run.pick("PUT", "POST"), f"secret/data/{key}", '{"data":{"k":1}}', token)


def changed_state(run, key):
    """Brings a secret into one of its states: not there, there, deleted, destroyed, or forgotten."""
    if run.chance(5):
        return
    put(run, key)
    way = run.random.randrange(5)
    if way == 0:
        run.call("DELETE", f"secret/data/{key}")
    elif way == 1:
        run.call("PUT", f"secret/{run.pick('destroy', 'destroy', 'delete')}/{key}", '{"versions":[1]}')
    elif way == 2:
        run.call("DELETE", f"secret/metadata/{key}")


def asker(run, *tokens):
    """One of the tokens, mostly, or another one."""
    return run.pick(*tokens, *tokens, *tokens, run.token())


# --------------------------------------------------------------------------------------------- themes

def permissions(run):
    """Policies of a few patterns, and the requests of tokens that have some of them."""
    run.size = run.random.randrange(10, 17)
    keys = run.random.sample(KEYS[:run.pick(3, 5, len(KEYS))], 2)
    paths = [path for key in keys for path in places(key)]
    put(run, keys[0])
    for name in NAMES[:run.pick(1, 2, 2)]:
        run.grant(name, rules(run, paths, run.pick(1, 2, 3, 4)))
    tokens = [holder(run, *run.pick("p", "p", "pq", "q")) for _ in range(run.pick(1, 2))]
    while run.room() > 0:
        visit(run, run.pick(*paths, "secret/metadata", "secret/config"), asker(run, *tokens))


def exact_and_prefix(run):
    """Exact patterns and prefixes of one path: which of them is chosen, whatever it grants."""
    run.size = run.random.randrange(9, 17)
    key = run.pick(*KEYS)
    path = run.pick(f"secret/data/{key}", f"secret/data/{key}", f"secret/metadata/{key}", f"cubbyhole/{key}")
    found = {}
    for _ in range(run.pick(2, 3, 4)):
        place = run.random.randrange(max(1, len(path) - 6), len(path) + 1)
        form = run.pick(path, path, path[:place] + "*", path[:place] + "*", path + "*", "*",
                        path.partition("/")[0] + "/*")
        found[form] = run.pick(list(ALL), ["read"], ["create"], ["update"], ["list"], [], ["deny"], some(run))
    run.grant("p", found)
    token = holder(run, "p")
    put(run, key)
    while run.room() > 0:
        near = run.pick(path, path, path, path, path + "x", path[:-1] + "z", path + "/x",
                        path.rpartition("/")[0] + "/z")
        visit(run, near, token, run.pick("GET", "GET", None))
        if run.chance(6):
            run.grant("p", {**found, run.pick(*found): granted(run)})


def denials(run):
    """`deny` beside other capabilities, in one policy of several, for the chosen pattern or for another one."""
    run.size = run.random.randrange(9, 17)
    key = run.pick("a", "ab", "team/x")
    path = f"secret/data/{key}"
    patterns = run.random.sample([path, "secret/data/*", path[:-1] + "*", "*", path + "*"], run.pick(1, 2, 2))
    for name in NAMES:
        found = {p: list(run.pick(NO_SUDO, NO_SUDO, ("read",), ("update", "create"))) for p in patterns
                 if not run.chance(4)}
        if found and run.chance(2):
            found[run.pick(*found)].insert(run.random.randrange(2), "deny")
        run.grant(name, found)
    tokens = [holder(run, *names) for names in run.random.sample(("p", "q", "r", "pq", "pr", "qr", "pqr"), 3)]
    while run.room() > 0:
        visit(run, run.pick(path, path, path, "secret/data/b", path + "x"), run.pick(*tokens, asker(run, *tokens)),
              run.pick("GET", "GET", "PUT", None))


def list_patterns(run):
    """LIST of folders, whose patterns end in a slash, in a star, in both or in none, and GET of the same."""
    run.size = run.random.randrange(10, 17)
    folder = run.pick("a", "a/b", "team")
    put(run, folder + "/" + run.pick("x", "y/z"))
    path = f"secret/metadata/{folder}"
    forms = (path, path + "/", path + "/*", path + "*", "secret/metadata/*", "secret/metadata", "secret/metadata/", "*",
             path[:-1] + "*", "secret/*", path + "/x", path + "/x/*")
    for name in NAMES[:run.pick(1, 1, 2)]:
        found = {form: run.pick(["list"], ["list"], ["list"], ["read", "list"], ["deny"], ["read"], [])
                 for form in run.random.sample(forms[:run.pick(3, 4, 8, len(forms))], run.pick(1, 2, 2, 3))}
        if run.chance(4):
            found[path], found[path + "/"] = run.pick((["list"], ["deny"]), (["read"], ["list"]), (["list"], []))
        run.grant(name, found)
    tokens = [holder(run, *run.pick("p", "pq"))]
    while run.room() > 0:
        by = asker(run, *tokens)
        way = run.random.randrange(10)
        if way < 5:
            run.call("LIST", run.pick(path, path, path + "/"), token=by)
        elif way == 5:
            run.call("LIST", run.pick("secret/metadata", "secret/metadata/", path + "/x", path + "x"), token=by)
        elif way == 6:
            run.call("GET", path + run.pick("?list=true", "/?list=true", "?list=1"), token=by)
        elif way == 7:
            run.call("LIST", run.pick("cubbyhole", f"cubbyhole/{folder}", "sys/policies/acl"), token=by)
        elif way == 8 and run.chance(2):
            run.grant("p", {run.pick(*forms): run.pick(["list"], ["deny"], ["list", "read"])})
        else:
            visit(run, path, by, "GET")


def creating_or_updating(run):
    """Writes that need `create` or `update`: of secrets that are there, deleted, destroyed, forgotten or never made."""
    run.size = run.random.randrange(10, 17)
    keys = run.random.sample(KEYS[:6], 2)
    rule = run.pick(["create"], ["update"], ["create"], ["update"], ["create", "patch"], ["create", "read"],
                    ["update", "delete", "read"])
    run.grant("p", {run.pick("secret/data/*", "secret/*", "*", "secret/data/*"): rule,
                    run.pick("cubbyhole/*", "secret/data/zz", f"secret/data/{keys[1]}", "secret/destroy/*"): some(run)})
    token = holder(run, "p")
    for key in keys:
        changed_state(run, key)
    while run.room() > 0:
        key = run.pick(*keys, run.pick(*KEYS[:6]))
        way = run.random.randrange(10)
        if way < 6:
            put(run, key, token)
        elif way == 6:
            run.call("PUT", f"secret/data/{key}", run.pick('{"data":{},"options":{"cas":0}}', "{", '{"data":1}'), token)
        elif way == 7:
            changed_state(run, key)
        elif way == 8:
            visit(run, run.pick(f"secret/undelete/{key}", f"secret/destroy/{key}", "secret/delete/none"), token, "PUT")
        else:
            visit(run, run.pick("secret/data", "secret/config", f"secret/metadata/{key}", "none/data/a"), token, "PUT")


def cubbyhole_permissions(run):
    """Cubbyholes of tokens that may create or update there, or only read; `default` beside other policies."""
    run.size = run.random.randrange(9, 17)
    path = "cubbyhole/" + run.pick("a", "a/b")
    rights = ["create"], ["update"], ["create", "read"], ["update", "read"], ["create", "update", "read"], ["deny"]
    run.grant("p", {run.pick("cubbyhole/*", path, "*"): run.pick(*rights[:5]),
                    run.pick("cubbyhole/a/b", "cubbyhole/b", "cubbyhole"): granted(run)})
    tokens = [holder(run, *names) for names in run.random.sample((("p",), ("p",), ("p", "default"), ("default",)), 2)]
    while run.room() > 0:
        way = run.random.randrange(9)
        if way < 5:
            visit(run, path, run.pick(*tokens), run.pick("PUT", "POST", "GET"))
        elif way == 5:
            run.grant("p", {run.pick("cubbyhole/*", path): run.pick(*rights)})
        else:
            visit(run, run.pick("cubbyhole/a", "cubbyhole/a/b", "cubbyhole/b", "cubbyhole"), asker(run, *tokens))


def stars_in_paths(run):
    """Paths that have a star in them, and patterns with a star that does not end them."""
    longer(run)
    forms = ("a*", "a**", "a*b", "a", "a*/c", "a*b*", "a/*", "*", "*b")
    rights = run.pick((["read"], ["deny"]), (["list"], ["read"]), (["read", "update"], ["create"]))
    found = {form: run.pick(*rights) for form in run.random.sample(forms[:run.pick(4, len(forms))], 2)}
    if run.chance(2):
        found["a*"], found["a**"] = run.pick(rights, rights[::-1])
    run.grant("p", {"secret/data/" + form: right for form, right in found.items()})
    run.grant("q", {"secret/data/" + run.pick(*forms): run.pick(*rights)})
    tokens = [holder(run, *run.pick("p", "p", "pq"))]
    while run.room() > 0:
        visit(run, "secret/data/" + run.pick("a*", "a*", "a*", "a*b", "axb", "ab", "a", "a**", "a*/c", "a*bc", "b"),
              run.pick(*tokens), run.pick("GET", "GET", "GET", "PUT"))


def sudo_permissions(run):
    """Paths that need `sudo`, and creations that ask for more than the caller has."""
    run.size = run.random.randrange(9, 17)
    method, target = run.pick(("LIST", "auth/token/accessors"), ("PUT", "auth/token/revoke-orphan"),
                              ("PUT", "sys/leases/revoke-prefix/a"), ("PUT", "auth/token/create"))
    near = run.pick(target, target, target + "/", target + "*", target + "/*", "sys/*")
    run.grant("p", {run.pick("*", "*", target.partition("/")[0] + "/*"): list(run.pick(NO_SUDO, NO_SUDO, ALL))})
    run.grant("q", {near: run.pick(list(ALL), ["sudo"], ["sudo"], ["update", "list"], list(NO_SUDO), ["deny", "sudo"]),
                    run.pick("*", "auth/token/*"): run.pick(["sudo"], list(NO_SUDO), ["update"])})
    tokens = [holder(run, *names) for names in ("p", run.pick("pq", "q"))]
    while run.room() > 0:
        by = run.pick(*tokens, asker(run, *tokens))
        way = run.random.randrange(10)
        if way < 4 and target != "auth/token/create":
            body = json.dumps({"token": run.pick(run.token(), "x")}) if method == "PUT" else None
            run.call(method, target + run.pick("", "", "", "/"), body, by)
        elif way < 5:
            run.call(run.pick("LIST", "GET", "PUT", "DELETE"), run.pick(
                "sys/leases/revoke-prefix", "sys/leases/revoke-prefix/a/b", "auth/token/revoke-orphan",
                "auth/token/accessors", "auth/token/accessors/x", "auth/token/accessors?list=true",
                "auth/token/revoke-orphan/x"), token=by)
        elif way < 9:
            run.make(run.pick({"no_parent": True}, {"policies": ["q"]}, {"policies": ["p"]}, {"policies": ["x"]}, {},
                              {"policies": ["p"], "no_parent": True}, {"policies": ["default"]},
                              {"policies": ["root"]}, {"policies": ["p"], "no_default_policy": True}), by,
                     run.pick("create", "create", "create", "create-orphan"))
        else:
            run.look(by)


def odd_policy(run):
    """A text that is a policy, or nearly."""
    rule = json.dumps({"capabilities": granted(run)})
    name = run.pick("a*", "*", "", "secret/data/a", "a/+/b", "+", "+/a", "a/+", "a+", "a/+*", "++", "a/b+/c", "a//b")
    odd = run.pick('{"capabilities":["read"],"max_ttl":"1h"}', '{"capabilities":["run"]}', '{"capabilities":["Read"]}',
                   '{"capabilities":"read"}', "{}", "null", '{"capabilities":null}', '{"capabilities":[1]}', "[]",
                   '{"capabilities":["read"],"x":1}',
                   '{"capabilities":["read","read"]}', '{"capabilities":["deny","patch"]}', '{"capabilities":[""]}',
                   '{"capabilities":["read"],"denied_parameters":{}}', '{"Capabilities":["read"]}',
                   '{"capabilities":["run"],"capabilities":["read"]}', '{"capabilities":["\\u0072ead"]}')
    levels = run.pick(125, 126, 127, 128)
    deep = "[" * levels + "]" * levels
    return run.pick(
        *[f'{{"path":{{{json.dumps(name)}:{rule}}}}}'] * 4,
        f'{{"path":{{"a*":{rule},"b":{odd}}}}}', *[f'{{"path":{{"b":{odd},"a*":{rule}}}}}'] * 2,
        *[f'{{"path":{{"b":{odd}}}}}'] * 2,
        f'{{"path":{{"*":{odd},"*":{rule}}}}}',
        f'{{"name":{run.pick("1", "[]", "{}", "null")},"path":{{"*":{rule}}}}}',
        f'{{"name":{run.pick("1.5", deep, deep, "1e3")},"path":{{}}}}', f' {{ "path" : {{ "a*" :\t{rule} }} }}\n',
        run.pick("", "null", "{}", "[]", '{"path":{}}', '{"path":[]}', '{"path":null}', '{"path":{},"x":1}',
                 '{"path":1,"path":{}}', '{"name":"x"}', '{"path":{}', '{"path":{}}x', "x", '"path"', '{"Path":{}}',
                 'path "a" { capabilities = ["read"] }', '{"path":{"é":{"capabilities":[]}}}', '{"rules":{"path":{}}}'))


def policy_texts(run):
    """Policies in every form that is read, and in forms that are refused, so that the one before stays."""
    longer(run)
    run.grant("p", {"secret/data/*": ["read"]})
    token = holder(run, "p")
    while run.room() > 0:
        run.grant("p", odd_policy(run))
        way = run.random.randrange(4)
        if way < 2:
            run.call("GET", "sys/policies/acl/p")
        elif way == 2:
            visit(run, run.pick("secret/data/a", "a", "a/x/b", "b"), token, "GET")


def policy_names(run):
    """Names of policies, `root` and `default` among them: set, read, deleted and listed."""
    longer(run)
    names = ("q", "q2", "root", "default", "a:b", "p", "x" * 129, "q", "root", "Root", "a.b-c_9", "x" * 128, "é",
             "a/b", "+", "a*", "%70", "0")
    while run.room() > 0:
        name = run.pick(*names[:run.pick(4, 8, len(names))])
        way = run.random.randrange(9)
        if way < 3:
            run.grant(name, run.pick({}, {"*": granted(run)}, "{", "{", '{"path":{"+":{}}}'))
        elif way == 3:
            run.call("PUT", f"sys/policies/acl/{name}", run.pick(
                None, "{}", "null", "[", '{"policy":1}', '{"policy":null}', '{"policy":{"path":{}}}', '{"policy":[]}',
                '{"policy":"","policy":"{\\"path\\":{}}"}', '{"Policy":"{}"}', '{"policy":"{\\"path\\":{}}","x":1}'))
        elif way < 6:
            run.call("GET", f"sys/policies/acl/{name}")
        elif way == 6:
            run.call("DELETE", f"sys/policies/acl/{run.pick(name, 'q')}")
            run.call("LIST", "sys/policies/acl")
        else:
            run.call(run.pick("LIST", "LIST", "GET"), "sys/policies/acl" + run.pick("", "/", "?list=true"))


def changing_policies(run):
    """Policies that are set, changed, deleted and set again between the requests of the tokens that have them."""
    run.size = run.random.randrange(11, 17)
    path = run.pick("secret/data/a", "secret/data/a/b", "cubbyhole/a", "auth/token/lookup-self")
    names = run.pick(("p", "q"), ("p", "pp"), ("p", "pp"), ("p", "default"))
    for name in names:
        run.grant(name, {run.pick(path, path, path[:-1] + "*", "*"): run.pick(list(NO_SUDO), ["read"], some(run))})
    tokens = [holder(run, *held) for held in run.pick((names,), (names[:1], names[1:]), (names[:1], names[1:]))]
    while run.room() > 0:
        way = run.random.randrange(10)
        name = run.pick(*names)
        if way < 6:
            visit(run, path, run.pick(*tokens), run.pick("GET", "GET", "GET", "PUT", None))
        elif way == 6:
            run.grant(name, {run.pick(path, path, path[:-1] + "*", path + "*"): run.pick(
                list(NO_SUDO), ["read"], ["deny"], some(run), [])})
        elif way < 9:
            run.call("DELETE", f"sys/policies/acl/{run.pick(*names, names[0])}")
            visit(run, path, run.pick(tokens[-1], tokens[0]), "GET")
        else:
            run.call(run.pick("GET", "LIST"), f"sys/policies/acl/{name}" if run.chance(2) else "sys/policies/acl")


def policies_of_children(run):
    """Children with some of their parent's policies or with others, and what they may do."""
    run.size = run.random.randrange(10, 17)
    run.grant("p", {run.pick("*", "auth/token/create*"): list(run.pick(NO_SUDO, NO_SUDO, ALL)),
                    "secret/data/a": granted(run)})
    run.grant("q", {"secret/data/*": run.pick(["read"], ["create"], ["deny"], list(NO_SUDO))})
    tokens = [holder(run, *run.pick("p", "pq", "pq"))]
    for _ in range(run.pick(1, 2, 3)):
        tokens.append(holder(run, *run.pick("p", "q", "pq", "r", ["default"], ["p", "default"], []),
                             by=run.pick(tokens[0], tokens[0], tokens[-1])))
    while run.room() > 0:
        by = run.pick(*tokens)
        if run.chance(4):
            tokens.append(holder(run, *run.pick("p", "q", ["default"], []), by=by))
        elif run.chance(5):
            run.look(by)
        else:
            visit(run, run.pick("secret/data/a", "secret/data/b", "cubbyhole/a", "secret/metadata"), by)


def policies_not_there(run):
    """Tokens whose policies do not exist, or not yet: they grant nothing, and neither does another's."""
    longer(run)
    held = ["none"], ["none", "p"], ["p"], ["pp"], ["p"]
    tokens = [holder(run, *run.pick(*held)) for _ in range(run.pick(1, 2))]
    if run.chance(2):
        run.grant("pp", {"*": list(NO_SUDO)})
    while run.room() > 0:
        way = run.random.randrange(8)
        if way < 5:
            visit(run, run.pick("secret/data/a", "secret/data/a", "cubbyhole/a", "auth/token/lookup-self", "none/x"),
                  run.pick(*tokens), run.pick("GET", "PUT", None))
        elif way < 7:
            run.grant(run.pick("pp", "pp", "pp", "p", "none", "r"),
                      {run.pick("*", "secret/*", "secret/data/a"): granted(run)})
        else:
            run.call("DELETE", f"sys/policies/acl/{run.pick('p', 'none', 'pp')}")


def policies_by_callers(run):
    """Tokens that read, set and delete policies, their own among them, as far as they may."""
    longer(run)
    acl = "sys/policies/acl"
    run.grant("p", {run.pick(f"{acl}/*", f"{acl}*", "*", f"{acl}/p", "sys/*"): run.pick(
        list(NO_SUDO), ["read", "list"], ["update"], ["create", "read"], some(run)),
        run.pick(acl, f"{acl}/", f"{acl}/q", f"{acl}/root"): granted(run)})
    token = holder(run, "p")
    while run.room() > 0:
        by = run.pick(token, token, token, None)
        way = run.random.randrange(8)
        if way < 2:
            run.grant(run.pick("p", "q", "q", "root", "default"), run.pick(
                {"*": list(ALL)}, {f"{acl}/*": some(run)}, "{", {"secret/data/a": ["read"]}), by)
        elif way < 4:
            run.call("GET", f"{acl}/{run.pick('p', 'q', 'root', 'default', 'none')}", token=by)
        elif way == 4:
            run.call("DELETE", f"{acl}/{run.pick('q', 'q', 'p', 'default')}", token=by)
        elif way == 5:
            run.call("LIST", acl + run.pick("", "/"), token=by)
        else:
            visit(run, "secret/data/a", token)


def refusals_in_order(run):
    """Refusals by policies before routes, methods and bodies, and the uses that they spend."""
    longer(run)
    run.grant("p", {run.pick("secret/data/*", "secret/*", "*", "none/*"): some(run, *NO_SUDO),
                    run.pick("sys/*", "auth/token/*", "secret/data/a"): granted(run)})
    tokens = [holder(run, "p", num_uses=run.pick(0, 2, 3, 4)), holder(run, run.pick("p", "default"))]
    while run.room() > 0:
        by = run.pick(tokens[0], asker(run, *tokens))
        path = run.pick("none", "none/x", "secret/data/a", "secret/data", "secret/none", "sys/none", "sys/mounts",
                        "auth/token/create", "auth/token/lookup-self", "cubbyhole", "secret", "auth/token/none",
                        "secret/data/a?version=x", "secret/data//a", "secret/data/%61")
        body = run.pick("{", "[]", '{"data":1}', "{}", None, '{"data":{"a":1.5}}')
        run.call(run.pick("GET", "PUT", "POST", "DELETE", "LIST"), path, body, by)


def policy_routes(run):
    """Methods of each route of policies, paths that are nearly one, and bodies that are not read."""
    longer(run)
    run.grant("p", {"*": some(run, *NO_SUDO)})
    token = holder(run, "p")
    while run.room() > 0:
        path = "sys/policies/acl" + run.pick("", "/p", "/p", "/none")
        if run.chance(4):
            path = run.pick("sys/policies", "sys/policy", "sys/policies/acl/p/x", "policies/acl/p", "sys/policies/ac",
                            "sys/policies/acls", "sys/policies/ACL/p", "sys/policies/acl//p", "sys/policies/rgp/p",
                            "sys/policies/acl/p?list=true", "sys/policies/acl?version=1",
                            "sys/policies/acl/p?version=x")
        run.call(run.pick("GET", "LIST", "POST", "PUT", "DELETE"), path,
                 run.pick(None, None, '{"policy":"{\\"path\\":{}}"}', "[", '{"a":1.5}', "null"),
                 run.pick(None, None, None, token))


def mixed_policies(run):
    """Policies changed on one connection and asked for on others, some requests cut and some pipelined."""
    longer(run)
    run.grant("p", {run.pick("secret/*", "*"): list(run.pick(ALL, NO_SUDO, ("read", "create")))})
    holder(run, *run.pick("p", "pq"))
    drawn = ("p", "secret/data/*", ["read"]), ("q", "secret/data/a", ["deny"]), ("r", "*", list(ALL))
    texts = {name: json.dumps({"policy": json.dumps({"path": {where: {"capabilities": what}}})})
             for name, where, what in drawn}
    while run.room() > 0:
        token = run.token()
        asked = [("POST", f"sys/policies/acl/{name}", None, text) for name, text in texts.items()]
        asked += [("GET", "secret/data/a", token, None), ("PUT", "secret/data/a", token, '{"data":{"k":1}}'),
                  ("LIST", "secret/metadata", token, None), ("DELETE", "sys/policies/acl/p", None, None),
                  ("POST", "auth/token/create", token, '{"policies":["p"]}'), ("LIST", "sys/policies/acl", token, None),
                  ("DELETE", "secret/data/a", token, None), ("GET", "auth/token/lookup-self", token, None)]
        parts = [request(method, "/v1/" + path, run.fields(by), body) for method, path, by, body in asked]
        text = "".join(run.random.choices(parts, weights=(2, 2, 1, 8, 6, 3, 1, 2, 2, 2, 2), k=run.pick(1, 1, 2)))
        connection = run.pick(1, 1, 2, 3)
        for piece in run.pieces(text, run.pick(1, 1, 1, 2)):
            run.event(piece, connection)
        if run.chance(3):
            run.event("", connection)
