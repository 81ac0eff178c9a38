"""The themes about tokens: creations, look-ups, renewals, ends, uses and revocations."""

import json

from drawing import GREATEST_MOMENT, GREATEST_WORD, request

GOOD_MEMBERS = {
    "policies": (["a"], ["b", "a", "b"], ["default"], ["a", "default"], "a,b", [], "", None, ["root"], ["Z", "a", "-"]),
    "meta": ({"a": "b"}, {"b": "1", "a": "2", "B": ""}, {}, None, {"é": "😀\n", "": "\""}, {"k": "x" * 60}),
    "ttl": (1, 5, 60, 3600, "1h", "90s", "60", 0, None, 2764800, 2764801, 4294967295),
    "explicit_max_ttl": (1, 60, 3600, "2h", 0, None, 2764800, 4294967295),
    "num_uses": (0, 1, 2, 3, 10, None, 2**64 - 1), "no_parent": (True, False, None),
    "no_default_policy": (True, False, None), "renewable": (True, None), "id": ("", None),
    "type": ("service", "", None), "period": (0, "", None), "display_name": ("x", 1, None), "lease": ("1h",),
}
LENIENT_MEMBERS = {
    "policies": (" a , b,,  ,a ", ",", " ", "root", "default,default", "a, default ,root", ["a"], "A.b-c_9"),
    "meta": ({}, None, {"\u0000": "\u001f"}, {"a": "1", "a.b": "é"}),
    "ttl": ("0060", "1h30m", "1m1m1s", "0h", "", "768h", "769h", "1h1", "60s", "00000000000000000000000000005",
            "4294967295", "4294967296", "1193046h", "1193047h", "10m"),
    "explicit_max_ttl": ("0060", "1h30m", "", "0s", "768h", "1000h", "5", "71582788m", "71582789m"),
    "num_uses": ("2", "003", "0", "999999999999999999", "1000000000000000000", "", "18446744073709551615"),
    "no_parent": ("true", "false", "True", "1", ""), "no_default_policy": ("true", "false", "TRUE", " true"),
    "renewable": ("true", "false", True), "id": ("", None), "type": ("service", "", "default"),
    "period": ("0", "0h", "0s", "", "00"), "explicit_max": (5,), "ttls": ("x",),
}
ODD_MEMBERS = {
    "policies": (1, {}, True, [1], ["a", None], [["a"]], ["a b"], ["a", ""], ["é"], "a,b c", ["a/b"], ["x" * 129],
                 ["x" * 128], "*"),
    "meta": ("a", [], 1, {"a": 1}, {"a": None}, {"a": ["b"]}, True, ""),
    "ttl": (-1, "-1", "1d", "1.5h", "h", " 5", "5 ", 2**32, [], {}, True, "1h ", "1H", "+5"),
    "explicit_max_ttl": (-1, "x", 2**32, "1d", [], False, "4294967296s"),
    "num_uses": (-1, "x", " 1", "1.0", [], True, "-1", {}, "0x1"), "no_parent": (1, "yes", [], {}, 0, "T"),
    "no_default_policy": (0, "no", {}, "null"), "renewable": (False, 1, "no", [], "false"),
    "id": ("x", 1, "hvs.x", [], "\u0000"), "type": ("batch", "default", 1, "Service", " service", {}),
    "period": (1, "1h", 4294967295, 2**32, -1, "x", [], "1d", "5s"),
}


def asked(run, members, least=0, most=4):
    """The body of a creation, with some of the members."""
    names = run.random.sample(sorted(members), run.random.randrange(least, min(most, len(members)) + 1))
    return {name: run.pick(*members[name]) for name in names}


def longer(run):
    """Gives the run room for up to 16 events."""
    run.size = run.random.randrange(6, 17)


def with_callers(run):
    """Gives the run room, and its tokens mostly the policy that they have."""
    longer(run)
    allow_callers(run)


def allow_callers(run):
    """Mostly sets the policy that tokens have: it lets them do all, or all but what needs `sudo`."""
    if not run.chance(6):
        capabilities = ["create", "read", "update", "delete", "list"]
        run.grant("a", {"*": run.pick(capabilities, [*capabilities, "sudo"])})


def creation(run, by=None, **members):
    """A token with a few policies and some life, which is mostly made."""
    body = {**asked(run, GOOD_MEMBERS, 0, 2), "policies": run.pick(["a", "b"], ["a"], "a,b,c", []), **members}
    return run.make(body, by, run.pick("create", "create", "create", "create-orphan"))


def creations(run):
    """Creations by root, with members in their plain forms, and look-ups of what was made."""
    longer(run)
    while run.room() > 0:
        made, _ = run.make(asked(run, GOOD_MEMBERS), name=run.pick("create", "create", "create-orphan"))
        if not run.chance(4):
            run.look(made)


def lenient_creations(run):
    """Creations whose members are written in every form that is read, and in forms that are nearly so."""
    longer(run)
    while run.room() > 0:
        members = {**asked(run, GOOD_MEMBERS, 0, 2), **asked(run, LENIENT_MEMBERS, 1, 3)}
        text = json.dumps(members, ensure_ascii=run.chance(2))
        if run.chance(8):
            text = run.pick(text[:-1] + ("," if members else "") + '"ttl":"x","ttl":7}', "null", " {} ", " " + text)
        made, _ = run.make(text)
        if run.chance(2):
            run.look(made)


def refused_creations(run):
    """Creations with members of another kind: the first one that is refused is named, and nothing is made."""
    longer(run)
    while run.room() > 0:
        made, _ = run.make({**asked(run, GOOD_MEMBERS, 0, 3), **asked(run, ODD_MEMBERS, 1, run.pick(1, 2, 3))},
                           name=run.pick("create", "create", "create-orphan"))
        if run.chance(4):
            run.look(made)
    run.lines.pop()
    run.call("LIST", "auth/token/accessors")


def children(run):
    """Creations by tokens of some policies: which policies a child may have, and what is refused first."""
    with_callers(run)
    first, _ = run.make({"policies": run.pick(["a", "b"], ["a", "b"], ["a", "b"], ["root"], ["root"]),
                         "ttl": run.pick(0, 86400, 2764800), "no_default_policy": run.pick(False, False, True),
                         "num_uses": run.pick(0, 0, 0, 0, 0, 2)})
    while run.room() > 0:
        policies = run.pick(["a"], ["b", "a"], ["a", "c"], ["root"], ["root", "a"], ["default"], ["a", "default"], [],
                            None, "a,b", "x", ["a b"], ["a b", "root"], "a,a")
        members = {"policies": policies, **asked(run, {
            "no_parent": (True, True, False), "no_default_policy": (True, False), "ttl": (0, 60, "1h", 3000000),
            "num_uses": (1, 2, 0), "explicit_max_ttl": (30, 0), "meta": ({"a": "b"},), "period": (0, 5)}, 0, 2)}
        if run.chance(4):
            members = {"no_parent": True}
        by = run.pick(first, first, first, run.token())
        made, _ = run.make(members, by, run.pick("create", "create", "create", "create-orphan"))
        if run.chance(3):
            run.look(run.pick(made, by))


def families(run):
    """Trees of tokens with orphans among them, one of which ends, and who of them is left."""
    run.size = run.random.randrange(11, 17)
    allow_callers(run)
    creation(run, num_uses=None)
    for _ in range(run.pick(2, 3, 4, 5)):
        creation(run, run.pick(run.made[0][0], run.made[-1][0], run.made[-1][0], run.token()), num_uses=None)
    token, accessor = run.pick(run.made[0], run.made[0], *run.made)
    way = run.random.randrange(5)
    if way == 0:
        run.ask("revoke-orphan", {"token": token})
    elif way == 1:
        run.ask("revoke-self", None, token)
    elif way == 2:
        run.ask("revoke-accessor", {"accessor": accessor})
    else:
        run.ask("revoke", {"token": token})
    left = [text for text, _ in run.made]
    run.random.shuffle(left)
    while run.room() > 1 and left:
        run.look(left.pop())
    run.call("LIST", "auth/token/accessors")


def look_ups(run):
    """Look-ups of tokens that are there and of texts that are none, by the caller and by others, in every form."""
    with_callers(run)
    creation(run)
    while run.room() > 0:
        if run.chance(5):
            creation(run, run.token())
        token, accessor = run.pick(*run.made)
        by = run.pick(None, None, run.token())
        way = run.random.randrange(8)
        if way < 3:
            run.look(token, by)
        elif way == 3:
            run.ask("lookup", {"token": run.pick(run.stranger(), accessor)}, by)
        elif way == 4:
            run.ask("lookup-accessor", {"accessor": run.pick(run.stranger(), token, accessor.upper(), accessor)}, by)
        elif way == 5:
            run.ask(run.pick("lookup", "lookup-accessor"), run.pick(
                None, "{}", "null", "[", '{"token":null}', '{"token":1}', '{"accessor":[]}', '{"accessor":null}',
                '{"token":"x","accessor":"y"}', '{"accessor":true,"token":{}}', '{"Token":"x"}'), by)
        elif way == 6:
            run.ask("lookup", {"token": token, "accessor": run.pick(accessor, 1), "more": [1]}, by)
        else:
            run.call("GET", "auth/token/lookup-self", run.pick(None, "{", '{"token":1}'),
                     run.pick(token, run.stranger()))


def accessors(run):
    """Accessors: the list of them, a token looked up and revoked by its accessor."""
    with_callers(run)
    for _ in range(run.pick(1, 2, 4)):
        creation(run, run.pick(None, run.token()))
    while run.room() > 0:
        token, accessor = run.pick(*run.made)
        way = run.random.randrange(6)
        if way < 2:
            run.call("LIST", "auth/token/accessors", run.pick(None, None, "{"))
        elif way == 2:
            run.call("GET", "auth/token/accessors" + run.pick("?list=true", "/?list=true", "", "?list=false"))
        elif way == 3:
            run.ask("lookup-accessor", {"accessor": accessor}, run.pick(None, token))
        elif way == 4:
            run.ask("revoke-accessor", {"accessor": run.pick(accessor, accessor, accessor, run.stranger(), token)})
        else:
            creation(run, run.pick(None, token))


def renewals(run):
    """Renewals at moments before and at a token's end, with increments in every form, up to its explicit maximum."""
    with_callers(run)
    ttl = run.pick(10, 60, 3600, 2764800)
    made, _ = run.make({"ttl": ttl, "explicit_max_ttl": run.pick(0, 0, ttl, ttl * 2, ttl + 5, 4294967295),
                        "policies": run.pick(["a"], ["root"])})
    while run.room() > 0:
        run.moment = min(run.moment + run.pick(0, 0, 1, ttl // 4, ttl // 3, ttl // 2, ttl - 1), GREATEST_MOMENT)
        if run.chance(6):
            made, _ = run.make({"ttl": ttl, "explicit_max_ttl": ttl * 3}, moment=run.moment)
        increment = run.pick(0, 1, ttl, ttl * 3, "1h", "90s", "", None, 4294967295, "768h", "0", "5", run.pick(
            "1d", -1, 2**32, "x", [], True, "4294967296"))
        body = {} if run.chance(4) else {"increment": increment}
        moment = run.moment if not run.chance(8) else max(0, run.moment - run.pick(1, ttl))
        way = run.random.randrange(7)
        if way < 3:
            run.ask("renew", {"token": run.pick(made, made, made, made, run.token(), run.stranger()), **body},
                    run.pick(None, None, made), moment=moment)
        elif way < 5:
            run.ask("renew-self", run.pick(body, body, body, None, "["), run.pick(made, made, made, None),
                    moment=moment)
        elif way == 5:
            run.ask("renew", run.pick(body, '{"token":1,"increment":"x"}', '{"token":null}', "{", None), moment=moment)
        else:
            run.look(made, moment=moment)


def periods(run):
    """Periodic tokens of several callers, renewed again and again, with maxima and increments beside the period."""
    with_callers(run)
    period = run.pick(5, 60, 3600, 2764799, 2764800, 4294967295)
    life = min(period, 2764800)
    beside = {"ttl": (0, 1, life * 2), "explicit_max_ttl": (0, life - 1, life + 2, life * 2, 4294967295),
              "num_uses": (0, 9), "no_parent": (True, False)}
    while run.room() > 0:
        if not run.made or run.chance(3):
            times = {"period": run.pick(period, period, str(period), f"{period}s", run.pick(0, "1d", -1)),
                     **asked(run, beside, 0, 2)}
            maker = run.pick(None, run.made[-1][0]) if run.made else None
            run.make({"policies": run.pick(["a"], ["a"], ["root"], []), **times}, maker,
                     run.pick("create", "create", "create-orphan"), moment=run.moment)
            continue
        token = run.pick(run.made[0], run.made[-1])[0]
        increment = run.pick({}, {}, {"increment": run.pick(0, 1, "5s", life * 2, "768h", "", -1, "1d")})
        way = run.random.randrange(5)
        if way < 3:
            run.moment = min(run.moment + run.pick(0, life // 3, life // 3, life - 1, life), GREATEST_MOMENT)
            run.ask(*run.pick(("renew-self", increment, token), ("renew", {"token": token, **increment})),
                    moment=run.moment)
        else:
            run.look(token, moment=run.moment)


def ends(run):
    """Tokens and their children at the moments around their ends, and moments that go back."""
    with_callers(run)
    start, ttl = run.moment, run.pick(1, 5, 60, 3600, 2764800)
    first, _ = run.make({"ttl": ttl, "policies": run.pick(["a"], ["root"])}, moment=start)
    for _ in range(run.pick(1, 2, 3)):
        run.make({"ttl": run.pick(ttl, ttl + 1, ttl * 2, max(1, ttl - 1), 0)}, run.pick(first, first, run.token()),
                 run.pick("create", "create", "create-orphan"), moment=start)
    while run.room() > 0:
        moment = min(start + run.pick(0, ttl - 1, ttl - 1, ttl, ttl, ttl + 1, ttl * 2, 2764799, 2764800),
                     GREATEST_MOMENT)
        token = run.token()
        way = run.random.randrange(6)
        if way < 3:
            run.look(token, moment=moment)
        elif way == 3:
            run.call("LIST", "auth/token/accessors", moment=moment)
        elif way == 4:
            run.make({"ttl": run.pick(0, 1, ttl)}, token, moment=moment)
        else:
            run.call("PUT", "cubbyhole/a", '{"a":1}', token, moment=moment)


def uses(run):
    """Tokens of limited uses: what spends a use, what does not, and what the last one still does."""
    with_callers(run)
    run.make({"num_uses": run.pick(1, 2, 2, 3, 4, "3"), "policies": run.pick([], ["a"], ["root"]),
              "ttl": run.pick(0, 60)})
    while run.room() > 0:
        if run.chance(8):
            run.make({"num_uses": run.pick(1, 2, 3)})
        token, accessor = run.pick(*run.made[-2:])
        way = run.random.randrange(12)
        if way == 0:
            run.look(token)
        elif way == 1:
            run.ask(run.pick("lookup", "renew"), {"token": token})
        elif way == 2:
            run.ask("lookup-accessor", {"accessor": accessor})
        elif way == 3:
            run.make({}, token)
        elif way == 4:
            run.call(run.pick("PUT", "GET"), "cubbyhole/a", '{"a":1}', token)
        elif way == 5:
            run.call(run.pick("GET", "LIST", "DELETE"), run.pick("none", "secret/data/x", "cubbyhole/a"), token=token)
        elif way == 6:
            run.call("LIST", "auth/token/accessors", token=token)
        elif way == 7:
            run.ask(run.pick("lookup", "renew-self", "create", "revoke-self"), run.pick("[", "{", "1"), token)
        elif way == 8:
            run.ask(run.pick("revoke-self", "renew-self"), None, token)
        elif way == 9:
            run.call("GET", run.pick("a//b", "%", "../a"), token=token)
        elif way == 10:
            run.ask("revoke", {"token": run.pick(token, "x")}, token)
        else:
            run.call("GET", "auth/token/lookup-self", token=token)


def revocations(run):
    """Revocations of each kind, of tokens and of texts that are none, with bodies in every form."""
    with_callers(run)
    creation(run, num_uses=None)
    while run.room() > 0:
        if run.chance(3) or len(run.made) < 3:
            creation(run, run.token(), num_uses=None)
            continue
        token, accessor = run.pick(*run.made)
        by = run.pick(None, None, None, run.token())
        way = run.random.randrange(9)
        if way == 0:
            run.ask("revoke", {"token": run.pick(token, token, run.stranger())}, by)
        elif way == 1:
            run.ask("revoke-orphan", {"token": run.pick(token, token, run.stranger())}, by)
        elif way == 2:
            run.ask("revoke-accessor", {"accessor": run.pick(accessor, accessor, run.stranger())}, by)
        elif way == 3:
            run.ask("revoke-self", run.pick(None, "{}", "null", '{"token":1}', "[", "1"), token)
        elif way == 4:
            run.ask(run.pick("revoke", "revoke-orphan", "revoke-accessor"), run.pick(
                None, "{}", "[", '{"token":null}', '{"token":[]}', '{"accessor":1}', '{"token":"","accessor":""}'), by)
        elif way == 5 and run.chance(3):
            run.ask(run.pick("revoke", "revoke-orphan"), {"token": run.root()}, by)
        else:
            run.look(token)


def sudo_paths(run):
    """Paths that need `sudo`, asked for by callers with the policy `root` and without."""
    with_callers(run)
    run.make({"policies": ["a"]})
    run.make({"policies": run.pick(["root"], ["root", "a"], "root,default"), "ttl": run.pick(0, 60, None)})
    while run.room() > 0:
        by = run.pick(run.made[0][0], run.made[0][0], run.made[1][0], run.stranger())
        way = run.random.randrange(5)
        if way == 0:
            run.call(run.pick("LIST", "GET", "PUT", "DELETE"),
                     run.pick("auth/token/accessors", "auth/token/accessors/", "auth/token/accessors/x",
                              "auth/token/accessors?list=true"), token=by)
        elif way == 1:
            run.ask(run.pick("revoke-orphan", "revoke-orphan/", "revoke-orphan/x"),
                    run.pick({"token": run.token()}, {"token": "x"}, "[", None), by)
        elif way == 2:
            run.call(run.pick("GET", "LIST", "DELETE"), "auth/token/revoke-orphan", token=by)
        elif way == 3:
            run.call(run.pick("PUT", "GET"), run.pick("sys/leases/revoke-prefix/secret", "sys/leases/revoke-prefix",
                                                      "sys/leases/revoke-prefix/a/b"), token=by)
        else:
            run.make({"policies": run.pick(["a"], ["x"], ["root"]), "no_parent": run.pick(True, False)}, by)


def given_twice(run):
    """Words that would give an identifier out a second time, or two identifiers at once."""
    with_callers(run)
    words = [0x1000]
    while run.room() > 0:
        word = (run.pick(*words) + run.pick(0, 0, 0, 1, -1, 1, -1, 2, -2, 3)) % 2**128
        if run.chance(6):
            word = run.pick(0, GREATEST_WORD, GREATEST_WORD - 1, run.random.getrandbits(128))
        words.append(word)
        way = run.random.randrange(8)
        if way < 4:
            run.make(run.pick({}, {}, {"policies": ["a"]}, {"num_uses": -1}, {"ttl": 5}),
                     run.pick(None, None, None, run.token()), run.pick("create", "create-orphan"), word=word)
        elif way == 4:
            run.make({"num_uses": run.pick(1, 2)}, word=word)
        elif way == 5:
            run.ask("revoke", {"token": run.token()}, word=word)
        else:
            run.look(run.token(), word=word)


def other_cubbyholes(run):
    """Cubbyholes of several tokens: none sees another's, and each goes with its token."""
    longer(run)
    for _ in range(run.pick(1, 2, 3)):
        creation(run, run.pick(None, run.token()), num_uses=run.pick(None, None, None, 3))
    path = run.path()
    while run.room() > 0:
        token = run.token()
        way = run.random.randrange(9)
        if way < 3:
            run.call(run.pick("PUT", "POST"), run.pick(path, path, run.path()),
                     run.pick(run.object_text(1), '{"a":1}', '{"b":{}}', "{}", "{"), token)
        elif way < 7:
            run.call("GET", path + run.pick("", "", "/"), token=token)
        elif way == 7:
            run.call(run.pick("LIST", "DELETE"), path, token=token)
        else:
            run.ask(run.pick("revoke", "revoke-orphan"), {"token": run.pick(*run.made)[0]})


def cubbyhole_lists(run):
    """Lists of cubbyholes and of their folders, by LIST and by GET, between writes and deletions of two tokens."""
    run.size = run.random.randrange(10, 17)
    creation(run, policies=["default"], num_uses=None, ttl=None, explicit_max_ttl=None)
    callers = [None, None, run.made[-1][0]]
    tree = ("a/b", "a", "Z", "a/B", "a/b/c", "b", "b/c/d/e", "a-b", "a0", "ab/c", "é", "é/a", "10", "9", "a./b")
    paths = run.random.sample(tree, run.pick(2, 3, 4, 5))
    for path in paths:
        run.call(run.pick("PUT", "POST"), f"cubbyhole/{path}", '{"a":1}', run.pick(*callers))
    while run.room() > 0:
        token = run.pick(*callers)
        place = run.pick("", "", "", run.pick("a", "b", "é"), *("/" + path.rpartition("/")[0] for path in paths),
                         "/" + run.pick("none", "a/b", *paths)).strip("/")
        place = "cubbyhole" + ("/" + place if place else "")
        way = run.random.randrange(12)
        if way < 5:
            run.call("LIST", place + run.pick("", "", "/"), token=token)
        elif way < 7:
            run.call("GET", place + run.pick("?list=true", "/?list=true", "?a&list=true&list=false", "?list=1", ""),
                     token=token)
        elif way < 10:
            path = run.pick(*paths)
            run.call("DELETE", f"cubbyhole/{path}" + run.pick("", "", "/"), token=token)
            place = run.pick("cubbyhole", "cubbyhole", f"cubbyhole/{path}")
            run.call(run.pick("LIST", "LIST", "GET"), place, token=token)
        elif way == 10:
            run.call(run.pick("DELETE", "PUT", "GET"), place, run.pick(None, '{"a":1}', "{"), token)
        else:
            run.call("PUT", f"cubbyhole/{run.pick(*tree)}", run.pick('{"a":1}', '{"b":{}}', "{}"), token)


TOKEN_ROUTES = ("create", "create-orphan", "lookup", "lookup-self", "lookup-accessor", "renew", "renew-self", "revoke",
                "revoke-orphan", "revoke-self", "revoke-accessor", "accessors")


def token_routes(run):
    """Methods of each route of tokens, paths that are nearly one, and bodies that are not read."""
    with_callers(run)
    creation(run, num_uses=None)
    while run.room() > 0:
        path = "auth/token/" + run.pick(*TOKEN_ROUTES)
        if run.chance(4):
            path = run.pick(path + "/x", path.replace("token/", "tokens/"), path[:-1], path + "s", "auth/token", "auth",
                            path.replace("auth/", "auth/auth/"), path.upper(), "token/lookup-self", path + "/",
                            path + "?version=1", path + "?list=true")
        run.call(run.pick("GET", "LIST", "POST", "PUT", "DELETE"), path,
                 run.pick(None, None, "{}", "[", '{"token":"x"}', '{"a":1.5}', "null"),
                 run.pick(None, None, run.made[0][0]))


def mixed_tokens(run):
    """Tokens made, used and revoked on three connections, some requests cut and some pipelined."""
    with_callers(run)
    creation(run)
    while run.room() > 0:
        token, accessor = run.pick(*run.made)
        if run.chance(3):
            creation(run, run.token())
            continue
        texts = [request(method, "/v1/" + path, run.fields(by), body) for method, path, by, body in (
            ("GET", "auth/token/lookup-self", token, None), ("GET", "cubbyhole/a", token, None),
            ("PUT", "cubbyhole/a", token, '{"a":1}'), ("LIST", "auth/token/accessors", None, None),
            ("POST", "auth/token/create", token, '{"policies":["a"],"ttl":3600}'),
            ("POST", "auth/token/lookup", None, json.dumps({"token": token})),
            ("POST", "auth/token/renew-self", token, '{"increment":"2h"}'),
            ("POST", "auth/token/revoke-accessor", None, json.dumps({"accessor": accessor})),
            ("POST", "auth/token/revoke-self", token, None))]
        text = "".join(run.random.choices(texts, weights=(6, 3, 3, 2, 3, 3, 2, 1, 1), k=run.pick(1, 1, 2)))
        connection = run.pick(1, 1, 2, 3)
        for piece in run.pieces(text, run.pick(1, 1, 1, 2)):
            run.event(piece, connection)
        if run.chance(3):
            run.event("", connection)
