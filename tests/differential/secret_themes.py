"""The themes about secrets with versions: writes, check-and-set, deletions, settings, lists, and who asks."""

import json

from drawing import GREATEST_MOMENT, request
from token_themes import allow_callers, creation, longer, with_callers

PATHS = ("a", "a/b", "a-b", "a0", "b", "team/x", "team", "team/y", "a/b/c", "x.y", "A", "été", "Ω/😀", "data/a", "c")
COUNTS = (0, 1, 2, 3, 5, 12, 999999999999999999, 2**63, 2**64 - 1)
ODD_COUNTS = (-1, "x", "", " 1", "1.0", True, [], {}, "1" * 19, "0x1", "-1")
GOOD_VERSIONS = ("version=1", "version=1", "version=2", "version=2", "version=3", "version=0", "version=00", "version=",
                 "version", "version=001", "version=1&version=2", "version=2&version=x", "a=b&version=1&", "Version=2",
                 "xversion=1", "version=" + "0" * 17 + "1", "version=&version=1", "")
ODD_VERSIONS = ("version=-1", "version=+1", "version=1a", "version=x", "version=" + "0" * 18 + "1", "version=1?",
                "version=é", "version==1", "version=1.0", "version=18446744073709551615", "version=" + "0" * 19,
                "version=x&version=1", "version=1,2", "version=0x1")
DELETED = "delete", "undelete", "destroy"


class Secrets:
    """Some paths of secrets, with the current version of each if all was answered as it should be."""

    def __init__(self, run, count):
        self.run = run
        self.paths = run.random.sample(PATHS[:run.pick(4, 8, len(PATHS))], count)
        self.current = {path: 0 for path in self.paths}
        self.required = False

    def path(self):
        """One of the paths."""
        return self.run.pick(*self.paths)

    def call(self, method, route, path="", body=None, **event):
        """An event that is a request for one of the mount's routes, by the root token if no other is given."""
        if isinstance(body, dict):
            body = json.dumps(body, ensure_ascii=self.run.chance(4))
        self.run.call(method, f"secret/{route}" + (f"/{path}" if path else ""), body, **event)

    def ask(self, route, path="", body=None, **event):
        """The same with a write."""
        self.call(self.run.pick("POST", "POST", "PUT"), route, path, body, **event)

    def write(self, path=None, data=None, options=None, **event):
        """A write of a secret; the data may be a text that is spelled in any way."""
        path = path or self.path()
        members = ['"data":' + (data or self.data())]
        if options is not None or self.run.chance(8):
            members.append('"options":' + json.dumps(options))
        if self.run.chance(12):
            members.append('"more":[1]')
        self.run.random.shuffle(members)
        room = self.run.room()
        self.ask("data", path, "{" + ",".join(members) + "}", **event)
        cas = (options or {}).get("cas")
        matches = not self.required if cas is None else str(cas).isdigit() and int(cas) == self.current[path]
        self.current[path] += bool(room > 0 and matches)
        return path

    def data(self):
        """Data of a few members."""
        run = self.run
        return json.dumps(run.pick({"k": run.random.randrange(100)}, {"k": run.random.randrange(100)}, {},
                                   {"user": "é", "password": '"\\/\n'}, {"a": None, "b": [1, {"c": True}]}),
                          ensure_ascii=run.chance(2))

    def read(self, path=None, version=None, **event):
        """A read of a secret, of the current version or of one that was there."""
        path = path or self.path()
        query = "" if version is None else f"?version={version}"
        self.call("GET", "data", path + query, **event)

    def number(self, path):
        """The number of a version, mostly of one that was written."""
        return self.run.pick(*range(1, self.current[path] + 1), self.run.pick(self.current[path], 1, 0, 20))

    def numbers(self, path):
        """A list of versions in one of its forms."""
        found = [self.number(path) for _ in range(self.run.pick(1, 1, 1, 2, 3))]
        return self.run.pick(found, found, found, [str(n) for n in found], ",".join(map(str, found)),
                             " , ".join(f"{n:03}" for n in found) + ",")

    def settings(self, **members):
        """A write of the mount's settings."""
        if self.run.room() > 0 and members.get("cas_required") is not None:
            self.required = members["cas_required"] in (True, "true")
        self.ask("config", "", members)

    def forget(self, path):
        """The deletion of a secret with all its versions."""
        if self.run.room() > 0:
            self.current[path] = 0
        self.call("DELETE", "metadata", path)


# --------------------------------------------------------------------------------------------- themes

def secret_writes(run):
    """Secrets written and read back, with data in every spelling, and what is told of them."""
    longer(run)
    secrets = Secrets(run, run.pick(1, 2, 3))
    while run.room() > 0:
        path = secrets.write(data=run.object_text(run.pick(0, 1, 2), least=0),
                             options=run.pick(None, None, {}, {"cas": None}, {"more": 1}))
        if run.chance(3):
            secrets.call("GET", "metadata", path)
        else:
            secrets.read(path, run.pick(None, None, secrets.current[path], secrets.number(path)))


def check_and_set(run):
    """Writes that name the current version or another one, in every form, also after deletions and as the rule."""
    longer(run)
    secrets = Secrets(run, run.pick(1, 1, 2))
    if run.chance(3):
        secrets.settings(cas_required=run.pick(True, "true"))
    while run.room() > 0:
        path = secrets.path()
        current = secrets.current[path]
        way = run.random.randrange(14)
        if way < 6:
            secrets.write(path, options={"cas": run.pick(current, current, str(current), f"{current:018}")})
        elif way < 8:
            secrets.write(path, options={"cas": run.pick(0, 1, current + 1, max(0, current - 1), str(current + 1),
                                                         run.pick(*COUNTS))})
        elif way == 8:
            secrets.write(path, options=run.pick(None, {}, {"cas": None}))
        elif way == 9:
            secrets.call("DELETE", "data", path)
        elif way == 10:
            secrets.ask(run.pick(*DELETED), path, {"versions": [max(current, 1)]})
        elif way == 11 and run.chance(2):
            secrets.forget(path)
        elif way == 12 and run.chance(2):
            secrets.settings(cas_required=run.pick(True, False, "false"))
        elif way == 13 and run.chance(2):
            secrets.call("GET", "metadata", path)
        else:
            secrets.read(path)


def old_versions(run):
    """More versions than are kept, by the settings or without, and which of them are gone."""
    kept = run.pick(0, 0, 1, 2, 3, 4)
    run.size = run.random.randrange(11, 17) if kept else 16
    secrets = Secrets(run, 1)
    path = secrets.path()
    if kept:
        secrets.settings(max_versions=run.pick(kept, str(kept)))
    while run.room() > 4:
        secrets.write(path, f'{{"n":{secrets.current[path] + 1}}}')
        if kept and run.chance(4):
            kept = run.pick(1, 1, 2, 5)
            secrets.settings(max_versions=kept)
            secrets.read(path, run.pick(1, secrets.number(path), max(1, secrets.current[path] - kept)))
        elif kept and run.chance(8):
            secrets.ask(run.pick(*DELETED), path, {"versions": secrets.numbers(path)})
    current = secrets.current[path]
    while run.room() > 1:
        oldest = max(1, current - (kept or 10) + 1)
        secrets.read(path, run.pick(1, oldest, oldest, max(1, oldest - 1), current, current + 1, None))
    secrets.call("GET", "metadata", path)


def asked_versions(run):
    """Versions that a read asks for, in every form, of secrets that are there or not; elsewhere none is read."""
    longer(run)
    secrets = Secrets(run, 2)
    path = secrets.path()
    for number in range(1, run.pick(3, 4, 5)):
        secrets.write(path, f'{{"n":{number}}}')
    if run.chance(3):
        secrets.ask(run.pick("delete", "destroy"), path, {"versions": [1]})
    while run.room() > 0:
        query = "?" + run.pick(*GOOD_VERSIONS, *GOOD_VERSIONS, *ODD_VERSIONS)
        way = run.random.randrange(12)
        if way < 7:
            secrets.call("GET", "data", path + run.pick("", "", "", "/") + query)
        elif way == 7:
            secrets.call("GET", "data", "none" + run.pick(query, "?" + run.pick(*ODD_VERSIONS)))
        elif way == 8:
            secrets.call("GET", run.pick("metadata", "metadata", "data"), path + query + "&list=true")
        elif way == 9:
            secrets.call("GET", run.pick(f"metadata/{path}", "config") + query)
        elif way == 10:
            secrets.call(run.pick("DELETE", "PUT"), "data", path + query, '{"data":{"n":9}}')
        else:
            run.call("GET", run.pick("cubbyhole/a", "auth/token/lookup-self", "secret/metadata", "none") + query)


def deletions(run):
    """Versions deleted, undeleted and destroyed, old ones and the current one, again too, and what reads tell then."""
    run.size = run.random.randrange(8, 17)
    secrets = Secrets(run, run.pick(1, 1, 1, 2))
    for path in secrets.paths:
        for _ in range(run.pick(1, 2, 3)):
            secrets.write(path)
    while run.room() > 0:
        path = secrets.path()
        way = run.random.randrange(14)
        if way < 3:
            secrets.ask("delete", path, {"versions": secrets.numbers(path)})
        elif way < 5:
            secrets.ask("undelete", path, {"versions": secrets.numbers(path)})
        elif way < 7:
            secrets.ask("destroy", path, {"versions": secrets.numbers(path)})
        elif way < 9:
            secrets.call("DELETE", "data", path)
        elif way == 9:
            secrets.write(path)
        elif way == 10 and run.chance(2):
            path = run.pick("none", path + "/x", path[:-1] or "b", path.partition("/")[0])
            secrets.ask(run.pick(*DELETED), path, {"versions": [1]})
        elif way < 13:
            secrets.read(path, run.pick(None, secrets.number(path), secrets.number(path)))
        if way > 12 or run.chance(3):
            secrets.call("GET", "metadata", path)


def version_lists(run):
    """Lists of versions in every form that is read, and in forms that are refused."""
    longer(run)
    secrets = Secrets(run, 1)
    path = secrets.path()
    for _ in range(run.pick(2, 3, 4)):
        secrets.write(path)
    while run.room() > 0:
        versions = run.pick(
            secrets.numbers(path), [1, "2", 3], "1", "1,2", " 1 ,,000000000000000002", [2, "2", 2], [0], [4, 2**64 - 1],
            ["000000000000000001"], run.pick(*COUNTS), run.pick(None, [], "", " , ,"), run.pick(
                1, True, {}, [-1], ["a"], [1, None], [[1]], "1,a", "1;2", [""], [" 1"], ["1" * 19], "1h", "-1",
                [1, 2**64 - 1, "x"]))
        body = {"versions": versions}
        if run.chance(5):
            body = run.pick(None, "{}", "null", "[1]", "{", '{"Versions":[1]}', '{"versions":[1.0]}',
                            '{"versions":["x"],"versions":[1]}', {"versions": [1], "more": {}}, '{"versions":[01]}')
        secrets.ask(run.pick(*DELETED), path, body)
        if run.chance(2):
            secrets.call("GET", "metadata", path)


def odd_write(run):
    """The body of a write that is refused, or hardly."""
    odd = run.pick(*ODD_COUNTS)
    members = run.pick(
        {"data": run.pick(None, [], "x", 1, True, "{}")}, run.pick({}, {"Data": {}}, {"options": {"cas": 0}}),
        {"data": {}, "options": run.pick(1, "x", [], True, "")}, {"data": {}, "options": {"cas": odd}},
        {"data": {}, "options": {"cas": odd}}, {"data": {}, "options": run.pick(1, "x", [], True, "")},
        run.pick({"data": [], "options": {"cas": odd}}, {"data": None, "options": 1}),
        {"data": {}, "options": {"cas": run.pick(*COUNTS[3:])}})
    levels = run.pick(124, 125, 125, 126, 127)
    deep = '{"data":{"a":' + "[" * levels + "]" * levels + "}}"
    return run.pick(json.dumps(members), json.dumps(members), json.dumps(members), json.dumps(members), deep, run.pick(
        None, "", "null", "{}", " ", "[]", '"x"', '{"data":{}', '{"data":{"a":1.5}}', '{"data":{"a":-0}}',
        '{"data":{"a":1.5,"a":1}}', '{"data":{}}x', '{"data":1,"data":{"a":2}}', '{"data":{"a":2},"data":1}',
        '{"data":{"a":18446744073709551616}}', '{"data":{"a":"\\ud800"}}', '{"data":{"é":"\\u00e9"}}',
        '{"data":{},"options":{"cas":1.0}}', '{"data":{},"options":{"cas":1,"cas":null}}'))


def refused_secrets(run):
    """Writes whose bodies are refused, between good ones: no version comes of them."""
    longer(run)
    secrets = Secrets(run, run.pick(1, 2))
    if run.chance(4):
        secrets.settings(cas_required=True)
    for path in secrets.paths:
        secrets.write(path, options={"cas": 0})
    while run.room() > 0:
        path = secrets.path()
        if run.chance(3):
            secrets.write(path, options=run.pick(None, {"cas": secrets.current[path]}))
        else:
            secrets.ask("data", path, odd_write(run))
        if run.chance(2):
            secrets.read(path, run.pick(None, secrets.current[path], secrets.current[path] + 1))


GOOD_SETTINGS = {"max_versions": (0, 1, 2, 3, "1", "002", None, 12, 2**64 - 1, "999999999999999999"),
                 "cas_required": (True, False, False, "true", "false", None), "delete_version_after": ("0s", None),
                 "more": (1,)}
ODD_SETTINGS = {"max_versions": ODD_COUNTS, "cas_required": (1, 0, "yes", "True", "", [], {}),
                "delete_version_after": ("1s", "0", 0, "", "0m", [], True, "0s ")}


def settings(run):
    """The mount's settings: members that are absent or of another kind, what stays, and what writes do then."""
    longer(run)
    secrets = Secrets(run, 1)
    path = secrets.path()
    while run.room() > 0:
        way = run.random.randrange(12)
        names = run.random.sample(sorted(GOOD_SETTINGS), run.pick(0, 1, 1, 2, 3))
        members = {name: run.pick(*GOOD_SETTINGS[name]) for name in names}
        if way < 4:
            secrets.settings(**members)
            if run.chance(2):
                secrets.call("GET", "config")
        elif way == 4:
            odd = run.random.sample(sorted(ODD_SETTINGS), run.pick(1, 1, 2, 3))
            secrets.ask("config", "", {**members, **{name: run.pick(*ODD_SETTINGS[name]) for name in odd}})
        elif way == 5:
            name = run.pick(*ODD_SETTINGS)
            secrets.ask("config", "", {**members, name: run.pick(*ODD_SETTINGS[name])})
        elif way == 6 and run.chance(2):
            secrets.ask("config", "", run.pick(None, "null", "{}", "[", "1", '{"max_versions":1.0}',
                                               '{"max_versions":"x","max_versions":null}'))
        elif way < 8:
            secrets.call("GET", "config" + run.pick("", "", "?list=false", "/"))
        elif way < 11:
            current = secrets.current[path]
            secrets.write(path, options=run.pick(None, {"cas": current}, {"cas": current}))
        else:
            secrets.call("GET", "metadata", path)


MANY = {f"k{number}": "v" for number in range(64)}
GOOD_KEY_SETTINGS = {"custom_metadata": ({}, None, {"b": "2", "a": "1"}, {"b": "2", "a": "1"}, {"a": "3", "é": ""},
                                         {"a": '"\\/\n', "B": "x"}, {"x" * 128: "y" * 512}, MANY),
                     **GOOD_SETTINGS}
ODD_KEY_SETTINGS = {"custom_metadata": ({"a": 1}, {"a": None}, {"a": "x", "b": {}}, [], "x", 1, True, {"": "v"},
                                        {"x" * 129: "v"}, {"a": "y" * 513}, {"é" * 65: "v"}, {**MANY, "k": "v"}),
                    **ODD_SETTINGS}


def key_settings(run):
    """Settings of single secrets, before their first version and after, and what is written, read and told then."""
    longer(run)
    secrets = Secrets(run, 2)
    if run.chance(3):
        secrets.settings(max_versions=run.pick(1, 3), cas_required=run.pick(True, False))
    while run.room() > 0:
        path = secrets.path()
        names = run.random.sample(sorted(GOOD_KEY_SETTINGS), run.pick(0, 1, 1, 2, 3))
        members = {name: run.pick(*GOOD_KEY_SETTINGS[name]) for name in names}
        current = secrets.current[path]
        way = run.random.randrange(16)
        if way < 5:
            secrets.ask("metadata", path, members)
        elif way == 5:
            name = run.pick("custom_metadata", *ODD_KEY_SETTINGS)
            secrets.ask("metadata", path, {**members, name: run.pick(*ODD_KEY_SETTINGS[name])})
        elif way == 6 and run.chance(2):
            odd = run.random.sample(sorted(ODD_KEY_SETTINGS), 2)
            secrets.ask("metadata", path, {**members, **{name: run.pick(*ODD_KEY_SETTINGS[name]) for name in odd}})
        elif way == 6:
            secrets.ask("metadata", path, run.pick(
                None, "{}", "null", "[1]", "{", '{"max_versions":1.0}', '{"custom_metadata":{"a":"1","a":"2"}}',
                '{"custom_metadata":{"a":1,"a":"2"}}', '{"custom_metadata":{"a":"1"},"custom_metadata":null}'))
        elif way < 11:
            secrets.write(path, options=run.pick(None, {"cas": current}, {"cas": current}, {"cas": current + 1}))
        elif way < 13:
            secrets.read(path, run.pick(None, None, secrets.number(path)))
        elif way == 13:
            secrets.call("GET", "metadata", path)
        elif way == 14 and run.chance(2):
            secrets.ask(run.pick(*DELETED), path, {"versions": secrets.numbers(path)})
        elif way == 14 and run.chance(2):
            secrets.forget(path)
        else:
            secrets.call(run.pick("LIST", "DELETE"), run.pick("metadata", "data"), run.pick("", path))
        if way < 7 and run.chance(2):
            secrets.call("GET", "metadata", path)


def folders(run):
    """Lists of secrets and of folders, by LIST and by GET, at every place of the tree."""
    run.size = run.random.randrange(9, 17)
    secrets = Secrets(run, 4)
    tree = ("a/b", "a", "Z", "a/B", "a/b/c", "b", "b/c/d/e", "a-b", "a0", "ab/c", "é", "é/a", "z/y", "10", "9", "a./b")
    secrets.paths = run.random.sample(tree[:run.pick(6, 6, 10, len(tree))], run.pick(3, 4, 5, 6))
    secrets.current = {path: 0 for path in secrets.paths}
    for path in secrets.paths:
        secrets.write(path)
    while run.room() > 0:
        place = run.pick("", "", "", run.pick("a", "b", "é"), *(path.rpartition("/")[0] for path in secrets.paths),
                         run.pick("none", "a/b", "b/c", secrets.path(), "z/"))
        way = run.random.randrange(12)
        if way < 6:
            secrets.call("LIST", "metadata", place)
        elif way < 8:
            secrets.call("GET", "metadata", place + run.pick("?list=true", "/?list=true", "?a&list=true&list=false",
                                                             "?list=true", "?list=1"))
        elif way < 10:
            path = run.pick(secrets.path(), min(secrets.paths, key=len))
            secrets.forget(path)
            secrets.call("LIST", "metadata", run.pick("", path))
        elif way == 10:
            secrets.call(run.pick("DELETE", "GET", "GET"), run.pick("data", "metadata"), secrets.path())
        else:
            secrets.write()


def forgotten_secrets(run):
    """Secrets deleted with all their versions and written again: the numbers begin anew."""
    longer(run)
    secrets = Secrets(run, run.pick(1, 2))
    while run.room() > 0:
        path = secrets.path()
        for _ in range(run.pick(1, 2, 3)):
            secrets.write(path, options=run.pick(None, {"cas": secrets.current[path]}))
        if run.chance(3):
            secrets.ask(run.pick(*DELETED), path, {"versions": [secrets.current[path]]})
        secrets.forget(path)
        if run.chance(3):
            secrets.write(path, options={"cas": run.pick(1, 2, 0)})
        path = run.pick(path, path, secrets.path())
        way = run.random.randrange(7)
        if way < 3:
            secrets.read(path, run.pick(None, 1))
        elif way == 3:
            secrets.forget(path)
        elif way == 4:
            secrets.ask("undelete", path, {"versions": [1]})
        else:
            secrets.call(run.pick("GET", "LIST"), "metadata", run.pick(path, path, ""))


def secret_callers(run):
    """Secrets asked for by several tokens, some of which have uses or an end; a secret stays when they go."""
    run.size = run.random.randrange(10, 17)
    allow_callers(run)
    secrets = Secrets(run, 2)
    ttl = run.pick(10, 60, 3600)
    creation(run, num_uses=run.pick(2, 3, 4, 6), ttl=0)
    creation(run, num_uses=None, ttl=ttl, explicit_max_ttl=0)
    if run.chance(2):
        creation(run, run.made[1][0], num_uses=None, ttl=ttl * 2)
    secrets.write(secrets.paths[0], token=run.pick(None, run.made[0][0]))
    if run.chance(2):
        secrets.call("DELETE", "data", secrets.paths[0])
    while run.room() > 0:
        by = run.pick(run.root(), run.root(), run.token(), *(token for token, _ in run.made))
        path = secrets.path()
        way = run.random.randrange(16)
        if way < 4:
            secrets.write(path, token=by)
        elif way < 8:
            secrets.read(path, run.pick(None, None, 1, secrets.number(path)), token=by)
        elif way < 10:
            secrets.read(secrets.paths[0], 1, token=run.made[0][0])
        elif way == 10:
            secrets.call(run.pick("GET", "DELETE"), run.pick("metadata", "data"), path, token=by)
        elif way == 11:
            secrets.call("LIST", "metadata", token=by)
        elif way == 12:
            secrets.ask(run.pick(*DELETED), path, run.pick({"versions": secrets.numbers(path)}, {}), token=by)
        elif way == 13:
            secrets.ask("config", "", {"max_versions": run.pick(1, 2, 5)}, token=run.token())
            run.call("GET", run.pick("auth/token/lookup-self", "secret/config", "cubbyhole/a"), token=by)
        elif way == 14:
            run.moment = min(run.moment + run.pick(1, ttl // 2, ttl - 1, ttl), GREATEST_MOMENT)
            secrets.read(path, token=run.pick(by, by, run.stranger()), moment=run.moment)
        elif run.chance(2):
            run.ask(run.pick("revoke", "revoke-orphan"), {"token": run.pick(*run.made)[0]})


ROUTES = (("config", "GET", "PUT"), ("data/P", "GET", "PUT", "DELETE"), ("delete/P", "PUT"), ("undelete/P", "PUT"),
          ("destroy/P", "PUT"), ("metadata", "LIST"), ("metadata/P", "GET", "LIST", "PUT", "DELETE"))
GOOD_BODIES = {"config": '{"max_versions":2}', "data/P": '{"data":{}}', "metadata/P": '{"max_versions":2}'}


def secret_routes(run):
    """Methods of each route of secrets, paths that are nearly one, and bodies that are not read."""
    longer(run)
    secrets = Secrets(run, 2)
    secrets.write()
    while run.room() > 0:
        route, *methods = run.pick(*ROUTES)
        path = route.replace("P", secrets.path())
        body = GOOD_BODIES.get(route, '{"versions":[1]}')
        method = run.pick(*methods)
        if run.chance(3):
            method = run.pick("GET", "LIST", "POST", "PUT", "DELETE")
        if run.chance(5):
            path = run.pick("", "data", "delete", "undelete", "destroy", "config/x", "metadata/", "x", "DATA/a",
                            "data/", "metadatas", "datas/a", "secret/data/a", path + "/x", path + "?list=true",
                            path + "//a", path + "/..", path + "?version=x&list=true",
                            "data/" + "x" * run.pick(500, 501))
        if run.chance(5):
            body = run.pick(None, "{}", "[", '{"a":1.5}', "null", '{"data":{},"versions":1}')
        sent = body if method in ("POST", "PUT") or run.chance(6) else None
        run.call(method, "secret/" + path if path else "secret", sent)


def secret_moments(run):
    """Moments that go back, and moments at the ends: the clock that versions are made and deleted by never does."""
    longer(run)
    secrets = Secrets(run, 1)
    path = secrets.path()
    days = (0, 951868800, 1709164800, GREATEST_MOMENT, run.moment)
    while run.room() > 0:
        moment = min(max(0, run.pick(run.moment, run.moment, run.pick(*days)) + run.pick(0, 1, 59, -1, 86400, -3600)),
                     GREATEST_MOMENT)
        way = run.random.randrange(8)
        if way < 3:
            secrets.write(path, moment=moment)
        elif way == 3:
            secrets.call("DELETE", "data", path, moment=moment)
        elif way == 4:
            secrets.ask(run.pick(*DELETED), path, {"versions": secrets.numbers(path)}, moment=moment)
        elif way == 5:
            secrets.call("GET", "metadata", path, moment=moment)
        else:
            secrets.read(path, run.pick(None, secrets.number(path)), moment=moment)


def mixed_secrets(run):
    """Secrets on three connections, with tokens and cubbyholes beside them, some requests cut and some pipelined."""
    with_callers(run)
    secrets = Secrets(run, 2)
    creation(run, num_uses=None)
    secrets.write()
    while run.room() > 0:
        token = run.token()
        path = secrets.path()
        texts = [request(method, "/v1/" + target, run.fields(by), body) for method, target, by, body in (
            ("POST", f"secret/data/{path}", token, '{"data":{"k":1}}'), ("GET", f"secret/data/{path}", token, None),
            ("PUT", f"secret/data/{path}", None, '{"data":{"k":2},"options":{"cas":1}}'),
            ("GET", f"secret/data/{path}?version=1", None, None), ("GET", f"secret/metadata/{path}", token, None),
            ("LIST", "secret/metadata", None, None), ("DELETE", f"secret/data/{path}", token, None),
            ("POST", f"secret/undelete/{path}", None, '{"versions":[1,2]}'),
            ("PUT", "cubbyhole/a", token, '{"a":1}'), ("GET", "cubbyhole/a", token, None),
            ("POST", "auth/token/create", token, '{"policies":["a"],"ttl":3600}'),
            ("POST", "auth/token/revoke-self", token, None))]
        text = "".join(run.random.choices(texts, weights=(8, 6, 4, 4, 4, 3, 2, 3, 3, 2, 2, 1), k=run.pick(1, 1, 2)))
        connection = run.pick(1, 1, 2, 3)
        for piece in run.pieces(text, run.pick(1, 1, 1, 2)):
            run.event(piece, connection)
        if run.chance(3):
            run.event("", connection)
