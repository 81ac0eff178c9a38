"""The themes about mounts, roles, issued credentials and their leases."""

import json

from drawing import GREATEST_MOMENT, identifier, request
from token_themes import creation, longer, with_callers

MOUNTS = ("db", "db2", "d", "kv", "db-2", "Z")
ROLES = ("r", "r.s", "R", "a-b", "x" * 128)
ODD_NAMES = ("a:b", "x" * 129, "é", "a b", "sys", "auth", "cubbyhole", "identity", "secret", "none")
TYPES = ({"type": "issued"}, {"type": "issued"}, {"type": "kv-v2"}, {"type": "kv", "options": {"version": "2"}},
         {"type": "kv", "options": {"version": 2}}, {"type": "issued", "options": {"version": 1}})
ODD_TYPES = ({}, {"type": "kv"}, {"type": "kv", "options": None}, {"type": "kv", "options": {"version": 1}},
             {"type": 1}, {"type": "issued", "options": []}, {"type": "pki"}, {"type": ""},
             {"type": "kv", "options": {"version": "x"}}, {"type": "kv-v2", "options": {"version": -1}},
             {"type": None}, {"type": "issued", "options": {"version": True}}, {"type": "KV", "description": "x"})
TIMES = (0, 1, 5, 60, 3600, "1h", "90s", "", None, 2764800, 2764801, 4294967295, "768h", "0060")
ODD_TIMES = (-1, "1d", 2**32, "x", [], True, "4294967296", "1.5h", {})


class Leases:
    """A few mounts that issue credentials, each with roles, and the leases that were asked for."""

    def __init__(self, run, count=1):
        self.run = run
        self.mounts = run.random.sample(MOUNTS[:3], count)
        self.roles = run.random.sample(ROLES, run.pick(1, 1, 2))
        self.asked = []

    def ask(self, path, body=None, token=None, **event):
        """A write, the body being a text or an object."""
        if isinstance(body, dict):
            body = json.dumps(body, ensure_ascii=self.run.chance(4))
        self.run.call(self.run.pick("POST", "POST", "PUT"), path, body, token, **event)

    def enable(self, name, body=None):
        """A mount is enabled."""
        self.ask(f"sys/mounts/{name}", self.run.pick(*TYPES) if body is None else body)

    def set_role(self, mount=None, role=None, **settings):
        """A role is set."""
        self.ask(f"{mount or self.mount()}/roles/{role or self.role()}", settings)

    def begin(self, **settings):
        """The mounts are enabled, and their roles set."""
        for mount in self.mounts:
            self.enable(mount, {"type": "issued"})
            for role in self.roles:
                self.set_role(mount, role, **settings)

    def mount(self):
        """One of the mounts, mostly."""
        return self.run.pick(*self.mounts) if not self.run.chance(10) else self.run.pick(*MOUNTS, "secret")

    def role(self):
        """One of the roles, mostly."""
        return self.run.pick(*self.roles) if not self.run.chance(10) else self.run.pick(*ROLES, "none")

    def issue(self, token=None, mount=None, word=None, **event):
        """A credential is asked for: the id of its lease and the credential, if the request is not refused."""
        mount, role = mount or self.mount(), self.role()
        first = 0x10 * len(self.run.lines) if word is None else word
        if self.run.room() > 0:
            self.run.call("GET", f"{mount}/creds/{role}", None, token, word=word, **event)
            self.asked.append((f"{mount}/creds/{role}/{identifier(first + 3)}", identifier(first + 4)))

    def lease(self):
        """The id of a lease that was asked for, mostly."""
        if not self.asked or self.run.chance(8):
            return self.run.pick("", "x", "db/creds/r", "db/creds/r/" + identifier(self.run.random.getrandbits(128)))
        return self.run.pick(*self.asked)[0]

    def credential(self):
        """A credential that was asked for, mostly."""
        if not self.asked or self.run.chance(6):
            return self.run.pick("", "x", identifier(self.run.random.getrandbits(128)), self.lease())
        return self.run.pick(*self.asked)[1]

    def look(self, token=None, **event):
        """One way to see whether a lease still stands."""
        if self.run.chance(2):
            self.ask("sys/leases/lookup", {"lease_id": self.lease()}, token, **event)
        else:
            self.ask(f"{self.mount()}/verify", {"credential": self.credential()}, token, **event)


def mounts_enabled(run):
    """Mounts enabled and disabled, with names and types of every form, and the list of them."""
    longer(run)
    leases = Leases(run, 2)
    while run.room() > 0:
        name = run.pick(*MOUNTS) if not run.chance(4) else run.pick(*ODD_NAMES)
        way = run.random.randrange(8)
        if way < 4:
            leases.enable(name, run.pick(*TYPES, *TYPES, *ODD_TYPES))
        elif way < 6:
            run.call("GET", "sys/mounts")
        else:
            run.call("DELETE", f"sys/mounts/{name}", run.pick(None, None, "{"))


def mounts_of_secrets(run):
    """Secrets of several mounts, one of which is disabled and enabled anew: what is there then."""
    longer(run)
    names = run.random.sample(("secret", "kv", "kv2", "db"), 2)
    for name in names:
        run.call("POST", f"sys/mounts/{name}", json.dumps(run.pick(TYPES[2], TYPES[3], {"type": "issued"})))
    while run.room() > 0:
        name = run.pick(*names)
        way = run.random.randrange(10)
        if way < 3:
            run.call("POST", f"{name}/data/{run.pick('a', 'a/b')}", '{"data":{"k":1}}')
        elif way < 5:
            run.call("GET", f"{name}/data/{run.pick('a', 'a/b')}")
        elif way == 5:
            run.call("LIST", f"{name}/metadata")
        elif way == 6:
            run.call("POST", f"{name}/config", '{"max_versions":3}')
        elif way == 7:
            run.call("GET", f"{name}/config")
        elif way == 8:
            run.call("DELETE", f"sys/mounts/{name}")
        else:
            run.call("POST", f"sys/mounts/{name}", json.dumps(run.pick(TYPES[2], {"type": "issued"})))


def roles(run):
    """Roles set, shown and removed, with times of every form, and what is issued by them."""
    longer(run)
    leases = Leases(run)
    leases.enable(leases.mounts[0], {"type": "issued"})
    while run.room() > 0:
        way = run.random.randrange(8)
        if way < 3:
            members = {name: run.pick(*TIMES, *(ODD_TIMES if run.chance(3) else ()))
                       for name in run.random.sample(("ttl", "max_ttl"), run.random.randrange(3))}
            role = leases.role() if not run.chance(8) else run.pick("a:b", "x" * 129, "é")
            leases.ask(f"{leases.mount()}/roles/{role}", members)
        elif way < 5:
            run.call("GET", f"{leases.mount()}/roles/{leases.role()}")
        elif way == 5:
            run.call("DELETE", f"{leases.mount()}/roles/{leases.role()}")
        else:
            leases.issue()


def credentials(run):
    """Credentials issued to several tokens, some with uses, and with words that were given out before."""
    with_callers(run)
    run.size = run.random.randrange(11, 17)
    leases = Leases(run, run.pick(1, 2))
    leases.begin(**run.pick({}, {"ttl": 60}, {"ttl": 10, "max_ttl": 5}))
    creation(run, num_uses=run.pick(None, 1, 2, 3), ttl=run.pick(None, 30))
    while run.room() > 0:
        way = run.random.randrange(8)
        if way < 4:
            word = None if not run.chance(5) else run.pick(0x10 * run.random.randrange(1, len(run.lines) + 1),
                                                           run.first_word, 2**128 - 4, 2**128 - 3)
            leases.issue(run.token(), word=word)
        elif way < 7:
            leases.look(run.pick(None, None, run.token()))
        else:
            creation(run, num_uses=run.pick(None, 1, 2))


def lives_of_leases(run):
    """Leases looked up and renewed at moments around their ends, with increments of every form."""
    longer(run)
    leases = Leases(run)
    ttl = run.pick(5, 60, 3600)
    leases.begin(ttl=ttl, max_ttl=run.pick(0, ttl * 2, ttl * 3, ttl + 1))
    leases.issue()
    start = run.moment
    while run.room() > 0:
        moment = min(start + run.pick(0, 1, ttl // 2, ttl - 1, ttl, ttl + 1, ttl * 2 - 1, ttl * 2, ttl * 3),
                     GREATEST_MOMENT)
        way = run.random.randrange(8)
        if way < 4:
            increment = run.pick(*TIMES, ttl, ttl, ttl * 2, *(ODD_TIMES if run.chance(4) else ()))
            leases.ask("sys/leases/renew", {"lease_id": leases.lease(),
                                            **({} if run.chance(3) else {"increment": increment})}, moment=moment)
        elif way < 7:
            leases.look(moment=moment)
        else:
            leases.issue(moment=moment)


def ends_of_leases(run):
    """Leases that end: revoked by id or by prefix, with their mount, or with their token, and which are left."""
    with_callers(run)
    run.size = run.random.randrange(12, 17)
    leases = Leases(run, run.pick(1, 2, 2))
    leases.begin()
    creation(run, num_uses=None, ttl=run.pick(None, None, 30), policies=["a"])
    holders = [None, run.made[-1][0]]
    for _ in range(run.pick(1, 2, 3)):
        leases.issue(run.pick(*holders))
    while run.room() > 0:
        way = run.random.randrange(12)
        mount = leases.mount()
        if way < 2:
            leases.ask("sys/leases/revoke", {"lease_id": leases.lease()}, run.pick(*holders))
        elif way < 4:
            prefix = run.pick(mount, "d", f"{mount}/creds", f"{mount}/creds/{leases.role()}", "db/cred", leases.lease())
            run.call("POST", f"sys/leases/revoke-prefix/{prefix}", run.pick(None, None, "{}", "["),
                     run.pick(None, None, *holders))
        elif way == 4:
            run.call("DELETE", f"sys/mounts/{mount}")
        elif way == 5:
            run.ask(run.pick("revoke", "revoke", "revoke-orphan"), {"token": run.made[0][0]})
        elif way == 6:
            leases.issue(run.pick(*holders))
        else:
            leases.look(run.pick(None, None, None, *holders))


LEASE_ROUTES = (("sys/mounts", "GET"), ("sys/mounts/N", "POST", "PUT", "DELETE"), ("sys/leases/lookup", "POST", "PUT"),
                ("sys/leases/renew", "POST", "PUT"), ("sys/leases/revoke", "POST", "PUT"),
                ("sys/leases/revoke-prefix/N", "POST", "PUT"), ("N/roles/R", "GET", "POST", "PUT", "DELETE"),
                ("N/creds/R", "GET"), ("N/verify", "POST", "PUT"))


def lease_routes(run):
    """Methods of each of these routes, paths that are nearly one, and bodies that are not read."""
    longer(run)
    leases = Leases(run)
    leases.begin()
    leases.issue()
    while run.room() > 0:
        route, *methods = run.pick(*LEASE_ROUTES)
        path = route.replace("N", leases.mount()).replace("R", leases.role())
        method = run.pick(*methods) if not run.chance(3) else run.pick("GET", "LIST", "POST", "PUT", "DELETE", "PATCH")
        if run.chance(5):
            path = run.pick("sys/mounts/", "sys/mounts/a/b", "sys/leases", "sys/leases/revoke-prefix",
                            "sys/leases/revoke-prefix/", path + "/x", path + "/", path + "?list=true", "db", "db/roles",
                            "db/creds", "db/verify/x", "db/config", "db/data/x", "sys/leases/lookup/x", "mounts")
        body = run.pick(json.dumps({"lease_id": leases.lease()}), json.dumps({"credential": leases.credential()}),
                        '{"type":"issued"}', "{}", "[", None, "null", '{"lease_id":1,"credential":[],"type":{}}')
        run.call(method, path, body if method in ("POST", "PUT") or run.chance(6) else None)


def mixed_leases(run):
    """Leases on three connections, with tokens and secrets beside them, some requests cut and some pipelined."""
    with_callers(run)
    run.size = run.random.randrange(9, 17)
    leases = Leases(run)
    leases.begin(ttl=run.pick(0, 3600, 10000))
    creation(run, num_uses=None)
    mount, role = leases.mounts[0], leases.roles[0]
    while run.room() > 0:
        token = run.token()
        leases.asked.append((f"{mount}/creds/{role}/{identifier(0x10 * len(run.lines) + 3)}",
                             identifier(0x10 * len(run.lines) + 4)))
        lease_id = json.dumps({"lease_id": leases.lease()})
        texts = [request(method, "/v1/" + target, run.fields(by), body) for method, target, by, body in (
            ("GET", f"{mount}/creds/{role}", token, None), ("POST", "sys/leases/lookup", token, lease_id),
            ("PUT", "sys/leases/renew", None, lease_id), ("POST", "sys/leases/revoke", None, lease_id),
            ("POST", f"{mount}/verify", token, json.dumps({"credential": leases.credential()})),
            ("POST", f"secret/data/{mount}/creds", None, '{"data":{"k":1}}'), ("GET", "sys/mounts", token, None),
            ("POST", "auth/token/create", token, '{"policies":["a"],"ttl":3600}'),
            ("POST", "auth/token/revoke-self", token, None))]
        text = "".join(run.random.choices(texts, weights=(8, 6, 4, 2, 6, 1, 1, 2, 1), k=run.pick(1, 1, 2)))
        connection = run.pick(1, 1, 2, 3)
        for piece in run.pieces(text, run.pick(1, 1, 1, 2)):
            run.event(piece, connection)
        if run.chance(3):
            run.event("", connection)
