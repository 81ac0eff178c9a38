#!/usr/bin/env python3
"""The requests of the examples in Vault's API documentation, sent to a running broker, and what it prints for each
compared with the reply.

    python3 tests/clients/documented.py PORT ROOT_TOKEN

The examples are those of the pages on tokens, cubbyholes, KV version 2, leases, wrapping, mounts and policies, as far
as docs/API.md has the route; no copy of the documentation was at hand, so they are written down from memory. A member
that is printed has to be there with the value that is printed; where VARIES has its name, with one of the same type.
The differences have to be those of documented.txt, none more and none less: a line has the requests, the members, and
what is here. Each member of each reply is also left out once, which has to be told. The last line is 'N passed, M
failed'.
"""

import json
import re
import sys
from pathlib import Path

sys.path.insert(0, str(Path(__file__).resolve().parent.parent / "served"))
from broker import connect, exchange, request  # noqa: E402

WRITTEN = Path(__file__).resolve().parent / "documented.txt"
EXAMPLES, MEMBERS = 48, 280  # that are compared, at least
VARIES = {"accessor", "client_token", "created_time", "creation_time", "expire_time", "id", "issue_time", "lease_id",
          "request_id", "token", "ttl", "updated_time"}
WHOLE = {"auth", "data", "wrap_info"}  # of which the examples print all members
FRACTION = "2018-03-22T02:24:06.945319214Z"
TIME = re.compile(r'\d{4}-\d\d-\d\dT\d\d:\d\d:\d\d(?:\.\d+)?(?:Z|[+-]\d\d:\d\d)')
SECONDS = len("2018-03-22T02:24:06Z")
NOTHING = {"lease_id": "", "renewable": False, "lease_duration": 0}


def form(value):
    """What is compared of a value that varies: an empty string is of a type of its own, and so is a time."""
    kind = type(value).__name__
    return (kind, bool(value), TIME.fullmatch(value) is not None) if isinstance(value, str) else kind


def differences(shown, found, name="", is_whole=False):
    """The members in which a reply differs from the one that is printed, each with what is here."""
    if isinstance(shown, dict) and isinstance(found, dict):
        for member in shown:
            if member not in found:
                yield member, "absent"
            else:
                yield from differences(shown[member], found[member], member, is_whole or member in WHOLE)
        if is_whole:
            yield from ((member, "is not printed there") for member in found if member not in shown)
    elif name in VARIES:
        if form(shown) != form(found):
            yield name, f"not `{json.dumps(shown)}`"
    elif shown != found:
        yield name, f"`{json.dumps(found)}`"


def without_one(shown, found):
    """Copies of a reply, each without one of the members that are printed."""
    for member, value in found.items():
        if member in shown:
            yield {other: found[other] for other in found if other != member}
            if isinstance(value, dict) and isinstance(shown[member], dict):
                yield from ({**found, member: less} for less in without_one(shown[member], value))


class Documentation:
    """A connection to the broker, and what was found out of the examples."""

    def __init__(self, port, token):
        self.connection, self.token = connect(port), token
        self.examples = self.members = 0
        self.found, self.wrong = [], []  # differences: a request, a member, and what is here

    def send(self, words, body=None, token=None, wrap_ttl=""):
        """The status and the object of a reply."""
        method, path = words.split()
        text = "" if body is None else json.dumps(body)
        status, reply, _ = exchange(self.connection, request(method, path, token or self.token, text, wrap_ttl))
        return status, json.loads(reply) if reply else None

    def example(self, words, shown, body=None, called=None, **options):
        """Sends the request of an example, compares its reply with what is printed, which is the status 204 if it is
        nothing, and returns it. The path is called as the routes are, if it is given."""
        status, reply = self.send(words, body, **options)
        words, self.examples = called or words, self.examples + 1
        if status != (200 if shown else 204):
            self.found.append((words, "status", f"{status} `{''.join((reply or {}).get('errors', []))}`"))
        elif shown:
            here = list(differences(shown, reply))
            self.found += [(words, *one) for one in here]
            for time in TIME.findall(json.dumps(reply)):
                self.found.append(("all", "times", "in whole seconds, and UTC" if len(time) == SECONDS else time))
            for less in without_one(shown, reply):
                self.members += 1
                if list(differences(shown, less)) == here:
                    self.wrong.append(f"{words}: it is not told that {json.dumps(less)} lacks a member")
        return reply

    def status(self, words, wanted, body=None, **options):
        """Sends a request that tells whether that of an example was carried out."""
        found, _ = self.send(words, body, **options)
        if found != wanted:
            self.wrong.append(f"{words}: status {found} in place of {wanted}")

    def keys(self, words, *least):
        """The keys that are listed, which depend on what else the broker has. These are among them."""
        found = self.send(words)[1]["data"]["keys"]
        if not set(least) <= set(found):
            self.wrong.append(f"{words}: {found}")
        return found


def tokens(page):
    ends = {"expire_time": FRACTION, "issue_time": FRACTION, "creation_time": 1523979354, "creation_ttl": 2764800,
            "explicit_max_ttl": 0, "num_uses": 0, "renewable": True, "ttl": 2764790}
    shown = {"accessor": "8609694a", "display_name": "ldap2-tesla", "entity_id": "7d2e3179", "id": "cf64a70f",
             "identity_policies": ["dev-group-policy"], "meta": {"username": "tesla"}, "orphan": True,
             "path": "auth/ldap2/login/tesla", "policies": ["default", "testgroup2-policy"], **ends}
    auth = {"client_token": "hvs.CAES", "accessor": "B6oixijqmeR4bsLOJH88Ska9", "policies": ["default", "stage", "web"],
            "token_policies": ["default", "stage", "web"], "metadata": {"user": "armon"}, "lease_duration": 3600,
            "renewable": True, "entity_id": "", "token_type": "service", "orphan": False, "num_uses": 0,
            "mfa_requirement": None}
    whole = {**NOTHING, "request_id": "f00341c1", "data": None, "wrap_info": None, "auth": auth,
             "warnings": ['Policy "stage" does not exist', 'Policy "web" does not exist']}
    settings = {"policies": ["web", "stage"], "meta": {"user": "armon"}, "ttl": "1h", "renewable": True}
    child = page.example("POST auth/token/create", whole, settings)["auth"]["client_token"]
    orphan = {**whole, "auth": {**auth, "orphan": True}}
    page.example("POST auth/token/create-orphan", orphan, settings)
    page.example("POST auth/token/renew", whole, {"token": child})
    page.example("POST auth/token/renew-self", whole, {"increment": "1h"}, token=child)
    settings = {"policies": ["testgroup2-policy"], "meta": {"username": "tesla"}}
    tesla = page.send("POST auth/token/create-orphan", settings)[1]["auth"]
    page.example("POST auth/token/lookup", {"data": shown}, {"token": tesla["client_token"]})
    page.example("GET auth/token/lookup-self", {"data": shown}, token=tesla["client_token"])
    web = page.send("POST auth/token/create", {"policies": ["web"], "no_parent": True})[1]["auth"]
    shown = {"accessor": "2c84f488", "display_name": "token", "entity_id": "", "id": "", "meta": None, "orphan": True,
             "path": "auth/token/create", "policies": ["default", "web"], **ends}
    shown = {**NOTHING, "data": shown, "warnings": None, "auth": None}
    page.example("POST auth/token/lookup-accessor", shown, {"accessor": web["accessor"]})
    keys = page.keys("LIST auth/token/accessors", web["accessor"], tesla["accessor"])
    shown = {"auth": None, "warnings": None, "wrap_info": None, "data": {"keys": keys}, **NOTHING}
    page.example("LIST auth/token/accessors", shown)
    page.example("POST auth/token/revoke", None, {"token": child})
    page.status("GET auth/token/lookup-self", 403, token=child)
    page.example("POST auth/token/revoke-self", None, token=tesla["client_token"])
    page.status("GET auth/token/lookup-self", 403, token=tesla["client_token"])
    page.example("POST auth/token/revoke-accessor", None, {"accessor": web["accessor"]})
    page.status("GET auth/token/lookup-self", 403, token=web["client_token"])
    alone = page.send("POST auth/token/create")[1]["auth"]["client_token"]
    page.example("POST auth/token/revoke-orphan", None, {"token": alone})
    page.status("GET auth/token/lookup-self", 403, token=alone)


def cubbyholes(page):
    body, called = {"foo": "bar", "zip": "zap"}, "cubbyhole/PATH"
    page.example("POST cubbyhole/docs/foo", None, body, f"POST {called}")
    shown = {**NOTHING, "auth": None, "data": body}
    page.example("GET cubbyhole/docs/foo", shown, called=f"GET {called}")
    page.send("PUT cubbyhole/docs/foo/bar", body)
    shown = {**NOTHING, "auth": None, "data": {"keys": ["foo", "foo/"]}}
    page.example("LIST cubbyhole/docs", shown, called=f"LIST {called}")
    page.example("DELETE cubbyhole/docs/foo", None, called=f"DELETE {called}")
    page.status("GET cubbyhole/docs/foo", 404)
    page.send("DELETE cubbyhole/docs/foo/bar")


def mounts(page):
    enabled = {"config": {"default_lease_ttl": 0, "force_no_cache": False, "max_lease_ttl": 0}, "accessor": "kv_1",
               "description": "", "external_entropy_access": False, "local": False, "options": {"version": "2"},
               "plugin_version": "", "seal_wrap": False, "type": "kv", "uuid": "1"}
    page.example("POST sys/mounts/my-mount", None, {"type": "kv", "options": {"version": "2"}}, "POST sys/mounts/NAME")
    found = page.send("GET sys/mounts")[1]["data"]
    others = {name: value for name, value in found.items() if name != "my-mount/"}
    page.example("GET sys/mounts", {**NOTHING, "request_id": "1", "data": {"my-mount/": enabled, **others}})
    page.example("DELETE sys/mounts/my-mount", None, called="DELETE sys/mounts/NAME")
    page.status("GET my-mount/config", 404)


def secrets(page):
    """On a mount of its own, as in the documentation."""
    page.send("POST sys/mounts/docs", {"type": "kv-v2"})
    for ttl in ("3h25m19s", "0s"):
        settings = {"max_versions": 5, "cas_required": False, "delete_version_after": ttl}
        page.example("POST docs/config", None, settings, f"POST secret/config, `{ttl}`")
    shown = {"data": {**settings, "delete_version_after": "3h25m19s"}}
    page.example("GET docs/config", shown, called="GET secret/config")
    custom, at = {"owner": "jdoe", "mission_critical": "false"}, "docs/data/my-secret"
    for ttl in ("3h25m19s", "0s"):
        settings = {"custom_metadata": custom, "cas_required": False, "delete_version_after": ttl}
        page.example("POST docs/metadata/my-secret", None, settings, f"POST secret/metadata/PATH, `{ttl}`")
    version = {"created_time": FRACTION, "custom_metadata": custom, "deletion_time": "", "destroyed": False}
    for number, data in ((1, {"foo": "bar", "zip": "zap"}), (2, {"foo": "bar"}), (3, {"foo": "baz"})):
        body = {"options": {"cas": number - 1}, "data": data}
        page.example(f"POST {at}", {"data": {**version, "version": number}}, body, "POST secret/data/PATH")
    shown = {"data": {"data": {"foo": "bar"}, "metadata": {**version, "version": 2}}}
    page.example(f"GET {at}?version=2", shown, called="GET secret/data/PATH")
    page.send("POST docs/data/my-secret/deeper", {"data": {}})
    shown = {"data": {"keys": ["my-secret", "my-secret/"]}}
    page.example("LIST docs/metadata", shown, called="LIST secret/metadata/PATH")
    made = {"created_time": FRACTION, "deletion_time": "", "destroyed": False}
    shown = {"cas_required": False, "created_time": FRACTION, "current_version": 3, "custom_metadata": custom,
             "delete_version_after": "3h25m19s", "max_versions": 0, "oldest_version": 0, "updated_time": FRACTION,
             "versions": {"1": made, "2": made, "3": made}}
    page.example("GET docs/metadata/my-secret", {"data": shown}, called="GET secret/metadata/PATH")
    page.example(f"DELETE {at}", None, called="DELETE secret/data/PATH")
    page.status(f"GET {at}", 404)
    page.example("POST docs/undelete/my-secret", None, {"versions": [1, 2, 3]}, "POST secret/undelete/PATH")
    page.status(f"GET {at}", 200)
    page.example("POST docs/delete/my-secret", None, {"versions": [1, 2]}, "POST secret/delete/PATH")
    page.status(f"GET {at}?version=1", 404)
    page.example("PUT docs/destroy/my-secret", None, {"versions": [1, 2]}, "PUT secret/destroy/PATH")
    page.example("DELETE docs/metadata/my-secret", None, called="DELETE secret/metadata/PATH")
    page.status("GET docs/metadata/my-secret", 404)
    page.send("DELETE sys/mounts/docs")


def leases(page):
    """Of the engine that is served here: the examples have some of AWS."""
    page.send("POST sys/mounts/docs", {"type": "issued"})
    page.send("POST docs/roles/deploy", {"ttl": "1h"})
    lease = page.send("GET docs/creds/deploy")[1]["lease_id"]
    shown = {"id": lease, "issue_time": FRACTION, "expire_time": FRACTION, "last_renewal_time": None, "renewable": True,
             "ttl": 3558}
    page.example("POST sys/leases/lookup", {"data": shown}, {"lease_id": lease})
    shown = {"lease_id": lease, "renewable": True, "lease_duration": 1800}
    page.example("POST sys/leases/renew", shown, {"lease_id": lease, "increment": 1800})
    page.example("POST sys/leases/revoke", None, {"lease_id": lease})
    page.status("POST sys/leases/lookup", 400, {"lease_id": lease})
    lease = page.send("GET docs/creds/deploy")[1]["lease_id"]
    page.example("POST sys/leases/revoke-prefix/docs/creds", None, called="POST sys/leases/revoke-prefix/PATH")
    page.status("POST sys/leases/lookup", 400, {"lease_id": lease})
    page.send("DELETE sys/mounts/docs")


def wrapping(page):
    body = {"foo": "bar", "zip": "zap"}
    shown = {**NOTHING, "request_id": "", "data": None, "warnings": None,
             "wrap_info": {"token": "fb79b9d3", "ttl": 300, "creation_time": FRACTION, "wrapped_accessor": ""}}
    first = page.example("POST sys/wrapping/wrap", shown, body, wrap_ttl="300")["wrap_info"]["token"]
    told = {"creation_path": "sys/wrapping/wrap", "creation_time": FRACTION, "creation_ttl": 300}
    told = {**NOTHING, "request_id": "481320f5", "data": told, "warnings": None}
    page.example("POST sys/wrapping/lookup", told, {"token": first})
    moved = page.example("POST sys/wrapping/rewrap", shown, {"token": first})["wrap_info"]["token"]
    page.status("POST sys/wrapping/unwrap", 400, {"token": first})
    shown = {**NOTHING, "request_id": "8e33c808", "data": body, "warnings": None}
    page.example("POST sys/wrapping/unwrap", shown, token=moved)
    page.status("POST sys/wrapping/unwrap", 400, {"token": moved})


def policies(page):
    name, policy = "sys/policies/acl/my-policy", '{"path":{"secret/foo":{"capabilities":["read"]}}}'
    in_hcl = 'path "secret/foo" {\n  capabilities = ["read"]\n}'
    page.example(f"POST {name}", None, {"policy": in_hcl}, "POST sys/policies/acl/NAME, in HCL")
    page.example(f"POST {name}", None, {"policy": policy}, "POST sys/policies/acl/NAME, in JSON")
    page.example(f"GET {name}", {"data": {"name": "my-policy", "policy": policy}}, called="GET sys/policies/acl/NAME")
    keys = page.keys("LIST sys/policies/acl", "default", "my-policy")
    page.example("LIST sys/policies/acl", {"data": {"keys": keys}})
    page.example(f"DELETE {name}", None, called="DELETE sys/policies/acl/NAME")
    page.status(f"GET {name}", 404)


def quoted(words):
    """A name as code, with what follows its comma as text. What stands for no single name is text."""
    name, comma, more = words.partition(",")
    return words if words in ("all", "times", "status") else f"`{name}`{comma}{more}"


def table(found):
    """The lines for the differences: members of one request, and requests with the same members, share a line."""
    members, requests = {}, {}
    for words, member, here in dict.fromkeys(found):
        members.setdefault((words, here), []).append(member)
    for (words, here), names in members.items():
        requests.setdefault((tuple(names), here), []).append(words)
    return [f"| {', '.join(map(quoted, several))} | {', '.join(map(quoted, names))} | {here} |"
            for (names, here), several in requests.items()]


def main():
    page = Documentation(int(sys.argv[1]), sys.argv[2])
    for ask in (tokens, cubbyholes, mounts, secrets, leases, wrapping, policies):
        ask(page)
    rows, written = table(page.found), WRITTEN.read_text(encoding="utf-8").splitlines()
    wrong = page.wrong + [f"{WRITTEN.name} lacks {row}" for row in rows if row not in written]
    wrong += [f"{WRITTEN.name} has {row}" for row in written if row not in rows]
    if page.examples < EXAMPLES or page.members < MEMBERS:
        wrong.append("it compares fewer than once")
    print(f"documented: {page.examples} examples, {page.members} members, {len(rows)} differences")
    print("".join(f"documented, {text}\n" for text in wrong), end="")
    print(f"{max(0, page.examples + len(rows) - len(wrong))} passed, {len(wrong)} failed")
    return len(wrong) > 0


if __name__ == "__main__":
    sys.exit(main())
