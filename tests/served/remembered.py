#!/usr/bin/env python3
"""What `brokerd serve` has answered a hundred times, and may remember, changes: the next reply has to be another one.

    python3 tests/served/remembered.py PROGRAM

Policies are changed, deleted and set again; so are mounts and secrets. Tokens expire, are revoked, and spend their last
use. A token asks on one connection, and root makes the changes on another. The statuses stated here are those of
docs/API.md. They are asked of the reference broker first, and then of PROGRAM, in memory and with a database. A case
fails if it has compared less than CASES says. The last line is 'N passed, M failed'.
"""

import contextlib
import json
import subprocess
import sys
import tempfile
import time
from pathlib import Path

from broker import Broker, connect, exchange, free_port, request
from cases import expect

REFERENCE = Path(__file__).resolve().parent.parent / "reference" / "reference_broker.py"
HUNDRED = 100
TTL = 2  # seconds
SECRET = "secret/data/app"
SELF = "auth/token/lookup-self"


class Reference(Broker):
    """The reference broker on a port."""

    def __enter__(self):
        self.port = free_port()
        self.process = subprocess.Popen([sys.executable, self.program, "serve", "--listen", f"127.0.0.1:{self.port}"],
                                        stdout=subprocess.PIPE, stderr=subprocess.PIPE)
        self.token = self.told_token()
        return self


class Asker:
    """Two connections, one for root and one for all other tokens, and how many values were compared."""

    def __init__(self, root, own, others):
        self.root, self.own, self.others = root, own, others
        self.compared = 0

    def same(self, found, wanted, what):
        self.compared += 1
        expect(found == wanted, f"{what}: {found} in place of {wanted}, after {self.compared - 1} values as stated")

    def reply(self, method, path, body, token):
        """The status and the object of a reply, if it has one."""
        text = request(method, path, token or self.root, "" if body is None else json.dumps(body))
        status, body, _ = exchange(self.others if token else self.own, text)
        return status, json.loads(body) if body else None

    def ask(self, wanted, method, path, body=None, token=None):
        """The object of a reply of this status. It is root that asks if no token is given."""
        status, found = self.reply(method, path, body, token)
        self.same(status, wanted, f"the status of {method} {path}")
        return found

    def hundred(self, wanted, method, path, token=None):
        """A hundred times the same."""
        for _ in range(HUNDRED):
            self.ask(wanted, method, path, token=token)

    def set_policy(self, name, pattern, *capabilities):
        policy = json.dumps({"path": {pattern: {"capabilities": capabilities}}})
        self.ask(204, "POST", f"sys/policies/acl/{name}", {"policy": policy})

    def write(self, path, value, wanted=200):
        return self.ask(wanted, "POST", path, {"data": {"value": value}})

    def create(self, *policies, parent=None, **members):
        """What is told of a new token."""
        return self.ask(200, "POST", "auth/token/create", {"policies": policies, **members}, token=parent)["auth"]

    def reader(self, **members):
        """A new secret, and what is told of a new token that may read it, and look itself up."""
        self.ask(204, "DELETE", "secret/metadata/app")
        self.write(SECRET, "first")
        self.set_policy("reader", "secret/data/*", "read")
        return self.create("reader", "default", **members)

    def ends(self, begin, end, stands):
        """Asks until something has ended that was given TTL seconds between two times. It stands before them, and not
        after them."""
        first, last = int(begin) + TTL, int(end) + TTL
        expect(stands(), "it has ended at once")
        while True:
            sent = time.time()
            found = stands()
            if time.time() < first:
                self.same(found, True, f"whether it stands {first - sent:.3f} s before its end")
            if sent >= last:
                self.same(found, False, f"whether it stands {sent - last:.3f} s after its end")
                return


# ---- Policies

def a_policy(asker):
    token = asker.reader()["client_token"]
    for _ in range(2):
        asker.hundred(200, "GET", SECRET, token)
        asker.set_policy("reader", "secret/data/*", "deny")
        asker.hundred(403, "GET", SECRET, token)
        asker.set_policy("reader", "secret/data/*", "read")
        asker.hundred(200, "GET", SECRET, token)
        asker.ask(204, "DELETE", "sys/policies/acl/reader")
        asker.hundred(403, "GET", SECRET, token)
        asker.set_policy("reader", "secret/data/*", "read")


def a_policy_that_comes_later(asker):
    asker.write(SECRET, "first")
    token = asker.create("later")["client_token"]
    asker.hundred(403, "GET", SECRET, token)
    asker.set_policy("later", "secret/*", "read")
    asker.hundred(200, "GET", SECRET, token)


def two_policies_that_change_their_texts(asker):
    paths = {name: f"secret/data/{name}" for name in ("one", "two")}
    tokens = {name: asker.create(name)["client_token"] for name in paths}
    for path in paths.values():
        asker.write(path, "first")
    for own in ("one", "two"), ("two", "one"), ("one", "two"):
        for name, granted in zip(paths, own):
            asker.set_policy(name, paths[granted], "read")
        for name, granted in zip(paths, own):
            for asked, path in paths.items():
                asker.hundred(200 if asked == granted else 403, "GET", path, tokens[name])


def the_policy_default(asker):
    text = asker.ask(200, "GET", "sys/policies/acl/default")["data"]["policy"]
    token = asker.create("default")["client_token"]
    asker.hundred(200, "GET", SELF, token)
    asker.set_policy("default", "auth/*", "list")
    asker.hundred(403, "GET", SELF, token)
    asker.ask(204, "POST", "sys/policies/acl/default", {"policy": text})
    asker.hundred(200, "GET", SELF, token)


# ---- Mounts

def a_mount(asker):
    asker.set_policy("team", "team/*", "read")
    token = asker.create("team")["client_token"]
    for _ in range(2):
        asker.hundred(404, "GET", "team/data/app", token)
        asker.write("team/data/app", "first", 404)
        asker.ask(204, "POST", "sys/mounts/team", {"type": "kv-v2"})
        asker.ask(404, "GET", "team/data/app", token=token)
        asker.same(asker.write("team/data/app", "first")["data"]["version"], 1, "the version")
        asker.hundred(200, "GET", "team/data/app", token)
        asker.ask(204, "DELETE", "sys/mounts/team")
        asker.ask(404, "GET", "team/data/app", token=token)
        asker.ask(204, "POST", "sys/mounts/team", {"type": "issued"})
        asker.hundred(404, "GET", "team/data/app", token)
        asker.ask(404, "GET", "team/roles/app", token=token)
        asker.ask(204, "POST", "team/roles/app", {"ttl": 60})
        asker.hundred(200, "GET", "team/roles/app", token)
        asker.ask(204, "DELETE", "sys/mounts/team")
        asker.ask(404, "GET", "team/roles/app", token=token)


def the_settings_of_a_mount(asker):
    for _ in range(2):
        for _ in range(HUNDRED):
            asker.write(SECRET, "first")
        asker.ask(204, "POST", "secret/config", {"cas_required": True})
        asker.write(SECRET, "second", 400)
        asker.hundred(200, "GET", SECRET)
        asker.write(SECRET, "second", 400)
        asker.ask(204, "POST", "secret/config", {"cas_required": False})
        asker.write(SECRET, "second")


# ---- Tokens

def a_token_that_expires(asker):
    begin = time.time()
    token = asker.reader(ttl=TTL)["client_token"]
    asker.ends(begin, time.time(), lambda: asker.reply("GET", SECRET, None, token)[0] == 200)
    asker.hundred(403, "GET", SECRET, token)


def a_token_that_is_renewed_for_less(asker):
    token = asker.reader(ttl=3600)["client_token"]
    asker.hundred(200, "GET", SECRET, token)
    begin = time.time()
    asker.ask(200, "POST", "auth/token/renew", {"token": token, "increment": TTL})
    asker.ends(begin, time.time(), lambda: asker.reply("GET", SECRET, None, token)[0] == 200)
    asker.hundred(403, "GET", SECRET, token)


def a_token_that_is_revoked(asker):
    for turn in range(4):
        told = asker.reader()
        token, accessor = told["client_token"], told["accessor"]
        asker.hundred(200, "GET", SECRET, token)
        if turn == 0:
            asker.ask(204, "POST", "auth/token/revoke", {"token": token})
        elif turn == 1:
            asker.ask(204, "POST", "auth/token/revoke-accessor", {"accessor": accessor})
        elif turn == 2:
            asker.ask(204, "POST", "auth/token/revoke-orphan", {"token": token})
        else:
            asker.ask(204, "POST", "auth/token/revoke-self", token=token)
        asker.hundred(403, "GET", SECRET, token)


def a_token_whose_parent_is_revoked(asker):
    asker.reader()
    asker.set_policy("parent", "auth/token/create", "update")
    parent = asker.create("parent", "reader", "default")["client_token"]
    child = asker.create("reader", "default", parent=parent)["client_token"]
    asker.hundred(200, "GET", SECRET, child)
    asker.ask(204, "POST", "auth/token/revoke", {"token": parent})
    asker.hundred(403, "GET", SECRET, child)


def a_token_of_a_hundred_uses(asker):
    token = asker.reader(num_uses=HUNDRED)["client_token"]
    for left in reversed(range(HUNDRED)):
        found = asker.ask(200, "GET", SELF, token=token)
        asker.same(found["data"]["num_uses"], left, "the uses that are left")
    asker.hundred(403, "GET", SELF, token)


def uses_that_are_spent_in_vain(asker):
    token = asker.reader(num_uses=2 * HUNDRED + 1)["client_token"]
    asker.hundred(404, "GET", "secret/data/none", token)
    asker.hundred(403, "GET", "cubbyhole-of-nobody", token)
    asker.ask(200, "GET", SECRET, token=token)
    asker.hundred(403, "GET", SECRET, token)


# ---- Secrets

def a_secret(asker):
    token = asker.reader()["client_token"]
    for _ in range(2):
        asker.hundred(200, "GET", SECRET, token)
        asker.ask(204, "DELETE", SECRET)
        asker.hundred(404, "GET", SECRET, token)
        asker.ask(204, "POST", "secret/undelete/app", {"versions": [1]})
        asker.hundred(200, "GET", SECRET, token)
        asker.ask(204, "POST", "secret/destroy/app", {"versions": [1]})
        asker.hundred(404, "GET", SECRET, token)
        asker.write(SECRET, "second")
        found = asker.ask(200, "GET", SECRET, token=token)
        asker.same(found["data"]["data"], {"value": "second"}, "the secret")
        asker.hundred(200, "GET", SECRET, token)
        asker.ask(204, "DELETE", "secret/metadata/app")
        asker.hundred(404, "GET", SECRET, token)
        asker.same(asker.write(SECRET, "first")["data"]["version"], 1, "the version")


def a_secret_that_is_written_often(asker):
    token = asker.reader()["client_token"]
    for number in range(2, HUNDRED):
        asker.write(SECRET, number)
        found = asker.ask(200, "GET", SECRET, token=token)
        asker.same(found["data"]["data"], {"value": number}, "the secret")
        asker.same(found["data"]["metadata"]["version"], number, "the version")


def a_lease_that_expires(asker):
    asker.ask(204, "POST", "sys/mounts/db", {"type": "issued"})
    asker.ask(204, "POST", "db/roles/app", {"ttl": TTL})
    begin = time.time()
    credential = {"credential": asker.ask(200, "GET", "db/creds/app")["data"]["credential"]}
    asker.ends(begin, time.time(), lambda: asker.ask(200, "POST", "db/verify", credential)["data"]["valid"])


# How many values each case has to compare at least.
CASES = {
    a_policy: 800,
    a_policy_that_comes_later: 200,
    two_policies_that_change_their_texts: 1200,
    the_policy_default: 300,
    a_mount: 800,
    the_settings_of_a_mount: 400,
    a_token_that_expires: 200,
    a_token_that_is_renewed_for_less: 300,
    a_token_that_is_revoked: 800,
    a_token_whose_parent_is_revoked: 200,
    a_token_of_a_hundred_uses: 300,
    uses_that_are_spent_in_vain: 301,
    a_secret: 1200,
    a_secret_that_is_written_often: 390,
    a_lease_that_expires: 200,
}


def why_not(case, broker, compared):
    """What is wrong with a case, or None. It adds how many values were compared."""
    with connect(broker.port) as own, connect(broker.port) as others:
        asker = Asker(broker.token, own, others)
        try:
            case(asker)
            expect(asker.compared >= CASES[case], f"only {asker.compared} values were compared, not {CASES[case]}")
        except (AssertionError, OSError) as error:
            return str(error)
        finally:
            compared.append(asker.compared)
    return None


def main():
    passed, failed, compared = 0, 0, []
    with tempfile.TemporaryDirectory() as folder, contextlib.ExitStack() as stack:
        brokers = {
            "the reference broker": Reference(str(REFERENCE)),
            "in memory": Broker(sys.argv[1]),
            "with a database": Broker(sys.argv[1], "--db", str(Path(folder) / "broker.db")),
        }
        for place, broker in brokers.items():
            stack.enter_context(broker)
            for case in CASES:
                why = why_not(case, broker, compared)
                passed += why is None
                failed += why is not None
                if why is not None:
                    print(f"remembered, {place}, {case.__name__.replace('_', ' ')}: {why}", flush=True)
    print(f"remembered: {sum(compared)} values were compared")
    print(f"{passed} passed, {failed} failed")
    return 1 if failed else 0


if __name__ == "__main__":
    sys.exit(main())
