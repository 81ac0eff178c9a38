#!/usr/bin/env python3
"""Damaged rows under `brokerd serve --unchecked --db`: a request that reads one ends the program with `fault 3` and
changes nothing; one that does not, or asks only whether the row is there, has its usual reply.

    python3 tests/served/damaged.py PROGRAM

Each case is a copy of the database of one broker, in which the standard library's SQLite has changed the bodies of some
rows: cut by a byte, longer by one, or of format 9. The last line is 'N passed, M failed'; the status is 0 if nothing
failed.
"""

import concurrent.futures
import contextlib
import json
import pathlib
import shutil
import sqlite3
import subprocess
import sys
import tempfile
from collections import Counter

from broker import Broker, connect, fault_in, reply, request

CHANGES = {
    "cut by a byte": lambda body: body[:-1],
    "longer by a byte": lambda body: body + b"\0",
    "of format 9": lambda body: b"\x09" + body[1:],
}

POLICY = json.dumps({"policy": json.dumps({"path": {"*": {"capabilities": ["read", "update"]}}})})

# The kinds of rows, each with the key of the rows that are damaged (all, if there is none), a request that reads them,
# and requests that do not, with the beginnings of their replies. A request is who asks, its method, path and body.
KINDS = {
    1: ("the clock", None, ("root", "GET", "auth/token/lookup-self", ""), ()),
    2: ("an identifier", None, None, (
        (("root", "POST", "auth/token/create", "{}"), 200, '{"auth":{"accessor":"'),
        (("child", "GET", "auth/token/lookup-self", ""), 200, '{"auth":null,"data":{'))),
    3: ("a token", "child", ("child", "GET", "auth/token/lookup-self", ""), (
        (("root", "GET", "auth/token/lookup-self", ""), 200, '{"auth":null,"data":{'),)),
    4: ("an accessor", "accessor", ("root", "POST", "auth/token/lookup-accessor", '{"accessor":"ACCESSOR"}'), (
        (("child", "GET", "auth/token/lookup-self", ""), 200, '{"auth":null,"data":{'),)),
    5: ("an object in a cubbyhole", None, ("child", "GET", "cubbyhole/a", ""), (
        (("child", "GET", "cubbyhole/b", ""), 404, '{"errors":[]}'),
        (("child", "POST", "cubbyhole/a", '{"k":2}'), 204, ""),
        (("child", "GET", "cubbyhole/a", ""), 200, '{"auth":null,"data":{"k":2}'))),
    6: ("a lease", None, ("root", "POST", "sys/leases/lookup", '{"lease_id":"LEASE"}'), (
        (("root", "POST", "db/verify", '{"credential":"none"}'), 200, '{"auth":null,"data":{"valid":false}'),
        (("root", "POST", "sys/leases/lookup", '{"lease_id":"db/creds/r/none"}'), 400,
         '{"errors":["invalid lease"]}'))),
    7: ("a credential", None, ("root", "POST", "db/verify", '{"credential":"CREDENTIAL"}'), (
        (("root", "POST", "db/verify", '{"credential":"none"}'), 200, '{"auth":null,"data":{"valid":false}'),
        (("root", "POST", "sys/leases/lookup", '{"lease_id":"LEASE"}'), 200, '{"auth":null,"data":{'))),
    8: ("a secret", None, ("root", "GET", "secret/data/app", ""), (
        (("root", "GET", "secret/data/none", ""), 404, '{"errors":[]}'),
        (("root", "LIST", "secret/metadata", ""), 200, '{"auth":null,"data":{"keys":["app"]}'))),
    9: ("a version", None, ("root", "GET", "secret/data/app", ""), (
        (("root", "GET", "secret/data/none", ""), 404, '{"errors":[]}'),
        (("root", "LIST", "secret/metadata", ""), 200, '{"auth":null,"data":{"keys":["app"]}'))),
    10: ("a wrapped response", None, ("nobody", "POST", "sys/wrapping/lookup", '{"token":"WRAPPING"}'), (
        (("nobody", "POST", "sys/wrapping/lookup", '{"token":"none"}'), 400, '{"errors":["wrapping token is'),)),
    11: ("a mount", "secret", ("root", "GET", "secret/data/app", ""), (
        (("root", "GET", "db/roles/r", ""), 200, '{"auth":null,"data":{'),
        (("root", "POST", "sys/mounts/secret", '{"type":"issued"}'), 400, '{"errors":["path is already in use'))),
    12: ("a policy", "app", ("child", "GET", "secret/data/app", ""), (
        (("root", "GET", "secret/data/app", ""), 200, '{"auth":null,"data":{'),
        (("root", "POST", "sys/policies/acl/app", POLICY), 204, ""),
        (("child", "GET", "secret/data/app", ""), 200, '{"auth":null,"data":{'))),
    13: ("a role", None, ("root", "GET", "db/creds/r", ""), (
        (("root", "GET", "db/roles/none", ""), 404, '{"errors":[]}'),
        (("root", "POST", "db/roles/r", '{"ttl":60}'), 204, ""),
        (("root", "GET", "db/creds/r", ""), 200, '{"auth":null,"data":{"credential":"'))),
}

# What each request of a broker with such rows is answered, whatever row but the clock is damaged.
ANOTHER_PATH = (("root", "GET", "cubbyhole/none", ""), 404, '{"errors":[]}')


class Made:
    """A broker that has rows of each kind, and what it gave out."""

    def __init__(self, program, file):
        self.program = program
        self.file = file
        self.names = {"nobody": ""}
        with Broker(program, "--db", str(file)) as broker:
            self.fill(broker)
        with contextlib.closing(sqlite3.connect(file)) as database:
            database.execute("PRAGMA wal_checkpoint(TRUNCATE)")

    def fill(self, broker):
        """Asks for rows of each kind."""
        def made(who, method, path, body="", wrap_ttl=""):
            status, text = answer(broker, (self.names[who], method, path, body), wrap_ttl)
            if status not in (200, 204):
                raise SystemExit(f"{method} {path}: status {status}")
            return json.loads(text) if text else None

        self.names["root"] = broker.token
        made("root", "POST", "sys/policies/acl/app", POLICY)
        auth = made("root", "POST", "auth/token/create", '{"policies":["app"]}')["auth"]
        self.names["child"], self.names["accessor"] = auth["client_token"], auth["accessor"]
        made("child", "POST", "cubbyhole/a", '{"k":1}')
        made("root", "POST", "sys/mounts/db", '{"type":"issued"}')
        made("root", "POST", "db/roles/r", '{"ttl":3600}')
        leased = made("root", "GET", "db/creds/r")
        self.names["lease"], self.names["credential"] = leased["lease_id"], leased["data"]["credential"]
        made("root", "POST", "secret/data/app", '{"data":{"user":"app"}}')
        self.names["wrapping"] = made("root", "GET", "secret/data/app", wrap_ttl="1h")["wrap_info"]["token"]

    def spelled(self, asked):
        """A request, with the names in it that the broker gave out."""
        who, method, path, body = asked
        for name in ("accessor", "lease", "credential", "wrapping"):
            body = body.replace(name.upper(), self.names[name])
        return self.names[who], method, path, body

    def key(self, name):
        """The key of the rows to damage, if it is one."""
        return self.names.get(name, name)


def answer(broker, asked, wrap_ttl=""):
    """The status and the body of a reply, on a connection of its own. Status 0 if the connection is closed instead."""
    token, method, path, body = asked
    with connect(broker.port) as connection:
        connection.sendall(request(method, path, token, body, wrap_ttl))
        try:
            status, text, _ = reply(connection)
        except ConnectionResetError:
            return 0, ""
    return status, text.decode()


def rows_in(file):
    """All rows of a database."""
    with contextlib.closing(sqlite3.connect(file)) as database:
        return sorted(database.execute("SELECT kind, key, owner, due, body FROM broker_rows"), key=repr)


def damage(file, kind, key, change):
    """Changes the bodies of the rows of a kind, or of the one with the key."""
    where = "kind = ?" if key is None else "kind = ? AND key = ?"
    which = (kind,) if key is None else (kind, key)
    with contextlib.closing(sqlite3.connect(file)) as database, database:
        found = database.execute(f"SELECT rowid, body FROM broker_rows WHERE {where}", which).fetchall()
        for row, body in found:
            database.execute("UPDATE broker_rows SET body = ? WHERE rowid = ?", (change(body), row))
    return len(found)


def why_not_told(made, file, asked):
    """Why a request that reads a damaged row does not end the program with its fault alone, or None if it does."""
    before = rows_in(file)
    with Broker(made.program, "--unchecked", "--db", str(file), token=made.names["root"]) as broker:
        found = answer(broker, made.spelled(asked))
        if found != (0, ""):
            return f"the reply to a request that reads it is {found}"
        try:
            status = broker.process.wait(timeout=20)
        except subprocess.TimeoutExpired:
            return "the program has not ended"
        said = broker.process.stderr.read().decode()
    if (status, fault_in(said)) != (1, "fault 3"):
        return f"the program ended with status {status} and {said[:100]!r}"
    return None if rows_in(file) == before else "the rows have changed"


def why_not_served(made, file, usual):
    """Why requests have not their usual replies, or None if they have."""
    with Broker(made.program, "--unchecked", "--db", str(file), token=made.names["root"]) as broker:
        for asked, status, begin in usual:
            found = answer(broker, made.spelled(asked))
            if found[0] != status or not found[1].startswith(begin):
                return f"the reply to {asked[1]} {asked[2]} is {found[0]}, {found[1][:100]!r}"
    return None


def try_case(made, folder, kind, change):
    """Tries one change of the rows of a kind: whether a fault was told, and why the case failed, or None."""
    _, key, reading, usual = KINDS[kind]
    file = pathlib.Path(folder) / f"{kind}-{list(CHANGES).index(change)}.db"
    shutil.copy(made.file, file)
    if damage(file, kind, made.key(key), CHANGES[change]) == 0:
        return False, "there is no such row"
    if reading is not None:
        why = why_not_told(made, file, reading)
        if why is not None:
            return False, why
    if kind != 1:
        why = why_not_served(made, file, (ANOTHER_PATH, *usual))
    else:
        why = why_not_told(made, file, ANOTHER_PATH[0])
    return reading is not None, why


def main():
    passed, told = 0, Counter()
    cases = [(kind, change) for kind in KINDS for change in CHANGES]
    with tempfile.TemporaryDirectory() as folder, concurrent.futures.ThreadPoolExecutor(4) as pool:
        made = Made(sys.argv[1], pathlib.Path(folder) / "made.db")
        found = list(pool.map(lambda case: try_case(made, folder, *case), cases))
    for (kind, change), (is_told, why) in zip(cases, found):
        told[kind] += is_told
        passed += why is None
        if why is not None:
            print(f"damaged, {KINDS[kind][0]} {change}: {why}")
    untold = [kind for kind in KINDS if told[kind] < len(CHANGES) and kind != 2]
    if untold:
        print(f"damaged: not each change was a fault, of the rows of kinds {untold}")
    failed = len(cases) - passed + len(untold)
    print(f"{passed} passed, {failed} failed")
    return 1 if failed else 0


if __name__ == "__main__":
    sys.exit(main())
