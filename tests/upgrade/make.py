#!/usr/bin/env python3
"""Writes a database whose keys are of format 1, and what the program that wrote it answers over it after a restart.

    python3 tests/upgrade/make.py PROGRAM FOLDER

PROGRAM is `brokerd` of commit 9e9a6c26, the last one that wrote keys in format 1. It has written, on 2026-11-27, the
files `keys_of_format_1.db` and `keys_of_format_1.replies` beside this script. It writes the same bytes again, since its
clock and its random words are known (known_system, hostile). The broker is started, stopped by SIGKILL, started once
more after five days, and stopped; then SQLite moves the log into the database. The replies are those to `QUESTIONS`,
which a copy is asked 20 days after the first start. Each line of their file is an object: a request and its reply.

The reference broker has to answer each request with the same bytes, and to have the rows of the database in the end;
else nothing is written.
"""

import json
import random
import shutil
import sys
from pathlib import Path

from upgraded import differing, formats_in, upgraded  # it sets the paths

from asking import LOOK, Request, Story, rows_of
from hostile import build, environment
from known import Known
from program import Running, expect
from rows import close_log, rows_in
from trial import temporary_folder

DAY = 86_400
MOMENT = 1_795_737_600  # of the first start: 2026-11-27, midnight. From there on each event has another second
LATER = MOMENT + 5 * DAY
ASKED = MOMENT + 20 * DAY  # of the questions: the clock stands still
KEPT = "768h"  # 32 days, the longest life of a token, a lease and a response

APP = {"secret/data/team/*": ["create", "read", "update", "delete"], "secret/metadata/team/*": ["list", "read"]}
MAKER = {"auth/token/create": ["update", "sudo"], "db/creds/*": ["read"], "secret/*": ["read", "list"],
         "cubbyhole/*": ["create", "read", "update", "list"], "auth/token/renew-self": ["update"]}
FLAT = [f"svc{number:02}" for number in range(20)]
NAMED = ["team/db", "team/web", "team/web/tls", "team/Zürich", "app", "deleted", "destroyed", "with%20space", "ключ",
         "long/" + "n" * 200]


def seed_of(number):
    """The seed of the random words of a run."""
    return random.Random(number).randbytes(32)


def standing(folder, seed, moment):
    """The variables of a run whose random words are known, and whose clock stands at a moment."""
    words = Known(folder, seed).environment
    clock = environment(build(folder), f"clock_gettime:1+:set={moment}")
    return {**words, **clock, "LD_PRELOAD": f"{words['LD_PRELOAD']} {clock['LD_PRELOAD']}"}


def post(path, body=None, caller="root", wrap_ttl=None, **gives):
    """A write, and what its reply gives: a name and the members in which it is."""
    text = None if body is None else json.dumps(body, ensure_ascii=False)
    return Request("POST", path, text, caller, wrap_ttl, gives)


def get(path, caller="root", wrap_ttl=None, **gives):
    return Request("GET", path, None, caller, wrap_ttl, gives)


def token(body, caller="root", path="create", **gives):
    """A token is made; the reply gives it."""
    return post(f"auth/token/{path}", body, caller, **{name: ("auth", member) for name, member in gives.items()})


def policy(name, rules):
    rules = {"path": {pattern: {"capabilities": found} for pattern, found in rules.items()}}
    return post(f"sys/policies/acl/{name}", {"policy": json.dumps(rules, separators=(",", ":"))})


def write(path, number, caller="root", **options):
    """A version of a secret, whose object has the number."""
    body = {"data": {"number": number, "password": f"{path[-12:]} \"{number}\""}}
    return post(path, {**body, **({"options": options} if options else {})}, caller)


def versions(change, path, *numbers):
    return post(f"secret/{change}/{path}", {"versions": numbers})


FIRST_DAY = (
    policy("app", APP),
    policy("maker", MAKER),
    policy("dropped", {"*": ["deny"]}),
    Request("DELETE", "sys/policies/acl/dropped"),
    post("sys/mounts/db", {"type": "issued"}),
    post("sys/mounts/kv", {"type": "kv", "options": {"version": "2"}}),
    post("sys/mounts/kv-more", {"type": "kv-v2"}),
    post("sys/mounts/gone", {"type": "kv-v2"}),
    post("kv/config", {"cas_required": True, "max_versions": 3}),
    post("db/roles/app", {"ttl": "240h", "max_ttl": KEPT}),
    post("db/roles/longest", {}),
    token({"policies": ["app"], "period": KEPT, "meta": {"team": "web", "stage": "prod"}}, service="client_token",
          service_accessor="accessor"),
    token({"policies": ["maker", "app"], "ttl": "700h", "explicit_max_ttl": "760h"}, maker="client_token"),
    token({"policies": ["app"], "ttl": "600h", "meta": {"of": "maker"}}, "maker", child="client_token"),
    token({"policies": ["maker"], "ttl": KEPT}, "maker", other="client_token"),
    token({"ttl": KEPT}, "other", grandchild="client_token"),
    token({"policies": ["app", "not-there-yet"], "no_default_policy": True}, path="create-orphan",
          orphan="client_token"),
    token({"policies": ["app"], "num_uses": 5}, few="client_token"),
    token({"policies": ["root"]}, admin="client_token"),
    token({"policies": ["app"], "ttl": "48h"}, soon="client_token"),
    token({"policies": ["maker"], "ttl": "240h"}, late="client_token"),
    token({"policies": ["app"]}, revoked="client_token"),
    token({}, "late", under_late="client_token"),
    post("cubbyhole/a", {"k": [1, {"x": None}], "é": "ü"}),
    post("cubbyhole/a/b", {"n": 18446744073709551615}),
    post("cubbyhole/own", {"of": "the other"}, "other"),
    post("cubbyhole/own", {"ends": True}, "late"),
    post("auth/token/revoke", {"token": "{revoked}"}),
    get("db/creds/app", lease=("lease_id",), credential=("data", "credential")),
    get("db/creds/longest", "maker", makers_lease=("lease_id",)),
    get("db/creds/app", "late", late_lease=("lease_id",), late_credential=("data", "credential")),
    *(write(f"secret/data/{name}", 1) for name in (*NAMED, *FLAT)),
    *(write("secret/data/team/db", number, "service") for number in range(2, 13)),
    *(write(f"secret/data/{name}", 2, cas=1) for name in (*FLAT[::3], "app", "deleted", "destroyed")),
    write("secret/data/app", 3),
    versions("destroy", "app", 1),
    versions("delete", "app", 2),
    Request("DELETE", "secret/data/deleted"),
    versions("delete", "destroyed", 1),
    versions("destroy", "destroyed", 1, 2),
    write("secret/data/gone", 1),
    Request("DELETE", "secret/metadata/gone"),
    *(write("kv/data/one", number, cas=number - 1) for number in range(1, 6)),
    write("kv/data/deep/er", 1, cas=0),
    write("kv-more/data/one", 1),
    write("gone/data/one", 1),
    Request("DELETE", "sys/mounts/gone"),
    get("secret/data/team/db", wrap_ttl=KEPT, first=("wrap_info", "token")),
    post("sys/wrapping/wrap", {"plain": ["a", None]}, "maker", KEPT, second=("wrap_info", "token")),
    get("sys/mounts", wrap_ttl="48h", expiring=("wrap_info", "token")),
    get("secret/data/app", wrap_ttl=KEPT, opened=("wrap_info", "token")),
    post("sys/wrapping/unwrap", None, "opened"),
)

FIVE_DAYS_LATER = (
    *(write(f"secret/data/{name}", 3) for name in FLAT[::5]),
    *(versions("delete", name, 1) for name in FLAT[1::6]),
    versions("undelete", "app", 2),
    write("kv/data/one", 6, cas=5),
    write("secret/data/team/late", 1, "child"),
    post("auth/token/renew-self", {}, "service"),
    post("auth/token/renew-self", {"increment": "650h"}, "maker"),
    post("sys/leases/renew", {"lease_id": "{makers_lease}", "increment": "700h"}),
    post("sys/wrapping/rewrap", None, "first", first=("wrap_info", "token")),
    get("secret/data/team/web", "few"),
    get("secret/data/app", "few"),
    Request("DELETE", "kv-more/data/one"),
)

KEYS = [f"secret/metadata/{name}" for name in (*NAMED, *FLAT, "team/late")] + [
    "kv/metadata/one", "kv/metadata/deep/er", "kv-more/metadata/one"]

QUESTIONS = (
    LOOK,
    *(Request("LIST", path) for path in ("secret/metadata", "secret/metadata/team", "secret/metadata/team/web",
                                         "kv/metadata", "kv-more/metadata", "cubbyhole", "auth/token/accessors",
                                         "sys/policies/acl")),
    *(get(path) for path in KEYS),
    *(get(f"secret/data/{name}") for name in (*NAMED, *FLAT[:6])),
    *(get(f"secret/data/{path}") for path in ("app?version=1", "app?version=2", "team/db?version=2", "gone",
                                              "team/db?version=3", "svc01?version=2")),
    *(get(path) for path in ("kv/data/one", "kv-more/data/one", "secret/config", "kv/config", "sys/mounts",
                             "sys/policies/acl/app", "sys/policies/acl/dropped", "db/roles/app", "db/roles/longest",
                             "cubbyhole/a", "cubbyhole/a/b", "gone/data/one")),
    *(get("auth/token/lookup-self", caller) for caller in ("service", "maker", "child", "other", "grandchild",
                                                           "orphan", "admin", "soon", "late", "under_late",
                                                           "revoked")),
    get("cubbyhole/own", "other"),
    *(post("auth/token/lookup", {"token": "{%s}" % name}) for name in ("few", "orphan")),
    get("secret/data/team/web", "orphan"),
    post("auth/token/lookup-accessor", {"accessor": "{service_accessor}"}),
    *(post("sys/leases/lookup", {"lease_id": "{%s}" % name}) for name in ("lease", "makers_lease", "late_lease")),
    *(post("db/verify", {"credential": "{%s}" % name}) for name in ("credential", "late_credential")),
    *(post("sys/wrapping/lookup", None, name) for name in ("first", "second", "expiring", "opened")),
    get("secret/data/svc00", "child"),
    Request("LIST", "secret/metadata/team", None, "child"),
    *(get("secret/data/team/web", "few") for _ in range(4)),
    write("secret/data/team/db", 13, "service", cas=12),
    write("secret/data/svc00", 9, cas=1),
    write("kv/data/one", 7),
    write("kv/data/one", 7, cas=6),
    write("secret/data/destroyed", 3),
    versions("undelete", "deleted", 2),
    versions("destroy", "svc02", 1),
    Request("DELETE", "secret/data/svc03"),
    Request("DELETE", "secret/metadata/svc04"),
    write("secret/data/new", 1),
    write("secret/data/svc04", 1, cas=0),
    *(get(f"secret/metadata/{name}") for name in ("team/db", "destroyed", "deleted", "svc02", "svc03", "svc04", "new")),
    get("kv/metadata/one"),
    Request("LIST", "secret/metadata"),
    token({"policies": ["app"], "ttl": "1h"}, newest="client_token"),
    get("secret/data/team/db", "newest"),
    get("db/creds/longest", "maker"),
    post("sys/leases/renew", {"lease_id": "{makers_lease}"}),
    get("secret/data/team/db", wrap_ttl="60", third=("wrap_info", "token")),
    *(post("sys/wrapping/unwrap", None, name) for name in ("first", "second", "third", "third")),
    post("auth/token/renew-self", {}, "service"),
    post("auth/token/revoke", {"token": "{maker}"}),
    *(get("auth/token/lookup-self", caller) for caller in ("maker", "child", "grandchild", "service")),
    post("sys/leases/lookup", {"lease_id": "{makers_lease}"}),
    Request("LIST", "auth/token/accessors"),
)


def asked(running, story, requests):
    """Each request with its reply. The reference broker answers the same. Raises Wrong."""
    for request in requests:
        story.asked = text = request.text(story.known)
        reply = running.ask(text)
        story.answer(reply, request)
        yield text, reply


def make(program, folder, file):
    """A broker in a file, by two runs: its story. Raises Wrong."""
    with Running(program, file, Known(folder, seed_of(1), clock=MOMENT).environment) as running:
        story = Story(running.told_root())
        expect(story.run(running, FIRST_DAY), "the program ends")
    with Running(program, file, Known(folder, seed_of(2), clock=LATER).environment) as running:
        expect(story.run(running, FIVE_DAYS_LATER), "the program ends")
    close_log(file)
    rows, wanted = upgraded(rows_in(file)), rows_of(story.brokers[-1])
    expect(rows == wanted, differing(rows, wanted))
    expect(set(formats_in(file)) == {"01"}, "the program does not write keys in format 1")
    return story.going_on()


def main():
    program, target = sys.argv[1], Path(sys.argv[2]) / "keys_of_format_1"
    with temporary_folder() as place:
        file, copy = Path(place) / "broker.db", Path(place) / "copy.db"
        story = make(program, place, file)
        shutil.copy(file, copy)
        with Running(program, copy, standing(place, seed_of(3), ASKED)) as running:
            found = list(asked(running, story, QUESTIONS))
        expect(upgraded(rows_in(copy)) == rows_of(story.brokers[-1]), "the rows after the questions are others")
        shutil.copy(file, target.with_suffix(".db"))
    with open(target.with_suffix(".replies"), "w", encoding="ascii") as lines:
        for text, reply in found:
            lines.write(json.dumps({"request": text.decode(), "reply": reply.decode()}) + "\n")
    print(f"{target.with_suffix('.db').stat().st_size} bytes, {len(found)} replies")


if __name__ == "__main__":
    main()
