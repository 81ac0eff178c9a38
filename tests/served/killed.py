#!/usr/bin/env python3
"""Stops a broker over a file by SIGKILL while it is written to, and asks it again after a start.

    python3 tests/served/killed.py PROGRAM [TIMES]

It is stopped so many times, or 50, in some two seconds each. Each time it writes versions of secrets, makes tokens and
children of them, revokes some, wraps secrets and unwraps some, until a random moment. Every fourth start is stopped
too, before it is asked anything, and made again. Then each write that was answered is there, with its version; each
token that was answered works, and no token that was revoked does, nor a child of it; each response that waits is looked
up, and is handed out once. The request in progress was done wholly or not at all. Each kind of request has to be
answered, and 20 requests for each kill. The last line is 'N passed, M failed'.
"""

import json
import random
import subprocess
import sys
import tempfile
import threading
import time
from collections import Counter
from pathlib import Path

from broker import Broker, connect, reply, request

TIMES = 50
SECRETS = 10
KEPT = 10  # versions of a secret
MOST = 5  # tokens, and responses, that are left before some are ended
LEAST = 20  # requests that are answered before a kill, on average
KINDS = ("write", "create", "revoke", "wrap", "unwrap")
REMEMBERED = 50  # tokens that were ended, and are asked with once more


class Stopped(Exception):
    """The program does not answer any more."""


class Known:
    """What the broker has answered, and what it was asked as it stopped."""

    def __init__(self):
        self.root = None
        self.numbers = {}  # those in the versions of each secret, in their order
        self.families = []  # tokens that work, each with its children behind it
        self.waiting = {}  # wrapping tokens, and what their responses have
        self.revoked = []
        self.unwrapped = []
        self.lost = 0  # requests that may have made a token, which nobody was told
        self.number = 0  # of the last request
        self.asked = None
        self.answered = Counter()


class Asking:
    """A connection that asks, and connects again where the broker has closed it."""

    def __init__(self, port):
        self.port = port
        self.connection = connect(port)

    def ask(self, method, path, token, body=None, wrap_ttl=""):
        """The status and the object of a reply."""
        text = request(method, path, token, "" if body is None else json.dumps(body), wrap_ttl)
        for _ in range(2):
            try:
                self.connection.sendall(text)
                status, body, _ = reply(self.connection)
                if status:
                    return status, json.loads(body) if body else None
                self.connection = connect(self.port, 0.0)
            except OSError:
                raise Stopped from None
        raise Stopped

    def get(self, status, *words, **named):
        """The object of a reply that has to have the status."""
        found, value = self.ask(*words, **named)
        expect(found == status, f"{words[0]} {words[1]}: status {found} in place of {status}")
        return value


def expect(condition, what):
    if not condition:
        raise AssertionError(what)


def secret_path(number):
    return f"secret/data/k{number % SECRETS}"


def write(asking, known, number):
    """A version of a secret."""
    path = secret_path(number)
    known.asked = ("write", path, number)
    made = asking.get(200, "POST", path, known.root, {"data": {"number": number}})
    known.numbers.setdefault(path, []).append(number)
    expect(made["data"]["version"] == len(known.numbers[path]), f"{path}: version {made['data']['version']} is made")


def create(asking, known, _):
    """A token, which is a child of the last one by turns."""
    family = known.families[-1] if known.families and len(known.families[-1]) < 3 else None
    known.asked = ("create",)
    made = asking.get(200, "POST", "auth/token/create", family[-1] if family else known.root, {})
    if family is None:
        family = []
        known.families.append(family)
    family.append(made["auth"]["client_token"])


def revoke(asking, known, number):
    """The first token ends with its descendants. There is a version in place of this if there are few."""
    if len(known.families) <= MOST:
        return write(asking, known, number)
    family = known.families.pop(0)
    known.asked = ("revoke", family)
    asking.get(204, "POST", "auth/token/revoke", known.root, {"token": family[0]})
    known.revoked.extend(family)


def wrap(asking, known, number):
    """A secret is read, and the reply waits to be unwrapped."""
    path = secret_path(number)
    if path not in known.numbers:
        return write(asking, known, number)
    known.asked = ("wrap",)
    made = asking.get(200, "GET", path, known.root, wrap_ttl="24h")
    known.waiting[made["wrap_info"]["token"]] = (len(known.numbers[path]), known.numbers[path][-1])


def unwrap(asking, known, number):
    """A response that waits is handed out. There is a version in place of this if few wait."""
    if len(known.waiting) <= MOST:
        return write(asking, known, number)
    token = next(iter(known.waiting))
    known.asked = ("unwrap", token, known.waiting.pop(token))
    check_response(asking.get(200, "POST", "sys/wrapping/unwrap", token), known.asked[2])
    known.unwrapped.append(token)


def check_response(response, wrapped):
    """Compares a response with what was wrapped."""
    found = (response["data"]["metadata"]["version"], response["data"]["data"]["number"])
    expect(found == wrapped, f"another response is handed out: {found} in place of {wrapped}")


REQUESTS = [write, write, create, revoke, wrap, unwrap]


def settle_write(asking, known, path, number):
    """The version is there, or it is not."""
    before = len(known.numbers.get(path, []))
    status, found = asking.ask("GET", path, known.root)
    if status == 200 and found["data"]["metadata"]["version"] == before + 1:
        expect(found["data"]["data"] == {"number": number}, f"{path}: the last version is {found['data']['data']}")
        known.numbers.setdefault(path, []).append(number)


def settle_revocation(asking, known, family):
    """All tokens of the family work, or none does."""
    statuses = {asking.ask("GET", "auth/token/lookup-self", token)[0] for token in family}
    expect(statuses in ({200}, {403}), f"a revocation was done in part: {statuses}")
    if statuses == {200}:
        known.families.insert(0, family)
    else:
        known.revoked.extend(family)


def settle_unwrap(asking, known, token, wrapped):
    """The response waits, or it is gone."""
    status, _ = asking.ask("POST", "sys/wrapping/lookup", token)
    expect(status in (200, 400), f"a look-up of the response in progress: status {status}")
    if status == 200:
        known.waiting[token] = wrapped
    else:
        known.unwrapped.append(token)


def settle(asking, known):
    """Finds out whether the request in progress was done."""
    kind, *what = known.asked or (None,)
    if kind == "write":
        settle_write(asking, known, *what)
    elif kind == "revoke":
        settle_revocation(asking, known, *what)
    elif kind == "unwrap":
        settle_unwrap(asking, known, *what)
    elif kind == "create":
        known.lost += 1
    known.asked = None


def check_secrets(asking, known):
    """Compares all versions that are kept with those that were answered."""
    for path, numbers in known.numbers.items():
        told = asking.get(200, "GET", path.replace("/data/", "/metadata/"), known.root)["data"]
        expect(told["current_version"] == len(numbers), f"{path}: {told['current_version']} versions")
        kept = range(max(0, len(numbers) - KEPT), len(numbers))
        expect(len(told["versions"]) == len(kept), f"{path}: {len(told['versions'])} versions are kept")
        for place in kept:
            found = asking.get(200, "GET", f"{path}?version={place + 1}", known.root)["data"]["data"]
            expect(found == {"number": numbers[place]}, f"{path}: version {place + 1} has {found}")


def check_tokens(asking, known):
    """Asks with each token that was answered, with those that were revoked last, and for all accessors."""
    for token in (token for family in known.families for token in family):
        asking.get(200, "GET", "auth/token/lookup-self", token)
    for token in known.revoked[-REMEMBERED:]:
        asking.get(403, "GET", "auth/token/lookup-self", token)
    accessors = asking.get(200, "LIST", "auth/token/accessors", known.root)["data"]["keys"]
    known_ones = 1 + sum(len(family) for family in known.families)
    expect(known_ones <= len(accessors) <= known_ones + known.lost, f"{len(accessors)} tokens in place of {known_ones}")
    for accessor in accessors:
        asking.get(200, "POST", "auth/token/lookup-accessor", known.root, {"accessor": accessor})


def check_responses(asking, known):
    """Looks up each response that waits, opens one, and tries to open those that were opened last."""
    for token in known.waiting:
        told = asking.get(200, "POST", "sys/wrapping/lookup", token)["data"]
        expect(told["creation_ttl"] == 86400, f"a response waits for {told['creation_ttl']} s")
    for token in list(known.waiting)[:1]:
        check_response(asking.get(200, "POST", "sys/wrapping/unwrap", token), known.waiting.pop(token))
        known.unwrapped.append(token)
    for token in known.unwrapped[-REMEMBERED:]:
        asking.get(400, "POST", "sys/wrapping/unwrap", token)


def stop_a_start(program, file):
    """Stops the program while it opens the file, or soon after."""
    started = subprocess.Popen([program, "serve", "--listen", "127.0.0.1:0", "--db", file],
                               stdout=subprocess.DEVNULL, stderr=subprocess.DEVNULL)
    time.sleep(random.uniform(0.0, 0.1))
    started.kill()
    started.wait()


def run(program, file, known):
    """One start, the checks of what is found, and requests until the kill."""
    with Broker(program, "--db", file, token=known.root) as broker:
        known.root = broker.token
        asking = Asking(broker.port)
        for check in (settle, check_secrets, check_tokens, check_responses):
            check(asking, known)
        threading.Timer(random.uniform(0.05, 1.5), broker.process.kill).start()
        try:
            while True:
                known.number += 1
                random.choice(REQUESTS)(asking, known, known.number)
                known.answered[known.asked[0]] += 1
                known.asked = None
        except Stopped:
            said = broker.close()
            expect(not said, said)


def main():
    program, *words = sys.argv[1:]
    times = int(words[0] if words else TIMES)
    known, failed = Known(), 0
    with tempfile.TemporaryDirectory() as folder:
        file = str(Path(folder) / "broker.db")
        for turn in range(times + 1):
            if turn % 4 == 3:
                stop_a_start(program, file)
            try:
                run(program, file, known)
            except (AssertionError, Stopped) as error:
                failed += 1
                print(f"start {turn}: {error or 'it stopped while it was asked what it has'}")
    told = ", ".join(f"{known.answered[kind]} of {kind}" for kind in KINDS)
    is_enough = sum(known.answered.values()) >= LEAST * times and all(known.answered[kind] > 0 for kind in KINDS)
    print(f"{times} kills; requests that were answered: {told}{'' if is_enough else ', which are too few'}")
    failed += not is_enough
    print(f"{times + 2 - failed} passed, {failed} failed")
    sys.exit(failed != 0)


if __name__ == "__main__":
    main()
