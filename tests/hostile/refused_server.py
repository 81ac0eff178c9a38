#!/usr/bin/env python3
"""Refuses memory to `brokerd serve --db FILE`, one allocation after another.

    python3 tests/hostile/refused_server.py BROKERD [STRIDE]

Each STRIDEth allocation is refused alone, the first if it is not given. In turn:

- **Requests**: a secret is written and read, a token created and revoked, a response wrapped and unwrapped, each on a
  connection of its own. The Nth allocation from there on is refused: the reply is the usual one, or the connection is
  closed without a byte, and then the request was not done. The next connection is answered; or else the program has
  ended with status 1 and `fault 2`, and is started again. Then all that was answered is there, and nothing else.
- **Starts**, with a new file, with one that has a broker, and with one whose keys are in format 1, so that the start
  rewrites them; and there also with all later allocations refused: the program serves, or ends with status 1 and
  `fault 1` or `fault 2`. A start without refusal finds the broker whose token was printed, or that was there before; or
  else it starts one. The keys of a file that was served are in format 2, and of any other all in one format.

The last line is `N passed, M failed`.
"""

import concurrent.futures
import contextlib
import functools
import itertools
import json
import os
import random
import re
import shutil
import socket
import sqlite3
import subprocess
import sys
import time
from collections import Counter
from pathlib import Path

from hostile import HEAP, HERE, Report, Tally, aim, build, environment, scratch

sys.path.append(str(HERE.parent / "served"))

from broker import request  # noqa: E402  what the scripts of tests/served share

SECONDS = 60.0  # for a start, a reply and an end
SETTLED = 0.2  # seconds in which a program that goes on, and waits for clients, takes no processor time
MOST = 3  # tokens that are left before they are revoked
LEAST = 90  # allocations of a request, and of a start
KEYS = 20  # of a file: more than a start rewrites at once
OLD_BODY = 1 + 3 * 8  # bytes of a key in format 1: its format, and three numbers, with which format 2 begins too
RULE = f"{HEAP}:0:ENOMEM"  # none, until it is aimed
FAULT = re.compile(r"(.*\S.*\n)?fault ([12])\n")  # why the program ends, and its fault
numbers = itertools.count(random.randrange(1 << 16))


class Wrong(Exception):
    """What is found is not what has to be."""


def expect(condition, what):
    if not condition:
        raise Wrong(what)


class Closed(Exception):
    """A connection was closed without a byte, or there was none."""


class Served:
    """A program that serves a file under the library, at an address of its own."""

    def __init__(self, program, library, folder, rules=RULE):
        place = (os.getpid() << 8 | next(numbers) & 0xff) & 0xffffff
        self.address = (f"127.{place >> 16}.{place >> 8 & 0xff}.{place & 0xff}", 8200 + next(numbers) % 10000)
        self.report, self.out, self.err = (Path(folder) / name for name in ("report", "out", "err"))
        self.report.unlink(missing_ok=True)
        with open(self.out, "wb") as out, open(self.err, "wb") as err:
            self.process = subprocess.Popen(
                [program, "serve", "--listen", f"{self.address[0]}:{self.address[1]}", "--until-stopped", "--db",
                 f"{folder}/broker.db"],
                stdin=subprocess.DEVNULL, stdout=out, stderr=err,
                env=environment(library, rules, report=self.report, MALLOC_PERTURB_="165"))
        until = time.monotonic() + SECONDS
        while self.process.poll() is None and not self.listens():
            if time.monotonic() > until:
                self.stop()
                raise Wrong("it neither listens nor ends")
            time.sleep(0.002)

    def __enter__(self):
        return self

    def __exit__(self, *_):
        self.stop()

    def stop(self):
        self.process.kill()
        self.process.wait()

    def listens(self):
        try:
            return self.read().made.get("listen", 0) > 0
        except (OSError, ValueError):  # it has not begun
            return False

    def is_alive(self):
        """Whether it goes on, after it has closed a connection or has not taken it: it sleeps, and does nothing. On a
        busy machine a program that will end may wait long for a processor."""
        before = None
        while True:
            try:
                self.process.wait(SETTLED)
                return False
            except subprocess.TimeoutExpired:
                now = self.work()
            if now == before and now[0] == "S":
                return True
            before = now

    def work(self):
        """Whether it runs or sleeps, and how much processor time it has taken."""
        state = Path(f"/proc/{self.process.pid}/stat").read_text(encoding="ascii").rpartition(")")[2].split()[0]
        return state, Path(f"/proc/{self.process.pid}/schedstat").read_text(encoding="ascii").split()[0]

    def read(self):
        return Report(self.report)

    def token(self):
        """The root token that was printed; none if nothing was."""
        printed = self.out.read_bytes().decode()
        is_line = printed.startswith("root token: ") and printed.endswith("\n")
        expect(is_line or not printed, f"it printed {printed!r}")
        return printed[12:-1] or None

    def end(self):
        """Waits for the end, and answers the fault that was told. Why is told with it, but where memory ran out before
        the command line was read."""
        self.process.wait(SECONDS)
        said = self.err.read_bytes().decode()
        found = FAULT.fullmatch(said)
        expect(self.process.returncode == 1 and found and (found[1] or found[2] == "1"),
               f"it ended with status {self.process.returncode} and {said!r}")
        return found[2]

    def ask(self, method, path, token, body=None, wrap_ttl=""):
        """The status and the object of a reply, on a connection of its own."""
        text = request(method, path, token, "" if body is None else json.dumps(body), wrap_ttl)
        got = b""
        try:
            with socket.create_connection(self.address, SECONDS) as connection:
                connection.sendall(text.replace(b"\r\n", b"\r\nConnection: close\r\n", 1))
                while more := connection.recv(65536):
                    got += more
        except ConnectionError as error:
            expect(not got, f"{method} {path}: a reply, and {error}")
        if not got:
            raise Closed(f"{method} {path}: closed")
        head, _, rest = got.partition(b"\r\n\r\n")
        lines = dict(line.lower().split(b": ", 1) for line in head.split(b"\r\n")[1:])
        length = int(lines.get(b"content-length", b"0"))
        expect(len(rest) == length, f"{method} {path}: the reply is not whole: {got!r}")
        return int(head.split(b" ")[1]), json.loads(rest) if rest else None

    def get(self, status, *words, **named):
        """The object of a reply that has to have the status."""
        found, value = self.ask(*words, **named)
        expect(found == status, f"{words[0]} {words[1]}: status {found} in place of {status}: {value}")
        return value


class Known:
    """What was answered."""

    def __init__(self, root):
        self.root, self.version, self.tokens, self.revoked, self.waiting, self.unwrapped = root, 0, [], None, None, None


def write(served, known):
    body = {"options": {"cas": known.version}, "data": {"number": known.version + 1}}
    made = served.get(200, "POST", "secret/data/a", known.root, body)
    known.version += 1
    expect(made["data"]["version"] == known.version, f"version {made['data']['version']} in place of {known.version}")


def read(served, known):
    found = served.get(200, "GET", "secret/data/a", known.root)["data"]
    expect(found["metadata"]["version"] == known.version, f"the version is {found['metadata']['version']}")
    expect(found["data"] == {"number": known.version}, f"version {known.version} has {found['data']}")


def create(served, known):
    known.tokens.append(served.get(200, "POST", "auth/token/create", known.root, {})["auth"]["client_token"])


def revoke(served, known):
    served.get(204, "POST", "auth/token/revoke", known.root, {"token": known.tokens[0]})
    known.revoked = known.tokens.pop(0)


def wrap(served, known):
    made = served.get(200, "GET", "secret/data/a", known.root, wrap_ttl="24h")
    known.waiting = (made["wrap_info"]["token"], known.version)


def unwrap(served, known):
    token, version = known.waiting
    found = served.get(200, "POST", "sys/wrapping/unwrap", token)["data"]
    known.waiting, known.unwrapped = None, token
    expect(found["data"] == {"number": version}, f"version {version} was wrapped, and {found} unwrapped")


STEPS = [write, read, create, revoke, wrap, unwrap]


def prepare(served, known):
    """Makes what the steps need."""
    if known.version == 0:
        write(served, known)
    while len(known.tokens) > MOST:
        revoke(served, known)
    if not known.tokens:
        create(served, known)
    if known.waiting is None:
        wrap(served, known)


def check(served, known):
    """Compares all that the broker has with what was answered."""
    found = served.get(200, "GET", "secret/metadata/a", known.root)["data"]
    expect(found["current_version"] == known.version, f"version {found['current_version']} in place of {known.version}")
    read(served, known)
    accessors = served.get(200, "LIST", "auth/token/accessors", known.root)["data"]["keys"]
    expect(len(accessors) == 1 + len(known.tokens), f"{len(accessors)} tokens in place of {1 + len(known.tokens)}")
    for token in known.tokens:
        served.get(200, "GET", "auth/token/lookup-self", token)
    if known.revoked:
        served.get(403, "GET", "auth/token/lookup-self", known.revoked)
    if known.waiting:
        served.get(200, "POST", "sys/wrapping/lookup", known.waiting[0])
    if known.unwrapped:
        served.get(400, "POST", "sys/wrapping/unwrap", known.unwrapped)


class Requests:
    """One kind of request, with one allocation after another refused."""

    def __init__(self, program, library, folder, step):
        self.step, self.counts = step, Counter()
        self.start = functools.partial(Served, program, library, folder)
        self.served = self.start()
        self.known = Known(self.served.token())

    def refuse(self, number):
        """Refuses an allocation of a request, and answers whether there is such."""
        prepare(self.served, self.known)
        before = self.served.read().rules[0]
        aim(self.served.report, 0, before.made + number, before.made + number)
        try:
            self.step(self.served, self.known)
            is_answered = True
        except Closed:
            is_answered = False
        aim(self.served.report, 0, 0, 0)
        refused = self.served.read().rules[0].changed - before.changed
        expect(refused <= 1, f"{refused} allocations were refused")
        if refused == 0:
            expect(is_answered, "closed, though no memory was refused")
            return False
        self.counts["the usual reply" if is_answered else self.closed()] += 1
        check(self.served, self.known)
        return True

    def closed(self):
        """Whether the program has ended; it is started again then."""
        try:
            self.served.get(200, "GET", "auth/token/lookup-self", self.known.root)
            return "closed"
        except Closed:
            expect(self.served.end() == "2", "fault 1, and not at the start")
        self.served = self.start()
        expect(self.served.token() is None, "another broker is started")
        return "fault 2"


def try_requests(program, library, stride, step):
    """Refuses each STRIDEth allocation of a kind of request. Answers what passed and failed, and what came of it."""
    tally, name = Tally("refused, server"), step.__name__
    with scratch() as folder:
        requests, number = Requests(program, library, folder, step), 1
        try:
            while requests.refuse(number):
                tally.expect(True, "")
                number += stride
        except (Wrong, Closed, subprocess.TimeoutExpired) as error:
            tally.expect(False, f"{name}: allocation {number}: {error!r}")
        requests.served.stop()
    told = ", ".join(f"{count} times {what}" for what, count in sorted(requests.counts.items()))
    tally.tell(f"{name}: some {number - 1} allocations, {sum(requests.counts.values())} refused alone: {told}")
    tally.expect(number >= LEAST, f"{name}: {number} allocations")
    tally.expect(requests.counts["closed"] + requests.counts["fault 2"] > 0, f"{name}: no fault")
    return tally.passed, tally.failed


def copy_file(of, to):
    """Copies the file of a broker, if there is one, into a folder that has none."""
    for file in Path(of).glob("broker.db*"):
        shutil.copy(file, to)


def start_refused(program, library, folder, known, which):
    """A start with refused allocations. Answers how it ended, the token that it printed, and how many were refused."""
    with Served(program, library, folder, f"{HEAP}:{which}:ENOMEM") as served:
        end = "served"
        try:
            served.get(200, "GET", "auth/token/lookup-self", known.root if known else served.token())
        except Closed:
            end = "served none" if served.is_alive() else f"fault {served.end()}"
        expect(end != "served none" or "+" in which, "it serves none, though memory is not refused any more")
        return end, served.token(), served.read().rules[0].changed


def start_again(program, library, folder, known, token):
    """A start without refusal: it finds the broker that is known, or that whose token was printed, or starts one."""
    with Served(program, library, folder) as served:
        root = known.root if known else token
        expect((served.token() is None) == (root is not None), f"it printed {served.token()}, and {root} was there")
        served.get(200, "GET", "auth/token/lookup-self", root or served.token())
        if known:
            check(served, known)


def try_start(program, library, place, known, which):
    """Refuses allocations of a start with a copy of the file in a folder. Answers how it ended, what is wrong, and how
    many were refused."""
    with scratch() as folder:
        copy_file(place, folder)
        try:
            end, token, changed = start_refused(program, library, folder, known, which)
            check_formats(folder, end)
            start_again(program, library, folder, known, token)
            return end, None, changed
        except (Wrong, Closed, subprocess.TimeoutExpired) as error:
            return None, repr(error), 0


def check_formats(folder, end):
    """All keys are in one format, those of a broker that was served in format 2."""
    with scratch() as copy:
        copy_file(folder, copy)
        if not (Path(copy) / "broker.db").exists():
            return
        with contextlib.closing(sqlite3.connect(f"{copy}/broker.db")) as database:
            try:
                found = database.execute("SELECT DISTINCT hex(substr(body, 1, 1)) FROM broker_rows WHERE kind = 8")
                formats = [name for name, in found]
            except sqlite3.OperationalError:  # there is no table yet
                return
    expect(formats in ([], ["02"]) or (formats == ["01"] and end != "served"), f"{end}: keys are of formats {formats}")


def make_old(folder):
    """Writes the keys of a broker in format 1, as an earlier program did."""
    with contextlib.closing(sqlite3.connect(f"{folder}/broker.db")) as database, database:
        keys = database.execute("SELECT key, body FROM broker_rows WHERE kind = 8").fetchall()
        for key, body in keys:
            database.execute("UPDATE broker_rows SET body = ? WHERE kind = 8 AND key = ?",
                             (b"\x01" + body[1:OLD_BODY], key))
    return len(keys)


def fill(program, library, folder):
    """A file with a broker that has something of each kind."""
    with Served(program, library, folder) as served:
        known = Known(served.token())
        for number in range(KEYS):
            served.get(200, "POST", f"secret/data/other{number}", known.root, {"data": {"number": number}})
        prepare(served, known)
        create(served, known)
        revoke(served, known)
        unwrap(served, known)
        wrap(served, known)
    return known


def try_starts(name, tally, pool, program, library, stride, place, known):
    """Refuses each STRIDEth allocation of a start with a copy of the file in a folder, which may have none."""
    with scratch() as folder:
        copy_file(place, folder)
        with Served(program, library, folder) as served:
            time.sleep(SETTLED)
            count = served.read().rules[0].made
    tally.expect(count >= LEAST, f"{name}: {count} allocations")
    for onward in ("", "+"):
        refused = [f"{number}{onward}" for number in range(1, count + 1, stride)]
        ends = Counter()
        run = functools.partial(try_start, program, library, place, known)
        for which, (end, wrong, changed) in zip(refused, pool.map(run, refused)):
            ends[end] += 1
            tally.expect(wrong is None and changed > 0 and (changed == 1 or onward),
                         f"{name}: allocation {which}: {wrong}, {changed} were refused")
        told = ", ".join(f"{count} times {what}" for what, count in ends.items())
        way = "with all later ones" if onward else "alone"
        tally.tell(f"{name}: {count} allocations, {len(refused)} refused {way}: {told}")
        for fault in ("fault 1", "fault 2"):
            tally.expect(ends[fault] > 0, f"{name}: no {fault}")


def main():
    program, stride = os.path.abspath(sys.argv[1]), int(sys.argv[2]) if len(sys.argv) > 2 else 1
    tally = Tally("refused, server")
    with scratch() as empty, scratch() as filled, scratch() as old, \
            concurrent.futures.ProcessPoolExecutor(os.cpu_count()) as pool:
        library = build(empty)
        for passed, failed in pool.map(functools.partial(try_requests, program, library, stride), STEPS):
            tally.passed += passed
            tally.failed += failed
        starts = functools.partial(try_starts, tally=tally, pool=pool, program=program, library=library, stride=stride)
        starts("a first start", place=empty, known=None)
        starts("a start with a broker", place=filled, known=fill(program, library, filled))
        known = fill(program, library, old)
        tally.expect(make_old(old) > KEYS, "there are not so many keys")
        starts("a start that rewrites keys", place=old, known=known)
    return tally.end()


if __name__ == "__main__":
    sys.exit(main())
