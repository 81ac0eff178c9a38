"""What `brokerd check` says of a database, and whether `brokerd serve` serves it.

It has to accept each database that keeps a broker: those of the reference broker at the end of each row of tests/rows
and after drawn requests, as SQLite writes them, some of their secrets in the older format. The counts that it tells are
those of the rows. In the database of a broker with rows of every kind each rule is broken by hand: it has to tell the
row and the rule; `check --all` tells of it first, and of each of several that are broken at once. No check changes a
row, and none prints a token. What is accepted is served then, and what is not is refused in the same words, before the
program listens; and a broker is started in a new file.
"""

import json
import random
import subprocess
from collections import Counter
from dataclasses import replace

from asking import ACCESSOR, CLOCK, CREDENTIAL, LEASE, REQUESTS, RESPONSE, TOKEN, USED, VERSION, WITH_ALL_KINDS
from broker.connections import Server
from broker.parts import TODAY
from broker.rows import number, rows_of, text
from kept import in_a_format, rows_of_tests, write
from program import FAULT, Running, expect
from rows import rows_in
from trial import FAULT_OF_STORAGE, MOMENT, NOBODY, Tally, side_by_side

OBJECT, SECRET, MOUNT, POLICY, ROLE = 5, 8, 11, 12, 13
WORDS = {CLOCK: "clock", USED: "issued identifier", TOKEN: "token", ACCESSOR: "accessor", OBJECT: "cubbyhole object",
         LEASE: "lease", CREDENTIAL: "credential", SECRET: "secret", VERSION: "version", RESPONSE: "wrapped response",
         MOUNT: "mount", POLICY: "policy", ROLE: "role"}
COUNTED = ((TOKEN, "token", "tokens"), (OBJECT, "cubbyhole object", "cubbyhole objects"),
           (SECRET, "secret", "secrets"), (VERSION, "version", "versions"), (LEASE, "lease", "leases"),
           (RESPONSE, "wrapped response", "wrapped responses"), (MOUNT, "mount", "mounts"),
           (POLICY, "policy", "policies"), (ROLE, "role", "roles"))
FAULT_WITHOUT_CLOCK = 4
WHAT_TO_DO = ("{}: nothing was changed. Restore a backup (brokerd backup made it), or mend it by brokerd export and "
              "brokerd import --salvage, or serve it as it is with --unchecked\n")
WITHOUT_FILE = "brokerd: {} needs a database: give --db too\n"
BOTH = ("brokerd: --until-stopped takes the place of --connections, and --unchecked that of --check: give one of them; "
        "--log-format is text or json\n")
SECONDS = 60  # that a check may take beside much other work
LEAST = {"accepted": 150, "rows in the older format": 20, "rules": 14, "told": 80, "several": 1}

FORMAT = "it is not in its format"
KEY = "its key is none of its kind"
TEXT = "a name or a text in it is out of range"
NUMBER = "a number in it is out of range"
SPENT = "it has no use left"
PARENT = "its parent is not there"
CHAIN = "the chain of its parents does not end"
OWNER = "its owner is not there, or says otherwise"
NAMED = "its accessor is not there, or names another row"
HELD = "its credential is not there, or names another row"
MARK = "its identifier is not marked as issued"
PLACE = "its identifier is in another row too"
ORIGIN = "its origin was not issued, or is that of another response too"


# ---------------------------------------------------------------------------------------- databases

def run(trial, *words):
    """A run of the program until it ends."""
    return subprocess.run([trial.program, *words], stdin=subprocess.DEVNULL, capture_output=True, timeout=SECONDS,
                          text=True)


def fault_in(ended):
    """The fault that a program told after a line that says why; None if it told none so."""
    found = FAULT.fullmatch(ended.stderr)
    return int(found[1]) if found else None


def check(trial, file, *options):
    """What the program says of a file. Raises Wrong if it prints a token, or changes a row."""
    before = rows_in(file)
    ended = run(trial, "check", *options, "--db", file)
    expect(rows_in(file) == before, "a row has changed")
    expect("hvs." not in ended.stdout + ended.stderr, f"a token is printed: {ended.stdout}")
    return ended


def told_of_all(trial, file):
    """What `check --all` tells of the rows of a file that is refused, a line each. Raises Wrong if it does not count
    them in its last line, or tells of a row twice."""
    ended = check(trial, file, "--all")
    *lines, last = ended.stdout.removesuffix("\n").split("\n")
    rows = "row" if len(lines) == 1 else "rows"
    expect((ended.returncode, ended.stderr) == (1, ""), f"all: status {ended.returncode}: {ended.stderr}")
    expect(last == f"{file}: {len(lines)} {rows} in trouble", f"all: {len(lines)} lines, and then {last}")
    expect(all(line.startswith(f"{file}: ") for line in lines), f"all: {lines}")
    expect(len({line.partition(" (")[0].partition(": it")[0] for line in lines}) == len(lines), f"all: {lines}")
    return lines


def counts_of(rows):
    """The counts of rows in words."""
    many = Counter(kind for kind, _ in rows)
    words = {kind: f"{many[kind]} {one if many[kind] == 1 else several}" for kind, one, several in COUNTED}
    words[SECRET] += " with " + words.pop(VERSION)
    return ", ".join(words.values())


def accept(trial, rows, draw, served):
    """The database of these rows has to be accepted, and served with those that an opening makes of them. Raises
    Wrong."""
    file = trial.place() / "broker.db"
    write(file, rows, draw)
    ended = check(trial, file)
    wanted = f"{file}: ok, {counts_of(rows)}\n"
    for ended in (ended, check(trial, file, "--all")):
        expect((ended.returncode, ended.stdout, ended.stderr) == (0, wanted, ""),
               f"{ended.stdout or ended.stderr} in place of {wanted}")
    expect(serve(trial, file) is None, "a root token is printed")
    expect(rows_in(file) == served, "it serves other rows")


def serve(trial, file):
    """The root token that is printed, or None, by a program that checks a file and has to serve it. Raises Wrong."""
    with Running(trial.program, file, {}) as running:
        connection = running.connect()
        if connection is not None:
            connection.close()
        end = running.close()
    expect(end.is_kill(), f"checked, and not served: {end}")
    return end.root_token()


def refuse_to_serve(trial, file, said):
    """A program that checks a file has to end before it listens, with these words, and to change no row. Raises
    Wrong."""
    before = rows_in(file)
    with Running(trial.program, file, {}) as running:
        connection = running.connect()
        expect(connection is None, "it listens")
        end = running.close()
    found = end.said if end.fault() is None else f"fault {end.fault()}\n"
    wanted = said + WHAT_TO_DO.format(file) if end.fault() is None else said
    expect((end.status, end.printed, found) == (1, "", wanted), f"{end} in place of {wanted}")
    expect(rows_in(file) == before, "a row has changed")


# ---------------------------------------------------------------------------------------- rules

def broker_with_all():
    """A broker with rows of every kind, and what the names in the requests stand for."""
    draw = random.Random(1)
    server = Server(MOMENT, [draw.getrandbits(128) for _ in range(8)])
    known = {"root": server.root_token}
    for request in REQUESTS[:WITH_ALL_KINDS]:
        reply = server.feed(0, request.text(known), MOMENT, [draw.getrandbits(128) for _ in range(8)])
        for name, members in request.gives.items():
            value = json.loads(reply.partition(b"\r\n\r\n")[2])
            for member in members:
                value = value[member]
            known[name] = value
    return server.broker, known


class Planted:
    """A broker in whose rows a rule is broken: how, and what has to be told of it."""

    def __init__(self):
        self.broker, self.known = broker_with_all()
        self.rows = rows_of(self.broker)

    def of(self, kind):
        """The keys of the rows of a kind, in their order."""
        return sorted((key for each, key in self.rows if each == kind), key=str.encode)

    def changed(self, place, owner=None, due=False, body=None):
        """The rows, with another row at a place."""
        old = self.rows[place]
        row = (old[0] if owner is None else owner, old[1] if due is False else due, old[2] if body is None else body)
        return {**self.rows, place: row}

    def without(self, place):
        """The rows but for one."""
        return {each: row for each, row in self.rows.items() if each != place}

    def moved(self, place, key):
        """The rows, with one of them at another key."""
        return {**self.without(place), (place[0], key): self.rows[place]}

    def with_token(self, token, **fields):
        """The rows of the broker in which a token has other fields."""
        tokens = {**self.broker.tokens, token: replace(self.broker.tokens[token], **fields)}
        return rows_of(replace(self.broker, tokens=tokens))

    def with_waiting(self, **fields):
        """The same of the response that waits."""
        (token, entry), = self.broker.waiting.items()
        return rows_of(replace(self.broker, waiting={token: replace(entry, **fields)}))

    def unreadable(self, place, **changes):
        """The row at a place is in no format of its kind, which is met at a row before that names it, if one does."""
        kind, key = place
        owner, rows = self.rows[place][0], self.changed(place, **changes)
        if kind == ACCESSOR:
            return NAMED, (TOKEN, owner), rows
        if kind == CREDENTIAL:
            return HELD, (LEASE, owner), rows
        if kind == RESPONSE:
            return OWNER, (ACCESSOR, self.broker.waiting[key].accessor), rows
        return FORMAT, place, rows

    def formats(self):
        """Each row once, one byte longer, and with another first byte."""
        for kind in WORDS:
            place = (kind, self.of(kind)[0])
            body = self.rows[place][2]
            yield self.unreadable(place, body=body + b"\0")
            yield self.unreadable(place, body=b"\7" + body[1:])

    def owners_and_dues(self):
        """Each row that has none once with an owner, or with a moment when it is due; and wrong ones of others."""
        for kind in WORDS:
            place = (kind, self.of(kind)[0])
            owner, due, _ = self.rows[place]
            if owner == "" and kind != TOKEN:
                yield self.unreadable(place, owner="x")
            if due is None and kind != TOKEN:
                yield self.unreadable(place, due=MOMENT + 99)
        for kind in (LEASE, RESPONSE):
            place = (kind, self.of(kind)[0])
            yield self.unreadable(place, due=None)
        place = (RESPONSE, self.of(RESPONSE)[0])
        yield self.unreadable(place, due=self.rows[place][1] + 1)

    def keys(self):
        """Keys that are none of their kinds."""
        for kind, key in ((CLOCK, "x"), (USED, "x"), (SECRET, "secret"), (MOUNT, "a b"), (POLICY, "root"), (ROLE, "r")):
            place = (kind, self.of(kind)[0])
            rows = self.moved(place, key)
            if kind == CLOCK:
                rows = {**self.rows, (CLOCK, key): self.rows[place]}
            if kind == USED:
                rows = {**self.rows, (USED, key): self.rows[place]}
            yield KEY, (kind, key), rows
        version = self.of(VERSION)[0]
        yield KEY, (VERSION, version[:-1]), self.moved((VERSION, version), version[:-1])

    def texts_and_numbers(self):
        """Names, texts and numbers out of range."""
        child = self.known["child"]
        yield TEXT, (TOKEN, child), self.with_token(child, policies=("a b",))
        yield SPENT, (TOKEN, child), self.with_token(child, uses=0)
        policy = (POLICY, self.of(POLICY)[0])
        yield TEXT, policy, self.changed(policy, body=b"\1" + text('{"path":1}'))
        version = (VERSION, self.of(VERSION)[0])
        created = self.rows[version][2][1:9]
        yield TEXT, version, self.changed(version, body=b"\1" + created + b"\0\0" + text('{"number": 1}'))
        yield NUMBER, (VERSION, version[1][:-1] + "7"), self.moved(version, version[1][:-1] + "7")
        yield NUMBER, (VERSION, version[1][:-1] + "0"), self.moved(version, version[1][:-1] + "0")
        response = (RESPONSE, self.of(RESPONSE)[0])
        yield NUMBER, response, self.with_waiting(ttl=0)
        yield TEXT, response, self.with_waiting(path="/")
        lease = (LEASE, self.of(LEASE)[0])
        body = self.rows[lease][2]
        ttl = int.from_bytes(body[9:17], "big")
        yield NUMBER, lease, self.changed(lease, body=body[:17] + number(ttl - 1) + body[25:])

    def owners(self):
        """Rows without what they belong to."""
        child, parent = self.known["child"], self.known["parent"]
        yield PARENT, (TOKEN, child), self.changed((TOKEN, child), owner=NOBODY)
        rows = self.changed((TOKEN, parent), owner=child)
        yield CHAIN, (TOKEN, min(child, parent)), rows
        root = self.known["root"]
        yield CHAIN, (TOKEN, root), self.changed((TOKEN, root), owner=root)
        held = self.of(OBJECT)[0]
        moved = f"{NOBODY}/{held.partition('/')[2]}"
        yield KEY, (OBJECT, held), self.changed((OBJECT, held), owner=NOBODY)
        yield OWNER, (OBJECT, moved), {
            **self.without((OBJECT, held)), (OBJECT, moved): (NOBODY, None, self.rows[OBJECT, held][2])}
        lease = (LEASE, self.of(LEASE)[0])
        yield OWNER, lease, self.changed(lease, owner=NOBODY)
        credential = (CREDENTIAL, self.of(CREDENTIAL)[0])
        yield HELD, lease, self.without(credential)
        yield HELD, lease, self.changed(credential, owner="db/creds/r/x")
        yield OWNER, credential, self.without(lease)
        version = (VERSION, self.of(VERSION)[0])
        yield OWNER, version, self.without((SECRET, version[1].partition("\n")[0]))
        for token, kind in ((child, TOKEN), (self.known["waiting"], RESPONSE)):
            accessor = next((ACCESSOR, key) for key in self.of(ACCESSOR) if self.rows[ACCESSOR, key][0] == token)
            yield NAMED, (kind, token), self.without(accessor)
            met = (NAMED, (kind, token)) if kind == TOKEN else (OWNER, accessor)
            yield *met, self.changed(accessor, owner=NOBODY)
            yield OWNER, accessor, self.without((kind, token))

    def identifiers(self):
        """Identifiers that were not issued, or are in two places."""
        child = self.known["child"]
        own = child.removeprefix("hvs.")
        yield MARK, (TOKEN, child), self.without((USED, own))
        accessor = self.broker.tokens[child].accessor
        yield MARK, (ACCESSOR, accessor), self.without((USED, accessor))
        lease = self.of(LEASE)[0]
        yield MARK, (LEASE, lease), self.without((USED, lease.rpartition("/")[2]))
        yield PLACE, (ACCESSOR, own), self.with_token(child, accessor=own)
        (waiting, entry), = self.broker.waiting.items()
        yield ORIGIN, (RESPONSE, waiting), self.with_waiting(origin=NOBODY.removeprefix("hvs."))
        spare = [NOBODY.removeprefix("hvs.")[:-1] + digit for digit in "12"]
        other = "hvs." + spare[0]
        yield ORIGIN, (RESPONSE, max(waiting, other)), rows_of(replace(
            self.broker, used=self.broker.used | {*spare},
            waiting={waiting: entry, other: replace(entry, accessor=spare[1])}))

    def all(self):
        """All of them."""
        for each in (self.formats, self.owners_and_dues, self.keys, self.texts_and_numbers, self.owners,
                     self.identifiers):
            yield from each()
        yield "", (CLOCK, ""), self.without((CLOCK, ""))


def told_of(rule, place, rows):
    """What has to be told of a row and the rule that it breaks: how it begins and ends."""
    kind, key = place
    if not rule:
        return "there is no row of kind clock", ""
    before = [each for kind_of, each in rows if kind_of == kind and each.encode() <= key.encode()]
    return f"row {len(before)} of kind {WORDS[kind]}", f": {rule}"


def refuse(trial, rule, place, rows):
    """The database of these rows has to be refused, for this row and rule. Raises Wrong."""
    file = trial.place() / "broker.db"
    write(file, rows, random.Random(1))
    ended = check(trial, file)
    begin, end = told_of(rule, place, rows)
    line = ended.stdout.removeprefix(f"{file}: ").removesuffix("\n")
    expect((ended.returncode, ended.stderr) == (1, ""), f"status {ended.returncode}: {ended.stdout}{ended.stderr}")
    expect(line.startswith(begin) and line.endswith(end), f"{line} in place of {begin} .. {end}")
    expect(place[0] not in (TOKEN, RESPONSE) or rule == FORMAT or " (accessor " in line, f"no accessor: {line}")
    first = told_of_all(trial, file)[0]
    expect(first == ended.stdout.removesuffix("\n"), f"all: {first} in place of {ended.stdout}")
    refuse_to_serve(trial, file, ended.stdout if rule else f"fault {FAULT_WITHOUT_CLOCK}\n")


# ---------------------------------------------------------------------------------------- what is tried

def at_the_end(file, events):
    """The broker at the end of a row of tests/rows."""
    server = Server(*events[0][2:], TODAY)
    for event in events[1:]:
        server.feed(*event)
    return server.broker


def try_accepted(trial, file, events):
    """The broker at the end of a row has to be accepted, also with secrets in the older format. Raises Wrong."""
    rows, draw = rows_of(at_the_end(file, events)), random.Random(file.stem)
    accept(trial, rows, draw, rows)
    older = {place: in_a_format(place, row, draw) for place, row in rows.items()}
    if older != rows:
        accept(trial, older, draw, rows)
    return ["accepted", *["rows in the older format"] * sum(older[place] != rows[place] for place in rows)]


def try_refused(trial, rule, place, rows):
    """One rule is broken. Raises Wrong."""
    refuse(trial, rule, place, rows)
    return ["told"]


def try_several(trial):
    """Rows of several kinds that are in no format: each has to be told. Raises Wrong."""
    planted = Planted()
    places = [(kind, key) for kind in (VERSION, MOUNT, POLICY, ROLE) for key in planted.of(kind)]
    rows = {place: (*row[:2], row[2] + b"\0") if place in places else row for place, row in planted.rows.items()}
    file = trial.place() / "broker.db"
    write(file, rows, random.Random(1))
    lines = told_of_all(trial, file)
    for place in places:
        begin, end = told_of(FORMAT, place, rows)
        expect(any(line.startswith(f"{file}: {begin}") and line.endswith(end) for line in lines),
               f"no {begin}: {lines}")
    expect(len(lines) == len(places), f"{len(lines)} rows are told, and {len(places)} were changed: {lines}")
    return ["several"]


def try_files(trial):
    """Files that are none of a broker, and one that is in use; a broker is started in a new file. Raises Wrong."""
    place = trial.place()
    absent, empty, other = place / "absent.db", place / "empty.db", place / "other.db"
    empty.touch()
    other.write_bytes(b"x" * 5000)
    for file in (absent, empty, other):
        before = file.exists() and file.read_bytes()
        ended = run(trial, "check", "--db", file)
        expect((ended.returncode, ended.stdout, fault_in(ended)) == (1, "", FAULT_OF_STORAGE),
               f"of {file.name}: {ended}")
        expect((file.exists() and file.read_bytes()) == before, f"{file.name} has changed")
    for file in (absent, empty):
        expect(serve(trial, file) is not None, f"of {file.name}: no root token is printed")
        expect(serve(trial, file) is None, f"of {file.name}: a root token is printed twice")
    ended = run(trial, "serve", "--listen", "127.0.0.1:0", "--connections", "1", "--check", "--db", other)
    expect((ended.returncode, ended.stdout, fault_in(ended)) == (1, "", FAULT_OF_STORAGE), f"{ended}")
    for option in ("--check", "--unchecked"):
        ended = run(trial, "serve", "--listen", "127.0.0.1:0", option)
        expect((ended.returncode, ended.stdout, ended.stderr) == (2, "", WITHOUT_FILE.format(option)), f"{ended}")
    ended = run(trial, "serve", "--listen", "127.0.0.1:0", "--check", "--unchecked", "--db", absent)
    expect((ended.returncode, ended.stdout, ended.stderr) == (2, "", BOTH), f"{ended}")
    with Running(trial.program, place / "used.db", {}) as running:
        running.told_root()
        ended = run(trial, "check", "--db", place / "used.db")
        running.close()
    expect((ended.returncode, fault_in(ended)) == (1, FAULT_OF_STORAGE), f"of a file in use: {ended}")
    return ["files"]


def try_checked(trial, jobs):
    """All of it."""
    tally, rules = Tally("checked"), set()
    tasks = [(try_accepted, row) for row in rows_of_tests()]
    tasks += [(try_refused, planted) for planted in Planted().all()]
    tasks += [(try_several, ()), (try_files, ())]
    for (task, arguments), found, wrong in side_by_side(lambda it: it[0](trial, *it[1]), tasks, jobs):
        if wrong is None:
            tally.passes(*found)
            rules |= {arguments[0]} if task is try_refused else set()
        else:
            tally.fails(f"{getattr(arguments[0], 'stem', arguments[:2]) if arguments else 'files'}: {wrong}")
    tally.counts["rules"] = len(rules)
    for name, least in LEAST.items():
        tally.has(name, least)
    return tally
