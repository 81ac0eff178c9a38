"""Files that were changed: bits, bytes, sectors and pages, in the database or in its log.

Whatever is in the files, the program serves, or ends with `fault 2`, `fault 3` or `fault 4`: within ten seconds of
processor time, in 500 MB, and by no signal. What it serves from a database without a log is what the standard library's
SQLite reads there, or if that reads nothing, what was there before the change; a file that is cut to nothing is a new
broker. What it serves from a log is the broker after some number of the requests, or a new one. Neither has sums that
tell a change in every place, so answered requests may be lost, and changed ones served: this is counted.

`brokerd check` of such files says `ok` or which row is wrong, or ends with `fault 2`, within the same time and memory.
What it accepts is then served until the last reply, and in a database without a log SQLite reads the rows of a broker.
"""

import contextlib
import random
import re
import sqlite3
from dataclasses import dataclass

from asking import LOOK, REQUESTS, WITH_ALL_KINDS, Reply, Request, Server, Story, looked, rows_of
from program import SECONDS, Running, Wrong, expect, run_to_end
from rows import bytes_of, close_log, put, read_rows, rows_in
from stored_broker import broker_of
from trial import MOMENT, Tally, side_by_side

CLOCK = (1, "")
PAGE, SECTOR = 4096, 512
MOST_MEMORY = 500_000  # kB
VALUES = re.compile(b"|".join(map(re.escape, (
    b'{"number":', b'{"k":[1,{', b'"path":{"secret', b'"capabilities":["', b'{"auth":null,', b"default",
    b"\0\0\0\6issued"))))
FIRST = 4  # requests before the older copy, and every other one of those that fill the database
FILLING = tuple(Request("POST", f"secret/data/{number % 7}/k{number}", '{"data":{"number":%d,"text":"%s"}}' % (
    number, "z" * (9000 if number in (20, 21) else number % 5 * 60))) for number in range(40))
CHANGES_IN_THE_GATE = 600
LEAST = {"databases": 250, "logs": 150, "refused": 100, "damaged": 5, "other rows served": 30,
         "the same rows served": 60, "logs with all requests": 40, "requests lost with the log": 70,
         "brokers lost with the log": 3, "unchanged files told": 15, "logs of another broker told": 1, "accepted": 80,
         "served, but not accepted": 8}

# What is asked of what is found. The last takes the response that waits.
QUESTIONS = (
    LOOK,
    Request("GET", "secret/data/app"),
    Request("GET", "secret/metadata/app"),
    Request("LIST", "secret/metadata"),
    Request("GET", "secret/data/6/k20"),
    Request("GET", "secret/data/0/k21"),
    Request("GET", "secret/config"),
    Request("LIST", "auth/token/accessors"),
    Request("POST", "auth/token/lookup", '{"token":"{child}"}'),
    Request("GET", "auth/token/lookup-self", None, "parent"),
    Request("GET", "cubbyhole/a", None, "child"),
    Request("POST", "sys/leases/lookup", '{"lease_id":"{lease}"}'),
    Request("GET", "db/roles/r"),
    Request("GET", "sys/mounts"),
    Request("GET", "sys/policies/acl/app"),
    Request("POST", "sys/wrapping/lookup", '{"token":"{waiting}"}'),
    Request("POST", "sys/wrapping/unwrap", None, "waiting"),
)


@dataclass
class Base:
    """A broker in its files, which are changed."""
    story: Story
    young: dict  # the files after the first requests: all is in the log
    count: int  # of the brokers that the story had until then
    older: bytes  # the database with all that was in that log
    logged: dict  # the files after all requests: the later ones are in the log
    closed: bytes  # the database with all that was in that log too
    other_log: bytes  # the log of another broker
    statements: list  # that make the table and its indexes

    def __post_init__(self):
        self.questions = [question.text(self.story.known) for question in QUESTIONS]
        self.rows = rows_of(self.story.brokers[-1])
        self.looked = [looked(broker, MOMENT + 1, self.questions[0]) for broker in self.story.brokers]


def make_base(trial):
    """A broker with rows of all kinds, whose files are copied. Raises Wrong."""
    place = trial.place()
    file = place / "broker.db"
    story = make_part(trial, file, None, (*REQUESTS[:FIRST], *FILLING[::2]))
    young, count = bytes_of(file), len(story.brokers)
    close_log(file)
    older = file.read_bytes()
    make_part(trial, file, story, (*REQUESTS[FIRST:WITH_ALL_KINDS], *FILLING[1::2]))
    logged = bytes_of(file)
    statements = statements_in(file)
    make_part(trial, place / "other.db", None, REQUESTS[:1])
    return Base(story, young, count, older, logged, closed(file, logged), bytes_of(place / "other.db")["-wal"],
                statements)


def make_part(trial, file, story, requests):
    """A run over a file, which begins a story or goes on with it: the story. Raises Wrong."""
    with Running(trial.program, file, trial.at(MOMENT)) as running:
        story = story or Story(running.told_root())
        expect(story.run(running, requests), "with no fault the program ends")
    return story


def statements_in(file):
    """The statements that have made a database."""
    with contextlib.closing(sqlite3.connect(file)) as database:
        return [sql for sql, in database.execute("SELECT sql FROM sqlite_master WHERE sql IS NOT NULL ORDER BY rowid")]


def closed(file, files):
    """The database of these files with all that is in its log."""
    put(file, files)
    close_log(file)
    return file.read_bytes()


# ---------------------------------------------------------------------------------------- changes

def change(data, older, draw):
    """The name of a drawn change, and the bytes after it."""
    found = bytearray(data)
    name = draw.choice(list(CHANGES))
    CHANGES[name](found, older, draw)
    return name, bytes(found)


def place_in(data, draw, size=1):
    """Where a piece of so many bytes may begin."""
    return draw.randrange(max(1, len(data) // size)) * size


def flip_bits(data, draw, count):
    """So many bits anywhere."""
    for _ in range(count):
        data[place_in(data, draw)] ^= 1 << draw.randrange(8)


def flip_early(data, draw):
    """Among the first bytes of a page are numbers and offsets."""
    at = place_in(data, draw, PAGE) + draw.randrange(48)
    data[at % len(data)] ^= 1 << draw.randrange(8)


def flip_used(data, draw):
    """A byte that is not zero is part of something."""
    at = draw.choice([at for at in range(len(data)) if data[at]])
    data[at] ^= 1 << draw.randrange(8)


def flip_value(data, draw):
    """In the text of a value, or of another body."""
    at = draw.choice([match.start() for match in VALUES.finditer(data)])
    data[at + draw.randrange(10)] ^= 1 << draw.randrange(8)


def draw_bytes(data, draw, count):
    """So many bytes that are drawn."""
    at = place_in(data, draw)
    piece = draw.randbytes(count)[:len(data) - at]
    data[at:at + len(piece)] = piece


def fill(data, draw, size, value):
    """A piece with one value in each byte."""
    at = place_in(data, draw, size)
    length = len(data[at:at + size])
    data[at:at + length] = bytes([value]) * length


def double(data, draw, size):
    """A piece has what another one has."""
    one, two = place_in(data, draw, size), place_in(data, draw, size)
    piece = data[one:one + size]
    data[two:two + len(piece)] = piece


def swap(data, draw, size):
    """Two pieces have what the other one had."""
    one, two = place_in(data, draw, size), place_in(data, draw, size)
    first, second = data[one:one + size], data[two:two + size]
    data[one:one + len(second)], data[two:two + len(first)] = second, first


def cut(data, draw):
    """The end is missing, or all."""
    del data[draw.choice((0, draw.randrange(len(data)), place_in(data, draw, SECTOR), place_in(data, draw, PAGE))):]


def lengthen(data, draw):
    """There is more at the end."""
    data.extend(draw.choice((bytes, draw.randbytes))(draw.choice((1, SECTOR, PAGE))))


def from_older(data, older, draw, size):
    """A piece has what it has in another copy."""
    at = place_in(older, draw, size)
    piece = older[at:at + size]
    data[at:at + len(piece)] = piece


CHANGES = {
    "a bit": lambda data, _, draw: flip_bits(data, draw, 1),
    "a bit of what is not zero": lambda data, _, draw: flip_used(data, draw),
    "another bit of what is not zero": lambda data, _, draw: flip_used(data, draw),
    "a bit of a value": lambda data, _, draw: flip_value(data, draw),
    "eight bits": lambda data, _, draw: flip_bits(data, draw, 8),
    "a bit at the head of a page": lambda data, _, draw: flip_early(data, draw),
    "a byte": lambda data, _, draw: draw_bytes(data, draw, 1),
    "eight bytes": lambda data, _, draw: draw_bytes(data, draw, 8),
    "a sector of zeros": lambda data, _, draw: fill(data, draw, SECTOR, 0),
    "a sector of ones": lambda data, _, draw: fill(data, draw, SECTOR, 255),
    "a sector twice": lambda data, _, draw: double(data, draw, SECTOR),
    "two sectors swapped": lambda data, _, draw: swap(data, draw, SECTOR),
    "a page of zeros": lambda data, _, draw: fill(data, draw, PAGE, 0),
    "a page twice": lambda data, _, draw: double(data, draw, PAGE),
    "two pages swapped": lambda data, _, draw: swap(data, draw, PAGE),
    "cut": lambda data, _, draw: cut(data, draw),
    "longer": lambda data, _, draw: lengthen(data, draw),
    "a sector of an older copy": lambda data, older, draw: from_older(data, older, draw, SECTOR),
    "a page of an older copy": lambda data, older, draw: from_older(data, older, draw, PAGE),
}


# ---------------------------------------------------------------------------------------- what is served

def ask_all(trial, file, questions):
    """The replies of the program over a file, until it ends, and its end. Raises Wrong."""
    replies = []
    with Running(trial.program, file, trial.at(MOMENT + 1), options=("--unchecked",)) as running:
        for text in questions:
            data = running.ask(text)
            if not data:
                running.ends()
                break
            replies.append(data)
        end = running.close()
    expect(end.memory <= MOST_MEMORY, f"it took {end.memory} kB")
    expect(end.seconds <= SECONDS, f"it took {end.seconds:.1f} s of processor time")
    expect(end.is_kill() if len(replies) == len(questions) else end.is_fault(2, 3, 4), f"{end}")
    return replies, end


def read_by_sqlite(file, files):
    """The rows that SQLite reads in a database, none where it finds no table; None if it finds it damaged."""
    put(file, files)
    try:
        with contextlib.closing(sqlite3.connect(file)) as database:
            if not database.execute("SELECT count(*) FROM sqlite_master").fetchone()[0]:
                return {}
            return read_rows(database)
    except (sqlite3.Error, UnicodeDecodeError):
        return None


def reference_of(rows):
    """The reference broker that has these rows, or None if they are those of no broker."""
    try:
        server = Server(0, range(8))
        server.broker = broker_of(rows)
    except Exception:
        return None
    return server if rows_of(server.broker) == rows else None


def reference_replies(rows, questions, replies):
    """What the reference broker with these rows answers, and its rows then; None if it has no such rows."""
    server, found = reference_of(rows), []
    if server is None:
        return None, None
    try:
        for text, data in zip(questions, replies):
            reply = Reply(data)
            found.append(server.feed(1, text, reply.moment, reply.words()))
        return found, server.rows()
    except Exception:
        return None, None


def copied_replies(trial, file, base, rows):
    """What the program answers over a new database that SQLite makes of these rows."""
    put(file, {})
    with contextlib.closing(sqlite3.connect(file)) as database:
        for statement in base.statements:
            database.execute(statement)
        database.executemany("INSERT INTO broker_rows VALUES (?, ?, ?, ?, ?)",
                             [(kind, key, *rest) for (kind, key), rest in rows.items()])
        database.commit()
    return ask_all(trial, file, base.questions)


def plain(replies):
    """Replies without the identifiers that differ from run to run."""
    return [re.sub(rb'"request_id":"[0-9a-f-]{36}"', b"", data) for data in replies]


def judge_database(trial, base, served, read):
    """What the program serves of some files, and whether it is what SQLite reads in some, which are the same but for a
    control: what came of it, and how the program ended. Raises Wrong."""
    place = trial.place()
    file, rows = place / "broker.db", read_by_sqlite(place / "read.db", read)
    put(file, served)
    replies, end = ask_all(trial, file, base.questions)
    if end.root_token() is not None:
        expect(rows == {} or (rows is None and len(served[""]) <= PAGE), "a new broker in place of rows")
        return "started anew", end
    if not end.is_kill():
        expect(end.is_fault(2) or rows is None or rows != base.rows, f"the rows are as before, but {end}")
        expect(not end.is_fault(4) or rows is None or CLOCK not in rows, "the clock is there, but fault 4")
    if not replies:
        return {2: "refused", 3: "damaged", 4: "without the clock"}[end.fault()], end
    expected, left = reference_replies(base.rows if rows is None else rows, base.questions, replies)
    if expected is not None:
        expect(replies == expected, f"SQLite reads other rows: {first_other(replies, expected)}")
        expect(rows is None or not end.is_kill() or rows_in(file) == left, "it leaves other rows")
    else:
        copied, copied_end = copied_replies(trial, place / "copy.db", base, rows)
        found, copied = plain(replies), plain(copied)
        expect(found == copied, f"over a copy of its rows: {first_other(found, copied)}")
        expect(end.fault() == copied_end.fault(), f"over a copy of its rows: {copied_end} in place of {end}")
    if not end.is_kill():
        return "damaged", end
    return "the same rows served" if rows in (None, base.rows) else "other rows served", end


def first_other(replies, expected):
    """The first reply that is another one, and what was expected, in words."""
    for one, two in zip(replies, expected):
        if one != two:
            at = next((at for at in range(min(len(one), len(two))) if one[at] != two[at]), 0)
            return f"{one[max(0, at - 80):at + 80]!r} in place of {two[max(0, at - 80):at + 80]!r}"
    return f"{len(replies)} replies in place of {len(expected)}"


def is_accepted(trial, files):
    """Whether `brokerd check` accepts the database of some files. Raises Wrong."""
    file = trial.place() / "broker.db"
    put(file, files)
    end = run_to_end(trial.program, "check", "--db", file)
    expect(end.memory <= MOST_MEMORY, f"checked, it took {end.memory} kB")
    expect(end.seconds <= SECONDS, f"checked, it took {end.seconds:.1f} s of processor time")
    if end.is_fault(2):
        return False
    expect(end.status in (0, 1) and end.said == "", f"checked: {end}")
    expect(end.printed.startswith(f"{file}: ") and end.printed.count("\n") == 1, f"checked: {end.printed}")
    expect(end.printed.startswith(f"{file}: ok, ") == (end.status == 0), f"checked: {end}, {end.printed}")
    return end.status == 0


def judge_check(trial, files, told):
    """What came of a check of the database of some files, of which this is told when they are served: what is accepted
    has to be served, and if SQLite reads it, it has to find the rows of a broker. Raises Wrong."""
    served = told in ("the same rows served", "other rows served")
    if not is_accepted(trial, files):
        return ["served, but not accepted"] * served
    expect(served, f"accepted, but {told}")
    rows = read_by_sqlite(trial.place() / "read.db", files)
    expect(rows is None or reference_of(rows) is not None, "accepted are the rows of no broker")
    return ["accepted"]


def judge_log(trial, base, files, first=0, last=None):
    """What the program serves of files whose log was changed: how many of the requests from the first to the last are
    lost, all if it has started a new broker, or None if it serves none. Raises Wrong."""
    accepted = is_accepted(trial, files)
    file, known = trial.place() / "broker.db", base.looked[first:last]
    put(file, files)
    replies, end = ask_all(trial, file, base.questions[:1])
    expect(accepted == (bool(replies) and end.root_token() is None), f"accepted: {accepted}, and then {end}")
    if not replies:
        return None
    if end.root_token() is not None:
        expect(first == 0, "a new broker in place of the one in the database")
        return len(known)
    rows = rows_in(file)
    expect(rows in known, "the rows are those after no number of the requests")
    return len(known) - 1 - max(place for place, each in enumerate(known) if each == rows)


# ------------------------------------------------------------------------------------------ the part

def try_change(trial, base, seed):
    """One drawn change: what came of it. Raises Wrong."""
    draw = random.Random(seed)
    part = draw.choice(("a database", "a database", "a database beside its log", "a log", "a young log"))
    data, older = {"a database": (base.closed, base.older), "a database beside its log": (base.older, base.closed),
                   "a log": (base.logged["-wal"], base.young["-wal"]),
                   "a young log": (base.young["-wal"], base.logged["-wal"])}[part]
    name, data = change(data, older, draw)
    try:
        if part == "a young log":
            lost = judge_log(trial, base, {**base.young, "-wal": data}, 0, base.count)
        elif part == "a log":
            lost = judge_log(trial, base, {**base.logged, "-wal": data}, base.count - 1)
        else:
            files = {"": data, "-wal": base.logged["-wal"] if part == "a database beside its log" else None}
            told, end = judge_database(trial, base, files, files)
            return ["databases", told, *tell_unchanged(trial, base, files, told), *judge_check(trial, files, told),
                    ("MB at most", end.memory // 1000)]
    except Wrong as error:
        raise Wrong(f"{name}, in {part}: {error}") from None
    if lost is None:
        return ["logs", "logs refused"]
    if lost == base.count and part == "a young log":
        return ["logs", "brokers lost with the log"]
    return ["logs", "requests lost with the log" if lost else "logs with all requests"]


def tell_unchanged(trial, base, files, told):
    """If the program is handed the unchanged database in place of one with other rows, that has to be told: but for one
    in which the clock alone is another one, since the first question sets it. Raises Wrong."""
    rows = read_by_sqlite(trial.place() / "read.db", files)
    if told != "other rows served" or reference_of(rows) is None or {**rows, CLOCK: None} == {**base.rows, CLOCK: None}:
        return []
    try:
        judge_database(trial, base, {"": base.closed}, files)
    except Wrong:
        return ["unchanged files told"]
    raise Wrong("the unchanged database is taken for the changed one")


def tell_other_log(trial, base, tally):
    """The log of another broker has to be told."""
    try:
        judge_log(trial, base, {"": base.young[""], "-wal": base.other_log})
    except Wrong:
        tally.passes("logs of another broker told")
        return
    tally.fails("the log of another broker is taken for its own")


def try_changes(trial, jobs, seed=1, count=CHANGES_IN_THE_GATE, is_gate=True):
    """So many drawn changes."""
    tally, draw = Tally("changed"), random.Random(seed)
    try:
        base = make_base(trial)
        for files in {"": base.closed}, base.logged:
            told, _ = judge_database(trial, base, files, files)
            expect(told == "the same rows served", f"an unchanged database: {told}")
        expect(judge_log(trial, base, base.logged, base.count - 1) == 0, "an unchanged log loses requests")
        expect(judge_log(trial, base, base.young, 0, base.count) == 0, "an unchanged log loses requests")
    except Wrong as error:
        tally.fails(f"{error}")
        return tally
    tell_other_log(trial, base, tally)
    seeds = [draw.getrandbits(64) for _ in range(count)]
    for each, found, wrong in side_by_side(lambda each: try_change(trial, base, each), seeds, jobs):
        if wrong is None:
            tally.passes(*found)
        else:
            tally.fails(f"seed {each}: {wrong}")
    for name, least in LEAST.items() if is_gate else ():
        tally.has(name, least)
    return tally
