"""What `brokerd import --salvage` makes of files that were broken by hand or at random.

Half of the files are databases that SQLite makes of the rows of the reference broker, after drawn changes of these: a
row is gone, is there twice, or has another key, owner, moment or body. The others are files of the program of which
bits, bytes, sectors and pages were changed (changed.py). Each is exported and salvaged. The new database has the rows
of a broker, by SQLite's own check and the reader of stored_broker.py; `brokerd check` accepts it, and a program that
serves it answers. Each row that it lacks is told of, without a token; it has no other row, but for identifiers that
were marked as issued and the clock; and of a file that a check accepts it has all rows.

Where the program refuses a whole file, `sqlite3` writes what it can still read into another one, by the line that
docs/STORAGE.md has; that is then exported and salvaged in the same way. Where a page of an index was filled with zeros
no row is lost, and where one of the table was, its rows alone. This is left out where `sqlite3` is not installed.
"""

import contextlib
import json
import random
import shutil
import sqlite3
import subprocess

from asking import CLOCK, LOOK, USED, Reply, is_whole
from broker.rows import rows_of
from changed import PAGE, change, make_base
from checked import SECONDS, SECRET, at_the_end, broker_with_all, check, run
from kept import rows_of_tests, write
from maintained import with_more_roots
from program import Running, Wrong, expect
from rows import put, read_rows, whole_rows_in
from transferred import WORDS, export, line_of, run_import
from trial import MOMENT, NOBODY, Tally, side_by_side

KINDS = {word: kind for kind, word in WORDS.items()}
DUMP = "umask 077; sqlite3 {} .dump | sed 's/^ROLLBACK;.*/COMMIT;/' | sqlite3 {}"
FILES_IN_THE_GATE = 40
MOST_DRAWS = 60  # of changes, until one leaves a file that can be exported
MOST_CHANGES = 6  # of rows
LEAST = {"salvaged": FILES_IN_THE_GATE, "rows left out": 20, "identifiers marked": 3, "rows changed by hand": 15,
         "files changed at random": 15}
LEAST_BY_SQLITE = {"pages of zeros": 5}


# ---------------------------------------------------------------------------------------- changes of rows

def other_letter(key, draw):
    """A key with another letter at a drawn place."""
    at = draw.randrange(len(key) + 1)
    return key[:at] + draw.choice("0a/Z") + key[at + 1:]


def other_bytes(body, draw):
    """A body that is another one."""
    at = draw.randrange(len(body))
    flipped = body[:at] + bytes([body[at] ^ 1 << draw.randrange(8)]) + body[at + 1:]
    return draw.choice((flipped, flipped, body[:at], body + b"\0", b"", draw.randbytes(9), bytes([7]) + body[1:]))


def drop(rows, place, _):
    """The row is gone."""
    del rows[place]


def drop_kind(rows, place, _):
    """All rows of its kind are gone."""
    for each in [each for each in rows if each[0] == place[0]]:
        del rows[each]


def move(rows, place, draw):
    """The row has another key."""
    row = rows.pop(place)
    rows[place[0], other_letter(place[1], draw)] = row


def double(rows, place, draw):
    """The row is there at another key too."""
    rows[place[0], other_letter(place[1], draw)] = rows[place]


def give_owner(rows, place, draw):
    """The row belongs to something else."""
    _, due, body = rows[place]
    rows[place] = (draw.choice(["", NOBODY, place[1], *(owner for owner, _, _ in rows.values())]), due, body)


def give_due(rows, place, draw):
    """The row is due at another moment, or never."""
    owner, _, body = rows[place]
    rows[place] = (owner, draw.choice((None, 0, MOMENT, MOMENT + 99)), body)


def give_body(rows, place, draw):
    """The row has another body."""
    owner, due, body = rows[place]
    rows[place] = (owner, due, other_bytes(body, draw) if body else b"\1")


def swap_bodies(rows, place, draw):
    """The row and another one of its kind have the body that the other had."""
    other = draw.choice([each for each in rows if each[0] == place[0]])
    (owner, due, body), (of_other, due_of_other, body_of_other) = rows[place], rows[other]
    rows[place], rows[other] = (owner, due, body_of_other), (of_other, due_of_other, body)


CHANGES = (drop, drop, drop_kind, move, double, give_owner, give_owner, give_due, give_body, give_body, swap_bodies)


def change_rows(rows, draw):
    """Rows with some drawn changes."""
    found = dict(rows)
    for _ in range(draw.randint(1, MOST_CHANGES)):
        if found:
            draw.choice(CHANGES)(found, draw.choice(sorted(found)), draw)
    return found


# ---------------------------------------------------------------------------------------- salvage

def place_of(line):
    """The kind and the key of the row of a line."""
    row = json.loads(line)
    return KINDS[row["kind"]], row["key"]


def upgraded(line):
    """The line of the row that an opening makes of the row of a line."""
    row = json.loads(line)
    if (KINDS[row["kind"]], row.get("format")) != (SECRET, 1):
        return line
    settings = {"cas_required": False, "max_versions": 0, "custom_metadata": {}}
    whole = {**row, "format": 2, "fields": {**row["fields"], **settings}}
    return json.dumps(whole, ensure_ascii=False, separators=(",", ":"), sort_keys=True).encode()


def judge_told(told, before, after):
    """What is told has to be what the rows lack, and what they have besides: how many of each. Raises Wrong."""
    gone = {place for place, line in before.items() if after.get(place) != line}
    come = {place for place, line in after.items() if before.get(place) != line}
    marked = told.count("marked as given out: ")
    expect(told.count("left out: ") == len(gone), f"{len(gone)} rows are lacking, and told is {told}")
    expect(all(kind in (CLOCK, USED) for kind, _ in come), f"a row is another one: {sorted(come)}")
    expect(told.count("the clock was set to ") == ((CLOCK, "") in come), f"the clock: {told}")
    expect(len({*come} - {(CLOCK, "")}) <= marked and bool(marked) == any(kind == USED for kind, _ in come),
           f"{marked} are marked, and {sorted(come)} have come")
    return ["rows left out"] * len(gone) + ["identifiers marked"] * marked


def serve(trial, file):
    """A program serves a file, and answers. Raises Wrong."""
    with Running(trial.program, file, trial.at(MOMENT + 1)) as running:
        data = running.ask(LOOK.text({"root": NOBODY}))
        end = running.close()
    expect(end.is_kill() and is_whole(data) and Reply(data).status == 403, f"it is not served: {end}")


def salvage(trial, file, text):
    """What is exported of a file is salvaged: what came of it. Raises Wrong."""
    new = file.with_name("new.db")
    checked = run(trial, "check", "--db", file)
    ended = run_import(trial, new, text, "--salvage")
    told = ended.stderr.decode()
    expect(ended.returncode == 0 and "hvs." not in told + ended.stdout.decode(), f"it is not salvaged: {told}")
    rows = whole_rows_in(new)
    before = {place_of(line): upgraded(line) for line in text.splitlines()[1:-1]}
    found = judge_told(told, before, {place: line_of(place, row) for place, row in rows.items()})
    expect(not checked.stdout or (told == "") == (checked.returncode == 0),
           f"a check says {checked.stdout}, and told is {told}")
    after = check(trial, new)
    expect((after.returncode, after.stdout) == (0, ended.stdout.decode()), f"it is not accepted: {after}")
    serve(trial, new)
    return ["salvaged", *found]


# ---------------------------------------------------------------------------------------- what is tried

def dump(file):
    """A database of what `sqlite3` reads of a file that the program refuses."""
    made = file.with_name("dumped.db")
    subprocess.run(["sh", "-c", DUMP.format(file, made)], capture_output=True, timeout=SECONDS)
    return made


def try_rows(trial, rows, draw):
    """The database of rows that were changed. Raises Wrong."""
    file = trial.place() / "broker.db"
    write(file, change_rows(rows, draw), draw)
    ended = export(trial, file)
    expect(ended.returncode == 0, f"it is not exported: {ended.stderr.decode()}")
    return ["rows changed by hand", *salvage(trial, file, ended.stdout)]


def try_bytes(trial, base, draw):
    """A changed file that can be exported, the first that is drawn; those before it by way of `sqlite3`. Raises
    Wrong."""
    told = []
    for _ in range(MOST_DRAWS):
        file = trial.place() / "broker.db"
        name, data = change(base.closed, base.older, draw)
        put(file, {"": data})
        try:
            ended = export(trial, file)
            if ended.returncode == 0:
                return [*told, "files changed at random", *salvage(trial, file, ended.stdout)]
            told.append("files refused")
            told += try_dump(trial, file)
        except Wrong as error:
            raise Wrong(f"{name}: {error}") from None
    raise Wrong("no file can be exported")


def try_dump(trial, file):
    """A file that the program refuses, by way of `sqlite3`: what came of it. Raises Wrong."""
    if not shutil.which("sqlite3"):
        return []
    made = dump(file)
    ended = export(trial, made)
    if ended.returncode:
        return ["refused after sqlite3 too"]
    return ["files read by sqlite3", *salvage(trial, made, ended.stdout)]


def pages_of(file):
    """Pages of the database: the root of each tree and its last leaf, and whether the tree is that of the table."""
    data = file.read_bytes()
    with contextlib.closing(sqlite3.connect(file)) as database:
        roots = database.execute("SELECT type, rootpage FROM sqlite_master").fetchall()
    for kind, page in roots:
        start = (page - 1) * PAGE
        yield kind == "table", False, page
        if data[start] in (2, 5):  # not a leaf: the number of its last child is in its head
            yield kind == "table", True, int.from_bytes(data[start + 8:start + 12], "big")


def try_page(trial, base, place):
    """A page of zeros: the program refuses the file, and what `sqlite3` reads of it is salvaged. Raises Wrong."""
    file = trial.place() / "broker.db"
    put(file, {"": base.closed})
    is_table, is_leaf, page = list(pages_of(file))[place]
    put(file, {"": base.closed[:(page - 1) * PAGE] + bytes(PAGE) + base.closed[page * PAGE:]})
    ended = export(trial, file)
    expect(ended.returncode == 1, f"it is exported with page {page} of zeros")
    made = dump(file)
    with contextlib.closing(sqlite3.connect(made)) as database:
        rows = read_rows(database)
    expect(all(base.rows.get(each) == row for each, row in rows.items()), "a row is another one")
    expect(is_table or len(rows) == len(base.rows), f"{len(rows)} of {len(base.rows)} rows are left")
    expect(not is_leaf or len(rows) > len(base.rows) // 2, f"{len(rows)} of {len(base.rows)} rows are left")
    ended = export(trial, made)
    expect(ended.returncode == 0, f"it is not exported: {ended.stderr.decode()}")
    return ["pages of zeros", *salvage(trial, made, ended.stdout)]


def try_salvaged(trial, jobs, seed=1, count=FILES_IN_THE_GATE, is_gate=True):
    """So many broken files, and pages of zeros."""
    tally, draw = Tally("salvaged"), random.Random(seed)
    try:
        base = make_base(trial)
    except Wrong as error:
        tally.fails(f"{error}")
        return tally
    events = list(rows_of_tests())
    seeds = [draw.getrandbits(64) for _ in range(count)]

    def attempt(it):
        place, seed = it
        if seed is None:
            return try_page(trial, base, place)
        draw = random.Random(seed)
        if place % 2:
            return try_bytes(trial, base, draw)
        if place % 4:
            return try_rows(trial, rows_of(at_the_end(*draw.choice(events))), draw)
        return try_rows(trial, rows_of(with_more_roots(broker_with_all()[0])), draw)

    tasks = list(enumerate(seeds))
    has_sqlite = shutil.which("sqlite3") is not None
    if has_sqlite:
        file = trial.place() / "broker.db"
        put(file, {"": base.closed})
        tasks += [(place, None) for place, _ in enumerate(pages_of(file))]
    else:
        print("salvaged: files that the program refuses are left out, since sqlite3 is not installed", flush=True)
    for task, found, wrong in side_by_side(attempt, tasks, jobs):
        if wrong is None:
            tally.passes(*found)
        else:
            tally.fails(f"{task}: {wrong}")
    for name, least in {**LEAST, **(LEAST_BY_SQLITE if has_sqlite else {})}.items() if is_gate else ():
        tally.has(name, least)
    return tally
