"""What `brokerd export` writes of a database, and which database `brokerd import` makes of it.

The databases are those that SQLite makes of the reference broker at the end of each row of tests/rows, some of their
secrets in the older format, and of one with rows of every kind. What is exported has to be the lines that this script
makes of the rows by docs/STORAGE.md, byte for byte. The database that is made of it has these rows, those of secrets in
the newest format, as Python's `sqlite3` reads them; `brokerd check` accepts it, and what is exported of it is the same
again. A file that is not whole, was changed, or has not the rows of a broker is refused, and leaves no database; so
does an import whose calls fail, that has no room, that is refused memory, or that is killed; and an export that is
refused memory writes no whole file. Salvaged, the rows of a broker in which a row is lacking become those of a sound
one, and what is left out is named, without a token.
"""

import hashlib
import json
import os
import random
import re
import subprocess

from asking import ACCESSOR, CLOCK, CREDENTIAL, LEASE, RESPONSE, TOKEN, USED, VERSION
from broker.rows import rows_of
from checked import MOUNT, OBJECT, POLICY, ROLE, SECONDS, SECRET, at_the_end, broker_with_all, check, counts_of
from hostile import HEAP, Report
from kept import in_a_format, rows_of_tests, write
from program import Running, expect
from rows import rows_in
from trial import MOMENT, Tally, side_by_side

WORDS = {CLOCK: "clock", USED: "identifier", TOKEN: "token", ACCESSOR: "accessor", OBJECT: "object", LEASE: "lease",
         CREDENTIAL: "credential", SECRET: "secret", VERSION: "version", RESPONSE: "response", MOUNT: "mount",
         POLICY: "policy", ROLE: "role"}
FIELDS = {
    (CLOCK, 1): [("moment", "number")],
    (USED, 1): [],
    (TOKEN, 1): [("accessor", "text"), ("policies", "texts"), ("issued", "number"), ("ttl", "number"),
                 ("explicit_max_ttl", "number"), ("period", "number"), ("uses_left", "optional"),
                 ("metadata", "pairs")],
    (ACCESSOR, 1): [("holder", "number")],
    (OBJECT, 1): [("object", "text")],
    (LEASE, 1): [("issued", "number"), ("ttl", "number"), ("max_ttl", "number"), ("renewed", "optional"),
                 ("credential", "text")],
    (CREDENTIAL, 1): [],
    (SECRET, 1): [("current", "number"), ("created", "number"), ("updated", "number")],
    (SECRET, 2): [("current", "number"), ("created", "number"), ("updated", "number"), ("cas_required", "flag"),
                  ("max_versions", "number"), ("custom_metadata", "pairs")],
    (VERSION, 1): [("created", "number"), ("deleted", "optional"), ("destroyed", "flag"), ("secret", "text")],
    (RESPONSE, 1): [("accessor", "text"), ("created", "number"), ("ttl", "number"), ("path", "text"),
                    ("origin", "text"), ("reply", "long")],
    (MOUNT, 1): [("type", "text"), ("cas_required", "flag"), ("max_versions", "number")],
    (POLICY, 1): [("policy", "text")],
    (ROLE, 1): [("ttl", "number"), ("max_ttl", "number")],
}
FAILED = ("pwrite", "fsync", "fdatasync", "ftruncate")
WAYS = ("EIO", "ENOSPC", "kill")
PROGRESS = re.compile(rb"^(ex|im)porting: [0-9]+ MB\n", re.MULTILINE)  # every two seconds, beside much other work
REFUSED = 30  # allocations of each kind of run that are refused, in the gate
LEFT_OUT = {TOKEN: 1, ACCESSOR: 1, LEASE: 1, CREDENTIAL: 1, SECRET: 1}
LEAST = {"the same again": 150, "rows in the older format": 5, "refused": 140, "failed": 20, "killed": 10,
         "salvaged": 5, "refused memory": 150}


# ---------------------------------------------------------------------------------------- lines

class Body:
    """The bytes of a body, taken field by field."""

    def __init__(self, body):
        self.body, self.at = body, 0

    def take(self, many):
        """The next bytes. Raises ValueError if there are fewer."""
        if self.at + many > len(self.body):
            raise ValueError("too short")
        self.at += many
        return self.body[self.at - many:self.at]

    def number(self):
        """A number in eight bytes."""
        return int.from_bytes(self.take(8), "big")

    def count(self):
        """A number in four."""
        return int.from_bytes(self.take(4), "big")

    def one_of(self, many):
        """A byte below so many."""
        byte = self.take(1)[0]
        if byte >= many:
            raise ValueError("no flag")
        return byte

    def field(self, form):
        """A field of a form."""
        if form == "number":
            return self.number()
        if form == "optional":
            return self.number() if self.one_of(2) else None
        if form == "flag":
            return bool(self.one_of(2))
        if form == "texts":
            return [self.field("text") for _ in range(self.count())]
        if form == "pairs":
            return {self.field("text"): self.field("text") for _ in range(self.count())}
        return self.take(self.number() if form == "long" else self.count()).decode()


def fields_of(kind, body):
    """The format of a body and its fields, or None."""
    read, known = Body(body[1:]), FIELDS.get((kind, body[0] if body else 0))
    if known is None:
        return None
    try:
        found = {name: read.field(form) for name, form in known}
    except ValueError:
        return None
    return (body[0], found) if read.at == len(read.body) else None


def compact(value):
    """The bytes of a value, its members in the order of their names."""
    return json.dumps(value, ensure_ascii=False, separators=(",", ":"), sort_keys=True).encode()


def line_of(place, row):
    """The line of a row."""
    (kind, key), (owner, due, body) = place, row
    whole = {"due": due, "key": key, "kind": WORDS[kind], "owner": owner}
    found = fields_of(kind, body)
    if found is None:
        whole["damaged"] = body.hex()
    else:
        whole["format"], whole["fields"] = found
    return compact(whole)


def file_of(lines, version):
    """The file of these lines."""
    before = b"".join(line + b"\n" for line in [compact({"format": 1, "rows": len(lines), "version": version}), *lines])
    return before + compact({"sha256": hashlib.sha256(before).hexdigest()}) + b"\n"


def lines_of(rows):
    """The lines of rows, in the order of kinds and keys."""
    return [line_of(place, rows[place]) for place in sorted(rows, key=lambda place: (place[0], place[1].encode()))]


# ---------------------------------------------------------------------------------------- runs

def version_of(trial):
    """The version of the program."""
    ended = subprocess.run([trial.program, "--version"], capture_output=True, timeout=SECONDS, text=True)
    return ended.stdout.split()[-1]


def run(variables, *words, given=b""):
    """A run of the program until it ends; what it says of its progress is left out."""
    ended = subprocess.run(words, input=given, capture_output=True, timeout=SECONDS, env=variables)
    ended.stderr = PROGRESS.sub(b"", ended.stderr)
    return ended


def export(trial, file):
    """The export of a file that ends."""
    return run(trial.at(MOMENT), trial.program, "export", "--db", file)


def exported(trial, file):
    """What is exported of a file. Raises Wrong."""
    before = rows_in(file)
    ended = export(trial, file)
    expect(ended.returncode == 0, f"{ended.stderr.decode()}")
    expect(ended.stderr.decode() == f"{file}: {len(before)} rows\n", f"{ended.stderr.decode()} is said")
    expect(rows_in(file) == before, "a row has changed")
    return ended.stdout


def run_import(trial, file, text, *options, rules=()):
    """The import of a text that ends."""
    return run(trial.at(MOMENT, *rules), trial.program, "import", "--db", file, *options, given=text)


def left_in(place):
    """The names of the files in a folder."""
    return sorted(os.listdir(place))


def refused(trial, text, said):
    """An import of a text has to be refused, with words like these, and to leave no file. Raises Wrong."""
    place = trial.place() / "new"
    place.mkdir()
    ended = run_import(trial, place / "new.db", text)
    told = ended.stderr.decode()
    expect((ended.returncode, ended.stdout) == (1, b"") and said in told, f"{ended} in place of {said}")
    expect("hvs." not in told, f"a token is printed: {told}")
    expect(left_in(place) == [], f"{left_in(place)} are left")


# ---------------------------------------------------------------------------------------- what is tried

def try_same(trial, _, seed, broker):
    """A broker's database is exported, imported, and exported again. Raises Wrong."""
    rows, draw, place = rows_of(broker), random.Random(seed), trial.place()
    written = {each: in_a_format(each, row, draw) for each, row in rows.items()}
    old, new = place / "old.db", place / "new.db"
    write(old, written, draw)
    version = version_of(trial)
    text = exported(trial, old)
    expect(text == file_of(lines_of(written), version), "other lines are exported")
    if draw.randrange(2):
        new.touch()
    ended = run_import(trial, new, text)
    wanted = f"{new}: ok, {counts_of(rows)}\n"
    expect((ended.returncode, ended.stdout.decode(), ended.stderr) == (0, wanted, b""), f"{ended} in place of {wanted}")
    expect(new.stat().st_mode & 0o777 == 0o600, f"its mode is {new.stat().st_mode:o}")
    expect(left_in(place) == ["new.db", "old.db"], f"{left_in(place)} are left")
    expect(rows_in(new) == rows, "the rows are others")
    expect(check(trial, new).returncode == 0, "it is not accepted")
    again = exported(trial, new)
    expect(again == file_of(lines_of(rows), version), "other lines are exported again")
    return ["the same again", *["rows in the older format"] * sum(written[each] != rows[each] for each in rows)]


def try_changed(trial):
    """Files that are not whole, or were changed. Raises Wrong."""
    rows, version = rows_of(broker_with_all()[0]), version_of(trial)
    lines = lines_of(rows)
    text = file_of(lines, version)
    ends = [place for place, byte in enumerate(text) if byte == 10]
    met = 0
    for end in ends[:-1]:
        refused(trial, text[:end + 1], "the file ends too early")
        met += 1
    refused(trial, text[:-1], "the file ends too early")
    refused(trial, b"", "line 1: the file ends too early")
    refused(trial, text + b"\n", "there is more after the last line")
    refused(trial, text + text, "there is more after the last line")
    draw = random.Random(7)
    for _ in range(40):
        place = draw.randrange(len(text))
        changed = bytes([draw.choice([byte for byte in b"a1}\"\xff" if byte != text[place]])])
        refused(trial, text[:place] + changed + text[place + 1:], "line ")
    for place in range(len(lines) - 1):
        swapped = lines[:place] + [lines[place + 1], lines[place]] + lines[place + 2:]
        said = f"line {place + 3}: its row is there before"
        refused(trial, file_of(swapped, version), said)
        refused(trial, file_of(lines[:place + 1] + lines[place:], version), said)
        met += 2
    wrong = text.replace(b'{"format":1,', b'{"format":2,', 1)
    refused(trial, wrong, "line 1: it does not begin a file of rows in format 1")
    refused(trial, text.replace(b'"rows":', b'"rows": ', 1), "line 1: it does not begin")
    many = f'"rows":{len(lines)},'.encode()
    refused(trial, text.replace(many, f'"rows":{len(lines) - 1},'.encode(), 1), "there are more rows")
    refused(trial, text.replace(many, f'"rows":{len(lines) + 1},'.encode(), 1), "there are fewer rows")
    return ["refused"] * (met + 50)


def try_unsound(trial, kind):
    """Rows without one that others need are refused, and salvaged. Raises Wrong."""
    broker, _ = broker_with_all()
    rows, version, place = rows_of(broker), version_of(trial), trial.place()
    gone = next(each for each in sorted(rows) if each[0] == kind)
    without = {each: row for each, row in rows.items() if each != gone}
    text = file_of(lines_of(without), version)
    refused(trial, text, ": row ")
    new = trial.place() / "new.db"
    ended = run_import(trial, new, text, "--salvage")
    told = ended.stderr.decode()
    expect(ended.returncode == 0, f"it is not salvaged: {told}")
    expect("hvs." not in told, f"a token is printed: {told}")
    found = rows_in(new)
    expect(all(without.get(each) == row for each, row in found.items()), "a row is another one")
    many = len(without) - len(found)
    expect(told.count("left out: ") == many > 0, f"{many} rows are lacking, and named are {told}")
    expect(check(trial, new).returncode == 0, "it is not accepted")
    with Running(trial.program, new, {}, options=("--check",)) as running:
        expect(running.connect() is not None, "it is not served")
        running.close()
    return ["salvaged", "refused"]


def try_taken(trial):
    """A database that is there, or its log, stays as it is. Raises Wrong."""
    rows = rows_of(broker_with_all()[0])
    text = file_of(lines_of(rows), version_of(trial))
    for name in ("new.db", "new.db-wal", "new.db-journal"):
        place = trial.place()
        (place / name).write_bytes(b"x")
        ended = run_import(trial, place / "new.db", text)
        expect(ended.returncode == 1 and b"there is a file of this name" in ended.stderr, f"{name}: {ended}")
        expect(left_in(place) == [name] and (place / name).read_bytes() == b"x", f"{left_in(place)} are left")
    place = trial.place()
    (place / ".new.db.part").write_bytes(b"left by a run that was killed")
    ended = run_import(trial, place / "new.db", text)
    expect(ended.returncode == 0 and left_in(place) == ["new.db"], f"{ended}, {left_in(place)}")
    for name in ("absent", "empty"):
        file = trial.place() / "old.db"
        if name == "empty":
            file.touch()
        before = left_in(file.parent)
        ended = export(trial, file)
        expect((ended.returncode, ended.stdout) == (1, b""), f"an export of an {name} file: {ended}")
        expect(left_in(file.parent) == before, "a file is made")
    return ["refused"] * 5


def try_failed(trial, call, way):
    """Each call of an import in turn fails, or the program is killed before it: there is no database, or the whole one,
    and the next import makes it. Raises Wrong."""
    rows = rows_of(broker_with_all()[0])
    text, met = file_of(lines_of(rows), version_of(trial)), []
    for number in range(1, 200):
        place = trial.place()
        ended = run_import(trial, place / "new.db", text, rules=(f"{call}:{number}:{way}",))
        if ended.returncode == 0:
            break
        is_killed = ended.returncode == -9
        expect(is_killed if way == "kill" else ended.returncode == 1 and ended.stderr, f"{call} {number}: {ended}")
        made = (place / "new.db").exists()
        expect(not made or rows_in(place / "new.db") == rows, f"{call} {number}: a part is made")
        if not is_killed:
            expect(left_in(place) in ([], ["new.db"]), f"{call} {number}: {left_in(place)} are left")
        if not made:
            again = run_import(trial, place / "new.db", text)
            expect(again.returncode == 0 and left_in(place) == ["new.db"], f"{call} {number}: {again}")
        met.append("killed" if is_killed else "failed")
    else:
        expect(False, f"{call} is called more than 199 times")
    return met


def run_refused(trial, place, text, task, rule, **named):
    """How an export of the database in a folder ends, or an import of a text into one there, where memory is
    refused: its status, and what it writes to standard output and standard error."""
    words = {"export": ("export", "--db", place / "old.db"), "import": ("import", "--db", place / "new.db"),
             "salvage": ("import", "--salvage", "--db", place / "new.db")}[task]
    ended = run(trial.at(MOMENT, rule, **named), trial.program, *words, given=text)
    return ended.returncode, ended.stdout, ended.stderr


def try_memory(trial, task, later, seed=1):
    """Drawn allocations of a run are refused, each alone or with all later ones: it ends as usual, or it says why, and
    there is no whole file, or no database; and then it is done. Raises Wrong."""
    rows, draw, place, met = rows_of(broker_with_all()[0]), random.Random(seed), trial.place(), []
    whole = file_of(lines_of(rows), version_of(trial))
    text = file_of(lines_of({each: row for each, row in rows.items() if each[0] != LEASE}), version_of(trial))
    text, report = (text if task == "salvage" else whole), place / "report"
    write(place / "old.db", rows, draw)
    usual = run_refused(trial, place, text, task, f"{HEAP}:0:ENOMEM", report=report)
    expect(usual[0] == 0, f"with no refusal it ends with {usual}")
    for number in draw.sample(range(1, Report(report).rules[1].made + 1), REFUSED):
        rule = f"{HEAP}:{number}{'+' * later}:ENOMEM"
        (place / "new.db").unlink(missing_ok=True)
        ended = run_refused(trial, place, text, task, rule)
        if ended[0] == 0:
            expect(ended == usual, f"{rule}: {ended} in place of {usual}")
            met.append("as usual in spite of it")
            continue
        expect(ended[0] == 1 and (later or ended[2]), f"{rule}: {ended}")
        expect(task != "export" or (whole.startswith(ended[1]) and ended[1] != whole), f"{rule}: {ended}")
        expect(later or {*left_in(place)} <= {"old.db", "old.db-wal", "report"}, f"{rule}: {left_in(place)} are left")
        expect(not (place / "new.db").exists() and rows_in(place / "old.db") == rows, f"{rule}: a row has changed")
        met.append("refused memory")
    (place / "new.db").unlink(missing_ok=True)
    expect(run_refused(trial, place, text, task, f"{HEAP}:0:ENOMEM") == usual, "it is not done after that")
    return met


def try_transferred(trial, jobs):
    """All of it."""
    tally, tasks = Tally("transferred"), []
    brokers = [(file.stem, at_the_end(file, events)) for file, events in rows_of_tests()]
    brokers.append(("with all", broker_with_all()[0]))

    def attempt(it):
        # A broker cannot be handed to another process: it is found there by its place.
        task, arguments = it
        more = brokers[arguments[-1]] if task is try_same else ()
        return task(trial, *(more[:1] if more else arguments), *((arguments[-1], more[1]) if more else ()))

    tasks += [(try_same, (place,)) for place in range(len(brokers))]
    tasks += [(try_changed, ()), (try_taken, ())]
    tasks += [(try_unsound, (kind,)) for kind in LEFT_OUT]
    tasks += [(try_failed, (call, way)) for call in FAILED for way in WAYS]
    tasks += [(try_memory, (task, later)) for task in ("export", "import", "salvage") for later in (False, True)]
    for (task, arguments), found, wrong in side_by_side(attempt, tasks, jobs):
        if wrong is None:
            tally.passes(*found)
        else:
            tally.fails(f"{task.__name__}, {arguments}: {wrong}")
    for name, least in LEAST.items():
        tally.has(name, least)
    return tally
