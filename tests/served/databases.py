#!/usr/bin/env python3
"""Which databases `brokerd serve --unchecked --db` takes, and which it refuses with `fault 2` or `fault 4`, also
without `--unchecked`; what a check refuses, `tests/disk/checked.py` tries.

    python3 tests/served/databases.py PROGRAM

Each case is a copy of the database of a broker, in which the standard library's SQLite runs some statements. The last
line is `N passed, M failed`; the status is 0 if nothing failed.
"""

import contextlib
import pathlib
import shutil
import sqlite3
import subprocess
import sys
import tempfile

from broker import Broker, fault_in

TAKEN = {
    "nothing is changed": "",
    "an object without members": "INSERT INTO broker_rows VALUES (5, 'hvs.a/a', 'hvs.a', NULL, x'00ff')",
    "a table that is gone again": "CREATE TABLE a (b); DROP TABLE a",
}

STARTED = {
    "no row": "DELETE FROM broker_rows",
    "no table": "DROP TABLE broker_rows",
}

REFUSED = {
    "a row of kind 0": "INSERT INTO broker_rows VALUES (0, 'a', '', NULL, x'')",
    "a row of kind 14": "INSERT INTO broker_rows VALUES (14, 'a', '', NULL, x'')",
    "a row that is due before 1970": "INSERT INTO broker_rows VALUES (3, 'a', '', -1, x'')",
    "a row with a number below zero":
        "INSERT INTO broker_rows (rowid, kind, key, owner, body) VALUES (-1, 3, 'a', '', x'')",
    "another table": "CREATE TABLE a (b)",
    "a view": "CREATE VIEW a AS SELECT 1",
    "another index": "CREATE INDEX a ON broker_rows (key)",
    "an index that is missing": "DROP INDEX broker_due",
    "an index in another order":
        "DROP INDEX broker_due; CREATE INDEX broker_due ON broker_rows (due, key, kind)",
    "an index without duplicates":
        "DROP INDEX broker_due; CREATE UNIQUE INDEX broker_due ON broker_rows (due, kind, key)",
    "a table of other columns":
        "DROP TABLE broker_rows; CREATE TABLE broker_rows "
        "(kind INTEGER NOT NULL, key TEXT NOT NULL, PRIMARY KEY (kind, key)) STRICT",
}

WITHOUT_CLOCK = "DELETE FROM broker_rows WHERE kind = 1"


def changed(folder, made, statements):
    """A copy of a database, in which the statements were run."""
    copy = folder / "copy.db"
    for path in (copy, folder / "copy.db-wal"):
        path.unlink(missing_ok=True)
    shutil.copy(made, copy)
    with contextlib.closing(sqlite3.connect(copy)) as database:
        database.executescript(statements)
    return copy


def why_not_served(program, database, token):
    """Why a database is not served to a token, or to the root token of a new broker; None if it is."""
    try:
        with Broker(program, "--unchecked", "--db", str(database), token=token) as broker:
            status, _ = broker.ask("GET", "auth/token/lookup-self")
            return None if status == 200 else f"status {status}"
    except SystemExit as end:
        return str(end)


def why_not_refused(program, database, fault):
    """Why a database is not refused with a fault, checked or not, or None if it is."""
    for options in ((), ("--unchecked",)):
        done = subprocess.run([program, "serve", "--listen", "127.0.0.1:0", "--connections", "1", *options,
                               "--db", str(database)], capture_output=True, text=True, timeout=60, check=False)
        if (done.returncode, done.stdout, fault_in(done.stderr)) != (1, "", f"fault {fault}"):
            return f"{options}: status {done.returncode}: {done.stderr[:100]}"
    return None


def try_all(program, folder):
    """The name of each case, and why it failed, or None."""
    made = folder / "made.db"
    with Broker(program, "--db", str(made)) as broker:
        token = broker.token
    with contextlib.closing(sqlite3.connect(made)) as database:
        database.execute("PRAGMA wal_checkpoint(TRUNCATE)")
    for name, statements in TAKEN.items():
        yield name, why_not_served(program, changed(folder, made, statements), token)
    for name, statements in STARTED.items():
        yield name, why_not_served(program, changed(folder, made, statements), None)
    for name, statements in REFUSED.items():
        yield name, why_not_refused(program, changed(folder, made, statements), 2)
    yield "no clock", why_not_refused(program, changed(folder, made, WITHOUT_CLOCK), 4)


def main():
    passed = failed = 0
    with tempfile.TemporaryDirectory() as folder:
        for name, why in try_all(sys.argv[1], pathlib.Path(folder)):
            passed += why is None
            failed += why is not None
            if why is not None:
                print(f"databases, {name}: {why}")
    print(f"{passed} passed, {failed} failed")
    return 1 if failed else 0


if __name__ == "__main__":
    sys.exit(main())
