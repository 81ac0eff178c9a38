"""Rows of keys in both formats (docs/STORAGE.md): what the scripts beside this one share."""

import contextlib
import os
import shutil
import sqlite3
import struct
import sys
from pathlib import Path

HERE = Path(__file__).resolve().parent
TESTS = HERE.parent
sys.path += [str(TESTS / part) for part in ("", "reference", "hostile", "disk", "known_system", "measure")]

from program import Running, expect  # noqa: E402
from rows import bytes_of, put, read_rows, rows_in  # noqa: E402

KEY = 8  # the kind
NUMBERS = struct.Struct(">QQQ")  # current version, created, updated
LAST_VERSION = 999_999_999_999_999_999
LAST_MOMENT = 250_000_000_000
NO_SETTINGS = bytes(1 + 8 + 4)  # no check-and-set, the versions of the mount, no custom metadata
FORMATS = "SELECT hex(substr(body, 1, 1)), count(*) FROM broker_rows WHERE kind = 8 GROUP BY 1"


def is_old(row):
    """Whether a row is that of a key in format 1."""
    owner, due, body = row
    if owner or due is not None or body[:1] != b"\x01" or len(body) != 1 + NUMBERS.size:
        return False
    current, created, updated = NUMBERS.unpack(body[1:])
    return current <= LAST_VERSION and max(created, updated) <= LAST_MOMENT


def upgraded(rows):
    """What opening makes of rows."""
    return {(kind, key): (row[0], row[1], b"\x02" + row[2][1:] + NO_SETTINGS) if kind == KEY and is_old(row) else row
            for (kind, key), row in rows.items()}


def old_body(body):
    """The body in format 1 of a key in format 2 that has no settings; any other is left."""
    if body[:1] == b"\x02" and body[1 + NUMBERS.size:] == NO_SETTINGS:
        return b"\x01" + body[1:1 + NUMBERS.size]
    return body


def keys_in(rows):
    """The keys of secrets, in the order of a walk."""
    return sorted((key for kind, key in rows if kind == KEY), key=str.encode)


def formats_in(file):
    """How many rows of keys have which format, as docs/STORAGE.md tells an operator to see it."""
    with contextlib.closing(sqlite3.connect(file)) as database:
        return dict(database.execute(FORMATS))


def left_in(file):
    """The rows of a database and the formats of its keys. A copy is read, since SQLite would move the log."""
    copy = file.with_name("left.db")
    put(copy, bytes_of(file))
    with contextlib.closing(sqlite3.connect(copy)) as database:
        expect([text for text, in database.execute("PRAGMA integrity_check")] == ["ok"], "sqlite3 finds it damaged")
        return read_rows(database), dict(database.execute(FORMATS))


def copied(source, file, changes=()):
    """A copy of a database, in which these statements were run, each with its values."""
    put(file, {})
    shutil.copy(source, file)
    with contextlib.closing(sqlite3.connect(file)) as database, database:
        for statement, values in changes:
            database.execute(statement, values)
    return rows_in(file)


def open_alone(program, file, variables=None):
    """The program is started over a file, and stopped once it listens. Raises Wrong."""
    with Running(program, file, variables) as running:
        expect(running.connect() is not None, "it does not open the file")
        end = running.close()
    expect(end.is_kill() and not end.printed, f"after it has opened the file: {end}, {end.printed!r}")


def apart(found, wanted):
    """Where bytes are not as they have to be, in words."""
    at = max(0, len(os.path.commonprefix([found, wanted])) - 30)
    return f"{found[at:at + 80]!r} in place of {wanted[at:at + 80]!r}"


def differing(found, wanted):
    """The rows that are not as they have to be: how many, and the first of them."""
    places = sorted(place for place in {*found, *wanted} if found.get(place) != wanted.get(place))
    first = [(place, found.get(place), wanted.get(place)) for place in places[:1]]
    return f"{len(places)} rows are wrong: {first}"[:400]
