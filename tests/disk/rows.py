"""The rows of a database, as the standard library's SQLite reads them."""

import contextlib
import sqlite3

from program import Wrong, expect
from stored_broker import broker_of

ALL = "SELECT kind, key, owner, due, body FROM broker_rows"


def rows_in(file):
    """All rows of the database in a file, with its log beside it. Raises sqlite3.Error."""
    with contextlib.closing(sqlite3.connect(file)) as database:
        return read_rows(database)


def read_rows(database):
    """All rows of an open database. Raises sqlite3.Error."""
    return {(kind, key): (owner, due, body) for kind, key, owner, due, body in database.execute(ALL)}


def whole_rows_in(file):
    """All rows of a database in which SQLite finds no fault, and whose rows are those of a broker. Raises Wrong."""
    try:
        with contextlib.closing(sqlite3.connect(file)) as database:
            rows = read_rows(database)
            told = [text for text, in database.execute("PRAGMA integrity_check")]
    except sqlite3.Error as error:
        raise Wrong(f"sqlite3 cannot read it: {error}") from None
    expect(told == ["ok"], f"sqlite3 finds: {told}")
    try:
        broker_of(rows)
    except Exception as error:
        raise Wrong(f"the rows are those of no broker: {type(error).__name__} {error}") from None
    return rows


def bytes_of(file):
    """What the files of a database have, each None if it is not there."""
    paths = {name: file.with_name(file.name + name) for name in ("", "-wal")}
    return {name: path.read_bytes() if path.exists() else None for name, path in paths.items()}


def put(file, files):
    """Writes the files of a database, in place of those that are there."""
    for name in ("", "-wal", "-shm", "-journal"):
        path = file.with_name(file.name + name)
        path.unlink(missing_ok=True)
        if files.get(name) is not None:
            path.write_bytes(files[name])


def close_log(file):
    """Moves the log of a database into the database, as SQLite does."""
    with contextlib.closing(sqlite3.connect(file)) as database:
        database.execute("PRAGMA wal_checkpoint(TRUNCATE)")
