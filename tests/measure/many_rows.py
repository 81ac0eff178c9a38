#!/usr/bin/env python3
"""Writes many secrets and tokens into the database of a broker that does not run, for measurements.

    python3 many_rows.py FILE MANY

FILE is the database of a broker that was started, and has no secret yet. It gets the rows of docs/STORAGE.md that MANY
writes of `secret/data/team/key000000`, .. and MANY creations of tokens by the root token leave, the secrets in format
1, which the first start rewrites. The broker that opens it tests each row that it reads.
"""

import argparse
import sqlite3
import struct
import time

from load import first_word, identifier

TTL = 2764800  # of a token that does not ask for another, in seconds
INSERT = "INSERT INTO broker_rows (kind, key, owner, due, body) VALUES (?, ?, ?, ?, ?)"
OBJECT = '{"password":"correct horse"}'


def number(value):
    return struct.pack(">Q", value)


def text(value):
    return struct.pack(">I", len(value)) + value.encode()


def token_of(place):
    """The text of the token of a place, counted from 0."""
    return "hvs." + identifier(first_word(place + 1) + 1)


def accessor_of(place):
    return identifier(first_word(place + 1) + 2)


def secret_rows(place, now):
    """The rows of a secret of one version."""
    key = f"secret/team/key{place:06}"
    yield 8, key, "", None, b"\1" + number(1) + number(now) + number(now)
    yield 9, f"{key}\n{1:020}", "", None, b"\1" + number(now) + b"\0\0" + text(OBJECT)


def token_rows(place, now, root):
    """The rows of a child of the root token with the policy `default`."""
    token, accessor = token_of(place), accessor_of(place)
    times = number(now) + number(TTL) + number(0) + number(0)
    body = b"\1" + text(accessor) + struct.pack(">I", 1) + text("default") + times + b"\0" + struct.pack(">I", 0)
    yield 2, token.removeprefix("hvs."), "", None, b"\1"
    yield 2, accessor, "", None, b"\1"
    yield 3, token, root, now + TTL, body
    yield 4, accessor, token, None, b"\1" + number(1)


def fill(file, many):
    """Writes the rows in one transaction."""
    now = int(time.time())
    database = sqlite3.connect(file)
    (root,) = database.execute("SELECT key FROM broker_rows WHERE kind = 3 AND owner = ''").fetchone()
    with database:
        for place in range(many):
            for row in (*secret_rows(place, now), *token_rows(place, now, root)):
                database.execute("INSERT INTO broker_rows (kind, key, owner, due, body) VALUES (?, ?, ?, ?, ?)", row)
    database.execute("PRAGMA wal_checkpoint(TRUNCATE)")
    database.close()


def main():
    parser = argparse.ArgumentParser(description="writes many secrets and tokens into the database of a broker")
    parser.add_argument("file")
    parser.add_argument("many", type=int)
    arguments = parser.parse_args()
    fill(arguments.file, arguments.many)


if __name__ == "__main__":
    main()
