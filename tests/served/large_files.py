#!/usr/bin/env python3
"""What `brokerd serve --db` says on standard error before it opens a database: the name and the size of a large one. So
does `brokerd backup` before it checks the copy of one.

    python3 tests/served/large_files.py PROGRAM

A database of a broker is made large by rows that no request reads. The last line is `N passed, M failed`; the status is
0 if nothing failed.
"""

import contextlib
import os
import re
import shutil
import sqlite3
import subprocess
import sys
import tempfile
from pathlib import Path

from broker import Broker
from cases import expect, report, tried

LARGE = 20_000_000
ROW = "INSERT INTO broker_rows VALUES (5, ?, '', NULL, zeroblob(?))"


def grown(made, folder, in_file, in_log):
    """A copy of a database with so many more bytes, at least, in the file and in its log; and its size in all."""
    source, copy = f"{folder}/source.db", f"{folder}/copy.db"
    shutil.copyfile(made, source)
    with contextlib.closing(sqlite3.connect(source)) as database:
        database.execute(ROW, ("in the file", in_file))
        database.commit()
        database.execute("PRAGMA wal_checkpoint(TRUNCATE)")
        database.execute("PRAGMA wal_autocheckpoint = 0")
        if in_log:
            database.execute(ROW, ("in the log", in_log))
            database.commit()
        for end in ("", "-wal"):
            shutil.copyfile(source + end, copy + end)
    os.remove(source)
    return copy, sum(os.stat(copy + end).st_size for end in ("", "-wal"))


def ended(broker):
    """What a broker that is stopped has said."""
    broker.process.kill()
    return broker.ended()[1]


def said(program, copy, token, *arguments):
    """What the program says until it has answered a request."""
    with Broker(program, "--unchecked", "--db", copy, *arguments, token=token) as broker:
        status, _ = broker.ask("GET", "auth/token/lookup-self")
        expect(status == 200, f"status {status}")
        return ended(broker)


def in_megabytes(size):
    """A size in megabytes, rounded."""
    return (size + 500_000) // 1_000_000


def a_small_file(program, made, token, folder):
    copy, size = grown(made, folder, LARGE - 400_000, 0)
    expect(LARGE - 400_000 < size < LARGE, f"it has {size} bytes")
    told = said(program, copy, token)
    expect(told == "", f"it said {told}")
    return f"nothing is said of {size} bytes"


def a_large_file(program, made, token, folder):
    copy, size = grown(made, folder, LARGE + 600_000, 0)
    expect(size % 1_000_000 >= 500_000, f"{size} bytes are not rounded up")
    told = said(program, copy, token)
    expect(told == f"opening {copy}: {in_megabytes(size)} MB", f"it said {told}")
    return f"{size} bytes are said to be {in_megabytes(size)} MB"


def a_file_and_its_log(program, made, token, folder):
    copy, size = grown(made, folder, LARGE // 2, LARGE // 2)
    largest = max(os.stat(copy + end).st_size for end in ("", "-wal"))
    expect(largest < LARGE <= size, f"one of them has {largest} bytes, both {size}")
    told = said(program, copy, token)
    expect(told == f"opening {copy}: {in_megabytes(size)} MB", f"it said {told}")
    return f"it is said of {size} bytes in two files, none of which is large"


def a_large_file_in_the_log(program, made, token, folder):
    copy, size = grown(made, folder, LARGE, 0)
    lines = said(program, copy, token, "--log").splitlines()
    expect(len(lines) >= 3, f"the log is {lines}")
    line = rf"\d{{4}}-\d\d-\d\dT\d\d:\d\d:\d\dZ opening {re.escape(copy)}: {in_megabytes(size)} MB"
    expect(re.fullmatch(line, lines[1]) is not None, f"the second line is {lines[1]}")
    expect(" listening on " in lines[2], f"the third line is {lines[2]}")
    return "it is said between 'starting' and 'listening'"


def a_backup_of_a_large_file(program, made, _, folder):
    copy, _ = grown(made, folder, LARGE, 0)
    done = subprocess.run([program, "backup", "--db", copy, "--to", f"{folder}/backup"], capture_output=True, text=True)
    first, *others = done.stderr.splitlines()
    expect(first == f"checking the copy of {copy}: 20 MB", f"it said {done.stderr}")
    why = f"{copy}: no backup is kept: row 1 of kind cubbyhole object: "
    expect(done.returncode == 1 and others[-1].startswith(why), f"status {done.returncode}: {done.stderr}")
    expect(os.listdir(f"{folder}/backup") == [], "something is left")
    return "it is said that its copy is checked, which is none of a broker's"


def main(program):
    with tempfile.TemporaryDirectory() as folder:
        made = f"{folder}/made.db"
        with Broker(program, "--db", made) as broker:
            token = broker.token
            expect(ended(broker) == "", "something is said of a new file")
        with contextlib.closing(sqlite3.connect(made)) as database:
            database.execute("PRAGMA wal_checkpoint(TRUNCATE)")
        cases = (a_small_file, a_large_file, a_file_and_its_log, a_large_file_in_the_log, a_backup_of_a_large_file)
        sys.exit(report("large files", [(case, tried(case, program, made, token, folder)) for case in cases]))


if __name__ == "__main__":
    main(str(Path(sys.argv[1]).resolve()))
