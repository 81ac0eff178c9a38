#!/usr/bin/env python3
"""Stops `brokerd serve --db` by SIGKILL while its first start rewrites many keys of format 1.

    python3 tests/upgrade/killed.py PROGRAM [--keys N] [--kills N] [--seed N]

The standard library's SQLite writes the keys, each with a version, into the database of a new broker. A first start
over a copy is watched: how long it takes, and how often it calls for the disk. Then the program is started over further
copies, and stopped: by turns at a random moment, and before one of these calls, the last ones first; and in the end
once it has opened the file, before it listens. Each time the keys are all of format 1 or all of format 2, and no other
row has changed; both have to be met. The next start serves: the keys are of format 2, and some secrets are read. The
last line is 'N passed, M failed'.
"""

import argparse
import random
import sqlite3
import sys
import time
from collections import Counter
from pathlib import Path

from upgraded import copied, differing, formats_in, left_in, upgraded  # it sets the paths

import many_rows
from asking import Reply, Request
from hostile import Report, Tally, build, environment
from program import Running, TooSlow, Wrong, expect
from rows import close_log, rows_in
from trial import temporary_folder

DISK = "pwrite,fsync,fdatasync,ftruncate"
OPENED = "bind:1:kill"
LONGEST_START = 300  # seconds of processor time
READ = 5  # secrets that are read after a kill
LAST = 6  # calls of a start before each of which it is stopped
LEAST = {"kills at a moment": 2, "kills before a call": 2, "old": 2, "new": 1}


def connected(running):
    """Whether the program listens in the end; it has ended if not. On a busy machine it may wait long for a processor.
    Raises Wrong."""
    before = 0.0
    while True:
        try:
            return running.connect() is not None
        except TooSlow:
            spent = running.spent()
            expect(before < spent < LONGEST_START, f"it does not listen after {spent:.1f} s of processor time")
            before = spent


class Old:
    """A database with many keys of format 1."""

    def __init__(self, program, folder, keys):
        self.program, self.folder, self.keys = program, folder, keys
        self.library = build(folder)
        self.file, self.copy = folder / "old.db", folder / "copy.db"
        with Running(program, self.file) as running:
            self.known = {"root": running.told_root()}
        self.fill()
        close_log(self.file)
        self.rows = rows_in(self.file)
        self.wanted = upgraded(self.rows)
        expect(formats_in(self.file) == {"01": keys}, f"{formats_in(self.file)} are written")

    def fill(self):
        """Writes the keys and their versions."""
        with sqlite3.connect(self.file) as database:
            for place in range(self.keys):
                database.executemany(many_rows.INSERT, many_rows.secret_rows(place, int(time.time())))
        database.close()

    def watch(self):
        """A first start that is not stopped: the calls for the disk, and its seconds. Raises Wrong."""
        copied(self.file, self.copy)
        report, begin = self.folder / "report", time.monotonic()
        with Running(self.program, self.copy, environment(self.library, report=report)) as running:
            expect(connected(running), "it does not open the file")
            seconds = time.monotonic() - begin
        made = Report(report).made
        return sum(made[call] for call in DISK.split(",")), seconds

    def kill(self, rule=None, seconds=None):
        """A first start that is stopped by a rule, or after these seconds: whether it has rewritten the keys. Raises
        Wrong."""
        copied(self.file, self.copy)
        with Running(self.program, self.copy, environment(self.library, rule or "")) as running:
            if rule is None:
                time.sleep(seconds)
            else:
                expect(not connected(running), "it was not stopped")
            end = running.close()
        expect(end.is_kill() and not end.printed, f"it was not stopped: {end}")
        rows, formats = left_in(self.copy)
        expect(rows in (self.rows, self.wanted), f"the formats are {formats}, {differing(rows, self.wanted)}")
        return rows == self.wanted

    def serve(self, draw):
        """The next start: the keys are of format 2, and some secrets are read. Raises Wrong."""
        with Running(self.program, self.copy) as running:
            expect(connected(running), "it does not serve what it has left")
            rows, formats = left_in(self.copy)
            expect(rows == self.wanted, f"after the next start the formats are {formats}")
            for place in draw.sample(range(self.keys), READ):
                path = f"secret/data/team/key{place:06}"
                data = running.ask(Request("GET", path).text(self.known))
                expect(b'"data":%s' % many_rows.OBJECT.encode() in data, f"{path}: {data[-200:]!r}")
            end = running.close()
        expect(end.is_kill() and Reply(data).status == 200, f"at the next start: {end}")


def kills(draw, calls, seconds, count):
    """How each start is stopped: what is counted, a rule or None, and the seconds after which it is. The last calls are
    those that write what was rewritten."""
    for turn in range(count - 1):
        if turn % 2:
            yield "kills at a moment", None, draw.uniform(0.1, 1.0) * seconds
        else:
            number = calls - turn // 2 if turn < 2 * LAST else draw.randint(1, calls)
            yield "kills before a call", f"{DISK}:{number}:kill", None
    yield "kills before it listens", OPENED, None


def main():
    parser = argparse.ArgumentParser(description="stops first starts over many keys of format 1")
    parser.add_argument("program")
    parser.add_argument("--keys", type=int, default=100_000)
    parser.add_argument("--kills", type=int, default=12)
    parser.add_argument("--seed", type=int, default=1)
    arguments = parser.parse_args()
    tally, met, draw = Tally("killed upgrades"), Counter(), random.Random(arguments.seed)
    with temporary_folder() as folder:
        old = Old(arguments.program, Path(folder), arguments.keys)
        calls, seconds = old.watch()
        for what, rule, after in kills(draw, calls, seconds, arguments.kills):
            try:
                met.update([what, "new" if old.kill(rule, after) else "old"])
                old.serve(draw)
                tally.expect(True, what)
            except Wrong as error:
                tally.expect(False, f"{what}, {rule or after}: {error}")
    for name, least in LEAST.items():
        tally.expect(met[name] >= least, f"{met[name]} {name}, where {least} are the least")
    told = ", ".join(f"{count} {name}" for name, count in sorted(met.items()))
    print(f"{arguments.keys} keys, a start with {calls} calls in {seconds:.2f} s: {told}")
    return tally.end()


if __name__ == "__main__":
    sys.exit(main())
