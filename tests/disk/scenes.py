"""Where the runs of a broker begin: from nothing, over a log that is nearly so long that it is moved into the database,
or over a database whose keys are in format 1, which the program rewrites when it opens it."""

import contextlib
import sqlite3
from dataclasses import dataclass

from asking import REQUESTS, Request, Story
from hostile import Report
from program import Running, expect
from rows import bytes_of, close_log, put
from trial import MOMENT, Run

FRAME = 24 + 4096  # bytes of a page in the log
MOVED = 1000  # frames of a log that is moved into the database
NEARLY = MOVED - 30
LONG = 60_000  # bytes that fill many pages of it at once
RECORDED = 12  # requests over a log that is nearly so long
OLD_KEYS = "old keys"
KEYS = 40  # of them: more than the program rewrites at once
OLD_BODY = 1 + 3 * 8  # bytes of a key in format 1: its format, and three numbers, with which format 2 begins too
AFTER_KEYS = 3  # requests over them


@dataclass
class Scene:
    """Where a run begins: its files, and the story of the broker in them, or None; and what it is asked."""
    name: str
    files: dict
    story: Story
    requests: tuple

    def begin(self, trial, file, variables, longest=None):
        """A run over a copy of the files. Raises Wrong."""
        put(file, self.files)
        return Run(trial, file, variables, longest, self.story, self.requests)

    def run(self, trial, record=None, *rules):
        """A run by these rules in a folder of its own, its file, and the report of its calls. Raises Wrong."""
        place = trial.place()
        file, report = place / "broker.db", place / "report"
        run = self.begin(trial, file, trial.at(MOMENT, *rules, report=report, record=record))
        return run, file, Report(report)


def all_scenes(trial):
    """Nothing, a long log, and keys in format 1. Raises Wrong."""
    yield Scene("start", {}, None, REQUESTS)
    file = trial.place() / "broker.db"
    story = make_long_log(trial, file)
    yield Scene("long log", bytes_of(file), story, SHORT_WRITES)
    file = trial.place() / "broker.db"
    story = make_old_keys(trial, file)
    yield Scene(OLD_KEYS, {"": file.read_bytes()}, story, SHORT_WRITES[:AFTER_KEYS])


def frames_in(log):
    """How many frames a log has, from its beginning to the first that has no page."""
    with open(log, "rb") as opened:
        for count in range(MOVED + 1):
            opened.seek(32 + count * FRAME)
            if not any(opened.read(4)):
                return count
    return MOVED


def make_long_log(trial, file):
    """A broker whose log is nearly so long that it is moved into the database: its story. Raises Wrong."""
    with Running(trial.program, file, trial.at(MOMENT)) as running:
        story, log = Story(running.told_root()), file.with_name(file.name + "-wal")
        answered = story.run(running, REQUESTS[:-1])
        while answered and frames_in(log) < NEARLY - 100:
            answered = story.run(running, [long_write(LONG)], has_look=False)
        answered = answered and story.run(running, [long_write(1)], has_look=False)
        while answered and frames_in(log) < NEARLY:
            answered = story.run(running, [short_write(len(story.replies))], has_look=False)
        expect(answered, f"with no fault the program ends: {running.close()}")
    return story


def make_old_keys(trial, file):
    """A broker whose keys are in format 1, as if an earlier program had written them: its story. Raises Wrong."""
    with Running(trial.program, file, trial.at(MOMENT)) as running:
        story = Story(running.told_root())
        writes = [Request("POST", f"secret/data/old{number:02}", '{"data":{"number":%d}}' % number)
                  for number in range(KEYS)]
        expect(story.run(running, writes), f"with no fault the program ends: {running.close()}")
    close_log(file)
    with contextlib.closing(sqlite3.connect(file)) as database, database:
        for key, body in database.execute("SELECT key, body FROM broker_rows WHERE kind = 8").fetchall():
            database.execute("UPDATE broker_rows SET body = ? WHERE kind = 8 AND key = ?",
                             (b"\x01" + body[1:OLD_BODY], key))
    return story


def long_write(length):
    """A write of many pages, which those after it write again."""
    return Request("POST", "cubbyhole/long", '{"text":"%s"}' % ("x" * length))


def short_write(number):
    """A write of few pages."""
    data = '{"number":%d,"text":"%s"}' % (number, "y" * (number % 7 * 40))
    return Request("POST", f"secret/data/k{number % 3}", '{"data":%s}' % data)


SHORT_WRITES = tuple(short_write(number) for number in range(RECORDED))
