#!/usr/bin/env python3
"""Six rows of tests/rows over files that stop at each call in turn, and the opening of files that have old rows.

`trial_restarts stopped` runs them over a disk that mixes old and new bytes, as `brokerd serve --db` supposes, and over
one that tears writes. It finds the broker before the step in progress or the one after it in whatever a crash leaves,
or fails. Its steps are the start, each event, and the close of the files. Which of them change rows is told by the
reference broker: at each of these the log has to stop after a change and after a sync, and both brokers have to be
found. Where bytes mix, a commit syncs the log once, else at least twice.

`trial_restarts upgraded` stops the opening of files whose keys have rows of format 1. It finds all of these rows, or
all that the opening makes of them, or fails; its last reply has to be that of the reference broker. Its steps are the
opening and the close. An opening that rewrites none of the rows, or not those of the second page, ends it with the
status 1 and `the log stops after 0 calls, ..: another broker is found`; one that rewrites each row in a transaction of
its own, with the same after more calls, where there are twenty keys.

The last line is 'N passed, M failed'; the status is 0 if nothing failed.
"""

import concurrent.futures
import os
import pathlib
import re
import subprocess
import sys

HERE = pathlib.Path(__file__).resolve().parent
sys.path.insert(0, str(HERE / "reference"))

from broker.connections import Server  # noqa: E402
from broker.lines import read_event, read_start  # noqa: E402
from broker.parts import TODAY  # noqa: E402

ROWS = (
    "rows/first_run",
    "rows/orphan_survives",
    "rows/rewrapped_reply",
    "rows/wrapped_reply_once",
    "rows/lease_ends_with_token",
    "rows/eleven_versions",
)
OLD_ROWS = ("rows/eleven_versions", "restarts/twenty_keys")  # an opening reads the twenty keys in two pages
DISKS = ("mixed", "torn")
STOPS = r"(\d+) \((\d+) after a change, (\d+) after a sync\)"
STEP = re.compile(
    rf"step (\d+): stops of the log {STOPS}, of the database {STOPS}; found (\d+) times before it, (\d+) after it"
)
IMAGES = re.compile(r"(\d+) images")
LEAST_IMAGES = 20  # for each step that changes rows
FAILURES = []


def expect(condition, what):
    """Keeps what is wrong."""
    FAILURES.append(None if condition else what)


class Step:
    """What was met at a step."""

    def __init__(self, numbers):
        self.log, self.log_changes, self.log_syncs = numbers[:3]
        self.database, self.database_changes, self.database_syncs = numbers[3:6]
        self.before, self.after = numbers[6:]


def steps_that_change(name):
    """Whether each step changes rows: the start, and each event."""
    start, *events = (HERE / f"{name}.replay").read_bytes().splitlines()
    server = Server(*read_start(start, TODAY))
    rows, changes = server.rows(), [True]
    for event in events:
        server.feed(*read_event(event, TODAY))
        changes.append(server.rows() != rows)
        rows = server.rows()
    return changes


def run(task, name, disk):
    """What a task meets at each step of the lines over a disk, in how many images, and the replies that it writes; no
    step if the program failed."""
    lines = (HERE / f"{name}.replay").read_bytes()
    command = [HERE / "trial_restarts", task, disk]
    done = subprocess.run(command, input=lines, capture_output=True, timeout=1200, check=False)
    replies, step, rest = done.stdout.partition(b"step 0: ")
    *told, last = (step + rest).decode().splitlines() or [""]
    found = [STEP.fullmatch(line) for line in told]
    images = IMAGES.fullmatch(last)
    if done.returncode != 0 or done.stderr or not images or not all(found):
        what = (done.stderr or done.stdout)[-300:].decode()
        expect(False, f"{task}, {name}, {disk}: status {done.returncode}: {what}")
        return [], 0, b""
    expect([int(step[1]) for step in found] == list(range(len(found))), f"{task}, {name}, {disk}: other steps")
    return [Step([int(number) for number in step.groups()[1:]]) for step in found], int(images[1]), replies


def judge_run(name, disk, steps, images, replies):
    """Looks at what was met, and answers how often the log was synced at each event that changes rows."""
    changes = steps_that_change(name)
    at = f"{name}, {disk}"
    expect(replies == b"", f"{at}: replies")
    expect(len(steps) == len(changes) + 1, f"{at}: {len(steps)} steps")
    for place, (step, is_changing) in enumerate(zip(steps, changes)):
        if not is_changing:
            expect(step.log_changes == 0, f"{at}, step {place}: it changes the log, and no row")
            continue
        expect(step.log_changes > 0 and step.log_syncs > 0, f"{at}, step {place}: it is not stopped on the log")
        expect(step.before > 0 and step.after > 0, f"{at}, step {place}: found {step.before} and {step.after} times")
    expect(any(step.database_changes for step in steps), f"{at}: no stop came after a change of the database file")
    expect(images >= LEAST_IMAGES * sum(changes), f"{at}: only {images} images")
    log, database = sum(step.log for step in steps), sum(step.database for step in steps)
    syncs = [step.log_syncs for step, is_changing in zip(steps[1:], changes[1:]) if is_changing]
    print(f"{at}: {log} stops of the log, {database} of the database, {images} images; syncs of the log: {syncs}")
    return syncs


def judge_opening(name, disk, steps, images, reply):
    """Looks at what was met while files with old rows were opened and closed."""
    at = f"upgraded {name}, {disk}"
    replies = (HERE / f"{name}.out").read_bytes()
    expect(reply == replies[replies.rindex(b"HTTP/1.1 "):], f"{at}: another reply: {reply[-200:]}")
    expect(len(steps) == 2, f"{at}: {len(steps)} steps")
    opening, closing = steps[0], steps[-1]
    old, new = opening.before, opening.after + closing.before
    expect(opening.log_changes > 0 and opening.log_syncs > 0, f"{at}: the opening is not stopped on the log")
    expect(opening.database_changes + closing.database_changes > 0,
           f"{at}: no stop came after a change of the database")
    expect(old > 0 and opening.after > 0, f"{at}: old {old} times, new {opening.after} times while files were opened")
    expect(old + new == images >= LEAST_IMAGES, f"{at}: old {old} times, new {new} times in {images} images")
    log, database = (sum(getattr(step, part) for step in steps) for part in ("log", "database"))
    print(f"{at}: {log} stops of the log, {database} of the database; old {old} times, new {new} times")


def main():
    runs = [("stopped", name, disk) for name in ROWS for disk in DISKS]
    openings = [("upgraded", name, disk) for name in OLD_ROWS for disk in DISKS]
    cases = runs + openings
    with concurrent.futures.ThreadPoolExecutor(os.cpu_count()) as pool:
        found = dict(zip(cases, pool.map(lambda case: run(*case), cases)))
    syncs = {case[1:]: judge_run(*case[1:], *found[case]) for case in runs if found[case][0]}
    for case in openings:
        if found[case][0]:
            judge_opening(*case[1:], *found[case])
    for name in ROWS:
        mixed, torn = (syncs.get((name, disk)) for disk in DISKS)
        expect(mixed and set(mixed) == {1}, f"{name}, mixed: syncs of the log: {mixed}")
        expect(torn and min(torn) >= 2, f"{name}, torn: syncs of the log: {torn}")
    wrong = [what for what in FAILURES if what]
    print("".join(f"{what}\n" for what in wrong), end="")
    print(f"{len(FAILURES) - len(wrong)} passed, {len(wrong)} failed")
    return 1 if wrong else 0


if __name__ == "__main__":
    sys.exit(main())
