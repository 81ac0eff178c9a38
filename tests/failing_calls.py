#!/usr/bin/env python3
"""Both stores where calls on their rows fail.

    python3 tests/failing_calls.py LINES

Each row of tests/rows, but one whose last request makes thousands of calls, is run by `trial_stores failing`: before a
request is answered, each of its calls on the rows fails in turn, which has to be the fault 2 and to leave the rows as
they were. The replies have to be the usual ones.

LINES is a file with requests that tests/drawn_requests.py drew. They are run by `trial_stores faulted`, four on each
connection: a drawn call of every tenth request fails, which closes its connection. The replies have to be those of the
reference broker, which skips these events and closes their connections.

The last line is 'N passed, M failed'; the status is 0 if nothing failed.
"""

import concurrent.futures
import json
import pathlib
import re
import subprocess
import sys

HERE = pathlib.Path(__file__).resolve().parent
sys.path.insert(0, str(HERE / "reference"))

from broker.connections import Server  # noqa: E402
from broker.lines import read_event, read_start  # noqa: E402
from broker.parts import TODAY  # noqa: E402

TALLY = re.compile(r"(\d+) calls failed in (\d+) events, (\d+) of them after a write")
FAULT = re.compile(r"event (\d+): fault 2")
LEFT_OUT = "chain_of_200"
ON_A_CONNECTION = 4
LEAST_CALLS = 9_000  # that fail in all rows
LEAST_AFTER_WRITES = 1_200  # of these
LEAST_FAULTS = 300  # among the drawn requests
FAILURES = []


def expect(condition, what):
    """Keeps what is wrong."""
    FAILURES.append(None if condition else what)


def run(task, over, lines):
    """What a task writes on its two streams; the status has to be 0."""
    done = subprocess.run([HERE / "trial_stores", task, over], input=lines, capture_output=True, timeout=600,
                          check=False)
    if done.returncode != 0:
        return done.stdout, f"status {done.returncode}: {done.stderr[-200:]}"
    return done.stdout, done.stderr.decode()


def rows():
    """The rows that are run to their end."""
    for line in (HERE / "rows/INDEX.md").read_text().splitlines():
        cells = [cell.strip() for cell in line.split("|")]
        name = cells[1].strip("`") if line.startswith("| `") else LEFT_OUT
        if name != LEFT_OUT and cells[3:5] == ["0", ""]:
            yield name


def fail_row(name):
    """How many calls of a row fail, in how many events, and how many after a write: over each store."""
    tallies = []
    for over in ("list", "sql"):
        replies, said = run("failing", over, (HERE / f"rows/{name}.replay").read_bytes())
        tally = TALLY.fullmatch(said.strip())
        expect(tally, f"failing {over}, {name}: {said[:200]}")
        expect(replies == (HERE / f"rows/{name}.out").read_bytes(), f"failing {over}, {name}: other replies")
        tallies.append([int(number) for number in tally.groups()] if tally else [0, 0, 0])
    expect(tallies[0] == tallies[1], f"failing, {name}: the two stores differ")
    return tallies[0]


def fail_rows():
    """Runs all rows, and looks at how many calls failed."""
    with concurrent.futures.ThreadPoolExecutor() as pool:
        tallies = list(pool.map(fail_row, rows()))
    calls, events, after_writes = (sum(numbers) for numbers in zip(*tallies))
    expect(calls >= LEAST_CALLS, f"failing: only {calls} calls")
    expect(calls >= 5 * events, f"failing: only {calls} calls in {events} events")
    expect(after_writes >= LEAST_AFTER_WRITES, f"failing: only {after_writes} calls came after a write")
    print(f"{len(tallies)} rows: {calls} calls failed in {events} events, {after_writes} of them after a write")


def on_connections(lines):
    """The lines of a start and of events on one connection, so many on each connection."""
    start, *events = lines.splitlines()
    for place, line in enumerate(events):
        events[place] = json.dumps({**json.loads(line), "conn": place // ON_A_CONNECTION}).encode()
    return [start, *events]


def reference_replies(lines, skipped):
    """The replies of the reference broker, which skips these events and closes their connections."""
    server = Server(*read_start(lines[0], TODAY))
    replies, unheard = [], 0
    for number, line in enumerate(lines[1:], start=1):
        event = read_event(line, TODAY)
        if number in skipped:
            server.closed.add(event[0])
            continue
        unheard += server.is_closed(event[0])
        replies.append(server.feed(*event))
    return replies, unheard


def fault_drawn(drawn):
    """Runs the drawn requests over both stores, and compares the replies."""
    lines = on_connections(drawn)
    text = b"\n".join(lines) + b"\n"
    with concurrent.futures.ThreadPoolExecutor() as pool:
        (over_list, told), (over_sql, told_sql) = pool.map(lambda over: run("faulted", over, text), ("list", "sql"))
    expect(told == told_sql, "faulted: the two stores met different faults")
    *faults, last = told.splitlines()
    numbers = [int(found[1]) for found in map(FAULT.fullmatch, faults) if found]
    tally = TALLY.fullmatch(last)
    expect(tally and len(numbers) == len(faults) == int(tally[1]) == int(tally[2]), f"faulted: it told {told[-200:]}")
    expect(len(numbers) >= LEAST_FAULTS, f"faulted: only {len(numbers)} faults")
    expect(tally and 4 * int(tally[3]) >= len(numbers), f"faulted: {last}")
    replies, unheard = reference_replies(lines, set(numbers))
    expect(unheard >= len(numbers) // 2, f"faulted: only {unheard} events came on closed connections")
    for over, written in (("list", over_list), ("sql", over_sql)):
        expect(written == b"".join(replies), f"faulted {over}: other replies than the reference broker's")
    print(f"{len(lines) - 1} drawn requests: {len(numbers)} faults,"
          f" and {unheard} events on connections that they closed")


def main():
    fail_rows()
    fault_drawn(pathlib.Path(sys.argv[1]).read_bytes())
    wrong = [what for what in FAILURES if what]
    print("".join(f"{what}\n" for what in wrong), end="")
    print(f"{len(FAILURES) - len(wrong)} passed, {len(wrong)} failed")
    return 1 if wrong else 0


if __name__ == "__main__":
    sys.exit(main())
