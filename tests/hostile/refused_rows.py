#!/usr/bin/env python3
"""Refuses memory to rows of tests/rows, one allocation after another, over both stores.

    python3 tests/hostile/refused_rows.py [--all [STEP]] [--minutes M] [--seed S] BROKERD TRIAL_STORES

`TRIAL_STORES retry list` and `retry sql` send a request that met a fault once more, on another connection. Where one
allocation is refused, each run has to give the usual replies, and to tell the one fault that it met, or none; or else
the start has to end by the fault. Over SQL the rows after the fault are those before the request. `TRIAL_STORES list`
and `BROKERD replay` do not send it once more: each run has to give the usual replies, or to write whole replies from
the first one on and to end with status 1 and the fault. There all later allocations are refused too in some runs. Over
the list a fault is always `fault 1`, over SQL also `fault 2`. The usual replies are those of the reference broker.

Without `--all` five rows are run, and each allocation is refused alone; each seventh with all later ones, and by `retry
sql`, which compares rows. `retry` leaves out the start but for the first row. With `--all` all rows are run, and each
allocation is refused, or each STEPth. A row in which an event is not one whole request on an open connection is not run
by `retry`. With `--seed` the rows have a drawn order, and the allocations of each begin with one of the first STEP.
With `--minutes` no further row is begun after so many minutes, but for the first five.

A run with a refused allocation is forked from the usual one. A few are made from the start, and have to end in the
same way; there, and with `--all`, memory is overwritten when it is given and when it is freed (`MALLOC_PERTURB_`), so
that no run is right by what it happens to find in it. For each row and command a line tells what came of it. At the end
programs are tried that do not send a request once more, or send it with other words, or always answer that memory ran
out: each has to be found. The last line is `N passed, M failed`.
"""

import argparse
import collections
import concurrent.futures
import functools
import itertools
import json
import os
import random
import re
import subprocess
import sys
import time
from pathlib import Path

from hostile import HEAP, HERE, Report, Tally, build, children, environment, replies_of, scratch

ROWS = HERE.parent / "rows"
FIVE = ["first_run", "orphan_survives", "check_and_set", "wrapped_reply_once", "lease_ends_with_token"]
SEVENTH = 7
SPARSE = 20  # where mistakes are looked for
DENSE = 8  # each request of the five rows has more allocations than this, each row more that are faults of each kind
SAMPLE = 4  # runs from the start
SECONDS = 1200  # for a run with its child processes
NUMBERS = itertools.count()  # of runs

# The fewest allocations of an event on average, without the start, in the five rows and in others, of which some have
# requests that are refused by their heads; and the fewest runs of a hundred with an allocation after the start refused
# in which the request has to be sent once more; in one run it may be otherwise. Over SQL a row that was read is not
# remembered where memory is refused for it, and the request is answered.
ALLOCATIONS = {"list": 50, "sql": 150}
ALLOCATIONS_OF_OTHERS = {"list": 10, "sql": 30}
SENT = {"list": 95, "sql": 90}
FAULTS = {"list": "1", "sql": "12"}

TOLD = {"list": re.compile(rb"event ([1-9][0-9]*): fault (1), sent once more\n"),
        "sql": re.compile(rb"event ([1-9][0-9]*): fault ([12]), rows as before, sent once more\n"
                          rb"at the end: rows as usual\n")}
FAULT = re.compile(rb"fault ([1-9])\n")

Way = collections.namedtuple("Way", "name words store retries onward step")
Ended = collections.namedtuple("Ended", "output error status")
# What came of a run: `kind` is usual, started (a fault at the start), again (sent once more), or ended (by the fault);
# `place` is the event that met the fault, or the number of replies before it.
KINDS = {"started": "at the start", "again": "sent once more", "usual": "the usual replies"}
Outcome = collections.namedtuple("Outcome", "kind place fault", defaults=(None, None))


@functools.cache
def usual_of(replay):
    """How a replay usually ends, and how many of its replies have ended at each byte where a fault may end it."""
    output = replay.with_suffix(".out").read_bytes()
    ends = {end: count for count, end in enumerate(itertools.accumulate(map(len, replies_of(output)), initial=0))}
    if len(ends) == len(events_of(replay)) + 1:
        del ends[len(output)]  # after the last reply there is nothing that memory could be refused to
    return Ended(output, *usual_ends().get(replay.stem, (b"", 0))), ends


def events_of(replay):
    """The lines of the events."""
    return replay.read_bytes().splitlines()[1:]


@functools.cache
def usual_ends():
    """The standard error and the status of each row, as the index has them."""
    found = {}
    for line in (ROWS / "INDEX.md").read_text(encoding="utf-8").splitlines():
        if line.startswith("| `"):
            name, _, status, word = (it.strip().strip("`") for it in line.split("|")[1:5])
            found[name] = (f"{word}\n".encode() if word else b"", int(status))
    return found


def is_whole(replay):
    """Whether each event of a replay is one whole request, and is answered on a connection that stays open."""
    usual, ends = usual_of(replay)
    events = events_of(replay)
    if usual.status != 0 or usual.error or len(ends) != len(events) or b"\r\nConnection: close\r\n" in usual.output:
        return False
    return all(is_one_request(json.loads(event)) for event in events)


def is_one_request(event):
    """Whether the bytes of an event are a head and a body of its length."""
    piece = bytes.fromhex(event["hex"]) if "hex" in event else event["piece"].encode()
    head, empty_line, body = piece.partition(b"\r\n\r\n")
    lengths = [line.partition(b":")[2] for line in head.split(b"\r\n") if line.lower().startswith(b"content-length:")]
    return bool(empty_line) and len(body) == sum(int(it) if it.strip().isdigit() else -1 for it in lengths)


def outcome_of(way, replay, ended):
    """What came of a run, or None and what is wrong."""
    usual, ends = usual_of(replay)
    if ended == usual:
        return Outcome("usual"), None
    fault = FAULT.fullmatch(ended.error)
    told = TOLD[way.store].fullmatch(ended.error) if way.retries else None
    if told and (ended.output, ended.status) == (usual.output, usual.status):
        return Outcome("again", int(told[1]), told[2].decode()), None
    if fault and ended.status == 1 and fault[1].decode() in FAULTS[way.store]:
        count = ends.get(len(ended.output)) if usual.output.startswith(ended.output) else None
        if way.retries and count == 0:
            return Outcome("started", 0, fault[1].decode()), None
        if not way.retries and count is not None:
            return Outcome("ended", count, fault[1].decode()), None
    return None, f"status {ended.status}, standard error {ended.error[:120]!r}, output that ends {ended.output[-80:]!r}"


class Runs:
    """The runs of a way over a replay."""

    def __init__(self, library, folder, way, replay, variables):
        self.library, self.folder, self.way, self.replay, self.variables = library, folder, way, replay, variables
        self.name = f"{replay.stem}, {way.name}"

    def altered(self, ended):
        """How a run ended. A program that makes a mistake ends otherwise."""
        return ended

    def run(self, which, **variables):
        """A run from the start, in which the allocations are refused that `which` names. It answers how it ended, what
        became of the child processes, how many allocations it made, and how many were refused."""
        name = f"{self.folder}/{next(NUMBERS)}"
        files = [f"{name}.{kind}" for kind in ("out", "err", "report", "each")]
        out, err, report, each = files
        told = environment(self.library, f"{HEAP}:{which}:ENOMEM", report=report, each=each, **variables)
        try:
            with open(self.replay, "rb") as lines, open(out, "wb") as output, open(err, "wb") as error:
                status = subprocess.run(self.way.words, stdin=lines, stdout=output, stderr=error, env=told,
                                        timeout=SECONDS).returncode
            printed = Path(out).read_bytes()
            found = [(it.number, Ended(printed[:it.written] + it.output, it.error, it.status)) for it in children(each)]
            rule = Report(report).rules[0]
            return Ended(printed, Path(err).read_bytes(), status), found, rule.made, rule.changed
        finally:
            for file in files:
                Path(file).unlink(missing_ok=True)

    def refuse(self, number):
        """How the run ends in which an allocation is refused, and how many were refused."""
        ended, _, _, changed = self.run(f"{number}{'+' if self.way.onward else ''}", MALLOC_PERTURB_="165")
        return self.altered(ended), changed

    def refuse_each(self, first, step):
        """The same for an allocation and each so far from the one before. The program itself ends first."""
        ended, found, _, changed = self.run(f"{first}/{step}{'+' if self.way.onward else ''}", **self.variables)
        return ended, changed, [(number, self.altered(it)) for number, it in found]

    def first_after_the_start(self, count):
        """An allocation at which the start is over: the one before it ends the start by a fault."""
        start, later = 1, count
        while later - start > 1:
            middle = (start + later) // 2
            outcome, _ = outcome_of(self.way, self.replay, self.refuse(middle)[0])
            if outcome is not None and outcome.kind == "started":
                start = middle
            else:
                later = middle
        return later


def without(lines, event):
    """The lines without an event: what is left if it is not sent once more."""
    return lines[:event] + lines[event + 1:]


def with_other_words(lines, event):
    """The lines with the words of the next event for an event: what it is sent once more with by mistake."""
    words = {"words": json.loads(lines[min(event + 1, len(lines) - 1)])["words"]}
    return lines[:event] + [json.dumps({**json.loads(lines[event]), **words}).encode()] + lines[event + 1:]


class Mistaken(Runs):
    """The runs of a program that makes a mistake where it sends a request once more."""

    def __init__(self, mistake, *arguments):
        super().__init__(*arguments)
        self.mistake = mistake

    def altered(self, ended):
        told = TOLD[self.way.store].fullmatch(ended.error)
        return ended._replace(output=self.output(int(told[1]))) if told else ended

    @functools.cache
    def output(self, event):
        """What the program prints that made the mistake at an event."""
        lines = b"\n".join(self.mistake(self.replay.read_bytes().splitlines(), event))
        return subprocess.run(self.way.words, input=lines, capture_output=True, check=True, timeout=SECONDS).stdout


FORGETFUL = Ended(b"", b"fault 1\n", 1)


class Forgetful(Runs):
    """The runs of a program that always answers that memory ran out."""

    def run(self, which, **variables):
        _, found, made, changed = super().run(which, **variables)
        return FORGETFUL, [(number, FORGETFUL) for number, _ in found], made, changed


MISTAKES = {("wrapped_reply_once", "sent once more as it is"): Runs,
            ("wrapped_reply_once", "not sent once more"): functools.partial(Mistaken, without),
            ("wrapped_reply_once", "sent with other words"): functools.partial(Mistaken, with_other_words),
            ("first_run", "never answered"): Forgetful}


class Judge:
    """Judges the outcomes of a way over a replay, by what each of them may be and by how many there are."""

    def __init__(self, tally, runs, count):
        self.expect, self.tell, self.runs, self.way, self.count = tally.expect, tally.tell, runs, runs.way, count
        self.name, self.events = runs.name, len(events_of(runs.replay))
        self.last = self.starts = 0  # starts: how many outcomes there were up to the last fault at the start
        self.kinds, self.faults, self.sent = (collections.Counter() for _ in range(3))

    def take(self, number, ended):
        """Judges what came of one run."""
        outcome, wrong = outcome_of(self.way, self.runs.replay, ended)
        if outcome is not None:
            self.kinds[outcome.kind] += 1
            self.faults.update([outcome.fault] if outcome.fault else [])
            self.sent.update([outcome.place] if outcome.kind == "again" else [])
            self.starts = sum(self.kinds.values()) if outcome.kind == "started" else self.starts
            wrong = self.wrong_place(outcome)
        self.expect(wrong is None, f"{self.name}: allocation {number}: {wrong}")

    def wrong_place(self, outcome):
        """What is wrong with the place of a fault: the later the allocation, the later the event."""
        if outcome.kind == "usual":
            return None
        if outcome.place < self.last:
            return f"a fault at {outcome.place}, though an earlier allocation led to one at {self.last}"
        self.last = outcome.place
        return None

    def end(self):
        """Judges how many outcomes of each kind there were, and tells them."""
        tried, store = sum(self.kinds.values()), self.way.store
        told = [f"{count} times fault {fault}" for fault, count in sorted(self.faults.items())]
        told += [f"{self.kinds[kind]} times {text}" for kind, text in KINDS.items() if self.kinds[kind]]
        self.tell(f"{self.name}: {self.count} allocations, {tried} refused: {', '.join(told)}")
        is_one_of_five, step = self.runs.replay.stem in FIVE, self.way.step
        for fault in FAULTS[store] if is_one_of_five or step <= DENSE else ():
            self.expect(self.faults[fault] > 0, f"{self.name}: no fault {fault}")
        if self.way.retries:
            sent, after = self.kinds["again"], tried - self.starts
            least = (ALLOCATIONS if is_one_of_five else ALLOCATIONS_OF_OTHERS)[store]
            self.expect((after + 1) * step > least * self.events,
                        f"{self.name}: {after} allocations of the events were refused")
            is_enough = 100 * sent >= SENT[store] * after or after - sent == 1
            self.expect(is_enough, f"{self.name}: sent once more in {sent} of {after} runs")
            for event in range(1, self.events + 1) if step == 1 or is_one_of_five and step <= DENSE else ():
                self.expect(self.sent[event] > 0, f"{self.name}: event {event} was never sent once more")


def refuse_all(tally, pool, runs, numbers):
    """How each run ends in which one of the allocations is refused."""
    usual, shards, found = usual_of(runs.replay)[0], os.cpu_count(), {}
    starts = range(numbers.start, numbers.start + shards * numbers.step, numbers.step)
    for ended, changed, forked in pool.map(lambda first: runs.refuse_each(first, shards * numbers.step), starts):
        tally.expect((ended, changed) == (usual, 0), f"{runs.name}: the program that is forked is not as usual")
        found.update(forked)
    is_each = sorted(found) == list(numbers)
    tally.expect(is_each, f"{runs.name}: {len(found)} allocations were refused in place of {len(numbers)}")
    return found


def check_sample(tally, runs, numbers, count, found):
    """Makes a sample of the runs from the start, and one in which an allocation is refused that there is not."""
    usual = usual_of(runs.replay)[0]
    for number in [*numbers[::max(1, len(numbers) // SAMPLE)], count + 1]:
        ended, changed = runs.refuse(number)
        is_same = ended == found.get(number, usual) and (changed > 0) == (number <= count)
        tally.expect(is_same and (changed < 2 or runs.way.onward),
                     f"{runs.name}: allocation {number}, from the start: {ended}, {changed} were refused")


def try_row(tally, pool, runs, has_start, shift=0):
    """Refuses the allocations of a replay, one after another, but for so many at the beginning. Without the start,
    those by which it may end are left out."""
    ended, _, count, changed = runs.run("0")
    is_usual = (ended, changed) == (usual_of(runs.replay)[0], 0)
    if not tally.expect(is_usual, f"{runs.name}: without refusal {outcome_of(runs.way, runs.replay, ended)}"):
        return
    first = 1 if has_start else runs.first_after_the_start(count)
    numbers = range(first + shift, count + 1, runs.way.step)
    found = refuse_all(tally, pool, runs, numbers)
    judge = Judge(tally, runs, count)
    for number in sorted(found):
        judge.take(number, found[number])
    judge.end()
    check_sample(tally, runs, numbers, count, found)


def wrong_in(pool, runs):
    """How much is found to be wrong with the runs of a row."""
    found = Tally(None)
    try_row(found, pool, runs, False)
    return found.failed


def try_mistakes(tally, pool, library, folder, ways):
    """Each mistake has to be found by the runs of a row, and nothing without it."""
    for way in (way._replace(step=SPARSE) for way in ways):
        for (row, mistake), runs in MISTAKES.items():
            found = wrong_in(pool, runs(library, folder, way, ROWS / f"{row}.replay", {}))
            tally.expect((found > 0) == (runs is not Runs),
                         f"{row}, {way.name}: a request {mistake}: wrong {found} times")


def ways_of(brokerd, trial_stores, step):
    """The commands that are tried, and how."""
    each, seventh = (step, step) if step else (1, SEVENTH)
    return [Way("retry list", [trial_stores, "retry", "list"], "list", True, False, each),
            Way("retry sql", [trial_stores, "retry", "sql"], "sql", True, False, seventh),
            Way("list", [trial_stores, "list"], "list", False, False, each),
            Way("list, all later ones too", [trial_stores, "list"], "list", False, True, seventh),
            Way("replay", [brokerd, "replay"], "sql", False, False, each),
            Way("replay, all later ones too", [brokerd, "replay"], "sql", False, True, seventh)]


def main():
    parser = argparse.ArgumentParser(description="refuses memory to rows, one allocation after another")
    parser.add_argument("--all", nargs="?", type=int, const=1, default=0, metavar="STEP")
    parser.add_argument("--minutes", type=float)
    parser.add_argument("--seed")
    parser.add_argument("brokerd", type=os.path.abspath)
    parser.add_argument("trial_stores", type=os.path.abspath)
    arguments = parser.parse_args()
    replays = [ROWS / f"{name}.replay" for name in FIVE]
    if arguments.all:
        replays = [*sorted(ROWS.glob("*.replay")), HERE / "tree_revoked.replay"]
    draw = random.Random(arguments.seed)
    if arguments.seed:
        draw.shuffle(replays)
    until = None if arguments.minutes is None else time.monotonic() + 60 * arguments.minutes
    tried, tally = 0, Tally("refused, rows")
    variables = {"MALLOC_PERTURB_": "165"} if arguments.all else {}
    with scratch() as folder, concurrent.futures.ThreadPoolExecutor(os.cpu_count()) as pool:
        library = build(folder)
        ways = ways_of(arguments.brokerd, arguments.trial_stores, arguments.all)
        for replay in replays:
            if until is not None and tried >= len(FIVE) and time.monotonic() > until:
                break
            tried += 1
            for way in ways:
                if not way.retries or is_whole(replay):
                    has_start = arguments.all or not way.retries or replay.stem == FIVE[0]
                    shift = draw.randrange(way.step) if arguments.seed else 0
                    try_row(tally, pool, Runs(library, folder, way, replay, variables), has_start, shift)
        try_mistakes(tally, pool, library, folder, [way for way in ways if way.retries])
    tally.tell(f"{tried} of {len(replays)} rows, each {arguments.all or 1}. allocation")
    return tally.end()


if __name__ == "__main__":
    sys.exit(main())
