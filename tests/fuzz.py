#!/usr/bin/env python3
"""Sends changed requests to programs, which have to answer each run of them with the bytes of the reference broker.

    python3 tests/fuzz.py [--events N] [--minutes M] [--seed S] [--keep FOLDER] [COMMAND..]

Each COMMAND is called with the lines of a replay on its standard input; without one, `brokerd replay` and `trial_stores
list` are tried, which are built if need be. Real requests are changed (bits, bytes, slices of others, numbers at
limits, line ends, fields, targets, members and levels of bodies, what is UTF-8 and what is not), cut anywhere, and sent
on several connections. The same seed makes the same runs. With `--minutes` there is one round of N events after
another, each with a seed of its own, until the time is over.

Each status and each text of a refusal in docs/API.md has to be met, the latter at each route that names it; and of the
requests whose heads are changed, some so that they mean the same, three in ten have to be served. That is only asked of
25,000 events and more. A run on which a program differs is made short, printed, and written to the folder, which is
out/fuzz if not given. The last line is `N passed, M failed`; the status is 0 if nothing failed.
"""

import argparse
import concurrent.futures
import os
import shlex
import subprocess
import sys
import time
from collections import Counter
from pathlib import Path

from fuzzing import TOP
from fuzzing.events import Share, bytes_of
from fuzzing.promised import STATUSES, Promised
from fuzzing.shrinking import answers_of_reference, shorter

PROGRAMS = ("brokerd replay", "trial_stores list")
EVENTS = 25_000
ENOUGH = 25_000  # events that have to meet all that is listed
LENGTH = 130  # events of a run
SHARES = 4
SECONDS = 60  # for one run of a program
MOST_SHOWN = 3  # differences of a share that are made short
LONGEST_SHOWN = 4_000
LEAST_ASKED = 0.4  # of the changed requests are asked of the broker, and not refused before
LEAST_SERVED = 0.3  # of the requests whose heads are changed are served all the same
NUMBERS = ("events", "runs", "changed", "asking", "served", "heads", "served_heads")


class Found:
    """What was met and what differed, in a share or in all."""

    def __init__(self):
        for name in NUMBERS:
            setattr(self, name, 0)
        self.statuses = Counter()
        self.kinds, self.refusals, self.texts = set(), set(), set()
        self.differences = []

    def take(self, corpus):
        """Takes over what a corpus has noted."""
        self.changed, self.asking, self.served = corpus.changed, corpus.asking, corpus.served
        self.heads, self.served_heads = corpus.heads, corpus.served_heads
        self.statuses, self.kinds = corpus.statuses, corpus.kinds
        self.refusals, self.texts = corpus.refusals, corpus.texts

    def add(self, other):
        """Adds what another one found."""
        for name in NUMBERS:
            setattr(self, name, getattr(self, name) + getattr(other, name))
        self.statuses += other.statuses
        self.differences += other.differences
        for name in ("kinds", "refusals", "texts"):
            getattr(self, name).update(getattr(other, name))


def answers_of(command, lines):
    """What a program answers to lines: its output, its status, and its standard error."""
    try:
        done = subprocess.run(command, input=bytes_of(lines), capture_output=True, cwd=TOP, timeout=SECONDS)
    except subprocess.TimeoutExpired:
        return b"", None, f"it did not end in {SECONDS} seconds"
    return done.stdout, done.returncode, done.stderr.decode("utf-8", "replace").strip()


def told(command, lines):
    """One line on how a program differs from the reference broker."""
    wanted, found = answers_of_reference(lines), answers_of(command, lines)
    if wanted[1:] != found[1:]:
        return f"status {found[1]} and {found[2][:200]!r} in place of status {wanted[1]} and {wanted[2]!r}"
    place = len(os.path.commonprefix([wanted[0], found[0]]))
    begin = max(0, place - 60)
    return f"at byte {place} {found[0][begin:place + 60]!r} in place of {wanted[0][begin:place + 60]!r}"


def shown(command, name, run, keep, is_short):
    """What is said of a difference. The run is made short, and kept in the folder."""
    lines = run.lines()
    if is_short:
        lines = shorter(lines, lambda fewer: answers_of(command, fewer) != answers_of_reference(fewer))
    keep.mkdir(parents=True, exist_ok=True)
    file = keep / f"{name}-{Path(command[0]).name}.replay"
    file.write_bytes(bytes_of(lines))
    text = bytes_of(lines).decode("utf-8")
    excerpt = text if is_short and len(text) < LONGEST_SHOWN else ""
    return f"run {name}, {' '.join(command)}: {told(command, lines)}; the replay is {file}\n{excerpt}"


def built(program, *words):
    """The command of a program of the repository, which is built if need be."""
    if subprocess.run([TOP / "bin/run-program", "--build", program]).returncode != 0:
        print(f"{program} cannot be built\n0 passed, 1 failed")
        sys.exit(1)
    return [str(TOP / f"crates/{program}/out/{program}"), *words]


def try_share(seed, number, events, commands, keep):
    """Makes the runs of a share, and compares the programs on each."""
    share, found = Share(seed, number, SHARES), Found()
    for name, run in share.runs(events, LENGTH):
        found.events += len(run.events)
        found.runs += 1
        wanted = (b"".join(run.replies), 0, "")
        for command in commands:
            if answers_of(command, run.lines()) != wanted:
                is_short = len(found.differences) < MOST_SHOWN
                found.differences.append(shown(command, name, run, keep, is_short))
    found.take(share.corpus)
    return found


def try_round(seed, events, commands, keep, pool):
    """All shares of a seed."""
    found = Found()
    shares = [pool.submit(try_share, seed, number, events // SHARES, commands, keep) for number in range(SHARES)]
    for share in shares:
        found.add(share.result())
    return found


def judge(found):
    """What the events should have met and did not, as lines; and how many things they had to meet."""
    promised = Promised()
    missing = [f"status {status} is not met" for status in sorted(STATUSES - set(found.statuses))]
    missing += [f"`{text}` is not met" for text in sorted(promised.texts - found.texts)]
    missing += [f"{route}: `{text}` is not met" for route, text in sorted(promised.refusals - found.refusals)]
    if found.asking < LEAST_ASKED * found.changed:
        missing.append(f"only {found.asking} of {found.changed} changed requests are asked of the broker")
    if found.served_heads < LEAST_SERVED * found.heads:
        missing.append(f"only {found.served_heads} of {found.heads} requests with changed heads are served")
    return missing, len(STATUSES) + len(promised.texts) + len(promised.refusals) + 2


def main():
    parser = argparse.ArgumentParser(description="sends changed requests to programs")
    parser.add_argument("--events", type=int, default=EVENTS)
    parser.add_argument("--minutes", type=float, default=0.0)
    parser.add_argument("--seed", default="1")
    parser.add_argument("--keep", type=Path, default=TOP / "out/fuzz")
    parser.add_argument("commands", nargs="*", metavar="COMMAND")
    arguments = parser.parse_args()
    commands = [shlex.split(command) for command in arguments.commands] or [built(*it.split()) for it in PROGRAMS]
    until = time.monotonic() + 60 * arguments.minutes
    found, rounds = Found(), 0
    with concurrent.futures.ProcessPoolExecutor(min(SHARES, os.cpu_count())) as pool:
        while rounds == 0 or time.monotonic() < until:
            seed = arguments.seed if rounds == 0 else f"{arguments.seed}.{rounds}"
            made = try_round(seed, arguments.events, commands, arguments.keep.resolve(), pool)
            for difference in made.differences:
                print(difference, flush=True)
            found.add(made)
            rounds += 1
    missing, wanted = judge(found) if found.events >= ENOUGH else ([], 0)
    for line in missing:
        print(line)
    statuses = ", ".join(f"{status} {count}" for status, count in sorted(found.statuses.items()))
    print(f"{found.events} events in {found.runs} runs, seed {arguments.seed}: {sum(found.statuses.values())} replies "
          f"of {len(found.kinds)} kinds ({statuses}); of {found.changed} changed requests {found.asking} were asked of "
          f"the broker, and {found.served} were served; of {found.heads} with changed heads {found.served_heads} were "
          f"served; {len(found.differences)} differences")
    passed = len(commands) * found.runs - len(found.differences) + wanted - len(missing)
    failed = len(found.differences) + len(missing)
    print(f"{passed} passed, {failed} failed")
    return 1 if failed else 0


if __name__ == "__main__":
    sys.exit(main())
