#!/usr/bin/env python3
"""Tries the disk of `brokerd serve --db`, by the program itself.

    python3 tests/disk/run.py PROGRAM [--hours H] [--seed S] [PART...]

The parts are `kept`, `checked`, `maintained`, `transferred`, `salvaged`, `calls`, `images`, `full`, `changed` and
`kills`; README.md beside this says what each does. Without `--hours` each is tried once, by a fixed seed, in 120
seconds of processor time together, and in a third of that on four processors. With it all are tried again and again
with seeds that follow from the first one: each tear and more mixes of the images, images of the recovery of images,
limits of all lengths, small disks, further requests, changes and kills. Each part tells what it met. The last line is
`N passed, M failed`; the status is 0 if nothing failed.
"""

import argparse
import os
import random
import sys
import time
from collections import Counter
from pathlib import Path

TESTS = Path(__file__).resolve().parent.parent
sys.path += [str(TESTS), *(str(TESTS / name) for name in ("reference", "differential", "hostile", "known_system"))]

from calls import try_calls  # noqa: E402
from changed import try_changes  # noqa: E402
from checked import try_checked  # noqa: E402
from full import try_disks, try_full  # noqa: E402
from images import try_images, try_recoveries  # noqa: E402
from kept import try_kept  # noqa: E402
from kills import try_kills  # noqa: E402
from maintained import try_maintained  # noqa: E402
from salvaged import try_salvaged  # noqa: E402
from transferred import try_transferred  # noqa: E402
from trial import Trial, temporary_folder  # noqa: E402

GATE = {
    "kept": try_kept,
    "checked": try_checked,
    "maintained": try_maintained,
    "transferred": try_transferred,
    "salvaged": try_salvaged,
    "calls": try_calls,
    "images": try_images,
    "full": try_full,
    "changed": try_changes,
    "kills": lambda trial, jobs: try_kills(trial),
}


def hour_parts(trial, jobs, draw):
    """One round beside the gate: small parts, so that it ends in time."""
    seed = draw.getrandbits(32)
    yield "kept", lambda: try_kept(trial, jobs, seed, 5000, is_gate=False)
    yield "changed", lambda: try_changes(trial, jobs, seed, 2000, is_gate=False)
    yield "salvaged", lambda: try_salvaged(trial, jobs, seed, 500, is_gate=False)
    yield "images", lambda: try_images(trial, jobs, seed, is_all=True)
    yield "recoveries", lambda: try_recoveries(trial, jobs, seed, 100)
    yield "full", lambda: try_full(trial, jobs, seed, draw.randrange(512, 4096))
    yield "small disks", lambda: try_disks(trial, jobs, seed, 20)
    yield "kills", lambda: try_kills(trial, seed, 20, is_gate=False)
    yield "calls", lambda: try_calls(trial, jobs, seed, 300, is_gate=False)


class Sum:
    """What all parts came to."""

    def __init__(self):
        self.passed = self.failed = 0
        self.counts = {}

    def add(self, name, tally, seconds):
        """Adds a part, and tells what it met."""
        self.passed += tally.passed
        self.failed += tally.failed
        counts = self.counts.setdefault(name, Counter())
        for what, count in tally.counts.items():
            counts[what] = max(counts[what], count) if what.endswith("at most") else counts[what] + count
        print(f"{name}, {seconds:.1f} s: {tally.told()}", flush=True)


def try_hours(trial, jobs, seed, hours, parts):
    """Rounds until the time is over."""
    end, found, draw = time.monotonic() + 3600 * hours, Sum(), random.Random(seed)
    while True:
        wanted = [each for each in hour_parts(trial, jobs, draw) if not parts or each[0] in parts]
        draw.shuffle(wanted)  # so that each part has its turn, however short the time is
        for name, part in wanted:
            began = time.monotonic()
            if began > end:
                return found
            found.add(name, part(), time.monotonic() - began)


def try_once(trial, jobs, parts):
    """Each part once."""
    found = Sum()
    for name, part in GATE.items():
        if not parts or name in parts:
            began = time.monotonic()
            found.add(name, part(trial, jobs), time.monotonic() - began)
    return found


def main():
    parser = argparse.ArgumentParser(description="tries the disk of `brokerd serve --db`")
    parser.add_argument("program")
    parser.add_argument("parts", nargs="*", metavar="PART")
    parser.add_argument("--hours", type=float)
    parser.add_argument("--seed", type=int, default=1)
    parser.add_argument("--jobs", type=int, default=os.cpu_count())
    arguments = parser.parse_intermixed_args()
    if not {*arguments.parts} <= {*GATE, *(("recoveries", "small disks") if arguments.hours is not None else ())}:
        parser.error(f"a part is none: {' '.join(arguments.parts)}")
    with temporary_folder() as folder:
        trial = Trial(arguments.program, folder)
        if arguments.hours is None:
            found = try_once(trial, arguments.jobs, arguments.parts)
        else:
            began = time.monotonic()
            found = try_hours(trial, arguments.jobs, arguments.seed, arguments.hours, arguments.parts)
            print(f"{(time.monotonic() - began) / 60:.0f} minutes; " + "; ".join(
                f"{name}: " + ", ".join(f"{count} {what}" for what, count in counts.items())
                for name, counts in found.counts.items()))
    print(f"{found.passed} passed, {found.failed} failed")
    return 1 if found.failed else 0


if __name__ == "__main__":
    sys.exit(main())
