#!/usr/bin/env python3
"""Checks that the stored outputs of the tests are what the reference broker makes for today's parts.

    python3 check.py

These are all rows of `tests/rows`, with their index; the outputs of all runs of `tests/differential`; and the replays
in `OTHER_REPLAYS`. In addition it checks the reference broker itself by its laws, over short random runs. It prints
what differs. The last line is `N passed, M failed`; the status is 0 if nothing failed.
"""

import pathlib
import sys

import check_laws
import make_rows
from broker.lines import replay
from broker.parts import TODAY

ROOT = pathlib.Path(__file__).resolve().parent.parent.parent
sys.path.append(str(ROOT / "tests/differential"))

import draw  # noqa: E402  the stored runs are in the folder beside this one

# Replays that are no rows: their lines and their replies.
OTHER_REPLAYS = (("crates/brokerd/stdin", "crates/brokerd/stdout"),
                 ("tests/hostile/tree_revoked.replay", "tests/hostile/tree_revoked.out"),
                 ("tests/restarts/twenty_keys.replay", "tests/restarts/twenty_keys.out"))
SEEDS, EVENTS = 1, 200  # of the random runs


def check_other_replays() -> tuple:
    """Compares the replies of the other replays. Returns how many passed and failed."""
    failed = 0
    for lines, out in OTHER_REPLAYS:
        replies, status, _ = replay((ROOT / lines).read_bytes(), TODAY)
        if status != 0 or b"".join(replies) != (ROOT / out).read_bytes():
            print(f"{out} is not what is made of {lines}")
            failed += 1
    return len(OTHER_REPLAYS) - failed, failed


def main() -> int:
    results = [make_rows.check(TODAY, []), check_other_replays(), draw.check_outputs(TODAY),
               check_laws.check_all(SEEDS, EVENTS)]
    passed, failed = (sum(counts) for counts in zip(*results))
    print(f"{passed} passed, {failed} failed")
    return 1 if failed else 0


if __name__ == "__main__":
    sys.exit(main())
