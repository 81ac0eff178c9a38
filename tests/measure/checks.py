#!/usr/bin/env python3
"""Measures `brokerd check`, and starts of `brokerd serve` with and without `--unchecked`, over many secrets and tokens.

    python3 checks.py PROGRAM.. --many MANY.. [--runs N] [--db FOLDER]

For each MANY a database gets the rows of MANY secrets of one version and as many tokens (many_rows.py), while no broker
runs. Each PROGRAM checks a copy, whose keys are of format 1, starts over it, which rewrites them, checks it again, and
starts with a check. It is done N times (3 if not given), each program in turn. FOLDER is that of other temporary files,
if not given.

It prints for each MANY and PROGRAM the medians of the seconds until the check ended, or the program listened, of the
processor seconds among them, and of the most memory that it had until then, in brackets the least and the greatest.
"""

import os
import shutil
import subprocess
import time

from starts import Start, main, spread, start

STEPS = ("a check of keys in format 1", "a start that rewrites them", "a check", "a start with a check")


def check(program, file, many):
    """One check, which has to find as many secrets and tokens, and the root token."""
    begin = time.monotonic()
    with subprocess.Popen([program, "check", "--db", file], stdout=subprocess.PIPE) as process:
        printed = process.stdout.read().decode()
        _, status, usage = os.wait4(process.pid, 0)
        process.returncode = os.waitstatus_to_exitcode(status)
    seconds = time.monotonic() - begin
    if process.returncode or not printed.startswith(f"{file}: ok, {many + 1} tokens, "):
        raise SystemExit(f"status {process.returncode}: {printed}")
    return Start(seconds, usage.ru_utime + usage.ru_stime, usage.ru_maxrss / 1000)


def run(program, source, token, many, folder):
    """All steps, in turn, over a copy."""
    file = f"{folder}/broker.db"
    shutil.copyfile(source, file)
    return (check(program, file, many), start(program, file, token, "--unchecked"), check(program, file, many),
            start(program, file, token))


def tell(program, many, runs):
    """Prints what the runs of a program came to."""
    print(f"{many} secrets and tokens, {program}, {len(runs)} runs:")
    for step, found in zip(STEPS, zip(*runs)):
        print(f"  {step}: {spread([each.seconds for each in found], 2)} s, of which the processor "
              f"{spread([each.processor for each in found], 2)} s, {spread([each.memory for each in found], 0)} MB",
              flush=True)


if __name__ == "__main__":
    main("brokerd check", run, tell)
