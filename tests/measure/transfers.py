#!/usr/bin/env python3
"""Measures `brokerd export`, `brokerd import` and `import --salvage` beside `brokerd check`, over many secrets and
tokens.

    python3 transfers.py PROGRAM.. --many MANY.. [--runs N] [--db FOLDER]

For each MANY a database gets the rows of MANY secrets of one version and as many tokens (many_rows.py), while no broker
runs. Each PROGRAM checks a copy and exports it; imports what it wrote; and salvages the same without the lines of every
hundredth accessor, so that as many tokens are left out. Then both new databases are checked. It is done N times (3 if
not given), each program in turn. FOLDER is that of other temporary files, if not given.

It prints for each MANY and PROGRAM, of each step, the medians of the seconds until it ended, of the processor seconds
among them, and of the most memory that it had, in brackets the least and the greatest; and how many times the processor
seconds and the memory of the first check these are.
"""

import hashlib
import json
import os
import shutil
import statistics
import subprocess
import time

from checks import check
from many_rows import accessor_of
from starts import Start, main, spread

STEPS = ("a check", "an export", "an import", "a check of what it made", "an import --salvage",
         "a check of what that made")
EACH = 100  # of so many accessors one is lacking where rows are salvaged


def timed(words, given=None, written=None):
    """A run that has to succeed, with standard input from one file and standard output to another."""
    begin = time.monotonic()
    with open(given or os.devnull, "rb") as source, open(written or os.devnull, "wb") as sink:
        process = subprocess.Popen(words, stdin=source, stdout=sink, stderr=subprocess.PIPE)
        said = process.stderr.read().decode()
        _, status, usage = os.wait4(process.pid, 0)
        process.returncode = os.waitstatus_to_exitcode(status)
        process.stderr.close()
    seconds = time.monotonic() - begin
    if process.returncode:
        raise SystemExit(f"{words}: status {process.returncode}: {said}")
    return Start(seconds, usage.ru_utime + usage.ru_stime, usage.ru_maxrss / 1000)


def write_without(source, target, many):
    """Writes a file of rows without the lines of some accessors, and answers how many."""
    lacking = {accessor_of(place) for place in range(EACH - 1, many, EACH)}
    with open(source, "rb") as file:
        head, *lines, _ = file.read().splitlines(keepends=True)
    kept = [line for line in lines if b'"kind":"accessor"' not in line or json.loads(line)["key"] not in lacking]
    whole = head.replace(f'"rows":{len(lines)},'.encode(), f'"rows":{len(kept)},'.encode()) + b"".join(kept)
    with open(target, "wb") as file:
        file.write(whole + b'{"sha256":"%s"}\n' % hashlib.sha256(whole).hexdigest().encode())
    return len(lacking)


def run(program, source, _token, many, folder):
    """All steps, in turn, over a copy."""
    file, rows, broken, new, mended = (f"{folder}/{name}" for name in ("broker.db", "rows", "broken", "new", "mended"))
    shutil.copyfile(source, file)
    checked = check(program, file, many)
    exported = timed([program, "export", "--db", file], written=rows)
    imported = timed([program, "import", "--db", new], given=rows)
    checked_again = check(program, new, many)
    lacking = write_without(rows, broken, many)
    salvaged = timed([program, "import", "--salvage", "--db", mended], given=broken)
    return checked, exported, imported, checked_again, salvaged, check(program, mended, many - lacking)


def tell(program, many, runs):
    """Prints what the runs of a program came to."""
    print(f"{many} secrets and tokens, {program}, {len(runs)} runs:")
    first = [statistics.median(values) for values in zip(*(each[0] for each in runs))]
    for step, found in zip(STEPS, zip(*runs)):
        seconds, processor, memory = zip(*found)
        times = statistics.median(processor) / first[1], statistics.median(memory) / first[2]
        print(f"  {step}: {spread(seconds, 2)} s, of which the processor {spread(processor, 2)} s, "
              f"{spread(memory, 0)} MB: {times[0]:.2f} times the processor time of the first check, {times[1]:.2f} "
              "times its memory", flush=True)


if __name__ == "__main__":
    main("brokerd export and import", run, tell)
