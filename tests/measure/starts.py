#!/usr/bin/env python3
"""Measures the starts of `brokerd serve --db --unchecked` over many secrets and tokens, whose keys are of format 1.

    python3 starts.py PROGRAM.. --many MANY.. [--runs N] [--db FOLDER]

For each MANY a database gets the rows of MANY secrets of one version and as many tokens (many_rows.py), while no broker
runs. Each PROGRAM opens a copy twice: the first start rewrites the keys, unless the program does not know format 2; the
second finds what the first has left, which was stopped by SIGKILL. It is done N times (3 if not given), each program in
turn. FOLDER is that of other temporary files, if not given.

It prints for each MANY and PROGRAM the medians of the seconds until it listened, of the processor seconds among them,
and of the most memory that it had until then (VmHWM), in brackets the least and the greatest; the bytes of the database
and of its log after the first start; and how many keys are of which format in the end.
"""

import argparse
import contextlib
import os
import shutil
import sqlite3
import statistics
import sys
import tempfile
import time
from collections import namedtuple
from pathlib import Path

from load_serve import filled

sys.path.insert(0, str(Path(__file__).resolve().parent.parent / "served"))
from broker import Broker  # noqa: E402

FORMATS = "SELECT hex(substr(body, 1, 1)), count(*) FROM broker_rows WHERE kind = 8 GROUP BY 1"
Start = namedtuple("Start", "seconds processor memory")
Run = namedtuple("Run", "first second database log formats")


def most_memory(process):
    """The most memory that a process has had at once, in MB."""
    for line in Path(f"/proc/{process}/status").read_text(encoding="ascii").splitlines():
        if line.startswith("VmHWM:"):
            return int(line.split()[1]) / 1000
    raise SystemExit(f"the system does not tell the memory of {process}")


def start(program, file, token, *options):
    """One start, which is stopped once the program listens."""
    begin = time.monotonic()
    with Broker(program, "--db", file, *options, token=token) as broker:
        seconds = time.monotonic() - begin
        return Start(seconds, broker.processor(), most_memory(broker.process.pid))


def formats_in(file):
    """How many keys are of which format, in words."""
    with contextlib.closing(sqlite3.connect(file)) as database:
        return ", ".join(f"{count} of format {name}" for name, count in database.execute(FORMATS))


def run(program, source, token, _many, folder):
    """Two starts over a copy."""
    file = f"{folder}/broker.db"
    shutil.copyfile(source, file)
    first = start(program, file, token, "--unchecked")
    sizes = [os.stat(file + end).st_size for end in ("", "-wal")]
    second = start(program, file, token, "--unchecked")
    return Run(first, second, *sizes, formats_in(file))


def spread(values, digits):
    """A median, with the least and the greatest."""
    median, least, most = statistics.median(values), min(values), max(values)
    return f"{median:.{digits}f} ({least:.{digits}f} to {most:.{digits}f})"


def tell(program, many, runs):
    """Prints what the runs of a program came to."""
    print(f"{many} secrets and tokens, {program}, {len(runs)} runs:")
    for name in ("first", "second"):
        starts = [getattr(each, name) for each in runs]
        print(f"  {name} start: {spread([each.seconds for each in starts], 2)} s, of which the processor "
              f"{spread([each.processor for each in starts], 2)} s, {spread([each.memory for each in starts], 0)} MB")
    print(f"  after the first {runs[-1].database} bytes, and {runs[-1].log} in the log; in the end {runs[-1].formats}",
          flush=True)


def measure(programs, many, count, folder, run_of, tell_of):
    """All runs with so many secrets and tokens."""
    with tempfile.TemporaryDirectory(dir=folder) as own:
        source, token = filled(programs[0], own, many)
        runs = {program: [] for program in programs}
        for _ in range(count):
            for program in programs:
                with tempfile.TemporaryDirectory(dir=own) as place:
                    runs[program].append(run_of(program, source, token, many, place))
        for program in programs:
            tell_of(program, many, runs[program])


def main(what, run_of, tell_of):
    """Measures by the command line what `run_of` does in a folder of its own, and `tell_of` prints."""
    parser = argparse.ArgumentParser(description=f"measures {what}")
    parser.add_argument("programs", metavar="PROGRAM", nargs="+")
    parser.add_argument("--many", type=int, nargs="+", required=True)
    parser.add_argument("--runs", type=int, default=3)
    parser.add_argument("--db", default=tempfile.gettempdir())
    arguments = parser.parse_args()
    for many in arguments.many:
        measure(arguments.programs, many, arguments.runs, arguments.db, run_of, tell_of)


if __name__ == "__main__":
    main("the starts of brokerd serve", run, tell)
