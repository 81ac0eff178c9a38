#!/usr/bin/env python3
"""Runs a program on every stored run, and compares what it wrote and its status with what is stored.

    python3 run.py [--runs FILE] PROGRAM [NAME...]

The program is called as `PROGRAM replay` with the run's input on its standard input. With names, only
the runs whose names begin with one of them are tried; with `--runs`, those of a file that
`draw.py --answer` wrote are taken in place of the stored ones. The last line is `N passed, M failed`;
the status is 0 if nothing failed.
"""

import argparse
import base64
import concurrent.futures
import json
import os
import pathlib
import subprocess
import sys

STORED = [pathlib.Path(__file__).with_name(name) for name in ("runs.jsonl", "more_runs.jsonl")]
SECONDS = 60  # for one run
EXCERPT = 48  # bytes that are shown from where two outputs differ, and half as many before


def data_of(value):
    """The bytes of a stored text: as UTF-8, or given in base64."""
    if isinstance(value, str):
        return value.encode()
    return base64.b64decode(value["base64"])


def stored_runs(files, names):
    """The runs stored in files whose names begin with one of the names, or all."""
    lines = [line for file in files for line in file.read_bytes().splitlines()]
    runs = [json.loads(line) for line in lines]
    return [run for run in runs if not names or run["name"].startswith(tuple(names))]


def difference(what, expected, got):
    """One line that says where two outputs differ, or None if they are equal."""
    if expected == got:
        return None
    place = len(os.path.commonprefix([expected, got]))
    start = max(0, place - EXCERPT // 2)
    excerpts = [data[start:place + EXCERPT] for data in (expected, got)]
    return f"{what} differs at byte {place}: expected {excerpts[0]!r}, got {excerpts[1]!r}"


def differences(program, run):
    """How the program differs on a run: a list of lines, empty if it does not."""
    try:
        done = subprocess.run([program, "replay"], input=data_of(run["stdin"]), capture_output=True, timeout=SECONDS)
    except subprocess.TimeoutExpired:
        return [f"it did not end in {SECONDS} seconds"]
    found = [difference("stdout", data_of(run["stdout"]), done.stdout),
             difference("stderr", data_of(run["stderr"]), done.stderr)]
    if done.returncode != run["status"]:
        found.append(f"the status is {done.returncode}, expected {run['status']}")
    return [line for line in found if line is not None]


def try_all(program, runs):
    """The runs, each with how the program differs on it.

    It is called once before, without a line: `bin/brokerd` builds itself if that was not done.
    """
    subprocess.run([program, "replay"], stdin=subprocess.DEVNULL, capture_output=True)
    with concurrent.futures.ThreadPoolExecutor(os.cpu_count()) as pool:
        yield from zip(runs, pool.map(lambda run: differences(program, run), runs))


def main():
    parser = argparse.ArgumentParser(description="compares a program with the stored runs")
    parser.add_argument("--runs", type=pathlib.Path, metavar="FILE", help="take the runs of a file")
    parser.add_argument("program")
    parser.add_argument("names", nargs="*", metavar="NAME")
    arguments = parser.parse_args()
    program = os.path.abspath(arguments.program)
    runs = stored_runs([arguments.runs] if arguments.runs else STORED, arguments.names)
    if not runs or not os.access(program, os.X_OK):
        print("no such run" if not runs else f"no program {program}", file=sys.stderr)
        print("0 passed, 1 failed")
        return 1
    failed = 0
    for run, found in try_all(program, runs):
        failed += bool(found)
        for line in found:
            print(f"{run['name']}: {line}", flush=True)
    print(f"{len(runs) - failed} passed, {failed} failed")
    return 1 if failed else 0


if __name__ == "__main__":
    sys.exit(main())
