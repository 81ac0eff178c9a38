#!/usr/bin/env python3
"""Measures the statements of requests over the C library of SQLite: what the database costs without a broker.

    python3 sqlite_requests.py PROGRAM MANY REQUESTS [--folder FOLDER | --memory] [--kinds KIND..] [--runs N]

PROGRAM is `brokerd`, which makes the database; many_rows.py writes MANY secrets and tokens into it. sqlite_requests.c
is compiled (cc, libsqlite3-dev) and makes the statements of REQUESTS requests of each kind, over a copy of the file in
FOLDER or in memory, N times by turns (3 if not given). It prints what load_serve.py prints, whose rows and requests
these are.
"""

import argparse
import shutil
import subprocess
import sys
import tempfile
from pathlib import Path

HERE = Path(__file__).resolve().parent
sys.path.insert(0, str(HERE.parent))
from load import KINDS, asked  # noqa: E402
from load_serve import filled, told  # noqa: E402


def compiled(folder):
    """The compiled program."""
    program = f"{folder}/sqlite_requests"
    source = str(HERE / "sqlite_requests.c")
    subprocess.run(["cc", "-O2", "-Wall", "-Wextra", "-o", program, source, "-lsqlite3"], check=True)
    return program


def run(program, source, kind, many, requests, in_memory):
    """The requests a second of one run, and the processor milliseconds of one."""
    count = asked(kind, many, requests)
    with tempfile.TemporaryDirectory(dir=Path(source).parent) as own:
        file = f"{own}/broker.db"
        shutil.copyfile(source, file)
        words = [program, file, kind, str(many), str(count), *(["memory"] if in_memory else [])]
        wall, used = map(float, subprocess.run(words, check=True, stdout=subprocess.PIPE).stdout.split())
    return count / wall, used / count * 1000


def main():
    parser = argparse.ArgumentParser(description="measures the statements of requests over the C library of SQLite")
    parser.add_argument("program")
    parser.add_argument("many", type=int)
    parser.add_argument("requests", type=int)
    parser.add_argument("--kinds", choices=KINDS, nargs="+", default=list(KINDS))
    parser.add_argument("--runs", type=int, default=3)
    parser.add_argument("--folder", default=tempfile.gettempdir())
    parser.add_argument("--memory", action="store_true")
    arguments = parser.parse_args()
    many, kinds = arguments.many, arguments.kinds
    with tempfile.TemporaryDirectory(dir=arguments.folder) as folder:
        source, _ = filled(arguments.program, folder, many)
        program = compiled(folder)
        runs = [[run(program, source, kind, many, arguments.requests, arguments.memory) for kind in kinds]
                for _ in range(arguments.runs)]
    where = "in memory" if arguments.memory else f"in a file in {arguments.folder}"
    print(f"{many} secrets and tokens, SQLite {where}, {arguments.runs} runs")
    for kind, found in zip(kinds, zip(*runs)):
        rates, used = zip(*found)
        print(told(kind, rates, used))


if __name__ == "__main__":
    main()
