#!/usr/bin/env python3
"""Counts the instructions that requests cost a replay under many secrets and tokens, by callgrind.

    python3 instructions_marked.py PROGRAM MANY REQUESTS

The requests and the rows are those of load.py, of all of its kinds. Here no second run is taken off, since one with
many rows takes long: a debugger has callgrind begin when the rows are there, and write down what was counted after the
requests of each kind. It stops the program where it lists the names of policies, which requests ask for there, and in
no other place. What reads the lines and writes the replies is not counted. It needs `gdb`.
"""

import argparse
import os
import re
import subprocess
import tempfile
import time
from pathlib import Path

from instructions import replay
from load import KINDS, asked, creation, request, write

MARK = request("LIST", "sys/policies/acl")
STOPS = "policies::listing::names_of"


def texts(many, requests):
    """The requests that make the rows, and those of each kind, which come after a mark. The first two marks have none
    between them, so that they tell what a mark costs."""
    yield from (creation(number) for number in range(many))
    yield from (write(number) for number in range(many))
    yield MARK
    yield MARK
    for kind in KINDS:
        yield from (KINDS[kind](number * 7919 % many) for number in range(asked(kind, many, requests)))
        yield MARK


def orders(program, process):
    """What the debugger does."""
    yield from ("set pagination off", "set confirm off", f"file {program}", f"target remote | vgdb --pid={process}")
    yield from (f"break '{STOPS}'", "continue", "monitor instrumentation on")
    for _ in range(len(KINDS) + 1):
        yield from ("continue", "monitor dump")
    yield from ("delete", "monitor instrumentation off", "continue")


def counted(folder, program, data):
    """The instructions between the marks."""
    Path(folder, "lines").write_bytes(data)
    command = ["valgrind", "--tool=callgrind", "--instr-atstart=no", "--vgdb-error=0",
               f"--callgrind-out-file={folder}/counts", program, "replay"]
    with open(f"{folder}/lines", "rb") as lines, open(f"{folder}/replies", "wb") as replies:
        child = subprocess.Popen(command, stdin=lines, stdout=replies, stderr=subprocess.DEVNULL)
        time.sleep(5)  # until it waits for the debugger
        Path(folder, "orders").write_text("\n".join(orders(program, child.pid)) + "\n", encoding="utf8")
        subprocess.run(["gdb", "-nx", "-batch", "-x", f"{folder}/orders"], check=True, capture_output=True)
        status = child.wait()
    answered = Path(folder, "replies").read_bytes().count(b"HTTP/1.1 200 OK\r\n")
    if status != 0 or answered != data.count(b"\n") - 1:
        raise SystemExit(f"status {status}, and {answered} replies are 200")
    for place in range(1, len(KINDS) + 2):
        text = Path(folder, f"counts.{place}").read_text(encoding="utf8")
        yield int(re.search(r"^(?:totals|summary): (\d+)", text, re.M)[1])


def main():
    parser = argparse.ArgumentParser(description="counts the instructions of requests of a replay with many rows")
    parser.add_argument("program", type=os.path.abspath)
    parser.add_argument("many", type=int)
    parser.add_argument("requests", type=int)
    arguments = parser.parse_args()
    many, requests = arguments.many, arguments.requests
    with tempfile.TemporaryDirectory() as folder:
        mark, *costs = counted(folder, arguments.program, replay(texts(many, requests)))
    for kind, cost in zip(KINDS, costs):
        count = asked(kind, many, requests)
        print(f"{many} secrets and tokens, {kind}: {(cost - mark) / count / 1e6:.3f} million instructions each, "
              f"of {count} requests")


if __name__ == "__main__":
    main()
