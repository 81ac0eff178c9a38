#!/usr/bin/env python3
"""Measures `brokerd replay` on what one connection gets, and prints the replays for it.

    python3 connections.py lines KIND SIZE                    # writes a replay to standard output
    python3 connections.py measure PROGRAM KIND SIZE.. [--runs N]

The root token sends all requests. KIND says what comes on connection 1, and how SIZE counts:

- `writes`: SIZE writes of one object, each in an event of its own
- `pipelined`: SIZE such writes in one piece, then an empty piece for each
- `body`: one write with a body of SIZE bytes, in pieces of 100 bytes
- `line_ends`: SIZE bytes of CR LF, in pieces of 100 bytes
- `heads`: a head of SIZE bytes that does not end, in pieces of 100 bytes, on each of 100 connections
- `single_bytes`: such a head on one connection, in pieces of one byte

`measure` calls PROGRAM, the built program itself, as `PROGRAM replay`, for each SIZE by turns, N times (3 if not
given). It prints the median of the user time, and in brackets the least and the greatest. It ends with status 1 if a
reply is missing.
"""

import argparse
import json
import os
import statistics
import subprocess
import sys
import tempfile

from load import MOMENT, STEP, request

PIECE = 100  # bytes


def pieces(text, length=PIECE):
    """The text cut into pieces."""
    return [text[at:at + length] for at in range(0, len(text), length)]


def write(length=9):
    """A write of an object whose body has this length."""
    return request("PUT", "cubbyhole/a", {"k": "v" * (length - 8)})


def head(length):
    """The beginning of a head, without its end."""
    start = "GET /v1/cubbyhole/a HTTP/1.1\r\nHost: b\r\n"
    field = "X-Filler: " + "a" * 52 + "\r\n"
    return (start + field * (length // len(field) + 1))[:length]


# for each kind the pieces of a connection, the connections, and how many replies come on each
KINDS = {
    "writes": (lambda size: [write()] * size, 1, lambda size: size),
    "pipelined": (lambda size: [write() * size] + [""] * (size - 1), 1, lambda size: size),
    "body": (lambda size: pieces(write(size)), 1, lambda size: 1),
    "line_ends": (lambda size: pieces("\r\n" * (size // 2)), 1, lambda size: int(size >= 16384)),
    "heads": (lambda size: pieces(head(size)), 100, lambda size: int(size >= 16384)),
    "single_bytes": (lambda size: pieces(head(size), 1), 1, lambda size: int(size >= 16384)),
}


def lines(kind, size):
    """The lines of a replay."""
    made, connections, _ = KINDS[kind]
    yield {"moment": MOMENT, "words": f"{0:032x}"}
    event = 0
    for connection in range(1, connections + 1):
        for piece in made(size):
            event += 1
            yield {"conn": connection, "moment": MOMENT, "words": f"{event * STEP:032x}", "piece": piece}


def replay(kind, size):
    """The bytes of a replay."""
    return "".join(json.dumps(line, separators=(",", ":")) + "\n" for line in lines(kind, size)).encode()


def used(program, data, wanted):
    """The user seconds of a run, in which so many replies have to come."""
    with tempfile.TemporaryFile() as stdin, tempfile.TemporaryFile() as stdout:
        stdin.write(data)
        stdin.seek(0)
        child = subprocess.Popen([program, "replay"], stdin=stdin, stdout=stdout)
        _, status, usage = os.wait4(child.pid, 0)
        stdout.seek(0)
        replies = stdout.read().count(b"HTTP/1.1 ")
    if status != 0 or replies != wanted:
        raise SystemExit(f"status {status}, and {replies} replies in place of {wanted}")
    return usage.ru_utime


def measure(program, kind, sizes, runs):
    """Prints what the replays took."""
    _, connections, replies = KINDS[kind]
    inputs = [(replay(kind, size), connections * replies(size)) for size in sizes]
    found = [[used(program, data, wanted) for data, wanted in inputs] for _ in range(runs)]
    for size, times in zip(sizes, zip(*found)):
        print(f"{kind} {size}: {statistics.median(times):.3f} s ({min(times):.3f} to {max(times):.3f})", flush=True)


def main():
    parser = argparse.ArgumentParser(description="measures brokerd replay on what one connection gets")
    commands = parser.add_subparsers(dest="command", required=True)
    printing = commands.add_parser("lines")
    printing.add_argument("kind", choices=KINDS)
    printing.add_argument("size", type=int)
    measuring = commands.add_parser("measure")
    measuring.add_argument("program")
    measuring.add_argument("kind", choices=KINDS)
    measuring.add_argument("sizes", type=int, nargs="+")
    measuring.add_argument("--runs", type=int, default=3)
    arguments = parser.parse_args()
    if arguments.command == "lines":
        sys.stdout.buffer.write(replay(arguments.kind, arguments.size))
    else:
        measure(os.path.abspath(arguments.program), arguments.kind, arguments.sizes, arguments.runs)


if __name__ == "__main__":
    main()
