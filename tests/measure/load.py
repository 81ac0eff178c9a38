#!/usr/bin/env python3
"""Measures replays under many secrets and tokens, and prints the replays for it.

    python3 load.py lines KIND MANY REQUESTS            # writes a replay to standard output
    python3 load.py measure PROGRAM WORD MANY REQUESTS [--kinds KIND..] [--runs N]

KIND is `read`, `write` (of secrets), `create` or `look_up` (of tokens). A replay makes MANY tokens and as many
secrets by requests of the root token, and then asks REQUESTS times, all on one connection: `read` and `look_up` for one
of them, spread over all; `write` writes one more version of one; `create` makes one more. There are at most MANY writes
and creations, so that no secret has more than two versions. Nothing ends meanwhile.

`measure` calls PROGRAM, a built program itself, as `PROGRAM WORD` without the requests and with those of each kind, N
times each by turns (3 if not given): `brokerd replay`, or `trial_stores list` or `trial_stores sql`, over one store or
the other. It prints the medians of the user time, and what their difference is for one request; in brackets the least
and the greatest difference of one turn.
"""

import argparse
import json
import os
import statistics
import subprocess
import sys
import tempfile

MOMENT = 1700000000
STEP = 16  # of the first words of two events, where they are counted up
SPREAD = 0x9E3779B97F4A7C15F39CC0605CEDC83  # odd, so that the first words of events differ, and are in no order


def identifier(word):
    """The 36 characters that the identifier of a word is."""
    digits = f"{word:032x}"
    return "-".join((digits[:8], digits[8:12], digits[12:16], digits[16:20], digits[20:]))


def first_word(event):
    """The first word of an event; the start is event 0. The words of two events are at least 16 apart."""
    return event * SPREAD % 2**124 * 16


def token(event):
    """The text of the token that an event makes."""
    return "hvs." + identifier(first_word(event) + 1)


def request(method, path, body=None):
    """The text of a request of the root token."""
    text = "" if body is None else json.dumps(body, separators=(",", ":"))
    length = "" if body is None else f"Content-Length: {len(text)}\r\n"
    return f"{method} /v1/{path} HTTP/1.1\r\nHost: b\r\nX-Vault-Token: {token(0)}\r\n{length}\r\n{text}"


def write(number):
    """A write of the secret of a number."""
    return request("POST", f"secret/data/team/key{number:06}", {"data": {"password": "correct horse"}})


def creation(_):
    """A creation of a token."""
    return request("POST", "auth/token/create", {"policies": ["default"]})


def read(number):
    """A read of the secret of a number."""
    return request("GET", f"secret/data/team/key{number:06}")


def look_up(number):
    """A look-up of the token of a number; the tokens are made first."""
    return request("POST", "auth/token/lookup", {"token": token(number + 1)})


KINDS = {"read": read, "look_up": look_up, "write": write, "create": creation}


def asked(kind, many, requests):
    """How many requests of a kind are sent: of those that add rows no more than there are secrets or tokens."""
    return requests if kind in ("read", "look_up", "list") else min(requests, many)


def lines(kind, many, requests):
    """The lines of a replay."""
    texts = [creation(n) for n in range(many)] + [write(n) for n in range(many)]
    texts += [KINDS[kind](n * 7919 % many) for n in range(requests)]
    yield {"moment": MOMENT, "words": f"{first_word(0):032x}"}
    for event, text in enumerate(texts, start=1):
        yield {"conn": 1, "moment": MOMENT, "words": f"{first_word(event):032x}", "piece": text}


def replay(kind, many, requests):
    """The bytes of a replay."""
    return "".join(json.dumps(line, separators=(",", ":")) + "\n" for line in lines(kind, many, requests)).encode()


def used(command, data):
    """The user seconds of a run, in which each request has to be answered 200."""
    with tempfile.TemporaryFile() as stdin, tempfile.TemporaryFile() as stdout:
        stdin.write(data)
        stdin.seek(0)
        child = subprocess.Popen(command, stdin=stdin, stdout=stdout)
        _, status, usage = os.wait4(child.pid, 0)
        stdout.seek(0)
        replies = stdout.read().count(b"HTTP/1.1 200 OK\r\n")
    if status != 0 or replies != data.count(b"\n") - 1:
        raise SystemExit(f"status {status}, and {replies} replies are 200")
    return usage.ru_utime


def measure(command, kinds, many, requests, runs):
    """Prints what the requests took."""
    counts = {kind: asked(kind, many, requests) for kind in kinds}
    inputs = [replay(kinds[0], many, 0)] + [replay(kind, many, counts[kind]) for kind in kinds]
    found = [[used(command, data) for data in inputs] for _ in range(runs)]
    before = statistics.median(run[0] for run in found)
    print(f"{many} secrets and tokens, {runs} runs: {before:.2f} s without requests")
    for place, kind in enumerate(kinds, start=1):
        each = [(run[place] - run[0]) / counts[kind] * 1000 for run in found]
        middle = (statistics.median(run[place] for run in found) - before) / counts[kind] * 1000
        print(f"{kind}: {counts[kind]} requests, {middle:.3f} ms each ({min(each):.3f} to {max(each):.3f}), "
              f"{1000 / middle if middle > 0 else 0:.0f} a second", flush=True)


def main():
    parser = argparse.ArgumentParser(description="measures replays under many secrets and tokens")
    commands = parser.add_subparsers(dest="command", required=True)
    printing = commands.add_parser("lines")
    printing.add_argument("kind", choices=KINDS)
    measuring = commands.add_parser("measure")
    measuring.add_argument("program")
    measuring.add_argument("word", choices=["replay", "list", "sql"])
    for command in (printing, measuring):
        command.add_argument("many", type=int)
        command.add_argument("requests", type=int)
    measuring.add_argument("--kinds", choices=KINDS, nargs="+", default=list(KINDS))
    measuring.add_argument("--runs", type=int, default=3)
    arguments = parser.parse_args()
    if arguments.command == "lines":
        sys.stdout.buffer.write(replay(arguments.kind, arguments.many, arguments.requests))
    else:
        command = [os.path.abspath(arguments.program), arguments.word]
        measure(command, arguments.kinds, arguments.many, arguments.requests, arguments.runs)


if __name__ == "__main__":
    main()
