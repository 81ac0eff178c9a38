#!/usr/bin/env python3
"""Counts the instructions that requests cost a running `brokerd serve`, by callgrind, under many secrets and tokens.

    python3 instructions_serve.py PROGRAM MANY REQUESTS [--db [FOLDER]] [--kinds KIND..] [--caller policies]

The kinds are those of instructions.py, and `look_up`, `wrap`, `unwrap` and `list` of load_serve.py. The rows and --db
are as there, and the caller is root, or else that of instructions.py with its policies. No instructions are counted
until the rows are there; then those of REQUESTS requests of each kind, one kind after the other, and with them those of
one look-up of the root token by itself, which is the first request of each connection. It prints what one of them
costs.
"""

import argparse
import json
import os
import re
import subprocess
import sys
import tempfile
from pathlib import Path

import many_rows

sys.path.insert(0, str(Path(__file__).resolve().parent.parent / "served"))
from broker import Broker, connect, reply, request  # noqa: E402
from instructions import KINDS, POLICIES, by, policy  # noqa: E402
from load_serve import Asked, filled, token_in  # noqa: E402

ALL_KINDS = ["read", "look_up_self", "look_up", "write", "create", "wrap", "unwrap", "list"]


class Counted(Asked):
    """Requests by root, or by a token that has the policies."""

    def __init__(self, broker, tokens, caller):
        super().__init__(broker, tokens)
        self.caller = caller

    def request(self, kind, number):
        if kind in KINDS:
            return by(self.caller, KINDS[kind](number)).encode()
        return super().request(kind, number)


def caller_with_policies(broker):
    """The text of a token that has the policies, which are set too."""
    for place, name in enumerate(POLICIES):
        broker.ask("PUT", f"sys/policies/acl/{name}", json.dumps({"policy": policy(place)}))
    body = json.dumps({"policies": POLICIES, "no_default_policy": True})
    with connect(broker.port) as connection:
        connection.sendall(request("POST", "auth/token/create", broker.token, body))
        return token_in(reply(connection)[1])


def counted_program(folder, program):
    """A program that runs the other one under callgrind."""
    script = Path(folder) / "counted"
    script.write_text("#!/bin/sh\nexec valgrind --tool=callgrind --instr-atstart=no "
                      f'--callgrind-out-file={folder}/counts "{program}" "$@"\n', encoding="utf8")
    script.chmod(0o755)
    return str(script)


def control(process, *words):
    """Has callgrind do something in a process."""
    subprocess.run(["callgrind_control", *words, str(process)], check=True, capture_output=True)


def dumped(folder, place):
    """The instructions of a dump, counted from 1."""
    text = Path(f"{folder}/counts.{place}").read_text(encoding="utf8")
    return int(re.search(r"^(?:totals|summary): (\d+)", text, re.M)[1])


def tell_kinds(folder, broker, tokens, arguments):
    """Counts the requests of each kind, and prints what one costs."""
    caller = caller_with_policies(broker) if arguments.caller == "policies" else broker.token
    asking, process, many = Counted(broker, tokens, caller), broker.process.pid, arguments.many
    control(process, "-i", "on")
    for place, kind in enumerate(arguments.kinds, start=1):
        count = min(arguments.requests, many) if kind in ("write", "unwrap") else arguments.requests
        numbers = [number * 7919 % many for number in range(count)]
        asking.prepare(kind, numbers)
        # What callgrind is told interrupts a connection, and each kind has its own.
        control(process, "-z")
        asking.send(kind, numbers)
        control(process, "-d")
        cost = dumped(folder, place) / len(numbers) / 1e6
        print(f"{many} secrets and tokens, {arguments.caller}, {kind}: {cost:.3f} million instructions each, "
              f"of {count} requests", flush=True)


def main():
    parser = argparse.ArgumentParser(description="counts the instructions of requests to brokerd serve")
    parser.add_argument("program", type=os.path.abspath)
    parser.add_argument("many", type=int)
    parser.add_argument("requests", type=int)
    parser.add_argument("--kinds", choices=ALL_KINDS, nargs="+", default=list(KINDS))
    parser.add_argument("--caller", choices=["root", "policies"], default="root")
    parser.add_argument("--db", nargs="?", const=tempfile.gettempdir())
    arguments = parser.parse_args()
    many = arguments.many
    with tempfile.TemporaryDirectory(dir=arguments.db) as folder:
        program = counted_program(folder, arguments.program)
        if arguments.db:
            file, root = filled(arguments.program, folder, many)
            tokens = [many_rows.token_of(place) for place in range(many)]
            with Broker(program, "--db", file, token=root) as broker:
                tell_kinds(folder, broker, tokens, arguments)
        else:
            with Broker(program) as broker:
                made, _, _ = Asked(broker, []).send("create", range(many))
                Asked(broker, []).send("write", range(many))
                tokens = [token_in(body) for body in made]
                tell_kinds(folder, broker, tokens, arguments)


if __name__ == "__main__":
    main()
