#!/usr/bin/env python3
"""Measures requests to a running `brokerd serve` on one connection over the loopback, under many secrets and tokens.

    python3 load_serve.py PROGRAM MANY.. REQUESTS [--db [FOLDER]] [--kinds KIND..] [--runs N]

KIND is `read`, `write` (of secrets), `create` or `look_up` (of tokens), `wrap` (of a read of a secret), `unwrap`, or
`list`: of the folder that has all secrets in another one, and so one name. It is measured only if it is named. The
broker has MANY secrets of one version, and as many tokens. Then REQUESTS requests of each kind are sent on one
connection, each when the reply to the one before is there, and each reply has to be 200; `read`, `write`, `look_up` and
`wrap` spread over all. What `unwrap` opens is wrapped before it is measured. There are at most MANY of each kind that
adds rows, or takes some out, so that no secret has more than two versions. It is done N times (3 if not given), each
with a broker of its own; and for each MANY, if there are several.

With --db the broker is in a file, in a folder of its own, which is made in FOLDER (that of other temporary files, if
not given). The rows are written into the file while no broker runs (many_rows.py), and each run has a copy. In memory
requests make them, for each run.

It prints for each kind the median of the requests a second, in brackets the least and the greatest, and the median of
the processor time that the program took for a request; and how long a start over the file took until it listened.
"""

import argparse
import shutil
import statistics
import sys
import tempfile
import time
from pathlib import Path

import many_rows

sys.path.insert(0, str(Path(__file__).resolve().parent.parent / "served"))
from broker import Broker, connect, processor_seconds, reply, request  # noqa: E402
from load import asked  # noqa: E402

KINDS = ["read", "look_up", "write", "create", "wrap", "unwrap", "list"]
SECRET = '{"data":{"password":"correct horse"}}'


class Asked:
    """A broker, the tokens that it has, and requests to it by the root token."""

    def __init__(self, broker, tokens):
        self.broker = broker
        self.tokens = tokens
        self.wrapping = {}

    def request(self, kind, number):
        """The bytes of a request of a kind."""
        token, secret = self.broker.token, f"secret/data/team/key{number:06}"
        if kind == "read":
            return request("GET", secret, token)
        if kind == "write":
            return request("POST", secret, token, SECRET)
        if kind == "list":
            return request("LIST", "secret/metadata/", token)
        if kind == "create":
            return request("POST", "auth/token/create", token, '{"policies":["default"]}')
        if kind == "wrap":
            return request("GET", secret, token, wrap_ttl="24h")
        if kind == "unwrap":
            return request("POST", "sys/wrapping/unwrap", self.wrapping.pop(number))
        return request("POST", "auth/token/lookup", token, f'{{"token":"{self.tokens[number]}"}}')

    def prepare(self, kind, numbers):
        """Wraps what requests of a kind unwrap."""
        if kind == "unwrap":
            replies, _, _ = self.send("wrap", numbers)
            self.wrapping = {number: text_in(body, b"token") for number, body in zip(numbers, replies)}

    def send(self, kind, numbers):
        """Sends requests one by one on a connection, and answers their replies, and the wall and processor seconds that
        they took. They are counted when a first request was answered, and so the connection is served."""
        texts = [self.request(kind, number) for number in numbers]
        with connect(self.broker.port) as connection:
            replies_to(connection, "look_up_self", [request("GET", "auth/token/lookup-self", self.broker.token)])
            begin, used = time.monotonic(), processor_seconds(self.broker.process.pid)
            replies = replies_to(connection, kind, texts)
            return replies, time.monotonic() - begin, processor_seconds(self.broker.process.pid) - used


def replies_to(connection, kind, texts):
    """The bodies of the replies to requests that are sent one by one."""
    rest, replies = b"", []
    for place, text in enumerate(texts):
        connection.sendall(text)
        status, body, rest = reply(connection, rest)
        if status != 200:
            raise SystemExit(f"{kind}: reply {place} has status {status}")
        replies.append(body)
    return replies


def text_in(body, name):
    """The text that the first member of this name has."""
    return body.partition(b'"' + name + b'":"')[2].partition(b'"')[0].decode()


def token_in(body):
    """The token that a creation answers."""
    return text_in(body, b"client_token")


def filled(program, folder, many):
    """A database in the folder that has the rows, and its root token."""
    file = f"{folder}/filled.db"
    with Broker(program, "--db", file) as broker:
        token = broker.token
    many_rows.fill(file, many)
    return file, token


def measure_kinds(broker, tokens, kinds, many, requests):
    """For each kind the requests a second, and the processor milliseconds of one."""
    asking, found = Asked(broker, tokens), {}
    for kind in kinds:
        count = asked(kind, many, requests)
        numbers = [place * 7919 % many for place in range(count)]
        asking.prepare(kind, numbers)
        _, wall, used = asking.send(kind, numbers)
        found[kind] = count / wall, used / count * 1000
    return found


def run_in_file(program, source, token, folder, kinds, many, requests):
    """One run over a copy of a file; also the seconds until the program listened."""
    file = f"{folder}/broker.db"
    for end in ("", "-wal"):
        if Path(source + end).exists():
            shutil.copyfile(source + end, file + end)
    begin = time.monotonic()
    with Broker(program, "--db", file, token=token) as broker:
        started = time.monotonic() - begin
        tokens = [many_rows.token_of(place) for place in range(many)]
        return measure_kinds(broker, tokens, kinds, many, requests), started


def run_in_memory(program, kinds, many, requests):
    """One run in memory, in which requests make the secrets and tokens; and the seconds that they took."""
    begin = time.monotonic()
    with Broker(program) as broker:
        asking = Asked(broker, [])
        made, _, _ = asking.send("create", range(many))
        asking.send("write", range(many))
        started = time.monotonic() - begin
        return measure_kinds(broker, [token_in(body) for body in made], kinds, many, requests), started


def told(kind, rates, used):
    """A line that says the medians of a kind."""
    return (f"{kind}: {statistics.median(rates):.0f} requests a second ({min(rates):.0f} to {max(rates):.0f}), "
            f"{statistics.median(used):.3f} ms of processor time each ({min(used):.3f} to {max(used):.3f})")


def tell(kinds, many, runs, where):
    """Prints the medians of all runs."""
    started = statistics.median(seconds for _, seconds in runs)
    print(f"{many} secrets and tokens, {where}, {len(runs)} runs: {started:.2f} s until it was ready")
    for kind in kinds:
        rates, used = zip(*(found[kind] for found, _ in runs))
        print(told(kind, rates, used), flush=True)


def measure(program, kinds, many, requests, count, folder):
    """All runs with so many secrets and tokens, in a file in the folder if one is given."""
    runs = []
    with tempfile.TemporaryDirectory(dir=folder) as own:
        source, token = filled(program, own, many) if folder else (None, None)
        for _ in range(count):
            with tempfile.TemporaryDirectory(dir=own) as place:
                if folder:
                    runs.append(run_in_file(program, source, token, place, kinds, many, requests))
                else:
                    runs.append(run_in_memory(program, kinds, many, requests))
    return runs


def main():
    parser = argparse.ArgumentParser(description="measures requests to brokerd serve on one connection")
    parser.add_argument("program")
    parser.add_argument("many", type=int, nargs="+")
    parser.add_argument("requests", type=int)
    parser.add_argument("--kinds", choices=KINDS, nargs="+", default=KINDS[:-1])
    parser.add_argument("--runs", type=int, default=3)
    parser.add_argument("--db", nargs="?", const=tempfile.gettempdir())
    arguments = parser.parse_args()
    program, kinds, requests, folder = arguments.program, arguments.kinds, arguments.requests, arguments.db
    for many in arguments.many:
        runs = measure(program, kinds, many, requests, arguments.runs, folder)
        tell(kinds, many, runs, f"in a file in {folder}" if folder else "in memory")


if __name__ == "__main__":
    main()
