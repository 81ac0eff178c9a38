#!/usr/bin/env python3
"""Runs `client` where memory is refused, where calls fail or are cut short, and where the reply is cut.

    python3 tests/hostile/refused_client.py CLIENT

A server of this script takes the request, and sends one reply of a broker. In turn:

- **Memory**: each allocation of a read, a write and a write of standard input is refused alone, and with all later
  ones. The client has to print the usual reply, or nothing and `fault 1` with status 1. What the server got is the
  usual request or a front of it, and nothing else.
- **A cut reply**: after each of its bytes but the last, and before the first, the connection ends: `bad reply`.
- **Standard output**: full, `fault 6`.
- **Calls**: each `send`, `recv` and `write` is asked for one byte: the usual reply. One that fails is `fault 6`, or
  `bad reply` if it is a `recv`; where there is no connection, `fault 5`.

The last line is `N passed, M failed`.
"""

import concurrent.futures
import itertools
import os
import re
import select
import socket
import subprocess
import sys

from hostile import HEAP, HERE, Report, Tally, build, environment, replies_of, scratch

SECONDS = 60  # for one run
TOKEN = "hvs.00000000-0000-0000-0000-000000000001"
WRITTEN, READ = replies_of((HERE.parent / "rows/first_run.out").read_bytes())  # as the reference broker answers
# The commands that are run: what follows the options, standard input, and the reply.
COMMANDS = {"read": (["read", "cubbyhole/a"], b"", READ),
            "write": (["write", "cubbyhole/a", '{"k":"v"}'], b"", WRITTEN),
            "write of the input": (["write", "cubbyhole/a", "-"], b'{"k":"v"}', WRITTEN)}
ALLOCATIONS = 20  # the fewest of a command


def length_of(head):
    """How long the body of a request is."""
    found = re.search(rb"(?i)\r\nContent-Length: *([0-9]+)", head)
    return int(found[1]) if found else 0


def answer(connection, reply):
    """Takes a request, sends a reply, and answers what came."""
    got = b""
    with connection:
        connection.settimeout(SECONDS)
        try:
            while b"\r\n\r\n" not in got or len(got) < got.index(b"\r\n\r\n") + 4 + length_of(got):
                more = connection.recv(65536)
                if not more:
                    return got
                got += more
            connection.sendall(reply)
        except ConnectionError:
            pass
    return got


class Client:
    """The runs of a program."""

    def __init__(self, program, folder):
        self.program, self.folder = program, folder
        self.library = build(folder)
        self.numbers = itertools.count()

    def run(self, name, rules="", reply=None, output=subprocess.PIPE):
        """One run of a command: its output, standard error and status; what the server got; and the report."""
        words, given, usual = COMMANDS[name]
        report = f"{self.folder}/report-{next(self.numbers)}"
        variables = environment(self.library, rules, report=report, VAULT_TOKEN=TOKEN, MALLOC_PERTURB_="165")
        with socket.create_server(("127.0.0.1", 0)) as server, subprocess.Popen(
                [self.program, "--addr", f"127.0.0.1:{server.getsockname()[1]}", *words], stdin=subprocess.PIPE,
                stdout=output, stderr=subprocess.PIPE, env=variables) as client:
            if given:
                try:
                    client.stdin.write(given)
                except BrokenPipeError:
                    pass
            try:
                client.stdin.close()
            except BrokenPipeError:
                pass
            got = self.serve(server, client, usual if reply is None else reply)
            got = re.sub(rb"(?m)^(Host: 127.0.0.1):[0-9]+\r$", rb"\1:PORT\r", got)
            printed = client.stdout.read() if client.stdout else b""
            said = client.stderr.read()
            client.wait(SECONDS)
        found = Report(report)
        os.unlink(report)
        return (printed, said, client.returncode), got, found

    @staticmethod
    def serve(server, client, reply):
        """Answers the connection of a client, if it makes one before it ends."""
        ended = os.pidfd_open(client.pid)
        try:
            ready, _, _ = select.select([server, ended], [], [], SECONDS)
            if server not in ready:
                ready, _, _ = select.select([server], [], [], 0)
            return answer(server.accept()[0], reply) if server in ready else b""
        finally:
            os.close(ended)


def body_of(reply):
    return reply.partition(b"\r\n\r\n")[2]


def refuse_memory(tally, client, pool, name, request):
    """Refuses each allocation of a command, and one more than there are."""
    usual = (body_of(COMMANDS[name][2]), b"", 0)
    _, _, report = client.run(name, f"{HEAP}:0:ENOMEM")
    count = report.rules[0].made
    tally.expect(count >= ALLOCATIONS, f"{name}: {count} allocations")
    for onward in ("", "+"):
        faults = 0
        numbers = range(1, count + 2)
        for number, (ended, got, report) in zip(numbers, pool.map(
                lambda it: client.run(name, f"{HEAP}:{it}{onward}:ENOMEM"), numbers)):
            refused = report.rules[0].changed
            right = [usual] if number > count else [usual, (b"", b"fault 1\n", 1)]
            faults += ended != usual
            tally.expect(ended in right and request.startswith(got) and (ended != usual or got == request)
                         and (refused > 0) == (number <= count) and (refused <= 1 or onward),
                         f"{name}: allocation {number}{onward}: {ended}, {refused} refused, the server got {got!r}")
        way = "with all later ones" if onward else "alone"
        tally.tell(f"{name}: {count} allocations, each refused {way}: {faults} times fault 1")
        tally.expect(10 * faults >= 9 * count, f"{name}: only {faults} faults in {count} runs")


def cut_replies(tally, client, pool, name):
    """Ends the reply before each of its bytes."""
    reply = COMMANDS[name][2]
    cuts = range(len(reply))
    for cut, (ended, _, _) in zip(cuts, pool.map(lambda it: client.run(name, reply=reply[:it]), cuts)):
        tally.expect(ended == (b"", b"bad reply\n", 1), f"{name}: a reply of {cut} bytes of {len(reply)}: {ended}")
    tally.tell(f"{name}: {len(reply)} cut replies")


def fail_calls(tally, client, request):
    """Makes calls fail, cuts them short, and fills standard output."""
    usual = (body_of(READ), b"", 0)
    unwritten, unreached, bad = (b"", b"fault 6\n", 1), (b"", b"fault 5\n", 1), (b"", b"bad reply\n", 1)
    for rules, wanted in [("send:1+:short=1", usual), ("recv:1+:short=1", usual), ("write:1+:short=1", usual),
                          ("send:1:ECONNRESET", unwritten), ("recv:1:ECONNRESET", bad), ("socket:1:EMFILE", unreached),
                          ("connect:1:ENOBUFS", unreached), ("write:1:ENOSPC", unwritten), ("write:1:EIO", unwritten)]:
        ended, got, report = client.run("read", rules)
        tally.expect(ended == wanted and report.rules[0].changed > 0 and got in (b"", request),
                     f"{rules}: {ended}, {report.rules[0].changed} calls changed, the server got {got!r}")
    with open("/dev/full", "wb") as full:
        ended, _, _ = client.run("read", output=full)
    tally.expect(ended == unwritten, f"standard output is full: {ended}")


def main():
    tally = Tally("refused, client")
    with scratch() as folder, concurrent.futures.ThreadPoolExecutor(os.cpu_count()) as pool:
        client = Client(os.path.abspath(sys.argv[1]), folder)
        requests = {}
        for name, (_, _, reply) in COMMANDS.items():
            ended, requests[name], _ = client.run(name)
            body = b'{"k":"v"}' if reply == WRITTEN else b""
            tally.expect(ended == (body_of(reply), b"", 0) and requests[name].endswith(b"\r\n\r\n" + body),
                         f"{name}: {ended}, the server got {requests[name]!r}")
        for name in COMMANDS:
            refuse_memory(tally, client, pool, name, requests[name])
        cut_replies(tally, client, pool, "read")
        cut_replies(tally, client, pool, "write")
        fail_calls(tally, client, requests["read"])
    return tally.end()


if __name__ == "__main__":
    sys.exit(main())
