#!/usr/bin/env python3
"""Measures the broker, C's SQLite, etcd and an echo by turns, and prints a table for docs/PERFORMANCE.md.

    python3 versus.py PROGRAM [PROGRAM] [--db FOLDER] [--servers SERVER..] [--kinds KIND..] [--connections N..]
                      [--many MANY] [--turns TURNS] [--seconds SECONDS] [--minutes MINUTES] [--threads THREADS]
                      [--json FILE]

PROGRAM is `brokerd`; options of `serve` may stand behind it, in the same word. Where there are two, they are called
before and after, and it is printed too what one is of the other, turn by turn. It needs cc. The servers are

    memory   the broker in memory
    file     the broker over a file
    sqlite   C's SQLite behind an echo: it makes the statements of each request (libsqlite3-dev, baseline/answers.c),
             with the log written ahead and synchronous=FULL, over a copy of the broker's file, and parses nothing
    etcd     one member, by its HTTP gateway (etcd-server), whose reads are `range` and whose writes are `put`
    echo     one thread with epoll that answers with the broker's bytes and does nothing else (baseline/answers.c)

One that cannot be compiled, or is not installed, is left out, and this is said. All files are in a folder in FOLDER
(that of other temporary files, if not given). There are MANY secrets (1,000) of as many versions as are kept, and as
many tokens. KIND is `read` or `write`, of a secret by the root token, or `beside`: reads while one further connection
writes all the time. The requests are spread over all secrets; on each connection one is sent when the reply to the one
before is there, by a client in C (baseline/asks.c) with THREADS threads (2) at most. A slice lasts SECONDS (0.8). In a
turn each server has one slice of each kind with each number of connections (1, 8 and 64), the servers one after
another; there are TURNS (5), but none is begun that would not end within MINUTES (5), after which all is stopped.

The table has medians of the slices: the requests a second, in brackets the least and the greatest; percentiles of the
milliseconds from a request to the end of its reply (in a slice of fewer than 1,000 replies p99.9 is their greatest);
and for each request the processor milliseconds of all threads of the server, and the KB that its process gave to the
device (/proc/PID/io), in brackets those of the whole device, whoever wrote them (/proc/diskstats). Of `beside`, the
last two are for each request, reads and writes. FILE gets all slices, as JSON. The status is 1 if a reply is no 200, or
a connection breaks.
"""

import argparse
import contextlib
import json
import os
import platform
import shlex
import shutil
import signal
import sqlite3
import statistics
import struct
import subprocess
import sys
import tempfile
import time
from collections import namedtuple
from pathlib import Path

MEASURE = Path(__file__).resolve().parent
BASELINE = MEASURE / "baseline"
sys.path[:0] = [str(BASELINE), str(MEASURE.parent / "served")]

import etcd  # noqa: E402
from broker import Broker, connect, reply, request  # noqa: E402

KEPT = 10  # versions of a secret
AT_ONCE = 100  # requests that are sent together to fill a broker
SECRET = '{"data":{"password":"correct horse"}}'
SERVERS = ("memory", "file", "sqlite", "etcd", "echo")
PARTS = {"read": ("read",), "write": ("write",), "beside": ("read", "write")}
TITLES = {"read": "read", "write": "write", "beside": "read beside a writer"}
HEADS = ("request", "on", "server", "a second", "p50", "p99", "p99.9", "processor", "KB written")
Slice = namedtuple("Slice", "rate writes p50 p99 p999 greatest processor written device busy")


def secret(number):
    """The path of a secret."""
    return f"secret/data/team/key{number:06}"


def asked_of(token, many):
    """The requests of a broker, spread over all secrets."""
    numbers = [place * 7919 % many for place in range(many)]
    return {"read": [request("GET", secret(number), token) for number in numbers],
            "write": [request("POST", secret(number), token, SECRET) for number in numbers]}


def fill(broker, many):
    """Makes the tokens and the secrets."""
    texts = [request("POST", "auth/token/create", broker.token, '{"policies":["default"]}')] * many
    texts += [request("POST", secret(number), broker.token, SECRET) for number in range(many)] * KEPT
    with connect(broker.port) as connection:
        for first in range(0, len(texts), AT_ONCE):
            part, rest = texts[first:first + AT_ONCE], b""
            connection.sendall(b"".join(part))
            for _ in part:
                status, body, rest = reply(connection, rest)
                if status != 200:
                    raise SystemExit(f"status {status}: {body}")


def whole_reply(port, text):
    """All bytes of the reply of a broker."""
    with connect(port) as connection:
        connection.sendall(text)
        found = b""
        while not found.endswith(b"}\n"):
            more = connection.recv(65536)
            if not more:
                raise SystemExit(f"the reply ends: {found}")
            found += more
    return found


class Source:
    """The database of a broker that was filled, and what it answered; its log is empty."""

    def __init__(self, program, many, folder):
        self.file = folder / "filled.db"
        with Broker(program, "--db", self.file) as broker:
            self.token = broker.token
            fill(broker, many)
            self.asked = asked_of(self.token, many)
            further = request("POST", secret(many), self.token, SECRET)  # the others have KEPT versions
            self.replies = {}
            for kind, text in (("read", self.asked["read"][0]), ("write", further)):
                self.replies[kind] = folder / f"{kind}.reply"
                self.replies[kind].write_bytes(whole_reply(broker.port, text))
        with contextlib.closing(sqlite3.connect(self.file)) as database:
            database.execute("PRAGMA wal_checkpoint(TRUNCATE)")


def compiled(folder, source, *options):
    """The program that cc makes of a source, and why it makes none."""
    program = folder / "-".join([source.stem, *(it.strip("-") for it in options)])
    done = subprocess.run(["cc", "-O2", "-Wall", "-Wextra", "-o", program, source, *options],
                          stdout=subprocess.DEVNULL, stderr=subprocess.PIPE, text=True)
    lines = [line for line in done.stderr.splitlines() if "error" in line or "cannot find" in line]
    return (program, "") if done.returncode == 0 else (None, (lines or ["cc fails"])[0])


class Server:
    """A process that listens on a port, the files of its requests, and its folder, if it has one on the disk."""

    def __init__(self, name, process, port, asked, scratch, folder=None):
        self.name, self.process, self.port, self.folder = name, process, port, folder
        self.files = {kind: scratch / f"{name}.{kind}" for kind in asked}
        for kind, texts in asked.items():
            self.files[kind].write_bytes(b"".join(struct.pack("<I", len(text)) + text for text in texts))

    def used(self):
        """The processor seconds of all its threads, the bytes that it gave to the device, and those of the device."""
        folder, seconds = Path(f"/proc/{self.process.pid}"), 0.0
        for thread in (folder / "task").iterdir():
            with contextlib.suppress(OSError):  # it may have ended
                seconds += int((thread / "schedstat").read_text(encoding="ascii").split()[0]) / 1e9
        own = dict(line.split(": ") for line in (folder / "io").read_text(encoding="ascii").splitlines())
        return seconds, int(own["write_bytes"]), written_to(self.folder) if self.folder else 0


def written_to(folder):
    """The bytes that were written to the device of a folder; 0 if /proc/diskstats has no such device."""
    number = os.stat(folder).st_dev
    for line in Path("/proc/diskstats").read_text(encoding="ascii").splitlines():
        words = line.split()
        if words[:2] == [str(os.major(number)), str(os.minor(number))]:
            return int(words[9]) * 512
    return 0


class Servers:
    """The servers that are measured, which run until the stack is closed, and those that are left out."""

    def __init__(self, options, stack):
        self.options, self.stack = options, stack
        self.found, self.left_out = [], []
        self.scratch = self.folder(None)
        shared = "/dev/shm" if Path("/dev/shm").is_dir() else None
        programs = [shlex.split(word) for word in options.programs]
        self.source = Source(programs[0][0], options.many, self.folder(shared))
        brokers = list(zip(("before", "after") if len(programs) > 1 else ("broker",), programs))
        for server in options.servers:
            if server in ("memory", "file"):
                for name, program in brokers:
                    {"memory": self.memory, "file": self.file}[server](name, program)
            else:
                {"sqlite": self.sqlite, "etcd": self.etcd, "echo": self.echo}[server]()

    def folder(self, where):
        """A new folder."""
        return Path(self.stack.enter_context(tempfile.TemporaryDirectory(prefix="versus-", dir=where)))

    def add(self, name, process, port, asked, folder=None):
        self.found.append(Server(name, process, port, asked, self.scratch, folder))

    def memory(self, name, program):
        """A broker in memory."""
        broker = self.stack.enter_context(Broker(*program))
        fill(broker, self.options.many)
        self.add(f"{name}, memory", broker.process, broker.port, asked_of(broker.token, self.options.many))

    def file(self, name, program):
        """A broker over a copy of the file."""
        folder = self.folder(self.options.db)
        file = shutil.copy(self.source.file, folder / "broker.db")
        broker = self.stack.enter_context(Broker(*program, "--db", file, token=self.source.token))
        self.add(f"{name}, file", broker.process, broker.port, self.source.asked, folder)

    def etcd(self):
        """One member of etcd."""
        if not shutil.which("etcd"):
            self.left_out.append("etcd is not installed")
            return
        folder, many = self.folder(self.options.db), self.options.many
        server = self.stack.enter_context(etcd.Etcd(folder))
        server.fill(many)
        numbers = [place * 7919 % many for place in range(many)]
        asked = {"read": [etcd.request("range", number) for number in numbers],
                 "write": [etcd.request("put", number) for number in numbers]}
        self.add("etcd, file", server.process, server.port, asked, folder)

    def sqlite(self):
        """The statements of the requests, over a copy of the file."""
        folder = self.folder(self.options.db)
        file = shutil.copy(self.source.file, folder / "broker.db")
        self.answers("SQLite, file", ["-DWITH_SQLITE", "-lsqlite3"], [file, self.options.many, KEPT], folder)

    def echo(self):
        """The bytes of the replies."""
        self.answers("echo", [], [])

    def answers(self, name, options, words, folder=None):
        """The program that answers with the bytes of the replies."""
        program, why = compiled(self.scratch, BASELINE / "answers.c", *options)
        if not program:
            self.left_out.append(f"{name}: {why}")
            return
        command = [program, self.source.replies["read"], self.source.replies["write"], *map(str, words)]
        process = subprocess.Popen(command, stdout=subprocess.PIPE, text=True)
        self.stack.callback(process.wait)
        self.stack.callback(process.kill)
        self.stack.callback(process.stdout.close)
        port = process.stdout.readline()
        if not port:
            raise SystemExit(f"{name}: it does not listen")
        self.add(name, process, int(port), self.source.asked, folder)


def slice_of(asks, server, kind, connections, options):
    """One slice of a server."""
    command = [asks, server.port, min(options.threads, connections), connections, options.seconds,
               *(server.files[part] for part in PARTS[kind])]
    before = server.used()
    done = subprocess.run([str(word) for word in command], stdout=subprocess.PIPE, stderr=subprocess.PIPE, text=True)
    processor, written, device = (after - first for first, after in zip(before, server.used()))
    if done.returncode != 0:
        raise SystemExit(f"{server.name}, {kind} on {connections}: {done.stderr.strip()[:300]}")
    *numbers, busy = done.stdout.split()
    rate, replies, p50, p99, p999, greatest, writes, all_writes, *_ = map(int, numbers)
    count = replies + all_writes
    return Slice(rate / options.seconds, writes / options.seconds, *(it / 1e6 for it in (p50, p99, p999, greatest)),
                 processor / count * 1e3, written / count / 1e3, device / count / 1e3, float(busy))


def measure(asks, servers, options, until):
    """The slices of each kind, number of connections, and server."""
    found, longest = {}, 0.0
    for turn in range(options.turns):
        begin = time.monotonic()
        if turn > 0 and begin + 1.1 * longest > until:
            break
        for kind in options.kinds:
            for connections in options.connections:
                for server in servers:
                    one = slice_of(asks, server, kind, connections, options)
                    found.setdefault((kind, connections, server.name), []).append(one)
        longest = max(longest, time.monotonic() - begin)
        print(f"turn {turn + 1} of {options.turns}: {time.monotonic() - begin:.0f} s", file=sys.stderr, flush=True)
    return found


def whole(number):
    """A number with three digits that count."""
    digits = max(0, len(str(int(number))) - 3)
    return f"{round(number, -digits):,.0f}"


def short(number):
    """A number with three digits that count, at most three of them behind the point."""
    digits = 3 if number < 1 else 2 if number < 10 else 1 if number < 100 else 0
    return f"{number:.{digits}f}" if number else "0"


def row(kind, connections, server, slices):
    """A row of the table."""
    rates, writes, *rest = zip(*slices)
    p50, p99, p999, _, processor, written, device, _ = map(statistics.median, rest)
    rate = f"{whole(statistics.median(rates))} ({whole(min(rates))} to {whole(max(rates))})"
    if kind == "beside":
        rate += f"; {whole(statistics.median(writes))} writes"
    to_device = short(written) + (f" ({short(device)})" if device else "")
    cells = (TITLES[kind], str(connections), server.name, rate, short(p50), short(p99), short(p999), short(processor),
             to_device if server.folder and kind != "read" else "")
    return f"| {' | '.join(cells)} |"


def tell_ratios(found):
    """Prints what one program is of the other, turn by turn."""
    for (kind, connections, name), after in found.items():
        place = name.removeprefix("after, ")
        before = found.get((kind, connections, f"before, {place}"))
        for what in ("rate", "p99", "processor") if before and name != place else ():
            pairs = [(getattr(first, what), getattr(later, what)) for first, later in zip(before, after)]
            ratios = [later / first for first, later in pairs if first]
            if ratios:
                print(f"- {TITLES[kind]} on {connections}, {place}, {what}, after of before: "
                      f"{statistics.median(ratios):.3f} ({min(ratios):.3f} to {max(ratios):.3f})")


def machine():
    """The machine in words."""
    lines = Path("/proc/cpuinfo").read_text(encoding="utf-8").splitlines()
    model = next((line.partition(": ")[2] for line in lines if line.startswith("model name")), platform.machine())
    return f"{os.cpu_count()} processors ({' '.join(model.split())}), Linux {platform.release()}"


def tell(found, servers, options, loads, left_out):
    """Prints what was found: the table, and what it is made of."""
    turns = max(map(len, found.values()))
    print(f"Measured on {time.strftime('%Y-%m-%d', time.gmtime())} on {machine()}, with a load of {loads[0]:.1f} "
          f"before and {loads[1]:.1f} after it: medians of {turns} slices of {options.seconds:g} s by turns. There are "
          f"{options.many:,} secrets of {KEPT} versions.\n")
    print(f"| {' | '.join(HEADS)} |\n|{'---|' * len(HEADS)}")
    for kind in options.kinds:
        for connections in options.connections:
            for server in servers:
                print(row(kind, connections, server, found[kind, connections, server.name]))
    print()
    tell_ratios(found)
    busy = {name: max(max(one.busy for one in slices) for (*_, it), slices in found.items() if it == name)
            for name in dict.fromkeys(server.name for server in servers)}
    print("Of its time the busiest thread of the client used its processor for at most "
          f"{', '.join(f'{part:.2f} ({name})' for name, part in busy.items())}.")
    for why in left_out:
        print(f"Left out: {why}")


def stop(number, _):
    """Ends the program, and with it all that it has started."""
    raise SystemExit(f"stopped by {signal.Signals(number).name}")


def end_children():
    """Ends what still runs of what was started, as where a stop comes while a server starts."""
    for child in Path("/proc/thread-self/children").read_text(encoding="ascii").split():
        os.kill(int(child), signal.SIGKILL)


def arguments():
    """The command line."""
    parser = argparse.ArgumentParser(description="measures the broker, C's SQLite, etcd and an echo by turns")
    parser.add_argument("programs", nargs="+", metavar="PROGRAM")
    parser.add_argument("--db", default=tempfile.gettempdir(), metavar="FOLDER")
    parser.add_argument("--servers", choices=SERVERS, nargs="+", default=list(SERVERS))
    parser.add_argument("--kinds", choices=PARTS, nargs="+", default=list(PARTS))
    parser.add_argument("--connections", type=int, nargs="+", default=[1, 8, 64], metavar="N")
    parser.add_argument("--many", type=int, default=1000)
    parser.add_argument("--turns", type=int, default=5)
    parser.add_argument("--seconds", type=float, default=0.8)
    parser.add_argument("--minutes", type=float, default=5.0)
    parser.add_argument("--threads", type=int, default=2)
    parser.add_argument("--json", metavar="FILE")
    options = parser.parse_args()
    if len(options.programs) > 2:
        parser.error("two programs are compared at most")
    if not shutil.which("cc"):
        parser.error("there is no cc")
    return options


def main():
    options = arguments()
    until = time.monotonic() + 60 * options.minutes
    for number in (signal.SIGTERM, signal.SIGHUP, signal.SIGALRM):
        signal.signal(number, stop)
    signal.setitimer(signal.ITIMER_REAL, 60 * options.minutes)
    with contextlib.ExitStack() as stack:
        stack.callback(end_children)
        servers = Servers(options, stack)
        asks, why = compiled(servers.scratch, BASELINE / "asks.c", "-lpthread")
        if not asks:
            raise SystemExit(f"asks.c: {why}")
        loads = [os.getloadavg()[0]]
        found = measure(asks, servers.found, options, until)
        signal.setitimer(signal.ITIMER_REAL, 0)
        loads.append(os.getloadavg()[0])
    tell(found, servers.found, options, loads, servers.left_out)
    if options.json:
        slices = [{"kind": kind, "connections": connections, "server": name, "slices": [one._asdict() for one in each]}
                  for (kind, connections, name), each in found.items()]
        Path(options.json).write_text(json.dumps({"machine": machine(), "loads": loads, "seconds": options.seconds,
                                                  "many": options.many, "found": slices}, indent=1), encoding="utf-8")


if __name__ == "__main__":
    main()
