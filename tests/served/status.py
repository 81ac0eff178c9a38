#!/usr/bin/env python3
"""What `brokerd serve --status ADDR` tells operators: health, metrics and a page.

    python3 tests/served/status.py PROGRAM

Each text is asked for by GET and HEAD; by heads that are long, slow or none; and on more connections than there are
places. A probe writes nothing, the counters are those of the requests that were made, and no text has a token, an
accessor, a path or a name. While the program stops, the status of health is 503, until the end. All cases run at once,
each with a broker of its own, in some eight seconds. The last line is 'N passed, M failed'. scraped.py beside this has
other programs ask.
"""

import concurrent.futures
import contextlib
import hashlib
import json
import os
import re
import socket
import subprocess
import sys
import time
from pathlib import Path

from broker import connect, exchange, reply, request
from cases import between, expect
from watched import Watched, by_label, counted, in_folder, metric_of, of, parsed, side_by_side, until_closed

PATHS = ("/health", "/v1/sys/health", "/metrics", "/")
TYPES = {"/health": "application/json", "/v1/sys/health": "application/json",
         "/metrics": "text/plain; version=0.0.4", "/": "text/html"}
LONGEST_HEAD = 2048
PLACES = 16
SECONDS_OF_A_HEAD = 2
BOUNDS = ("0.0005", "0.001", "0.0025", "0.005", "0.01", "0.025", "0.05", "0.1", "0.25", "0.5", "1", "2.5", "5", "10",
          "+Inf")
KINDS = ("read", "list", "write", "delete", "refused")
REASONS = {"ended", "idle", "room", "silent", "slow", "fault", "stopped"}
NUMBERS = {"gauge": {"dehluvima_build_info", "process_start_time_seconds", "process_resident_memory_bytes",
                     "dehluvima_connections", "dehluvima_connections_limit", "dehluvima_database_bytes",
                     "dehluvima_database_log_bytes", "dehluvima_clock_ahead_seconds", "dehluvima_tokens_at_start",
                     "dehluvima_secrets_at_start", "dehluvima_responses_at_start"},
           "counter": {"dehluvima_requests_total", "dehluvima_connections_accepted_total",
                       "dehluvima_connections_closed_total", "dehluvima_faults_total",
                       "dehluvima_log_lines_dropped_total", "dehluvima_commits_total",
                       "dehluvima_commit_seconds_total"},
           "histogram": {"dehluvima_request_seconds"}}
IN_A_FILE = {"dehluvima_database_bytes", "dehluvima_database_log_bytes", "dehluvima_commits_total",
             "dehluvima_commit_seconds_total"}
WRITES = 20
SECRETS = ("kept-by-nobody-else", "name-of-a-secret", "name-of-a-member", "name-of-a-policy")


@in_folder
def texts(program, folder):
    """GET and HEAD of the four paths, as HTTP/1.1 and 1.0, and with a query."""
    with Watched(program, folder=folder) as broker:
        for path in PATHS:
            for more, version in (("", "1.1"), ("?standbyok=true&perfstandbyok=true", "1.1"), ("", "1.0")):
                if path == "/" and more:
                    continue
                text = f" {path}{more} HTTP/{version}\r\nHost: status\r\nUser-Agent: kube-probe/1.30\r\n\r\n"
                status, fields, body = parsed(broker.send(b"GET" + text.encode()))
                told = f"{path}{more} by HTTP/{version}"
                expect(status == 200, f"{told} is {status}")
                expect(fields["connection"] == "close", f"{told} has the fields {fields}")
                expect(fields["content-type"].startswith(TYPES[path]), f"{told} has the type {fields['content-type']}")
                expect(int(fields["content-length"]) == len(body) > 0, f"{told} has {len(body)} bytes of {fields}")
                head_status, of_head, rest = parsed(broker.send(b"HEAD" + text.encode()))
                expect((head_status, rest) == (200, b""), f"HEAD of {told} is {head_status} with {rest[:60]}")
                expect({**of_head, "content-length": ""} == {**fields, "content-length": ""}, f"HEAD has {of_head}")
                expect(abs(int(of_head["content-length"]) - len(body)) < 40, f"HEAD has the length of {of_head}")
        health = broker.health()[1]
        vault = broker.read("/v1/sys/health")[2]
        page = broker.read("/")[2].decode()
        version = subprocess.run([program, "--version"], capture_output=True, text=True, check=True).stdout.split()[1]
    for name, wanted in {"initialized": True, "sealed": False, "standby": False, "performance_standby": False,
                         "replication_performance_mode": "disabled", "replication_dr_mode": "disabled",
                         "version": version, "state": "serving", "store": "file", "last_fault": None}.items():
        expect(health[name] == wanted, f"health has {name} {health.get(name)!r}, not {wanted!r}")
    for name, least, most in (("server_time_utc", time.time() - 60, time.time() + 1), ("connections", 0, 2),
                              ("uptime", 0, 60)):
        expect(least <= health[name] <= most, f"health has {name} {health.get(name)!r}")
    expect({"since", "cluster_name", "cluster_id"} <= set(health), f"health has {sorted(health)}")
    expect(set(json.loads(vault)) == set(health), "sys/health has other members than health")
    expect(page.lower().startswith("<!doctype html>") and version in page, f"the page is {page[:200]}")
    expect("<script" not in page and not re.search(r"(src|href)=", page), "the page loads something")
    return f"{len(health)} members of health, a page of {len(page)} bytes"


def refusals(program):
    """Other methods, other paths, and what is no head."""
    with Watched(program) as broker:
        for method in ("POST", "PUT", "DELETE", "OPTIONS", "PATCH", "LIST", "TRACE"):
            for path in ("/health", "/metrics"):
                status, fields, _ = broker.read(path, method)
                expect((status, fields.get("allow")) == (405, "GET, HEAD"), f"{method} is {status} with {fields}")
        for path in ("/nothing", "/health/", "/HEALTH", "/metrics/x", "/v1/secret/data/app", "/v1/sys/seal-status",
                     "//", "/../etc/passwd", "/%2e%2e/health", "/health%00", "/" + "x" * 1500):
            status, fields, body = broker.read(path)
            expect(status == 404, f"{path[:40]} is {status}")
            expect(path == "/nothing" or path.encode() not in body, f"{path[:40]} is told again")
        for data in (b"nonsense\r\n\r\n", b"GET\r\n\r\n", b"GET /health\r\n\r\n", b"\x16\x03\x01\0\xa5\r\n\r\n",
                     b"GET /health HTTP/1.1\r\nno colon\r\n\r\n", b"GET  /health HTTP/1.1\r\n\r\n",
                     b"GET /health HTTP/1.1\r\nX: a\0b\r\n\r\n", b"\xff" * 100 + b"\r\n\r\n"):
            status, fields, _ = parsed(broker.send(data))
            expect(status == 400, f"{data[:40]} is {status}")
            expect(fields["connection"] == "close" and "content-length" in fields, f"{data[:40]} has {fields}")
        lone = broker.send(b"GET /health HTTP/1.1\r\nHost: s\r\n\r\n" * 3)
        expect(lone.count(b"HTTP/1.1 ") == 1, "several requests are answered on a connection")
        expect(broker.health()[0] == 200, "it is not well afterwards")
    return "405, 404 and 400"


def long_heads(program):
    """A head of 2,048 bytes is taken, and a longer one refused, however it comes."""
    with Watched(program) as broker:
        before = b"GET /health HTTP/1.1\r\nHost: s\r\nX-Long: "
        for length, wanted in ((LONGEST_HEAD, 200), (LONGEST_HEAD + 1, 431), (20_000, 431), (1_000_000, 431)):
            head = before + b"x" * (length - len(before) - 4) + b"\r\n\r\n"
            try:
                data = broker.send(head)
            except (BrokenPipeError, ConnectionResetError):
                data = b""
            met = parsed(data)[0] if data else None
            expect(met == wanted or (met is None and length > 10_000), f"a head of {length} bytes is {met}")
        with connect(broker.status_port) as connection:
            for byte in before + b"x\r\n\r\n":
                connection.sendall(bytes([byte]))
            expect(parsed(until_closed(connection))[0] == 200, "a head in bytes is not taken")
        fields = "".join(f"X-{number}: y\r\n" for number in range(150))
        expect(broker.read("/health", fields=fields)[0] in (200, 400, 431), "many fields")
        expect(broker.health()[0] == 200, "it is not well afterwards")
    return f"{LONGEST_HEAD} bytes"


def slow_heads(program):
    """Who sends nothing, a half head, or a head a byte at a time, is let go after two seconds."""
    with Watched(program) as broker, concurrent.futures.ThreadPoolExecutor() as pool:
        def begun(first, pause):
            with connect(broker.status_port) as connection:
                begin = time.monotonic()
                with contextlib.suppress(OSError):
                    connection.sendall(first)
                    while pause and time.monotonic() < begin + 6:
                        time.sleep(pause)
                        connection.sendall(b"x")
                connection.settimeout(6)
                said = until_closed(connection)
                return time.monotonic() - begin, said

        half = b"GET /health HTTP/1.1\r\nHost: s\r\nX: "
        waits = [*pool.map(lambda it: begun(*it), ((b"", 0), (half, 0), (half, 0.1)))]
        for seconds, said in waits:
            between(SECONDS_OF_A_HEAD * 0.75, seconds, SECONDS_OF_A_HEAD + 1.5, "a slow client is let go")
            expect(b"200 OK" not in said, f"a slow client gets {said[:60]}")
    return f"let go after {', '.join(f'{seconds:.1f}' for seconds, _ in waits)} s"


def places(program):
    """Slow operators take all places of theirs: the next one is answered in time, and clients at once."""
    with Watched(program) as broker, contextlib.ExitStack() as stack:
        ask = request("GET", "auth/token/lookup-self", broker.token)
        client = stack.enter_context(connect(broker.port))
        for _ in range(4 * PLACES):
            stack.enter_context(connect(broker.status_port)).sendall(b"GET /health HTTP/1.1\r\n")
        begin, waits = time.monotonic(), []
        with concurrent.futures.ThreadPoolExecutor() as pool:
            health = pool.submit(broker.health)
            while not health.done():
                status, _, seconds = exchange(client, ask)
                waits.append(seconds)
                expect(status == 200, f"a client gets {status}")
                time.sleep(0.05)
            status, said = health.result()
        seconds = time.monotonic() - begin
        expect((status, said["connections"]) == (200, 1), f"health is {status}, {said}")
        expect(max(waits) < 0.5, f"a client waited {max(waits):.2f} s beside them")
        expect(seconds < 5 * (SECONDS_OF_A_HEAD + 0.5), f"the next operator waited {seconds:.1f} s")
    return f"behind {4 * PLACES} the next one waited {seconds:.1f} s, and a client {max(waits) * 1000:.0f} ms at most"


def full(program):
    """All places of clients are taken, and health is answered."""
    with Watched(program, "--at-once", "4") as broker, contextlib.ExitStack() as stack:
        for _ in range(12):
            stack.enter_context(connect(broker.port)).sendall(b"GET /v1/secret/data/app HTTP/1.1\r\n")
        time.sleep(0.1)
        begin = time.monotonic()
        status, said = broker.health()
        seconds = time.monotonic() - begin
        found, _ = broker.metrics()
        expect(status == 200 and said["connections"] == 4, f"health is {status}, {said}")
        expect(seconds < 0.5, f"health takes {seconds:.2f} s")
        expect(of(found, "dehluvima_connections") == of(found, "dehluvima_connections_limit") == 4, "other connections")
    return f"health in {seconds * 1000:.0f} ms"


def state_of(files):
    return [(path.stat().st_size, path.stat().st_mtime_ns, hashlib.sha256(path.read_bytes()).hexdigest())
            for path in files]


@in_folder
def probes(program, folder):
    """A probe writes nothing, and neither does GET / on the main address; a request without a token does."""
    with Watched(program, folder=folder) as broker:
        files = [broker.file, broker.file.with_name("broker.db-wal")]
        broker.ask("POST", "secret/data/app", '{"data":{"user":"app"}}')
        before, written = state_of(files), bytes_written(broker)
        for _ in range(3):
            for path in (*PATHS, "/nothing"):
                broker.read(path)
            with connect(broker.port) as connection:
                connection.sendall(b"GET / HTTP/1.1\r\nHost: b\r\n\r\n")
                expect(reply(connection)[0] == 404, "GET / is not 404")
            time.sleep(0.5)
        after, more = state_of(files), bytes_written(broker) - written
        expect(after == before and more == 0, f"probes have changed the files by {more} bytes: {before}, {after}")
        with connect(broker.port) as connection:
            connection.sendall(b"GET /v1/sys/health HTTP/1.1\r\nHost: b\r\n\r\n")
            expect(reply(connection)[0] == 403, "a request without a token is not 403")
        expect(state_of(files) != before, "a request without a token writes nothing")
    return "15 probes, and 3 of GET /"


def bytes_written(broker):
    """The bytes that the program has had written to disks."""
    text = Path(f"/proc/{broker.process.pid}/io").read_text(encoding="ascii")
    return int(re.search(r"^write_bytes: (\d+)$", text, re.MULTILINE)[1])


def counts_before_and_after(broker):
    """The numbers before and after known requests, and how often each status and kind was."""
    first, _ = broker.metrics()
    statuses, kinds = counted(broker)
    until = time.monotonic() + 5
    while True:
        last, types = broker.metrics()
        if of(last, "dehluvima_connections") == 0 or time.monotonic() > until:
            return first, last, types, statuses, kinds
        time.sleep(0.02)


def grown(first, last, name):
    """By how much the numbers of a metric have grown, by its one label."""
    before = by_label(first, name)
    found = {label: value - before.get(label, 0) for label, value in by_label(last, name).items()}
    return {label: value for label, value in found.items() if value}


def expect_histogram(first, last, kinds):
    """The histogram has the bounds, grows with them, and its last bucket is the count."""
    for kind in KINDS:
        counts = [of(last, "dehluvima_request_seconds_bucket", kind=kind, le=bound) for bound in BOUNDS]
        count, seconds = (of(last, f"dehluvima_request_seconds_{end}", kind=kind) for end in ("count", "sum"))
        expect(counts == sorted(counts) and counts[-1] == count, f"the buckets of {kind} are {counts} of {count}")
        more = count - of(first, "dehluvima_request_seconds_count", kind=kind)
        expect(more == kinds.get(kind, 0), f"{more} requests of {kind}, and not {kinds.get(kind, 0)}")
        expect(0 <= seconds < 60 and (seconds > 0) == (count > 0), f"{seconds} seconds of {kind}")
    bounds = {dict(labels)["le"] for name, labels in last if name == "dehluvima_request_seconds_bucket"}
    expect(bounds == set(BOUNDS), f"the bounds are {sorted(bounds)}")


@in_folder
def counters(program, folder):
    """The counters are those of known requests, and none falls."""
    with Watched(program, "--at-once", "77", folder=folder) as broker:
        first, last, types, statuses, kinds = counts_before_and_after(broker)
        sizes = [path.stat().st_size for path in (broker.file, broker.file.with_name("broker.db-wal"))]
        resident = int(Path(f"/proc/{broker.process.pid}/statm").read_text(encoding="ascii").split()[1])
    total = sum(statuses.values())
    wanted = {name: kind for kind, names in NUMBERS.items() for name in names}
    expect(types == wanted, f"other types: {sorted(set(types.items()) ^ set(wanted.items()))}")
    answered = grown(first, last, "dehluvima_requests_total")
    expect(answered == statuses, f"{answered} requests, and not {statuses}")
    expect_histogram(first, last, kinds)
    falling = [name for name, value in first.items()
               if types[metric_of(name[0])] != "gauge" and last.get(name, -1) < value]
    expect(not falling, f"these fall: {falling}")
    accepted = of(last, "dehluvima_connections_accepted_total") - of(first, "dehluvima_connections_accepted_total")
    closed = grown(first, last, "dehluvima_connections_closed_total")
    expect((accepted, closed) == (total, {"ended": total}), f"{accepted} accepted, closed {closed}, of {total}")
    expect(set(by_label(last, "dehluvima_connections_closed_total")) == REASONS, "other reasons")
    faults = by_label(last, "dehluvima_faults_total")
    expect(set("123456") <= set(faults) and not any(faults.values()), f"the faults are {faults}")
    expect(of(last, "dehluvima_connections_limit") == 77, "another limit")
    found = [of(last, f"dehluvima_database_{name}") for name in ("bytes", "log_bytes")]
    expect(found == sizes, f"the files have {sizes} bytes, and not {found}")
    expect(0.5 < of(last, "process_resident_memory_bytes") / (resident * os.sysconf("SC_PAGE_SIZE")) < 1.5, "memory")
    expect(abs(of(last, "process_start_time_seconds") - time.time()) < 60, "another start")
    expect(of(last, "dehluvima_clock_ahead_seconds") <= 1, "the clock is ahead")
    for name in ("tokens", "secrets", "responses"):
        expect(of(last, f"dehluvima_{name}_at_start") == 0, f"there were {name} at the start")
    return f"{total} requests, {len(last)} samples"


@in_folder
def commits(program, folder):
    """Each write is a commit and takes some time, and no read is one but that which moves the clock."""
    with Watched(program, folder=folder) as broker:
        begin = time.time()
        first, _ = broker.metrics()
        for number in range(WRITES):
            broker.ask("POST", f"secret/data/{number}", '{"data":{}}')
        for number in range(5 * WRITES):
            broker.ask("GET", f"secret/data/{number % WRITES}")
        last, _ = broker.metrics()
        seconds = time.time() - begin
    found = of(last, "dehluvima_commits_total") - of(first, "dehluvima_commits_total")
    took = of(last, "dehluvima_commit_seconds_total") - of(first, "dehluvima_commit_seconds_total")
    expect(WRITES <= found <= WRITES + seconds + 1, f"{found} commits of {WRITES} writes in {seconds:.1f} s")
    expect(0 < took < seconds, f"they took {took} of {seconds:.1f} s")
    return f"{found:.0f} commits of {WRITES} writes and {5 * WRITES} reads"


def in_memory(program):
    """A gauge whose number is not known has no line."""
    with Watched(program) as broker:
        counted(broker)
        found, types = broker.metrics()
        health = broker.health()[1]
    expect(health["store"] == "memory", f"the store is {health['store']}")
    expect(not IN_A_FILE & set(types), f"there are {sorted(IN_A_FILE & set(types))}")
    return f"{len(found)} samples"


@in_folder
def a_second_start(program, folder):
    """What there was at the start."""
    with Watched(program, folder=folder) as broker:
        token = broker.token
        for number in range(5):
            broker.ask("POST", f"secret/data/{number}", '{"data":{}}')
        for _ in range(3):
            broker.ask("POST", "auth/token/create", "{}")
        with connect(broker.port) as connection:
            exchange(connection, request("GET", "secret/data/1", token, wrap_ttl="1h"))
        broker.stop()
        expect(broker.ended()[0] == 0, "it does not stop")
    with Watched(program, folder=folder, token=token) as broker:
        found, _ = broker.metrics()
        broker.ask("POST", "secret/data/new", '{"data":{}}')
        later, _ = broker.metrics()
    names = [f"dehluvima_{name}_at_start" for name in ("tokens", "secrets", "responses")]
    met = [[of(some, name) for name in names] for some in (found, later)]
    expect(met == [[4, 5, 1]] * 2, f"at the start {met}")  # a wrapping token is none of these
    return "four tokens, five secrets, a response that waits"


@in_folder
def nothing_of_secrets(program, folder):
    """No text has a token, an accessor, a path, a name or a value."""
    with Watched(program, "--log", folder=folder) as broker:
        counted(broker)
        with connect(broker.port) as connection:
            _, body, _ = exchange(connection, request("POST", "auth/token/create", broker.token, "{}"))
            _, own, _ = exchange(connection, request("GET", "auth/token/lookup-self", broker.token))
            exchange(connection, request("GET", "secret/data/name-of-a-secret", broker.token, wrap_ttl="1h"))
        made, root = json.loads(body)["auth"], json.loads(own)["data"]
        replies = [broker.read(path) for path in PATHS]
        texts = "".join(f"{fields}{body.decode()}" for _, fields, body in replies)
    expect([status for status, _, _ in replies] == [200] * len(PATHS), "another status")
    for secret in (*SECRETS, broker.token, made["client_token"], made["accessor"], root["accessor"], "secret/data",
                   "hvs.", str(folder), "broker.db", "stranger"):
        expect(secret not in texts, f"a text has {secret}")
    return f"{len(texts)} characters"


def while_it_stops(program):
    """A stop waits for a half request: health is 503 meanwhile, and the status address is closed last."""
    with Watched(program) as broker, connect(broker.port) as connection:
        text = request("GET", "auth/token/lookup-self", broker.token)
        connection.sendall(text[:40])
        time.sleep(0.2)
        expect(broker.health()[0] == 200, "it is not well before")
        broker.stop()
        until = time.monotonic() + 3
        while (found := broker.health())[0] == 200 and time.monotonic() < until:
            time.sleep(0.02)
        expect((found[0], found[1]["state"]) == (503, "stopping"), f"health is {found}")
        for path in ("/metrics", "/", "/v1/sys/health"):
            status = broker.read(path)[0]
            expect(status == (503 if path.endswith("health") else 200), f"{path} is {status}")
        expect(broker.read("/health", "HEAD")[0] == 503, "HEAD of health is another")
        with contextlib.suppress(ConnectionRefusedError):
            connect(broker.port, 0.0).close()
            raise AssertionError("the main address is listened on")
        connection.sendall(text[40:])
        expect(reply(connection)[0] == 200, "the half request is not answered")
        begin = time.monotonic()
        ended, said = broker.ended()
        expect((ended, said) == (0, ""), f"it ends with {ended}: {said}")
        with contextlib.suppress(ConnectionRefusedError):
            connect(broker.status_port, 0.0).close()
            raise AssertionError("the status address is listened on after the end")
    return f"503, and the end {time.monotonic() - begin:.1f} s after the last reply"


def address_in_use(program):
    """A status address that cannot be listened on ends the program, by fault 5."""
    with socket.create_server(("127.0.0.1", 0)) as taken:
        port = taken.getsockname()[1]
        done = subprocess.run([program, "serve", "--listen", "127.0.0.1:0", "--status", f"127.0.0.1:{port}"],
                              stdin=subprocess.DEVNULL, capture_output=True, text=True, timeout=20, check=False)
    expect(done.returncode == 1 and done.stderr.endswith("fault 5\n"), f"{done.returncode}: {done.stderr}")
    expect(str(port) in done.stderr, f"the address is not named: {done.stderr}")
    return "fault 5"


CASES = [texts, refusals, long_heads, slow_heads, places, full, probes, counters, commits, in_memory,
         a_second_start, nothing_of_secrets, while_it_stops, address_in_use]


if __name__ == "__main__":
    sys.exit(side_by_side("status", CASES, sys.argv[1]))
