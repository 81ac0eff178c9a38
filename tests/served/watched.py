"""A running `brokerd serve --status ADDR`, what it tells operators, and known requests that it counts: what status.py
and scraped.py share."""

import concurrent.futures
import contextlib
import functools
import json
import re
import subprocess
import tempfile
from pathlib import Path

from broker import LISTENS, Broker, connect, reply, request
from cases import expect, report, tried

SAMPLE = re.compile(r'([a-z_]+)(?:\{([a-z]+="[^"\\]*"(?:,[a-z]+="[^"\\]*")*)\})? (\+Inf|[0-9.e+-]+)')
PART = re.compile(r"(?<=_seconds)_(bucket|sum|count)$")


class Watched(Broker):
    """A broker with a status address, on a port that the system has chosen. It is in the file of a folder, if one is
    given, and stops at the end of its standard input."""

    def __init__(self, program, *arguments, folder=None, **options):
        self.file = Path(folder) / "broker.db" if folder else None
        database = ["--db", str(self.file)] if folder else []
        super().__init__(program, "--status", "127.0.0.1:0", "--stop-on-input", *database, *arguments,
                         stdin=subprocess.PIPE, **options)

    def __enter__(self):
        super().__enter__()
        self.status_port = self.other_port()
        return self

    def other_port(self):
        """The port beside the main one that the program listens on."""
        with open("/proc/net/tcp", encoding="ascii") as lines:
            found = [line.split() for line in lines]
        opened = set(self.opened())
        ports = [int(words[1].rpartition(":")[2], 16) for words in found
                 if words[3] == LISTENS and f"socket:[{words[9]}]" in opened]
        others = [port for port in ports if port != self.port]
        expect(len(others) == 1, f"it listens on {ports}")
        return others[0]

    def url(self, path):
        return f"http://127.0.0.1:{self.status_port}{path}"

    def send(self, data, patience=5.0):
        """What is answered until the other side closes the connection, which it has to."""
        with connect(self.status_port) as connection:
            connection.settimeout(patience)
            connection.sendall(data)
            return until_closed(connection)

    def read(self, path, method="GET", fields=""):
        """The status, the fields, by names in lower case, and the body of a reply."""
        return parsed(self.send(f"{method} {path} HTTP/1.1\r\nHost: status\r\n{fields}\r\n".encode()))

    def health(self):
        status, _, body = self.read("/health")
        return status, json.loads(body)

    def metrics(self):
        """The numbers by their names and labels, and the types by their names."""
        status, _, body = self.read("/metrics")
        expect(status == 200, f"/metrics is {status}")
        return numbers_of(body.decode("ascii"))

    def stop(self):
        self.process.stdin.close()
        self.process.stdin = None


def until_closed(connection):
    """What comes until the other side closes the connection."""
    data = b""
    with contextlib.suppress(ConnectionResetError):
        while more := connection.recv(65536):
            data += more
    return data


def parsed(data):
    """The status, the fields, by names in lower case, and the body of a reply."""
    head, _, body = data.partition(b"\r\n\r\n")
    lines = head.decode("ascii").split("\r\n")
    found = re.fullmatch(r"HTTP/1\.1 (\d{3}) [A-Za-z ]+", lines[0])
    expect(found, f"a reply begins with {data[:60]!r}")
    fields = {name.lower(): value.strip() for name, _, value in (line.partition(":") for line in lines[1:])}
    expect(len(fields) == len(lines) - 1, f"a field comes twice in {lines}")
    return int(found[1]), fields, body


def metric_of(name):
    """The metric that has a sample of this name, which may be one of a histogram."""
    return PART.sub("", name)


def numbers_of(text):
    """The samples of a text of metrics, as the text format has them, and the types of the metrics."""
    found, types, helped = {}, {}, set()
    expect(text.endswith("\n"), "the metrics do not end with a line")
    for line in text.splitlines():
        if line.startswith("# HELP "):
            helped.add(line.split(" ", 3)[2])
        elif line.startswith("# TYPE "):
            _, _, name, kind = line.split(" ")
            expect(name not in types, f"{name} has two types")
            types[name] = kind
        else:
            sample = SAMPLE.fullmatch(line)
            expect(sample, f"a line is {line!r}")
            labels = tuple(re.findall(r'([a-z]+)="([^"]*)"', sample[2] or ""))
            expect((sample[1], labels) not in found, f"a sample comes twice: {line}")
            found[sample[1], labels] = float(sample[3])
            expect(metric_of(sample[1]) == next(reversed(types), None), f"{line!r} stands apart from its type")
    expect(helped == set(types), f"without a help or a type: {sorted(helped ^ set(types))}")
    return found, types


def in_folder(function):
    """A case that has a folder of its own."""
    @functools.wraps(function)
    def case(program):
        with tempfile.TemporaryDirectory() as folder:
            return function(program, Path(folder))
    return case


def by_label(found, name):
    """The numbers of a metric, by its one label."""
    return {labels[0][1]: value for (metric, labels), value in found.items() if metric == name}


def of(found, name, **labels):
    """The number of a metric with these labels, in their order; 0 if there is none."""
    return found.get((name, tuple(labels.items())), 0.0)


def asks(token):
    """Requests, each with the status and the kind that it has to be counted by."""
    body = '{"data":{"name-of-a-member":"kept-by-nobody-else"}}'
    head = f"HTTP/1.1\r\nHost: b\r\nX-Vault-Token: {token}\r\n"
    policy = json.dumps({"policy": '{"path":{"secret/data/name-of-a-secret":{"capabilities":["read"]}}}'})
    secret = "secret/data/name-of-a-secret"
    yield from [(request("POST", secret, token, body), "200", "write")] * 3
    yield from [(request("PUT", secret, token, body), "200", "write")] * 2
    yield from [(request("GET", secret, token), "200", "read")] * 7
    yield request("GET", "secret/data/none", token), "404", "read"
    yield from [(request("GET", secret, "hvs.stranger"), "403", "read")] * 2
    yield request("GET", "secret/metadata?list=true", token), "200", "list"
    yield request("LIST", "secret/metadata", token), "200", "list"
    yield request("POST", "sys/policies/acl/name-of-a-policy", token, policy), "204", "write"
    yield request("POST", "secret/data/other", token, "{"), "400", "write"
    yield request("DELETE", "sys/policies/acl/name-of-a-policy", token), "204", "delete"
    yield request("DELETE", secret, token), "204", "delete"
    yield f"GET /ui {head}\r\n".encode(), "404", "refused"
    yield f"PATCH /v1/{secret} {head}\r\n".encode(), "501", "refused"
    yield b"nonsense\r\n\r\n", "400", "refused"
    yield f"POST /v1/{secret} {head}Content-Length: 1048577\r\n\r\n".encode(), "413", "refused"


def counted(broker):
    """Makes the requests, each on a connection of its own, and answers how often each status and kind was."""
    statuses, kinds = {}, {}
    for text, status, kind in asks(broker.token):
        with connect(broker.port) as connection:
            connection.sendall(text)
            met = str(reply(connection)[0])
        expect(met == status, f"{text[:40]} is answered {met}")
        statuses[status] = statuses.get(status, 0) + 1
        kinds[kind] = kinds.get(kind, 0) + 1
    return statuses, kinds


def found_by(case, program):
    """What a case has met, and what is wrong: also that a reply has not what the case looks for."""
    try:
        return tried(case, program)
    except (KeyError, ValueError) as error:
        return None, f"{type(error).__name__}: {error}"


def side_by_side(title, cases, program):
    """Runs all cases at once, and prints what each has met. The status of the script."""
    with concurrent.futures.ThreadPoolExecutor(len(cases)) as pool:
        running = [(case, pool.submit(found_by, case, program)) for case in cases]
        return report(title, [(case, found.result()) for case, found in running])
