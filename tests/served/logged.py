#!/usr/bin/env python3
"""The log of `brokerd serve --log`: a line for each request, for people and for machines, without a secret; what one
token did; a log that nobody reads, or for which there is no room, stops nobody; a log that is rotated loses no line.

    python3 tests/served/logged.py PROGRAM

The last line is 'N passed, M failed'.
"""

import concurrent.futures
import datetime
import json
import os
import re
import resource
import select
import shutil
import signal
import stat
import subprocess
import sys
import tempfile
import time
from pathlib import Path

from broker import connect, exchange, reply, request
from cases import expect, report, tried

ID = r"[0-9a-f]{8}(?:-[0-9a-f]{4}){3}-[0-9a-f]{12}"
LINE = re.compile(
    r"(?P<time>\d{4}-\d\d-\d\dT\d\d:\d\d:\d\dZ) (?:(?P<status>\d{3}|-) (?P<ms>\d+)ms (?P<method>\w+|-) (?P<path>\S+)"
    r" peer=(?P<peer>\S+) accessor=(?P<accessor>" + ID + "|-) request_id=(?P<request_id>" + ID + "|-)"
    r" in=(?P<bytes_in>\d+) out=(?P<bytes_out>\d+)|(?P<event>.+))")
MEMBERS = ["time", "status", "micros", "method", "path", "peer", "accessor", "request_id", "bytes_in", "bytes_out"]
SECRET, VERSION = "kept-by-nobody-else", "4711"
FLOOD = 5000
ROOM = 8192  # bytes of a file for which there is room, in place of a full disk
ROTATIONS = 3
APART = 1.3  # seconds from one rotation to the next: more than the second after which the program looks


class Logged:
    """A program with a log, on a port that the system has chosen. `file` is where the log is, if it is no pipe."""

    def __init__(self, program, *arguments, file=None, is_json=False, **options):
        self.file, self.is_json = file, is_json
        arguments = [*arguments, *(["--log-file", str(file)] if file else []),
                     *(["--log-format", "json"] if is_json else [])]
        self.process = subprocess.Popen(
            [program, "serve", "--listen", "127.0.0.1:0", "--until-stopped", "--stop-on-input", "--log", *arguments],
            stdin=subprocess.PIPE, stdout=subprocess.PIPE, stderr=subprocess.PIPE, **options)

    def __enter__(self):
        self.token = self.process.stdout.readline().decode().split()[-1]
        if self.file:
            self.port = listened_on(self.process.pid)
        else:
            expect(self.line()["event"] == "starting", "the first line is another one")
            said = self.line()["event"]
            expect(said.startswith("listening on 127.0.0.1:"), f"the second line is {said}")
            self.port = int(said.rpartition(":")[2])
        self.accessor = self.looked_up(self.token)
        if not self.file:
            self.line()
        return self

    def __exit__(self, *_):
        self.process.kill()
        self.process.communicate()

    def looked_up(self, token):
        """The accessor of a token."""
        with connect(self.port) as connection:
            body = exchange(connection, request("GET", "auth/token/lookup-self", token))[1]
            return json.loads(body)["data"]["accessor"]

    def line(self):
        """The members of the next line."""
        found = parsed(self.process.stderr.readline().decode(), self.is_json)
        moment = datetime.datetime.fromisoformat(found["time"].replace("Z", "+00:00"))
        expect(abs(moment.timestamp() - time.time()) < 30, f"the time is {found['time']}")
        return found

    def ask(self, text):
        """The status of a request, on a connection of its own."""
        with connect(self.port) as connection:
            connection.sendall(text)
            return reply(connection)[0]

    def exchanged(self, text):
        """The port of the client, and all bytes of the reply to a request, on a connection of its own."""
        with connect(self.port) as connection:
            connection.sendall(text)
            return connection.getsockname()[1], whole_reply(connection)

    def waiting(self):
        """What waits in the pipe, which is empty afterwards."""
        found, end = b"", self.process.stderr.fileno()
        while select.select([end], [], [], 0.2)[0]:
            found += os.read(end, 65536)
        return found.decode()

    def stop(self):
        """The rest of the log, after a stop."""
        self.process.stdin.close()
        self.process.stdin = None
        rest = self.process.communicate(timeout=20)[1].decode()
        expect(self.process.returncode == 0, f"the status is {self.process.returncode}")
        return rest.splitlines()


def parsed(text, is_json=False):
    """The members of a line."""
    if not is_json:
        found = LINE.fullmatch(text.rstrip("\n"))
        expect(found is not None, f"a line is {text!r}")
        return found.groupdict()
    found = json.loads(text)
    if "event" in found:
        expect(list(found) == ["time", "event"], f"an object is {text}")
    else:
        expect(list(found) == MEMBERS, f"an object is {text}")
        found["event"] = None
    return found


def listened_on(process):
    """The port that a process listens on, once it does."""
    until = time.monotonic() + 60
    while time.monotonic() < until:
        sockets = set()
        for entry in Path(f"/proc/{process}/fd").iterdir():
            try:
                sockets.add(os.readlink(entry))
            except OSError:
                pass
        with open("/proc/net/tcp", encoding="ascii") as lines:
            for words in map(str.split, lines):
                if words[3] == "0A" and f"socket:[{words[9]}]" in sockets:
                    return int(words[1].rpartition(":")[2], 16)
        time.sleep(0.02)
    raise AssertionError("it does not listen")


def whole_reply(connection):
    """All bytes of the next reply."""
    found = b""
    while b"\r\n\r\n" not in found:
        more = connection.recv(65536)
        expect(more, "the input has ended")
        found += more
    head, _, body = found.partition(b"\r\n\r\n")
    length = re.search(rb"(?i)content-length: *(\d+)", head)
    while length and len(body) < int(length[1]):
        more = connection.recv(65536)
        expect(more, "the input has ended")
        found, body = found + more, body + more
    return found


def requests(token):
    """Requests, each with the status, the method and the path that its line has to have."""
    def line(text):
        return f"{text} HTTP/1.1\r\nHost: b\r\nX-Vault-Token: {token}\r\n".encode()

    body = '{"data":{"password":"%s"}}' % SECRET
    yield request("POST", "secret/data/app", token, body), "200", "POST", "/v1/secret/data/app"
    yield request("PUT", "secret/data/app", token, body), "200", "POST", "/v1/secret/data/app"
    yield request("GET", "secret/data/app", token), "200", "GET", "/v1/secret/data/app"
    yield request("GET", f"secret/data/app?version={VERSION}", token), "404", "GET", "/v1/secret/data/app"
    yield request("LIST", "secret/metadata/", token), "200", "LIST", "/v1/secret/metadata"
    yield request("GET", "secret/metadata?list=true", token), "200", "LIST", "/v1/secret/metadata"
    yield request("DELETE", "secret/data/app", token), "204", "DELETE", "/v1/secret/data/app"
    yield request("GET", "secret/data/app", "hvs.stranger"), "403", "GET", "/v1/secret/data/app"
    yield request("GET", "sys/mounts/secret", token), "405", "GET", "/v1/sys/mounts/secret"
    yield request("GET", f"auth/token/lookup/{token}", token), "404", "GET", "/v1/auth/token/lookup/hvs.*"
    yield request("GET", f"cubbyhole/{token}/{token}x/y", token), "404", "GET", "/v1/cubbyhole/hvs.*/hvs.*/y"
    yield request("GET", "cubbyhole/%68vs.coded", token), "404", "GET", "/v1/cubbyhole/hvs.*"
    yield request("GET", "cubbyhole/a%20b%C3%BC/hv", token), "404", "GET", "/v1/cubbyhole/a?b??/hv"
    yield line("GET /v1/cubbyhole/a%0Ab") + b"\r\n", "400", "-", "-"
    yield line("GET /v1/cubbyhole/../b") + b"\r\n", "400", "-", "-"
    yield line("PATCH /v1/cubbyhole/a") + b"\r\n", "501", "-", "-"
    yield line("GET /ui") + b"\r\n", "404", "-", "-"
    yield b"nonsense\r\n\r\n", "400", "-", "-"
    yield line("POST /v1/cubbyhole/a") + b"Transfer-Encoding: chunked\r\n\r\n", "501", "-", "-"
    yield line("POST /v1/cubbyhole/a") + b"Content-Length: 1048577\r\n\r\n", "413", "-", "-"
    yield line("GET /v1/cubbyhole/a") + b"X: " + b"x" * 20_000 + b"\r\n\r\n", "431", "-", "-"


def judge(broker, line, text, expected, port, sent):
    """The line of a request that was sent and answered so."""
    status, method, path = expected
    shown = {name: line[name] for name in ("status", "method", "path")}
    absent = None if broker.is_json else "-"
    wanted = {"status": int(status) if broker.is_json else status, "method": absent if method == "-" else method,
              "path": absent if path == "-" else path}
    expect(shown == wanted, f"the line of {text[:60]} is {line}")
    for secret in (broker.token[4:], SECRET, VERSION, "stranger", "coded"):
        expect(secret not in json.dumps(line), f"there is a secret in {line}")
    took = line["micros"] / 1000 if broker.is_json else int(line["ms"])
    expect(took < 2000, f"it took {took} ms")
    expect(line["peer"] == f"127.0.0.1:{port}", f"the peer of port {port} is {line['peer']}")
    has_caller = method != "-" and b"stranger" not in text
    expect(line["accessor"] == (broker.accessor if has_caller else absent), f"the accessor of {text[:60]} is {line}")
    found = re.search(rb'"request_id":"([^"]*)","warnings"', sent)
    expect(line["request_id"] == (found[1].decode() if found else absent), f"the request of {text[:60]} is {line}")
    counts = (int(line["bytes_in"]), int(line["bytes_out"]))
    expect(counts[1] == len(sent), f"of {len(sent)} bytes the line is {line}")
    expect(counts[0] == len(text) if len(text) < 8192 else 8192 <= counts[0] <= len(text),
           f"of {len(text)} bytes the line is {line}")


def every_line(program, is_json):
    """Each request has its line, and there is no secret in any."""
    with Logged(program, is_json=is_json) as broker:
        met = 0
        for text, *expected in requests(broker.token):
            port, sent = broker.exchanged(text)
            expect(sent.split(b" ")[1].decode() == expected[0], f"{text[:60]} is answered {sent[:20]}")
            judge(broker, broker.line(), text, expected, port, sent)
            met += 1
        rest = [parsed(text, is_json)["event"] for text in broker.stop()]
    expect(rest == ["stopping", "stopped"], f"the log ends with {rest}")
    return f"{met} requests"


def lines(program):
    """The lines for people."""
    return every_line(program, False)


def objects(program):
    """Those for machines."""
    return every_line(program, True)


def asked(broker, *arguments, **options):
    """The body of the reply to a request."""
    with connect(broker.port) as connection:
        return exchange(connection, request(*arguments, **options))[1]


def what_one_token_did(program):
    """By `grep` for its accessor one finds all that a token did, and nothing else. An unwrap of the client token has no
    caller, nor has a request whose token is wrong or is a wrapping token; with a token beside, it has."""
    for is_json in False, True:
        with tempfile.TemporaryDirectory() as place, Logged(program, file=f"{place}/log", is_json=is_json) as broker:
            creation = ("POST", "auth/token/create", broker.token, '{"policies":["root"]}')
            made = [json.loads(asked(broker, *creation))["auth"] for _ in range(2)]
            for auth in made:
                for path in ("cubbyhole/a", "secret/data/a", "cubbyhole/none"):
                    asked(broker, "GET", path, auth["client_token"])
            wrapped = json.loads(asked(broker, "GET", "auth/token/lookup-self", made[0]["client_token"], wrap_ttl="60"))
            asked(broker, "POST", "sys/wrapping/unwrap", wrapped["wrap_info"]["token"])
            wrapped = json.loads(asked(broker, "GET", "auth/token/lookup-self", made[0]["client_token"], wrap_ttl="60"))
            asked(broker, "POST", "sys/wrapping/unwrap", made[1]["client_token"],
                  json.dumps({"token": wrapped["wrap_info"]["token"]}))
            wrapped = json.loads(asked(broker, "GET", "auth/token/lookup-self", made[0]["client_token"], wrap_ttl="60"))
            asked(broker, "GET", "cubbyhole/a", wrapped["wrap_info"]["token"])
            broker.stop()
            form = '"accessor":"%s"' if is_json else "accessor=%s"
            did = [found(place, form % auth["accessor"], is_json) for auth in made]
            nobody = found(place, '"accessor":null' if is_json else "accessor=-", is_json)
            reading = ["GET /v1/cubbyhole/a", "GET /v1/secret/data/a", "GET /v1/cubbyhole/none"]
            expect(did[0] == reading + ["GET /v1/auth/token/lookup-self"] * 3, f"the first did {did[0]}")
            expect(did[1] == [*reading, "POST /v1/sys/wrapping/unwrap"], f"the second did {did[1]}")
            expect(nobody == ["POST /v1/sys/wrapping/unwrap", "GET /v1/cubbyhole/a"], f"nobody did {nobody}")
            whole = Path(place, "log").read_text(encoding="ascii")
            expect(broker.token[4:] not in whole and made[0]["client_token"][4:] not in whole, "a token is in the log")
    return "two tokens, in both forms"


def found(place, text, is_json):
    """The methods and the paths of the lines that `grep` finds."""
    told = subprocess.run(["grep", "-F", text, f"{place}/log"], check=False, capture_output=True, text=True).stdout
    return [f"{line['method']} {line['path']}" for line in (parsed(text, is_json) for text in told.splitlines())]


def no_token(program):
    """Wherever tokens are in a path, none is in the log."""
    count = 0
    for is_json in False, True:
        with tempfile.TemporaryDirectory() as place, Logged(program, file=f"{place}/log", is_json=is_json) as broker:
            marks = ["", "/", "a/", "x=", "x%20", "x%22", "x%3F", "%68", "%C3%BC"]
            for mark in marks:
                token = broker.token if mark != "%68" else broker.token[1:]
                for path in (f"cubbyhole/{mark}{token}", f"secret/data/{mark}{token}/b", f"{mark}{token}"):
                    broker.ask(request("GET", path, broker.token))
                    broker.ask(request("LIST", path, token))
                    count += 2
            broker.ask(request("GET", f"cubbyhole/a?list=true&x={broker.token}", broker.token))
            broker.stop()
            log = Path(place, "log").read_text(encoding="ascii")
        expect(len(log.splitlines()) == count // (1 + is_json) + 6, f"{len(log.splitlines())} lines")
        wrong = re.findall(r"[^\n]*hvs\.(?!\*)[^\n]*", log)
        expect(not wrong and broker.token[4:] not in log, f"a token is in {wrong[:1]}")
    return f"{count} requests"


def soon(program):
    """The line of a request is written within a fifth of a second, though nothing else comes."""
    with Logged(program) as broker, connect(broker.port) as connection:
        for _ in range(5):
            expect(exchange(connection, request("GET", "auth/token/lookup-self", broker.token))[0] == 200, "no reply")
            expect(select.select([broker.process.stderr], [], [], 0.2)[0], "no line")
            broker.line()
    return "five requests"


def pipelined(program):
    """Of requests that come at once, the first has all bytes that were read with it."""
    with Logged(program) as broker:
        text = request("GET", "auth/token/lookup-self", broker.token)
        with connect(broker.port) as connection:
            connection.sendall(text * 3)
            counts = [int(broker.line()["bytes_in"]) for _ in range(3)]
    expect(counts == [3 * len(text), 0, 0], f"of 3 times {len(text)} bytes they are {counts}")
    return "3 requests"


def nobody_reads(program):
    """A log that is not read fills its pipe. All requests are answered; once there is room it is told how many lines
    were dropped, and no line is lost or doubled besides."""
    with Logged(program) as broker:
        ask = request("GET", "auth/token/lookup-self", broker.token)
        begin = time.monotonic()
        with connect(broker.port) as connection:
            for _ in range(FLOOD):
                expect(exchange(connection, ask)[0] == 200, "no reply")
        seconds = time.monotonic() - begin
        log = broker.waiting().splitlines()
        expect(broker.ask(ask) == 200, "no reply")
        log += broker.stop()
    written = sum("auth/token/lookup-self" in line for line in log)
    told = [int(line.split()[1]) for line in log if line.endswith(" lines were dropped")]
    expect(len(told) == 1 and min(written, *told) >= 200, f"{written} lines were written, and {told} dropped")
    expect(written + told[0] == FLOOD + 1, f"{written} lines, {told[0]} dropped, of {FLOOD} and one more")
    return f"{FLOOD} requests in {seconds:.1f} s: {written} lines were written, {told[0]} dropped"


def the_reader_is_gone(program):
    """A log whose reader has closed its end does not end the program either."""
    with Logged(program) as broker:
        ask = request("GET", "auth/token/lookup-self", broker.token)
        broker.process.stderr.close()
        with connect(broker.port) as connection:
            for _ in range(100):
                expect(exchange(connection, ask)[0] == 200, "no reply")
        expect(broker.process.poll() is None, f"it has ended: {broker.process.poll()}")
        broker.process.stderr = None
    return "100 requests"


def many_at_once(program):
    """Many connections at once: each request has its line."""
    with Logged(program) as broker, concurrent.futures.ThreadPoolExecutor(16) as pool:
        ask = request("GET", "auth/token/lookup-self", broker.token)
        statuses = list(pool.map(lambda _: broker.ask(ask), range(200)))
        expect(statuses == [200] * 200, "no reply")
        met = [broker.line() for _ in range(200)]
    expect(all((line["status"], line["method"], line["path"]) == ("200", "GET", "/v1/auth/token/lookup-self")
               for line in met), "another line")
    return "200 requests on as many connections"


def asks_of(log):
    """The numbers of the requests `cubbyhole/N` in the lines of a log."""
    return [int(number) for number in re.findall(r" /v1/cubbyhole/(\d+) ", log)]


def rotated(program):
    """A file that is moved away under load, by `logrotate` if it is there, is made anew for its owner alone within a
    second. No line is lost or cut, and none is in the old file after that second."""
    with tempfile.TemporaryDirectory() as place, Logged(program, file=f"{place}/broker.log") as broker:
        file = Path(place, "broker.log")
        expect(stat.S_IMODE(file.stat().st_mode) == 0o600, "others may read the log")
        rotations, count, begin = [], 0, time.monotonic()
        with connect(broker.port) as connection:
            while time.monotonic() - begin < APART * (ROTATIONS + 1):
                status = exchange(connection, request("GET", f"cubbyhole/{count}", broker.token))[0]
                expect(status == 404, f"a request is answered {status}")
                count += 1
                if len(rotations) < ROTATIONS and time.monotonic() - begin >= APART * (len(rotations) + 1):
                    rotations.append(rotate(place))
                time.sleep(0.0005)
        for number in range(count, count + 10):
            broker.ask(request("GET", f"cubbyhole/{number}", broker.token))
        broker.stop()
        parts = [path.read_text(encoding="ascii") for path in sorted(Path(place).glob("broker.log*"), reverse=True)]
        for text in parts:
            for line in text.splitlines():
                parsed(line)
            expect(text.endswith("\n"), "a line is cut")
        numbers = [number for text in parts for number in asks_of(text)]
        expect(numbers == list(range(count + 10)), f"{len(numbers)} lines of {count + 10}")
        expect(all(asks_of(text) for text in parts) and len(parts) == ROTATIONS + 1, f"{len(parts)} files")
        late = [times[-1] - moment for times, moment in zip(map(moments, parts), rotations)]
        expect(max(late) < 1, f"a line of the old file is {max(late)} s late")
        expect(stat.S_IMODE(file.stat().st_mode) == 0o600, "others may read the new log")
    how = "logrotate" if shutil.which("logrotate", path="/usr/sbin:/usr/bin:/sbin:/bin") else "a move"
    return f"{count} requests over {ROTATIONS} rotations by {how}"


def moments(log):
    """The times of the lines of a log, in seconds."""
    return [datetime.datetime.fromisoformat(line.partition("Z")[0] + "+00:00").timestamp() for line in log.splitlines()]


def rotate(place):
    """Moves the log away, and answers when: by `logrotate`, if it is there, with the configuration of the package."""
    program = shutil.which("logrotate", path="/usr/sbin:/usr/bin:/sbin:/bin")
    older = [Path(place, f"broker.log.{number}") for number in (2, 1)]
    if program is None:
        for path in older:
            if path.exists():
                path.rename(path.with_suffix(f".{int(path.suffix[1:]) + 1}"))
        Path(place, "broker.log").rename(f"{place}/broker.log.1")
        return time.time()
    example = Path(__file__).parents[2] / "examples/logrotate"
    text = example.read_text(encoding="ascii").replace("/var/log/dehluvima/", f"{place}/")
    text = re.sub(r"^ *(su|compress|delaycompress)\b.*\n", "", text, flags=re.MULTILINE)
    config = Path(place, "logrotate.conf")
    config.write_text(text, encoding="ascii")
    config.chmod(0o600)
    subprocess.run([program, "-f", "-s", f"{place}/state", str(config)], check=True, capture_output=True)
    return time.time()


def no_folder(program):
    """A file in a folder that is not there stops nobody. Standard error tells it once; once the folder is there, the
    file is made, and tells how many lines were dropped."""
    with tempfile.TemporaryDirectory() as place, Logged(program, file=f"{place}/none/log") as broker:
        ask = request("GET", "auth/token/lookup-self", broker.token)
        expect([broker.ask(ask) for _ in range(5)] == [200] * 5, "no reply")
        time.sleep(0.3)  # lines are written together
        Path(place, "none").mkdir()
        time.sleep(1.1)
        expect(broker.ask(ask) == 200, "no reply")
        said = broker.stop()
        log = Path(place, "none/log").read_text(encoding="ascii").splitlines()
    expect(said == [f"the log {place}/none/log cannot be written"], f"standard error has {said}")
    told = re.fullmatch(r"\S+Z (\d+) lines were dropped", log[0])
    expect(told and int(told[1]) == 8 and len(log) == 4, f"the log is {log}")
    return f"{told[1]} lines were dropped"


def no_room(program):
    """A disk without room stops nobody: no line is cut, and once there is room it is told how many were dropped."""
    def limit():
        signal.signal(signal.SIGXFSZ, signal.SIG_IGN)
        resource.setrlimit(resource.RLIMIT_FSIZE, (ROOM, resource.RLIM_INFINITY))

    with tempfile.TemporaryDirectory() as place, Logged(program, file=f"{place}/log", preexec_fn=limit) as broker:
        ask = request("GET", "auth/token/lookup-self", broker.token)
        with connect(broker.port) as connection:
            for _ in range(100):
                expect(exchange(connection, ask)[0] == 200, "no reply")
        full = Path(place, "log").read_text(encoding="ascii")
        resource.prlimit(broker.process.pid, resource.RLIMIT_FSIZE, (resource.RLIM_INFINITY, resource.RLIM_INFINITY))
        expect(broker.ask(ask) == 200, "no reply")
        broker.stop()
        log = Path(place, "log").read_text(encoding="ascii")
    expect(len(full) <= ROOM and full.endswith("\n") and log.startswith(full), "a line is cut")
    written = sum("lookup-self" in line for line in log.splitlines())
    told = [int(line.split()[1]) for line in log.splitlines() if line.endswith(" lines were dropped")]
    expect(len(told) == 1 and written + told[0] == 102, f"{written} lines, {told} dropped")
    return f"{written} lines were written, {told[0]} dropped"


def no_file(program):
    """What is no file, as a pipe that nobody reads, is not opened, and stops nobody."""
    with tempfile.TemporaryDirectory() as place:
        os.mkfifo(f"{place}/log")
        with Logged(program, file=f"{place}/log") as broker:
            expect(broker.ask(request("GET", "auth/token/lookup-self", broker.token)) == 200, "no reply")
            said = broker.stop()
    expect(said == [f"the log {place}/log cannot be written"], f"standard error has {said}")
    return "a pipe"


def main():
    cases = [lines, objects, what_one_token_did, no_token, soon, pipelined, nobody_reads, the_reader_is_gone,
             many_at_once, no_folder, no_room, no_file]
    outcomes = [(case, tried(case, sys.argv[1])) for case in cases]
    return report("log", [*outcomes, (rotated, tried(rotated, sys.argv[1]))])


if __name__ == "__main__":
    sys.exit(main())
