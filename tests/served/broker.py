"""A running `brokerd serve`, and connections to it: what the scripts beside this one share."""

import contextlib
import os
import re
import socket
import subprocess
import time
from pathlib import Path

PATIENCE = 300.0  # seconds until a program listens
MOST = 4294967295  # connections of a program
LISTENS = "0A"  # the state of a socket in /proc/net/tcp
STUCK = 500_000  # bytes that wait to be sent to a peer that does not read, at least
FAULT = re.compile(r"(.*\S.*)\n(fault [1-6])\n?")  # why a program ends, and its fault


def free_port():
    """A port of the loopback address that nothing listens on at this moment."""
    with socket.socket() as taken:
        taken.bind(("127.0.0.1", 0))
        return taken.getsockname()[1]


def fault_in(said):
    """The fault in what a program has said before it ended: it says why, in one line, and then which fault it is. What
    it has said, if it is anything else."""
    found = FAULT.fullmatch(said)
    return found[2] if found else said


def connect(port, patience=5.0):
    """A connection to the port, which may not be listened on yet."""
    until = time.monotonic() + patience
    while True:
        try:
            return socket.create_connection(("127.0.0.1", port), timeout=60)
        except ConnectionRefusedError:
            if time.monotonic() > until:
                raise
            time.sleep(0.02)


def request(method, path, token, body="", wrap_ttl=""):
    """The bytes of a request of a client token, whose reply is to be wrapped if a wrap TTL is given."""
    wrap = f"X-Vault-Wrap-TTL: {wrap_ttl}\r\n" if wrap_ttl else ""
    length = f"Content-Length: {len(body)}\r\n" if body else ""
    return (f"{method} /v1/{path} HTTP/1.1\r\nHost: b\r\nX-Vault-Token: {token}\r\n{wrap}{length}\r\n"
            f"{body}").encode()


def reply(connection, rest=b""):
    """The status and the body of the next reply, and the bytes that came after it. Status 0 if the input ends."""
    while b"\r\n\r\n" not in rest:
        more = connection.recv(65536)
        if not more:
            return 0, rest, b""
        rest += more
    head, _, rest = rest.partition(b"\r\n\r\n")
    length = 0
    for line in head.split(b"\r\n")[1:]:
        name, _, value = line.partition(b":")
        if name.lower() == b"content-length":
            length = int(value)
    while len(rest) < length:
        more = connection.recv(65536)
        if not more:
            return 0, rest, b""
        rest += more
    return int(head.split(b" ")[1]), rest[:length], rest[length:]


def exchange(connection, text):
    """Sends a request, and answers the status and the body of its reply, and how many seconds it took."""
    begin = time.monotonic()
    connection.sendall(text)
    status, body, rest = reply(connection)
    if rest:
        raise AssertionError(f"there are further bytes after the reply: {rest[:80]}")
    return status, body, time.monotonic() - begin


def processor_seconds(process):
    """The processor time that a process of one thread has taken."""
    return int(Path(f"/proc/{process}/schedstat").read_text(encoding="ascii").split()[0]) / 1e9


def seconds_without_processor(process):
    """For how long a process of one thread could have run, and had no processor."""
    return int(Path(f"/proc/{process}/schedstat").read_text(encoding="ascii").split()[1]) / 1e9


class Broker:
    """A program that serves on a free port until the block ends. A root token is given if it was started before. To see
    whether it listens takes one of its connections. `options` are those of its process."""

    def __init__(self, program, *arguments, token=None, connections=MOST, **options):
        self.program = program
        self.arguments = arguments
        self.known = token
        self.connections = connections
        self.options = options

    def __enter__(self):
        for _ in range(5):
            self.port = free_port()
            self.process = subprocess.Popen(
                [self.program, "serve", "--listen", f"127.0.0.1:{self.port}", "--connections", str(self.connections),
                 *self.arguments],
                stdout=subprocess.PIPE, stderr=subprocess.PIPE, **self.options)
            self.token = self.known or self.told_token()
            if self.listens():
                return self
            said = self.close()
        raise SystemExit(f"no port can be listened on: {said}")

    def told_token(self):
        """The root token, which the program prints when it starts a broker."""
        words = self.process.stdout.readline().decode().split()
        if words[:2] != ["root", "token:"]:
            raise SystemExit(f"the first line is {words}")
        return words[2]

    def listens(self):
        """Whether the program can be connected to. It is waited for, unless it ends; it reads all rows first."""
        until = time.monotonic() + PATIENCE
        while self.process.poll() is None and time.monotonic() < until:
            try:
                connect(self.port, 0.0).close()
                return self.is_the_listener()
            except ConnectionRefusedError:
                time.sleep(0.01)
        return False

    def is_the_listener(self):
        """Whether it is this program that listens on the port, and no other one that was quicker to take it."""
        with open("/proc/net/tcp", encoding="ascii") as lines:
            found = [line.split() for line in lines]
        listeners = {f"socket:[{words[9]}]" for words in found
                     if words[1].endswith(f":{self.port:04X}") and words[3] == LISTENS}
        return any(opened in listeners for opened in self.opened())

    def opened(self):
        """What the program has open, as the system names it. Some of it may be closed meanwhile."""
        with contextlib.suppress(OSError):
            for entry in os.listdir(f"/proc/{self.process.pid}/fd"):
                with contextlib.suppress(OSError):
                    yield os.readlink(f"/proc/{self.process.pid}/fd/{entry}")

    def close(self):
        """Ends the program, and answers what it has said on its standard error."""
        self.process.kill()
        said = self.process.communicate()[1].decode().strip()
        self.process.stdout.close()
        self.process.stderr.close()
        return said

    def __exit__(self, *_):
        self.close()

    def ended(self, patience=10.0):
        """The status with which the program ends by itself, and what it has said on its standard error. None if it does
        not end in time."""
        try:
            said = self.process.communicate(timeout=patience)[1].decode().strip()
        except subprocess.TimeoutExpired:
            return None, ""
        return self.process.returncode, said

    def ask(self, method, path, body=""):
        """The status of a request on a connection of its own, and how many seconds it took."""
        begin = time.monotonic()
        with connect(self.port) as connection:
            connection.sendall(request(method, path, self.token, body))
            status, _, _ = reply(connection)
        return status, time.monotonic() - begin

    def queues(self):
        """The ports of the peers whose connections the program has open, as the system tells, and how many bytes wait
        to be sent to each. Connections that it has not accepted yet, or has closed, belong to no process."""
        found, own = {}, f":{self.port:04X}"
        with open("/proc/net/tcp", encoding="ascii") as lines:
            for line in lines:
                words = line.split()
                if words[1].endswith(own) and words[9] != "0" and words[2] != "00000000:0000":
                    found[int(words[2].rpartition(":")[2], 16)] = int(words[4].partition(":")[0], 16)
        return found

    def held(self):
        """The ports of the peers whose connections the program has open."""
        return set(self.queues())

    def wait_until_stuck(self, connections, patience):
        """Waits until no more bytes go to these connections, whose peers do not read. Whether that came in time."""
        ports, until, before = [one.getsockname()[1] for one in connections], time.monotonic() + patience, None
        while time.monotonic() < until:
            queues = self.queues()
            now = [queues.get(port, 0) for port in ports]
            if now == before and min(now) > STUCK:
                return True
            before = now
            time.sleep(0.3)
        return False

    def holds(self, connection):
        """Whether the program has this connection open."""
        return connection.getsockname()[1] in self.held()

    def hold(self, connections):
        """How many of the connections the program has open."""
        ports = self.held()
        return sum(connection.getsockname()[1] in ports for connection in connections)

    def lets_go(self, connection, patience):
        """How many seconds pass until the program has the connection open no more; None if it is more than that."""
        begin = time.monotonic()
        while time.monotonic() < begin + patience:
            if not self.holds(connection):
                return time.monotonic() - begin
            time.sleep(0.02)
        return None

    def processor(self):
        """The processor seconds that the program has taken."""
        return processor_seconds(self.process.pid)

    def waited(self):
        """For how many seconds the program has waited for a processor."""
        return seconds_without_processor(self.process.pid)
