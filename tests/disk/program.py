"""Runs of `brokerd serve --db`, each on an address of its own, so that many can run side by side."""

import itertools
import os
import re
import resource
import select
import signal
import socket
import subprocess
import time
from dataclasses import dataclass

SECONDS = 10  # of processor time that a program may take where its files were changed
PATIENCE = 200  # seconds until a program listens, answers or has ended by itself, also beside much other work
PAUSE = 0.001  # between two looks at it
IDLE = 0.15  # after which the program may have closed a connection: it does after 0.25
PORTS = itertools.count()
FAULT = re.compile(r".*\S.*\nfault ([1-6])\n")  # what a program says last that ends by a fault
OPENING = re.compile(r"\Aopening .*: \d+ MB\n")  # what a start says first of a large database


class Wrong(Exception):
    """The program did what it must not do."""


class TooSlow(Wrong):
    """The program has neither ended nor done what it was waited for."""


def expect(condition, what):
    if not condition:
        raise Wrong(what)


@dataclass(frozen=True)
class End:
    """How a program ended."""
    status: int  # its exit status, or minus the signal that ended it
    printed: str  # on standard output
    said: str  # on standard error, after the line of a large database
    memory: int  # the most that it had in memory at once, in kB
    seconds: float  # of processor time that it took

    def is_fault(self, *numbers):
        """Whether it ended with one of these faults, as the pages for users say."""
        return self.status == 1 and self.fault() in numbers

    def fault(self):
        """The fault that it told after a line that says why; None if it told none so."""
        found = FAULT.fullmatch(self.said)
        return int(found[1]) if found else None

    def is_kill(self):
        """Whether it was stopped by SIGKILL, and had said nothing until then."""
        return self.status == -signal.SIGKILL and self.said == ""

    def root_token(self):
        """The root token that it printed, or None."""
        return root_token(self.printed)

    def __str__(self):
        return f"status {self.status}, {self.said.strip()!r}"


def root_token(printed):
    """The root token in what a program printed, or None."""
    words = printed.split()
    return words[2] if words[:2] == ["root", "token:"] else None


def own_address():
    """An address of the loopback network and a port that nobody else takes: of this process, and of this run in it."""
    pid = os.getpid()
    return f"127.{64 + (pid >> 16) % 64}.{pid >> 8 & 255}.{pid & 255}", 10_000 + next(PORTS) % 20_000


def run_to_end(program, *words):
    """How the program ended, which has no more than the seconds of processor time that there are."""
    process = subprocess.Popen(
        [program, *words], stdin=subprocess.DEVNULL, stdout=subprocess.PIPE, stderr=subprocess.PIPE,
        preexec_fn=lambda: resource.setrlimit(resource.RLIMIT_CPU, (SECONDS, SECONDS)))
    with process.stdout as printed, process.stderr as said:
        told, error = (each.read().decode(errors="replace") for each in (printed, said))
    _, status, usage = os.wait4(process.pid, 0)
    process.returncode = os.waitstatus_to_exitcode(status)
    return End(process.returncode, told, error, usage.ru_maxrss, usage.ru_utime + usage.ru_stime)


def exchange(connection, text):
    """The bytes of the reply to a request, as of the next reply."""
    try:
        connection.sendall(text)
    except OSError:
        return b""
    return reply_from(connection)


def reply_from(connection):
    """The bytes of the next reply on a connection; what has come if the connection ends, and b"" if nothing has."""
    found = b""
    try:
        while b"\r\n\r\n" not in found:
            more = connection.recv(65536)
            if not more:
                return found
            found += more
        length = found.index(b"\r\n\r\n") + 4
        for line in found[:length].split(b"\r\n")[1:]:
            name, _, value = line.partition(b":")
            if name.lower() == b"content-length":
                length += int(value)
        while len(found) < length:
            more = connection.recv(65536)
            if not more:
                return found
            found += more
    except socket.timeout:
        raise TooSlow("no reply") from None
    except OSError:
        pass
    return found


class Running:
    """A program that serves the broker of a file."""

    def __init__(self, program, file, variables=None, longest=None, options=()):
        """With these variables of the environment, and these options beside its own; no file may be longer than so many
        bytes, if that is given."""
        self.address = own_address()
        self.process = subprocess.Popen(
            [program, "serve", "--listen", "{}:{}".format(*self.address), "--until-stopped", "--db", str(file),
             *options],
            stdin=subprocess.DEVNULL, stdout=subprocess.PIPE, stderr=subprocess.PIPE, env=variables,
            **({} if longest is None else self.limited(longest)))
        self.connection = None
        self.asked = time.monotonic()  # when the last request was sent, or the connection was made
        self.memory, self.seconds = 0, 0.0
        self.printed = b""

    @staticmethod
    def limited(longest):
        """How a program is started so that a write past the limit fails, in place of a signal that ends the program."""
        signal.signal(signal.SIGXFSZ, signal.SIG_IGN)
        return {"restore_signals": False,
                "preexec_fn": lambda: resource.setrlimit(resource.RLIMIT_FSIZE, (longest, longest))}

    def has_ended(self, wait=False):
        """Whether the program has ended, or after it has."""
        if self.process.returncode is None:
            pid, status, usage = os.wait4(self.process.pid, 0 if wait else os.WNOHANG)
            if pid:
                self.process.returncode = os.waitstatus_to_exitcode(status)
                self.memory, self.seconds = usage.ru_maxrss, usage.ru_utime + usage.ru_stime
        return self.process.returncode is not None

    def spent(self):
        """The processor seconds that the program has taken so far."""
        with open(f"/proc/{self.process.pid}/schedstat", encoding="ascii") as times:
            return int(times.read().split()[0]) / 1e9

    def told_root(self):
        """The root token, which a program prints that starts a broker; None if it has ended. Raises TooSlow."""
        while not self.printed.endswith(b"\n"):
            if not select.select([self.process.stdout], [], [], PATIENCE)[0]:
                raise TooSlow("no root token")
            more = os.read(self.process.stdout.fileno(), 4096)
            if not more:
                return None
            self.printed += more
        return root_token(self.printed.decode())

    def connect(self):
        """A new connection, or None if the program has ended. Raises TooSlow."""
        until = time.monotonic() + PATIENCE
        while True:
            try:
                connection = socket.create_connection(self.address, timeout=PATIENCE)
                connection.setsockopt(socket.IPPROTO_TCP, socket.TCP_NODELAY, 1)
                return connection
            except ConnectionRefusedError:
                if self.has_ended():
                    return None
                if time.monotonic() > until:
                    raise TooSlow("it does not listen") from None
                time.sleep(PAUSE)

    def ask(self, text):
        """The reply to a request, on one connection for all; b"" or a part if the program has ended. If the connection
        was idle for so long that the program may have closed it, the request is sent on another one. Raises TooSlow."""
        while True:
            if self.connection is None:
                self.connection, self.asked = self.connect(), time.monotonic()
            if self.connection is None:
                return b""
            before, self.asked = self.asked, time.monotonic()
            found = exchange(self.connection, text)
            if found or self.asked - before < IDLE:
                return found
            self.connection.close()
            self.connection = None

    def ends(self):
        """Waits until the program has ended by itself. Raises TooSlow."""
        until = time.monotonic() + PATIENCE
        while not self.has_ended():
            if time.monotonic() > until:
                raise TooSlow("it does not end")
            time.sleep(PAUSE)

    def close(self):
        """How the program ended; it is stopped by SIGKILL if it has not."""
        if not self.has_ended():
            self.process.kill()
            self.has_ended(wait=True)
        if self.connection is not None:
            self.connection.close()
        with self.process.stdout as printed, self.process.stderr as said:
            told = (self.printed + printed.read()).decode(errors="replace")
            error = OPENING.sub("", said.read().decode(errors="replace"))
        return End(self.process.returncode, told, error, self.memory, self.seconds)

    def __enter__(self):
        return self

    def __exit__(self, *_):
        if not self.process.stdout.closed:
            self.close()
