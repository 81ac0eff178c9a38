#!/usr/bin/env python3
"""A flood of slow clients, against `brokerd serve`: whoever asks beside them is answered within three seconds.

    python3 tests/served/slow.py PROGRAM

300 clients send a head, or a body, a few bytes at a time, and come again when they are let go, for 20 seconds; each
second another client asks. So do Debian's slowhttptest with slow heads (-H), slow bodies (-B) and slow reading (-X), if
it is installed: it has to find the service available throughout. Each is done with 256 places, which they take, and
with as many as the program has if it is not told. All run at once, each with a broker of its own, in some 22 seconds.
The last line is 'N passed, M failed'.
"""

import concurrent.futures
import functools
import re
import selectors
import shutil
import socket
import subprocess
import sys
import time

from broker import Broker, connect, reply, request
from cases import expect, tried

SLOW = 300  # clients
SECONDS = 20
LONGEST_WAIT = 3.0  # seconds for a client beside them
PAUSE = 0.5  # seconds between the pieces of a slow client
PIECE = 4  # bytes of one
PLACES = (("--at-once", "256"), ())  # the options of the program
COLOURS = re.compile(r"\x1b\[[0-9;]*[A-Za-z]")
AVAILABLE = re.compile(r"service available:\s+(\w+)")
LEAST_TOLD = 3  # times that slowhttptest says whether the service is available
TESTS = {"slow heads": "-H", "slow bodies": "-B", "slow reading": "-X"}


def slow_head(_):
    """A head that goes on and on."""
    return b"GET /v1/secret/data/app HTTP/1.1\r\nHost: b\r\nX-Long: " + b"x" * 8000


def slow_body(token):
    """A head at once, and then a body that takes its time."""
    return request("POST", "secret/data/app", token, '{"data":{"k":"' + "x" * 8000 + '"}}')


class Slow:
    """A client whose request comes a few bytes at a time, after what is sent at once."""

    def __init__(self, selector, port, text, at_once):
        self.selector, self.port, self.text, self.at_once = selector, port, text, at_once
        self.let_go = -1
        self.begin()

    def begin(self):
        """Connects once more, since it was let go."""
        self.let_go += 1
        self.socket = socket.socket()
        self.socket.setblocking(False)
        self.socket.connect_ex(("127.0.0.1", self.port))
        self.sent = 0
        self.selector.register(self.socket, selectors.EVENT_READ, self)

    def again(self):
        self.selector.unregister(self.socket)
        self.socket.close()
        self.begin()

    def send(self):
        """Sends the next piece."""
        piece = self.text[self.sent:max(self.sent + PIECE, self.at_once)]
        try:
            self.sent += self.socket.send(piece)
        except BlockingIOError:
            pass
        except OSError:
            self.again()

    def hear(self):
        """Whether there is a reply or the end, at which it comes again."""
        try:
            heard = self.socket.recv(65536)
        except BlockingIOError:
            return
        except OSError:
            heard = b""
        if not heard:
            self.again()

    def close(self):
        self.socket.close()


def flood(port, text, at_once, until):
    """Slow clients until a moment. How often one of them was let go."""
    with selectors.DefaultSelector() as selector:
        clients = [Slow(selector, port, text, at_once) for _ in range(SLOW)]
        due = time.monotonic()
        while time.monotonic() < until:
            for key, _ in selector.select(max(0.0, due - time.monotonic())):
                key.data.hear()
            if time.monotonic() >= due:
                due += PAUSE
                for client in clients:
                    client.send()
        for client in clients:
            client.close()
    return sum(client.let_go for client in clients)


def ask(broker):
    """How many seconds a client waits for its reply, on a connection of its own; but for those for which the program
    waits for a processor."""
    begin, without = time.monotonic(), broker.waited()
    with connect(broker.port) as connection:
        connection.sendall(request("GET", "auth/token/lookup-self", broker.token))
        try:
            status = reply(connection)[0]
        except OSError as error:
            raise AssertionError(f"a client beside them: {error}") from None
    expect(status == 200, f"a client beside them got {status}")
    return time.monotonic() - begin - (broker.waited() - without)


def beside(program, options, text_of):
    """A client asks each second beside slow ones."""
    with Broker(program, *options) as broker, concurrent.futures.ThreadPoolExecutor() as pool:
        text = text_of(broker.token)
        at_once = text.find(b"\r\n\r\n") + 4 if b"\r\n\r\n" in text else 0
        begin = time.monotonic()
        flooding = pool.submit(flood, broker.port, text, at_once, begin + SECONDS)
        waits = []
        for second in range(1, SECONDS):
            time.sleep(max(0.0, begin + second - time.monotonic()))
            waits.append(ask(broker))
        let_go = flooding.result()
    expect(max(waits) <= LONGEST_WAIT, f"a client waited {max(waits):.1f} s beside them")
    return f"{len(waits)} clients beside them waited {max(waits):.2f} s at most, and {let_go} were let go"


def slow_heads(program, options):
    return beside(program, options, slow_head)


def slow_bodies(program, options):
    return beside(program, options, slow_body)


def slowhttptest(test, program, options):
    """Debian's slowhttptest says every five seconds whether it is answered."""
    with Broker(program, *options) as broker:
        url = f"http://127.0.0.1:{broker.port}/v1/secret/data/app"
        words = ["slowhttptest", TESTS[test], "-c", f"{SLOW}", "-r", "200", "-i", "1", "-x", "8", "-u", url,
                 "-l", f"{SECONDS - 4}", "-p", f"{LONGEST_WAIT:.0f}"]
        said = subprocess.run(words, stdin=subprocess.DEVNULL, capture_output=True, text=True, errors="replace",
                              timeout=60, check=False)
    found = AVAILABLE.findall(COLOURS.sub("", said.stdout))
    expect(len(found) >= LEAST_TOLD, f"{test}: it said {said.stdout[-200:]!r} {said.stderr[-200:]!r}")
    expect(set(found) == {"YES"}, f"{test}: the service is available: {', '.join(found)}")
    return f"{test}: the service is available, {len(found)} times of {len(found)}"


def main():
    program, cases = sys.argv[1], [slow_heads, slow_bodies]
    if shutil.which("slowhttptest"):
        cases += [functools.partial(slowhttptest, test) for test in TESTS]
    else:
        print("slow clients: slowhttptest: not installed, not tried")
    failed = 0
    with concurrent.futures.ThreadPoolExecutor(len(cases) * len(PLACES)) as pool:
        running = [(case, options, pool.submit(tried, case, program, options)) for options in PLACES for case in cases]
        for case, options, found in running:
            met, wrong = found.result()
            failed += wrong is not None
            name = getattr(case, "__name__", "slowhttptest").replace("_", " ")
            print(f"{SLOW} slow clients, {name}{', 256 places' if options else ''}: {wrong or met}", flush=True)
    print(f"{len(running) - failed} passed, {failed} failed")
    return failed > 0


if __name__ == "__main__":
    sys.exit(main())
