#!/usr/bin/env python3
"""`brokerd serve --stop-on-input` is stopped: no reply is lost.

    python3 tests/served/stopping.py PROGRAM

A thousand requests of eight clients are on their way when it is told to stop: by the end of its standard input, or by a
byte there. Each client has whole replies from the first one on, and then the end; the file has afterwards what was
answered, and nothing else. Other cases: who is waited for, and for how long; what standard input may be. The last line
is 'N passed, M failed'. signalled.py beside this stops it by signals.
"""

import concurrent.futures
import contextlib
import json
import subprocess
import sys
import tempfile
import threading
import time

from broker import Broker, connect, exchange, fault_in, free_port, reply, request
from cases import between, expect, report, tried

CLIENTS = 8
REQUESTS = 125  # of each client
BEFORE = 150  # so many are answered before the stop, at least


def write(token, client, number):
    return request("POST", f"secret/data/c{client}/{number}", token, '{"data":{"user":"app"}}')


class Client(threading.Thread):
    """A client with its requests: all sent before a reply is read, or one after another, or each on a connection of its
    own. It takes down which were answered, and whether a further one was sent."""

    def __init__(self, port, token, place, requests, count):
        super().__init__()
        self.port, self.token, self.place, self.requests, self.count = port, token, place, requests, count
        self.answered, self.part, self.wrong = 0, b"", None

    def run(self):
        with contextlib.suppress(ConnectionError):
            [self.at_once, self.in_turn, self.apart][self.place % 3]()

    def take(self, status, body):
        if status == 0:
            self.part = body
            return False
        if status != 200 or b'"version":1' not in body:
            self.wrong = (status, body)
        self.answered += 1
        self.count()
        return True

    def at_once(self):
        with connect(self.port) as connection:
            connection.sendall(b"".join(write(self.token, self.place, number) for number in range(self.requests)))
            rest = b""
            for _ in range(self.requests):
                status, body, rest = reply(connection, rest)
                if not self.take(status, body):
                    return

    def in_turn(self):
        with connect(self.port) as connection:
            for number in range(self.requests):
                connection.sendall(write(self.token, self.place, number))
                if not self.take(*reply(connection)[:2]):
                    return

    def apart(self):
        for number in range(self.requests):
            with connect(self.port, 0.0) as connection:
                connection.sendall(write(self.token, self.place, number))
                if not self.take(*reply(connection)[:2]):
                    return


def kept(program, file, token, count):
    """How many secrets of each client the file has, which are the first ones."""
    found = []
    with Broker(program, "--db", file, token=token) as broker, connect(broker.port) as connection:
        for place in range(count):
            status, body, _ = exchange(connection, request("LIST", f"secret/metadata/c{place}", token))
            keys = {int(key) for key in json.loads(body)["data"]["keys"]} if status == 200 else set()
            expect(keys == set(range(len(keys))), f"client {place} has the keys {sorted(keys)}")
            found.append(len(keys))
    return found


def served(program):
    """How a program is started over a file in a folder, on a port."""
    return lambda folder, port: [program, "serve", "--listen", f"127.0.0.1:{port}", "--db", f"{folder}/broker.db",
                                 "--until-stopped", "--stop-on-input"]


def printed(process, _):
    """The root token, which a first start prints."""
    return process.stdout.readline().decode().split()[-1]


def in_flight(program, stop, start, token_of=printed, clients=CLIENTS, requests=REQUESTS, **options):
    """Stops a program while so many clients ask, so often each. It is started by the words that `start` answers; the
    options are those of its process, which `stop` is given."""
    options = {"stdin": subprocess.PIPE, **options}
    with tempfile.TemporaryDirectory() as folder:
        file, port = f"{folder}/broker.db", free_port()
        with subprocess.Popen(start(folder, port), stdout=subprocess.PIPE, stderr=subprocess.DEVNULL,
                              **options) as process:
            try:
                token = token_of(process, folder)
                connect(port).close()
                clients = asked(port, token, lambda: stop(process), clients, requests)
                expect(process.wait(25) == 0, f"the status is {process.returncode}")
            finally:
                process.kill()
        told, found = [client.answered for client in clients], kept(program, file, token, len(clients))
    for client in clients:
        expect(client.wrong is None, f"a reply is {client.wrong}")
        expect(client.part == b"", f"a part of a reply: {client.part[:80]}")
    expect(found == told, f"the replies are {told}, and the file has {found}")
    most = len(clients) * requests
    expect(BEFORE <= sum(told) < most, f"{sum(told)} requests were answered")
    return f"{sum(told)} of {most} requests were answered"


def asked(port, token, stop, count, requests):
    """The clients, once all have ended. The program is stopped while they ask."""
    answered = threading.Semaphore(0)
    clients = [Client(port, token, place, requests, answered.release) for place in range(count)]
    for client in clients:
        client.start()
    for _ in range(BEFORE):
        expect(answered.acquire(timeout=20), "no reply")
    stop()
    for client in clients:
        client.join(30)
    return clients


def end_input(process):
    process.stdin.close()
    process.stdin = None


def the_end(program):
    return in_flight(program, end_input, served(program))


def a_byte(program):
    def send_byte(process):
        process.stdin.write(b"\n")
        process.stdin.flush()

    return in_flight(program, send_byte, served(program))


def who_is_waited_for(program):
    """A request that was begun is finished and answered; one that stands still is let go as ever; who is idle at
    once."""
    with Broker(program, "--stop-on-input", stdin=subprocess.PIPE) as broker:
        ask = request("GET", "auth/token/lookup-self", broker.token)
        idle, fresh, late, still = (connect(broker.port) for _ in range(4))
        expect(exchange(idle, ask)[0] == 200, "no reply")
        late.sendall(ask[:20])
        still.sendall(ask[:20])
        expect(exchange(idle, ask)[0] == 200, "no reply")
        begin = time.monotonic()
        end_input(broker.process)
        for name, connection in (("an idle one", idle), ("a fresh one", fresh)):
            expect(connection.recv(1) == b"", f"{name} gets bytes")
            between(0, time.monotonic() - begin, 1, f"{name} ends")
        with contextlib.suppress(ConnectionRefusedError):
            connect(broker.port, 0.0)
            raise AssertionError("a connection is accepted after the stop")
        time.sleep(1)
        status, _, _ = exchange(late, ask[20:])
        expect(status == 200 and late.recv(1) == b"", f"the late one is answered {status}, and is not ended")
        expect(still.recv(1) == b"", "the one that stands still gets bytes")
        between(4, time.monotonic() - begin, 7, "the one that stands still ends")
        expect(broker.ended() == (0, ""), "the program does not end well")
        between(4, time.monotonic() - begin, 8, "the program ends")
    return f"the program ended after {time.monotonic() - begin:.1f} s"


def the_limit(program):
    """A client that always has a further request begun is cut off after 20 seconds."""
    with Broker(program, "--stop-on-input", stdin=subprocess.PIPE) as broker:
        ask = request("GET", "auth/token/lookup-self", broker.token)
        endless = connect(broker.port)
        endless.sendall(ask + ask[:20])
        rest = reply(endless)[2]
        begin, count = time.monotonic(), 0
        end_input(broker.process)
        with contextlib.suppress(ConnectionError):
            while True:
                endless.sendall(ask[20:] + ask[:20])
                status, _, rest = reply(endless, rest)
                if status == 0:
                    break
                count += 1
                time.sleep(0.5)
        between(19, time.monotonic() - begin, 23, "it is cut off")
        expect(count >= 20, f"{count} replies only")
        expect(broker.ended() == (0, ""), "the program does not end well")
    return f"{count} replies after the stop"


def standard_input(program):
    """A pipe that is at its end stops it at once; a file or /dev/null is refused; without the option it does not
    matter."""
    words = [program, "serve", "--listen", "127.0.0.1:0", "--stop-on-input", "--until-stopped"]
    ended = subprocess.run(words, input=b"", capture_output=True, timeout=20)
    expect((ended.returncode, ended.stderr) == (0, b""), f"a pipe at its end: {ended}")
    for path in ("/dev/null", __file__):
        with open(path, "rb") as opened:
            ended = subprocess.run(words, stdin=opened, capture_output=True, timeout=20)
        expect((ended.returncode, fault_in(ended.stderr.decode())) == (1, "fault 5"), f"{path}: {ended}")
    with Broker(program, stdin=subprocess.DEVNULL) as broker:
        expect(broker.ask("GET", "auth/token/lookup-self")[0] == 200, "it is stopped without the option")
    return "a pipe, a file, /dev/null, and none of them"


def main():
    program = sys.argv[1]
    cases = [the_end, a_byte, who_is_waited_for, the_limit, standard_input]
    with concurrent.futures.ThreadPoolExecutor() as pool:
        return report("stopping", list(zip(cases, pool.map(lambda case: tried(case, program), cases))))


if __name__ == "__main__":
    sys.exit(main())
