#!/usr/bin/env python3
"""Sends changed requests to a running `brokerd serve`, on many connections at once.

    python3 tests/fuzz_served.py [--events N] [--minutes M] [--seed S] [PROGRAM]

The requests are those of `tests/fuzz.py` but for the rows, changed and cut in the same ways. Each event goes to the
reference broker and on its connection to the program, which has to send the same bytes: the program's clock is made to
stand still (tests/hostile), and the identifiers that the program draws are put in place of those of the reference. A
reply is taken before the next event, so that both come to the same order. Then the connection closes where the
reference closes it, and nowhere else, but for the limits of docs/SERVE.md.

The last line is `N passed, M failed`; the status is 0 if nothing failed. A reply that differs is printed.
"""

import argparse
import os
import re
import socket
import subprocess
import sys
import tempfile
import time
from collections import Counter
from pathlib import Path

from fuzzing import TESTS, TOP
from fuzzing.events import IDENTIFIER, Recorder, Run, Share, words_from

sys.path[:0] = [str(TESTS / "hostile")]

from hostile import build, environment

EVENTS = 4_000
LENGTH = 500  # events of a run
CLOCK = 1_700_000_000
PATIENCE = 20.0  # seconds for a reply
IDLE = 0.2  # seconds after which the program may have closed a connection between two requests
SILENCE = 4.0  # seconds after which the program may close a connection in the midst of a request
LEAST_OPEN = 3  # connections at once in the middle of a run
LEAST_REPLIED = 0.25  # of the events are replied to
# A list whose order is that of the identifiers.
ACCESSORS = re.compile(rb'"keys":\["' + IDENTIFIER.pattern + rb'"[^]]*')
NOBODY = b"00000000-0000-0000-0000-000000000000"


class Wrong(Exception):
    """The program differs from the reference broker."""


class Program:
    """A running program, and its connections by the numbers that the reference broker has for them."""

    def __init__(self, program, library):
        self.listener = socket.create_server(("127.0.0.1", 0))  # so that the port is free
        self.port = self.listener.getsockname()[1]
        self.listener.close()
        command = [program, "serve", "--listen", f"127.0.0.1:{self.port}", "--until-stopped"]
        variables = environment(library, f"clock_gettime:1+:set={CLOCK}")
        self.process = subprocess.Popen(command, env=variables, stdout=subprocess.PIPE, stderr=subprocess.PIPE)
        self.token = self.process.stdout.readline().decode().split()[-1]
        self.streams, self.used = {}, {}

    def stream(self, conn):
        """The connection of a number, which may be a new one."""
        if conn not in self.streams:
            until = time.monotonic() + 5
            while True:
                try:
                    self.streams[conn] = socket.create_connection(("127.0.0.1", self.port), timeout=PATIENCE)
                    break
                except ConnectionRefusedError:
                    if time.monotonic() > until or self.process.poll() is not None:
                        raise Wrong(f"it does not listen: status {self.process.poll()}") from None
                    time.sleep(0.01)
            self.streams[conn].setsockopt(socket.IPPROTO_TCP, socket.TCP_NODELAY, 1)
        self.used[conn] = time.monotonic()
        return self.streams[conn]

    def drop(self, conn):
        """Closes a connection."""
        stream = self.streams.pop(conn, None)
        if stream is not None:
            stream.close()

    def exchange(self, conn, piece, size, was_idle):
        """Sends a piece, and reads so many bytes. An idle connection may have been closed: then on another one."""
        for attempt in range(2):
            if was_idle and time.monotonic() - self.used.get(conn, 0.0) > IDLE:
                self.drop(conn)
            try:
                stream = self.stream(conn)
                stream.sendall(piece)
                found = b""
                while len(found) < size:
                    more = stream.recv(size - len(found))
                    if not more:
                        break
                    found += more
            except (ConnectionResetError, BrokenPipeError):
                found = b""
            except socket.timeout:
                raise Wrong(f"no reply in {PATIENCE} s: {found[:200]!r} came") from None
            if found or size == 0 or not was_idle or attempt:
                return found
            self.drop(conn)
        return b""

    def ends(self, conn):
        """Whether the program has closed a connection, and sent nothing before."""
        try:
            return self.stream(conn).recv(1) == b""
        except ConnectionResetError:
            return True
        except socket.timeout:
            return False

    def close(self):
        """Ends the program, and answers what it has said."""
        for conn in list(self.streams):
            self.drop(conn)
        status = self.process.poll()
        self.process.kill()
        return status, self.process.communicate()[1].decode().strip()


class ServedRun(Run):
    """A run whose events go to a program too."""

    def __init__(self, seed, corpus, promised, program):
        super().__init__(seed, corpus, [], promised)
        self.start = self.moment = CLOCK
        self.server = Recorder(CLOCK, words_from(0))
        self.program = program
        self.names = {}  # identifiers of the reference broker, and what the program has in their place
        self.now = None  # the delivery whose piece is sent
        self.replied = self.most_open = 0
        self.learn(self.server.root_token.encode(), program.token.encode())

    def fresh_words(self):
        """Words that no request had, and that no change of another one makes."""
        self.word = self.draw.getrandbits(127)
        return [self.word + n for n in range(8)]

    def new_words(self):
        return self.fresh_words()

    def used_words(self):
        return self.fresh_words()

    def next_row(self):
        """None: an identifier of a row may be cut in two events."""

    def next_delivery(self):
        """A request. A connection on which half of one waits for long is given up before the program does so."""
        for conn in list(self.program.streams):
            if time.monotonic() - self.program.used[conn] > SILENCE and self.server.unanswered.get(conn):
                self.server.closed.add(conn)
                self.program.drop(conn)
        return super().next_delivery()

    def deliver(self, delivery):
        """Sends the next piece of a delivery. All pieces are translated before the first is sent."""
        if delivery.events == 0:
            self.translate(delivery)
        self.now = delivery
        super().deliver(delivery)

    def translate(self, delivery):
        """Gives the program its own identifiers. One that no reply has told is nobody's, for the reference too."""
        places = [0]
        for piece, _ in delivery.pieces:
            places.append(places[-1] + len(piece))
        whole = b"".join(piece for piece, _ in delivery.pieces)
        whole = IDENTIFIER.sub(lambda found: found[0] if found[0] in self.names else NOBODY, whole)
        real = IDENTIFIER.sub(lambda found: self.names.get(found[0], NOBODY), whole)
        parts = list(zip(places, places[1:]))
        delivery.pieces = [(whole[begin:end], words) for (begin, end), (_, words) in zip(parts, delivery.pieces)]
        delivery.real = [real[begin:end] for begin, end in parts]

    def learn(self, wanted, found):
        """Takes the program's identifiers for those in the same places. False if what is around them differs."""
        wanted, found = (ACCESSORS.sub(lambda some: IDENTIFIER.sub(NOBODY, some[0]), it) for it in (wanted, found))
        if IDENTIFIER.split(wanted) != IDENTIFIER.split(found):
            return False
        for ours, theirs in zip(IDENTIFIER.findall(wanted), IDENTIFIER.findall(found)):
            if NOBODY not in (ours, theirs) and self.names.setdefault(ours, theirs) != theirs:
                return False
        return True

    def send(self, conn, piece, moment, words):
        """One event, and those that answer what else has come; the program has to send the same replies."""
        was_closed = conn in self.server.closed
        was_idle = not self.server.unanswered.get(conn)
        real = self.now.real.pop(0) if self.now.real else b""
        first = reply = super().send(conn, piece, CLOCK, words)
        wanted = b""
        while reply:
            wanted += reply
            reply = super().send(conn, b"", CLOCK, self.fresh_words())
        if was_closed:
            return first
        self.most_open = max(self.most_open, len(self.program.streams))
        self.replied += bool(wanted)
        found = self.program.exchange(conn, real, len(wanted), was_idle)
        if not self.learn(wanted, found):
            raise Wrong(f"event {len(self.events)}, {real[:600]!r}: {found[:600]!r} in place of {wanted[:600]!r}")
        if conn in self.server.closed:
            if not self.program.ends(conn):
                raise Wrong(f"event {len(self.events)}, {real[:600]!r}: the connection is not closed")
            self.program.drop(conn)
        return first


def try_run(name, program, library, share, found):
    """One run against a program of its own. Answers what is wrong, or None."""
    program = Program(program, library)
    run = ServedRun(name, share.corpus, share.promised, program)
    try:
        run.make(LENGTH)
        wrong = None
    except Wrong as error:
        wrong = str(error)
    status, said = program.close()
    found["events"] += len(run.events)
    found["replies"] += run.replied
    found["most open"] = max(found["most open"], run.most_open)
    if status is not None:
        wrong = f"{wrong or ''} it ended with status {status} and {said!r}"
    return wrong


def main():
    parser = argparse.ArgumentParser(description="sends changed requests to a program that serves")
    parser.add_argument("--events", type=int, default=EVENTS)
    parser.add_argument("--minutes", type=float, default=0.0)
    parser.add_argument("--seed", default="1")
    parser.add_argument("program", nargs="?")
    arguments = parser.parse_args()
    if arguments.program is None:
        subprocess.run([TOP / "bin/run-program", "--build", "brokerd"])
    program = os.path.abspath(arguments.program or TOP / "crates/brokerd/out/brokerd")
    share, found, wrong, runs = Share(f"served {arguments.seed}", 0, 1), Counter(), [], 0
    until = time.monotonic() + 60 * arguments.minutes
    with tempfile.TemporaryDirectory() as folder:
        library = build(folder)
        while found["events"] < arguments.events or time.monotonic() < until:
            name = f"served {arguments.seed} {runs}"
            what = try_run(name, program, library, share, found)
            if what is not None:
                wrong.append(f"run {name}: {what}")
                print(wrong[-1], flush=True)
                if len(wrong) > 10:
                    break
            runs += 1
    if found["most open"] < LEAST_OPEN:
        wrong.append(f"at most {found['most open']} connections were open at once")
        print(wrong[-1])
    if found["replies"] < LEAST_REPLIED * found["events"]:
        wrong.append("too few events are replied to")
        print(wrong[-1])
    statuses = ", ".join(f"{status} {count}" for status, count in sorted(share.corpus.statuses.items()))
    print(f"{found['events']} events in {runs} runs, seed {arguments.seed}: {found['replies']} replies ({statuses}), "
          f"with {found['most open']} connections open at most")
    print(f"{runs - min(runs, len(wrong))} passed, {len(wrong)} failed")
    return 1 if wrong else 0


if __name__ == "__main__":
    sys.exit(main())
