"""SIGKILL at random moments and before drawn calls, while many connections ask.

Each connection has secrets and tokens of its own, so that the reference broker can take what was answered on one after
another. After each kill the program is started again. Its rows have to be those of the reference broker after all that
was answered, and of the requests in progress those that were taken have to be there as a whole. The first start is
stopped in its midst as well.
"""

import json
import random
import socket
import subprocess
import threading
import time

from asking import (LOOK, RESPONSE, TOKEN, UNTOLD, VERSION, Reply, Server, after, is_whole, looked, request_text,
                    rows_of, started, word)
from hostile import environment
from program import PATIENCE, Running, Wrong, expect, reply_from
from rows import whole_rows_in
from trial import MOMENT, NOBODY, Tally, differing

CLOCK = (1, "")
CONNECTIONS = 16
KINDS = ("write", "create", "revoke", "wrap", "unwrap")
SECRETS = 3  # of a connection
LEFT = 1  # tokens, and responses, that a connection leaves before some are ended
LONGEST = 300  # seconds until they are
FEWEST, MOST = 20, 250  # requests that are answered before a kill
KILLS = (None, "send", None, None, "pwrite", None, None, "fdatasync", None)  # at a random moment, or before a call
CALLS = {"send": 1, "pwrite": 3, "fdatasync": 1}  # so many for each request
START_CALLS = ("fsync:1", "fsync:2", "fsync:4", "pwrite:1", "pwrite:2", "pwrite:5", "fdatasync:1", "fdatasync:2",
               "fdatasync:3", "write:1")
LEAST = {"kills at a moment": 6, "kills before a call": 3, "answered": len(KILLS) * FEWEST,
         "kills with requests in progress": len(KILLS) // 2 + 1, "taken": 1, "not taken": 1,
         **dict.fromkeys(KINDS, len(KILLS)), "first starts stopped": 6, "a broker in what is left": 1,
         "no broker in what is left": 1}
LEAST_AT_ONCE = {"connections answered": len(KILLS) * CONNECTIONS // 2}


class Asked:
    """A request that was sent: what it is for, its bytes, and how to see in rows that it was taken."""

    def __init__(self, kind, text, key=None, mark=None):
        self.kind, self.text, self.key, self.mark = kind, text, key, mark

    def made(self, before, rows):
        """The keys of the rows that it has made or taken away, or None if it was not taken."""
        if self.kind in ("revoke", "unwrap"):
            return None if self.key in rows else ()
        if self.kind == "write":
            return (self.key,) if self.key in rows else None
        kind = TOKEN if self.kind == "create" else RESPONSE
        found = [key for key, (_, _, body) in rows.items()
                 if key[0] == kind and key not in before and self.mark in body]
        return tuple(found) or None

    def words(self, keys, rows):
        """Its words, as far as the rows with these keys name them."""
        words = [UNTOLD + place for place in range(8)]
        for kind, key in keys:
            body = rows[kind, key][2]
            accessor = word(body[5:41].decode()) if kind in (TOKEN, RESPONSE) else None
            if kind == TOKEN:
                words[1:3] = [word(key), accessor]
            elif kind == RESPONSE:
                words[5:7] = [word(key), accessor]
                words[0] = word(json.loads(body[body.rindex(b'{"auth":'):])["request_id"])
        return words


class Peer(threading.Thread):
    """A connection that asks until the program is killed."""

    def __init__(self, load, name, seed):
        super().__init__(daemon=True)
        self.load, self.mark, self.root, self.draw = load, name, load.root, random.Random(seed)
        self.number = 0
        self.versions = {}  # the last version of each secret
        self.tokens, self.waiting = [], []
        self.pending = None  # in progress
        self.answered = 0

    def drawn(self):
        """The next request."""
        self.number += 1
        kind = self.draw.choice(("write", *KINDS))
        if kind == "wrap" and self.versions:
            return self.wrap()
        if kind == "create":
            return self.create()
        if kind == "revoke" and len(self.tokens) > LEFT:
            return Asked("revoke", self.post("auth/token/revoke", {"token": self.tokens[0]}), (TOKEN, self.tokens[0]))
        if kind == "unwrap" and len(self.waiting) > LEFT:
            return Asked("unwrap", self.post("sys/wrapping/unwrap", {"token": self.waiting[0]}),
                         (RESPONSE, self.waiting[0]))
        path = f"{self.mark}/k{self.draw.randrange(SECRETS)}"
        version = self.versions.get(path, 0) + 1
        data = {"number": self.number, "by": self.mark * self.draw.randrange(40)}
        text = self.post(f"secret/data/{path}", {"data": data})
        return Asked("write", text, (VERSION, f"secret/{path}\n{version:020}"), path)

    def create(self):
        """A token, each other time a child of the last one."""
        mark = f"{self.mark}-{self.number}"
        parent = self.tokens[-1] if self.tokens and self.number % 2 else self.root
        return Asked("create", self.post("auth/token/create", {"meta": {"by": mark}}, parent), mark=mark.encode())

    def wrap(self):
        """A secret is read, and the reply waits."""
        path = self.draw.choice(list(self.versions))
        text = request_text("GET", f"secret/data/{path}", self.root, "24h", None).encode()
        return Asked("wrap", text, mark=f"secret/data/{path}".encode())

    def post(self, path, body, token=None):
        """The bytes of a request of the root token, or of another one."""
        return request_text("POST", path, token or self.root, None, json.dumps(body)).encode()

    def keep(self, asked, body):
        """What the broker has after an answer."""
        if asked.kind == "write":
            self.versions[asked.mark] = self.versions.get(asked.mark, 0) + 1
        elif asked.kind == "create":
            self.tokens.append(body["auth"]["client_token"])
        elif asked.kind == "revoke":
            self.drop_tokens()
        elif asked.kind == "wrap":
            self.waiting.append(body["wrap_info"]["token"])
        else:
            self.waiting.pop(0)

    def drop_tokens(self):
        """The first token is gone, and with it may be its descendants, so none of those here is used any more."""
        self.tokens.clear()

    def run(self):
        """Asks, and keeps what is answered."""
        connection = None
        while not self.load.is_over:
            self.pending = self.pending or self.drawn()
            try:
                connection = connection or socket.create_connection(self.load.address, timeout=PATIENCE)
                connection.sendall(self.pending.text)
                data = reply_from(connection)
            except OSError:
                data = b""
            if is_whole(data):
                asked, self.pending = self.pending, None
                self.load.answered.append((asked, data))
                self.answered += 1
                self.keep(asked, Reply(data).body)
            elif connection is not None:
                connection.close()  # the program has ended, or it was idle for too long: then the request is sent again
                connection = None


class Load:
    """Connections that ask a running program."""

    def __init__(self, running, root, seed):
        self.address, self.root = running.address, root
        self.answered = []  # requests with their replies, as they came in
        self.is_over = False
        self.peers = [Peer(self, f"c{number}x{seed % 10_000}", seed + number) for number in range(CONNECTIONS)]
        for peer in self.peers:
            peer.start()

    def wait(self, is_enough):
        """Waits until it is enough. Raises Wrong."""
        until = time.monotonic() + LONGEST
        while not is_enough():
            expect(time.monotonic() < until, f"{len(self.answered)} answers in {LONGEST} seconds")
            time.sleep(0.0005)

    def end(self):
        """Waits for the connections to end."""
        self.is_over = True
        for peer in self.peers:
            peer.join(2 * PATIENCE)

    def pending(self):
        """The requests in progress."""
        return [peer.pending for peer in self.peers if peer.pending is not None]


class Killed:
    """A broker in a file, and the reference broker that it has to be."""

    def __init__(self, trial, file, tally):
        self.trial, self.file, self.tally = trial, file, tally
        self.server, self.root = None, None
        self.pending = []

    def start(self, running):
        """The broker in the file is looked at, and compared with the reference broker. Raises Wrong."""
        if self.root is None:
            self.root = running.told_root()
        look = LOOK.text({"root": self.root})
        data = running.ask(look)
        end = running.close()
        expect(end.is_kill() and is_whole(data), f"what is left is not served: {end}")
        rows, reply = whole_rows_in(self.file), Reply(data)
        if self.server is None:
            self.server = Server(0, range(8))
            self.server.broker = started(rows)[0]
        self.settle(rows, reply.moment)
        expected = self.server.feed(1, look, reply.moment, reply.words())
        expect(data == expected, f"the reply is {data[-200:]!r} in place of {expected[-200:]!r}")
        if self.server.rows() != rows:
            raise Wrong(differing(rows, self.server.broker, reply.moment, look))

    def settle(self, rows, last):
        """The reference broker takes those of the requests in progress that were taken. Raises Wrong."""
        broker, taken = self.server.broker, []
        before = rows_of(broker)
        for asked in self.pending:
            keys = asked.made(before, rows)
            self.tally.counts["not taken" if keys is None else "taken"] += 1
            if keys is not None:
                taken.append(self.moment_of(asked, asked.words(keys, rows), before, rows, last))
        for moment, text, words in sorted(taken):
            self.server.broker = after(self.server.broker, moment, words, text)
        self.pending = []

    def moment_of(self, asked, words, before, rows, last):
        """The moment, the bytes and the words of a request that was taken. Raises Wrong."""
        broker = self.server.broker
        for moment in range(broker.clock, last + 1):
            found = rows_of(after(broker, moment, words, asked.text))
            changed = [key for key in {*before, *found} if before.get(key) != found.get(key) and key != CLOCK]
            if all(rows.get(key) == found.get(key) for key in changed):
                return moment, asked.text, words
        raise Wrong(f"a {asked.kind} in progress was done in part")

    def take(self, answered):
        """The reference broker takes what was answered: those of one second in any order, but for those of one
        connection. Raises Wrong."""
        for asked, reply, data in sorted(((asked, Reply(data), data) for asked, data in answered),
                                         key=lambda each: each[1].moment):
            expected = self.server.feed(1, asked.text, reply.moment, reply.words())
            expect(data == expected, f"the reply is {data[-200:]!r} in place of {expected[-200:]!r}")
            self.tally.counts[asked.kind] += 1

    def kill(self, draw, call):
        """One start, a load of requests, and a kill, at a moment or before a call. Raises Wrong."""
        count = draw.randint(FEWEST, MOST)
        rule = "" if call is None else f"{call}:{count * CALLS[call]}:kill"
        with Running(self.trial.program, self.file, environment(self.trial.library, rule)) as running:
            running.connect().close()
            load = Load(running, self.root, draw.getrandbits(32))
            try:
                load.wait(running.has_ended if call else lambda: len(load.answered) >= count)
            finally:
                end = running.close()
                load.end()
        expect(end.is_kill(), f"under load: {end}")
        self.take(load.answered)
        self.pending = load.pending()
        self.tally.counts.update({
            "kills before a call" if call else "kills at a moment": 1, "answered": len(load.answered),
            "kills with requests in progress": bool(self.pending),
            "connections answered": sum(peer.answered > 0 for peer in load.peers)})


def try_kills(trial, seed=1, times=len(KILLS), is_gate=True):
    """So many kills of one broker; in the gate some of a first start too."""
    tally, draw = Tally("kills"), random.Random(seed)
    killed = Killed(trial, trial.place() / "broker.db", tally)
    for turn in range(times + 1):
        try:
            with Running(trial.program, killed.file) as running:
                killed.start(running)
            if turn < times:
                killed.kill(draw, KILLS[turn % len(KILLS)])
            tally.passes()
        except Wrong as error:
            tally.fails(f"seed {seed}, kill {turn}: {error}")
            break
    for call in START_CALLS if is_gate else ():
        try:
            tally.passes(*stop_a_start(trial, call))
        except Wrong as error:
            tally.fails(f"the first start, stopped at {call}: {error}")
    least = {**LEAST, **(LEAST_AT_ONCE if serves_at_once(trial.program) else {})} if is_gate else {}
    for name, count in least.items():
        tally.has(name, count)
    return tally


def serves_at_once(program):
    """Whether the program serves many connections at once."""
    told = subprocess.run([program, "serve", "--help"], capture_output=True, text=True, timeout=PATIENCE, check=False)
    return "--at-once" in told.stdout


def stop_a_start(trial, call):
    """The first start is stopped before a call, and made again: what it had left. Raises Wrong."""
    file = trial.place() / "broker.db"
    with Running(trial.program, file, trial.at(MOMENT, f"{call}:kill")) as running:
        expect(running.told_root() is None, "it was not stopped")
        end = running.close()
    expect(end.is_kill() and not end.printed, f"it was not stopped: {end}")
    with Running(trial.program, file, trial.at(MOMENT + 1)) as running:
        data = running.ask(LOOK.text({"root": NOBODY}))
        end = running.close()
    expect(end.is_kill() and is_whole(data), f"what is left is not served: {end}")
    rows = whole_rows_in(file)
    first, root = started(rows)
    expect(looked(first, MOMENT + 1, LOOK.text({"root": NOBODY})) == rows, "another broker than a new one is found")
    expect(end.root_token() in (None, root), "another root token was printed")
    return ["first starts stopped", "no broker in what is left" if end.root_token() else "a broker in what is left"]
