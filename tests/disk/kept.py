"""The rows that are kept, after each piece of bytes.

Each row of tests/rows, at its moments, and drawn requests are sent to programs over new files. Their clock and random
words are known (known_system), and so is what they have read and when they looked at the clock. So the reference broker
takes the same events, and has to answer the same bytes. After each piece the two files of the database are copied, as a
crash would leave them. In the copy SQLite has to find the rows that the reference broker has, byte for byte, and no
others. They show what no reply tells: owners, what is due, and what is gone.

And the other way round: at the end of a row, and in the midst of drawn requests, the program is stopped, and started
over a database that SQLite has made from docs/STORAGE.md and the rows of the reference broker. It has to go on as that.
Some rows of secrets are in the older format there, which the opening has to rewrite.
"""

import contextlib
import random
import re
import sqlite3
import struct
import time
from collections import Counter, deque
from pathlib import Path

import chacha20
from broker.connections import Server
from broker.http import Need, front
from broker.lines import BadLine, read_event, read_start
from broker.parts import TODAY
from drawn_at_once import LiveDrawer
from drawn_requests import FIRST, START, request_text
from fuzzing.events import IDENTIFIER, identifier
from known import RECEIVED, TOLD, Known, library
from program import PATIENCE, Running, Wrong, expect
from rows import bytes_of, put, rows_in, whole_rows_in
from trial import Tally, side_by_side

ROWS = Path(__file__).resolve().parent.parent / "rows"
STORAGE = ROWS.parents[1] / "docs/STORAGE.md"
PAUSE = 0.0002  # between two looks at what the program did
DRAWN = 250  # requests to one program
STATUS = re.compile(rb"^HTTP/1\.1 (\d+) ", re.MULTILINE)

# Of which kinds rows come, change and go (docs/STORAGE.md): the clock stays, and an identifier is never taken out.
CHANGES = {"come": range(2, 14), "change": (1, 3, 5, 6, 8, 9, 11, 12, 13), "go": range(3, 14)}
LEAST_OF_A_KIND = 3
SECRET = 8
NO_SETTINGS = bytes(1 + 8 + 4)  # at the end of a secret's row, where they are none
LEAST = {"pieces": 2000, "pieces that changed rows": 1200, "rows that come": 2500, "rows that change": 1000,
         "rows that go": 500, "databases made by SQLite": 150, "rows in the older format": 20}
LOOKS = (("GET", "auth/token/lookup-self"), ("LIST", "auth/token/accessors"), ("LIST", "secret/metadata"))
LEAST_USUAL = 0.95  # of the replies to rows of tests/rows have the status that is stated there


def in_a_format(place, row, draw):
    """The row of a place; half of those of secrets that have no settings are in the older format."""
    owner, due, body = row
    if place[0] != SECRET or not body.endswith(NO_SETTINGS) or draw.randrange(2):
        return row
    return owner, due, b"\x01" + body[1:-len(NO_SETTINGS)]


def write(file, rows, draw):
    """Makes the database of rows by SQLite, as docs/STORAGE.md has it, in a drawn order."""
    table = STORAGE.read_text(encoding="utf-8").partition("## The table\n\n")[2].partition("\n\n")[0]
    made = [(*place, *row) for place, row in rows.items()]
    draw.shuffle(made)
    with contextlib.closing(sqlite3.connect(file)) as database, database:
        database.executescript(table)
        database.executemany("INSERT INTO broker_rows VALUES (?, ?, ?, ?, ?)", made)


class Watched:
    """A program over a new file, and the reference broker in step with it."""

    def __init__(self, trial, draw, moment):
        self.trial, self.draw, self.place = trial, draw, trial.place()
        self.file, self.copy, self.clock = self.place / "broker.db", self.place / "copy.db", self.place / "moment"
        self.server, self.rows, self.counts = None, {}, Counter()
        self.start(moment)

    def start(self, moment):
        """Starts the program over the file, and the reference broker if there is none yet. Raises Wrong."""
        seed = self.draw.getrandbits(256).to_bytes(32, "big")
        self.words, self.streams, self.taken = chacha20.words_of_events(seed), {}, 0
        self.tell(moment)
        self.known = Known(self.place, seed=seed, moment=self.clock, preloaded=self.trial.known)
        self.known.log.unlink(missing_ok=True)
        self.first, is_new = next(self.words), self.server is None
        self.server = self.server or Server(moment, self.first)
        self.running = Running(self.trial.program, self.file, self.known.environment)
        try:
            root = self.running.told_root() if is_new else self.running.connect().close()
            expect(root == (self.server.root_token if is_new else None), f"the root token is {root}")
            while TOLD not in [kind for kind, _, _ in self.records()]:
                pass
            self.compare()
        except BaseException:
            self.stop()
            raise

    def stop(self):
        """Stops the program."""
        for conn, stream in self.streams.items():
            stream.close()
            self.server.closed.add(conn)
        self.running.close()

    def start_from_outside(self, moment):
        """Stops the program, and starts it over a database that SQLite has made. Raises Wrong."""
        self.stop()
        self.file = self.place / "outside.db"
        rows = self.server.rows()
        made = {place: in_a_format(place, row, self.draw) for place, row in rows.items()}
        write(self.file, made, self.draw)
        self.start(moment)
        self.counts["databases made by SQLite"] += 1
        self.counts["rows in the older format"] += sum(made[place] != rows[place] for place in rows)

    def __enter__(self):
        return self

    def __exit__(self, *_):
        self.stop()

    def tell(self, moment):
        """The clock of the program tells this moment from now on."""
        self.clock.write_bytes(struct.pack("<q", moment))

    def send(self, conn, piece, moment):
        """Sends a piece of bytes, and compares what comes of it: the words of each event that the program has made of
        it, and the reference broker's reply. Raises Wrong."""
        if conn in self.server.closed or not piece:
            return []
        self.tell(moment)
        if conn not in self.streams:
            self.streams[conn] = self.running.connect()
        try:
            self.streams[conn].sendall(piece)
        except OSError:
            pass  # the program has closed the connection after a part of it
        events = self.events_of(conn, piece)
        self.take_replies(conn, b"".join(reply for _, reply in events))
        self.counts["pieces"] += 1
        self.compare()
        return events

    def events_of(self, conn, piece):
        """The events that the program makes of a piece: their words, and the replies to them. What it still reads on
        another connection, which it has closed, is none. Raises Wrong."""
        port = self.streams[conn].getsockname()[1]
        until, events, read, received = time.monotonic() + PATIENCE, [], 0, b""
        while not self.is_over(conn, read == len(piece) and not received and events):
            expect(time.monotonic() < until, f"of {piece[:80]!r} it has read {read} bytes in {len(events)} events")
            for kind, peer, value in self.records():
                if kind == RECEIVED and peer == port:
                    received = piece[read:read + value]
                    read += value
                elif kind == TOLD:
                    words = next(self.words)
                    events.append((words, self.server.feed(conn, received, value, words)))
                    received = b""
        return events

    def is_over(self, conn, is_read):
        """Whether no further event is to come: all is read, or the connection is closed, and no request is whole."""
        if conn in self.server.closed:
            return True
        return is_read and isinstance(front(self.server.unanswered[conn], TODAY), Need)

    def records(self):
        """What the program did since the last look."""
        found = self.known.records(self.taken)
        self.taken += len(found)
        if not found:
            expect(not self.running.has_ended(), "the program has ended")
            time.sleep(PAUSE)
        return found

    def take_replies(self, conn, wanted):
        """The replies have to be those of the reference broker. Raises Wrong."""
        stream, found = self.streams[conn], b""
        while len(found) < len(wanted):
            more = stream.recv(len(wanted) - len(found))
            expect(more, "the connection ends within a reply")
            found += more
        expect(found == wanted, f"{found[-200:]!r} is answered in place of {wanted[-200:]!r}")
        if conn in self.server.closed:
            self.streams.pop(conn).close()

    def compare(self):
        """The rows have to be those of the reference broker. Raises Wrong."""
        put(self.copy, bytes_of(self.file))
        rows, wanted = rows_in(self.copy), self.server.rows()
        if rows != wanted:
            places = sorted(key for key in {*rows, *wanted} if rows.get(key) != wanted.get(key))
            raise Wrong(f"{len(places)} rows differ, the first is {places[0]}: {rows.get(places[0])} in place of "
                        f"{wanted.get(places[0])}")
        changes = Counter()
        for key in {*rows, *self.rows}:
            if rows.get(key) != self.rows.get(key):
                what = "come" if key not in self.rows else "change" if key in rows else "go"
                changes[what, key[0]] += 1
        self.counts["pieces that changed rows"] += bool(changes)
        self.counts += changes
        self.rows = rows

    def end(self):
        """What has come of all. SQLite must find no fault in the last copy. Raises Wrong."""
        put(self.copy, bytes_of(self.file))
        expect(whole_rows_in(self.copy) == self.rows, "the rows have changed since the last reply")
        return list(self.counts.elements())


def rows_of_tests():
    """The name and the events of each row of tests/rows that is good lines to its end; the first one is the start."""
    for file in sorted(ROWS.glob("*.replay")):
        lines = file.read_bytes().splitlines() or [b""]
        try:
            yield file, [(0, b"", *read_start(lines[0], TODAY)), *[read_event(line, TODAY) for line in lines[1:]]]
        except BadLine:
            continue


def renamed(piece, names):
    """A piece with the identifiers that the program has drawn in place of those of the row."""
    return IDENTIFIER.sub(lambda found: names.get(found[0].decode(), found[0].decode()).encode(), piece)


def try_row(trial, file, events):
    """A row of tests/rows, whose identifiers are made those that the program draws: what came of it. Raises Wrong."""
    start, names, left, statuses = events[0], {}, {}, []
    with Watched(trial, random.Random(file.stem), start[2]) as watched:
        names.update(zip(map(identifier, start[3]), map(identifier, watched.first)))
        for conn, piece, moment, words in events[1:]:
            made = watched.send(conn, renamed(piece, names), moment)
            statuses += [status for _, reply in made for status in STATUS.findall(reply[:20])]
            # A later request of a piece is answered at once, where the row answers it by an empty piece.
            answered = [each for each, reply in made if reply] or [each for each, _ in made[-1:]]
            waiting = left.setdefault(conn, deque())
            waiting += answered[1:]
            drawn = answered[0] if answered else waiting.popleft() if waiting and not piece else ()
            names.update(zip(map(identifier, words), map(identifier, drawn)))
        watched.start_from_outside(events[-1][2])
        conn = max(conn for conn, *_ in events) + 1
        for method, path in LOOKS:
            text = request_text(method, path, watched.server.root_token, None, None)
            watched.send(conn, text.encode(), events[-1][2])
        stated = STATUS.findall(file.with_suffix(".out").read_bytes())
        usual = sum(one == other for one, other in zip(statuses, stated))
        return [*watched.end(), *["usual"] * usual, *["stated"] * len(stated)]


def try_drawn(trial, seed):
    """Drawn requests on one connection, and on another one after the half: what came of them. Raises Wrong."""
    draw = random.Random(seed)
    with Watched(trial, draw, START) as watched:
        drawer = LiveDrawer(iter(lambda: draw.getrandbits(64), None), watched.server.root_token)
        for number in range(DRAWN):
            drawer.moment += drawer.below(31)
            if number == DRAWN // 2:
                watched.start_from_outside(drawer.moment)
            text = drawer.first_request(*FIRST[number]) if number < len(FIRST) else drawer.request()
            for _, reply in watched.send(2 * number // DRAWN, text.encode(), drawer.moment):
                head, _, body = reply.partition(b"\r\n\r\n")
                if body and head.startswith(b"HTTP/1.1 200 "):
                    drawer.learn(body)
        return watched.end()


def judge(tally, changes):
    """Judges how many rows of each kind came, changed and went."""
    for what, kinds in CHANGES.items():
        tally.counts[f"rows that {what}"] = sum(changes[what, kind] for kind in range(1, 14))
        for kind in kinds:
            if changes[what, kind] < LEAST_OF_A_KIND:
                tally.fails(f"{changes[what, kind]} rows of kind {kind} {what}")
            else:
                tally.passed += 1


def try_kept(trial, jobs, seed=1, requests=1500, is_gate=True):
    """All rows of tests/rows, in the gate, and so many drawn requests."""
    tally, changes, draw = Tally("kept"), Counter(), random.Random(seed)
    trial.known = library(trial.folder)
    tasks = [(try_row, row) for row in rows_of_tests() if is_gate]
    tasks += [(try_drawn, (draw.getrandbits(32),)) for _ in range(0, requests, DRAWN)]
    for (task, arguments), found, wrong in side_by_side(lambda it: it[0](trial, *it[1]), tasks, jobs):
        if wrong is None:
            counted = Counter(found)
            changes += Counter({each: count for each, count in counted.items() if isinstance(each, tuple)})
            tally.counts += Counter({each: count for each, count in counted.items() if isinstance(each, str)})
            tally.passed += 1
        else:
            tally.fails(f"{getattr(arguments[0], 'stem', arguments[0])}: {wrong}")
    judge(tally, changes)
    for name, least in LEAST.items():
        tally.has(name, least if is_gate else 1)
    usual, stated = tally.counts.pop("usual", 0), tally.counts.pop("stated", 0)
    if usual < LEAST_USUAL * stated:
        tally.fails(f"{usual} of {stated} replies to rows have the status that is stated")
    return tally
