#!/usr/bin/env python3
"""A running `brokerd serve` at the limits of the system.

    python3 tests/served/limits.py PROGRAM [PART..]

The parts are `descriptors` and `memory`, which are few and little, `clock`, which goes back or far ahead, `randomness`,
of which there is none, and `connections`, 5,000 one after another and 500 at once. Without one all are tried, in some
30 seconds. Clocks and randomness are those of tests/hostile, whose library is built by the toolchain. The last line is
'N passed, M failed'.
"""

import concurrent.futures
import json
import re
import resource
import signal
import subprocess
import sys
import threading
import time
from contextlib import contextmanager
from pathlib import Path

sys.path[:0] = [str(Path(__file__).resolve().parent), str(Path(__file__).resolve().parent.parent / "hostile")]

import closed_connections
from broker import connect, fault_in, free_port, reply, request
from hostile import Report, aim, build, environment, scratch

PARTS = {}
ENDLESS = 2**62  # a call that no program makes
DATE = re.compile(rb"\r\nDate: ([^\r]*)\r\n")
DESCRIPTORS = (*range(3, 13), 32)
WAYS = ("not loaded", "fault 2", "fault 5", "waits", "serves")  # what may come of few, of more and of more
AT_ONCE = 40  # connections at once where there are 32 descriptors
MEGABYTE = 1 << 20
MEMORY = (12, 16, 20, 24, 28, 32, 36, 64)  # megabytes that a program may have in all
ROOM_FOR_THE_STACK = 20  # with fewer the stack may find no room to grow, and the kernel ends the program by SIGSEGV
WRITES = 12  # secrets of a megabyte
ONE_BY_ONE, TOGETHER = 5_000, 500
GREATEST_MOMENT = 250_000_000_000
MOST_GROWTH = 200  # kilobytes, for 5,000 connections that are over


def part(function):
    """A part of the script, which answers what is wrong as a list of lines, and how many things it has tried."""
    PARTS[function.__name__] = function
    return function


class Wrong(Exception):
    """Something is not as it should be."""


def expect(condition, what):
    """Raises Wrong unless the condition holds."""
    if not condition:
        raise Wrong(what)


class Served:
    """A program that serves on a free port. Nobody has connected to it. `limits` are set in the program alone: the soft
    ones, so that they can be raised again."""

    def __init__(self, program, *arguments, limits=(), variables=None):
        self.port = free_port()

        def set_limits():
            for which, value in limits:
                resource.setrlimit(which, (value, resource.getrlimit(which)[1]))
        self.process = subprocess.Popen(
            [program, "serve", "--listen", f"127.0.0.1:{self.port}", *arguments], env=variables, preexec_fn=set_limits,
            stdin=subprocess.DEVNULL, stdout=subprocess.PIPE, stderr=subprocess.PIPE)
        self.token = self.said = None

    def read_token(self):
        """Reads the root token, which is told before the program listens. It stays as it was if the program ends."""
        words = self.process.stdout.readline().decode().split()
        if words[:2] == ["root", "token:"]:
            self.token = words[2]

    def ended(self, seconds):
        """The status and the standard error of a program that ends in time; else None."""
        try:
            self.process.wait(seconds)
        except subprocess.TimeoutExpired:
            return None
        if self.said is None:
            self.said = fault_in(self.process.stderr.read().decode().strip())
        return self.process.returncode, self.said

    def connect(self, patience=60.0):
        """A connection. It raises Wrong if the program has ended, or does not listen in time."""
        until = time.monotonic() + patience
        while True:
            try:
                return connect(self.port, 0.0)
            except OSError as error:
                if self.process.poll() is not None or time.monotonic() > until:
                    raise Wrong(f"no connection: {error}, {self.ended(0)}") from None
                time.sleep(0.02)

    def ask(self, method, path, body=None, token=None, seconds=20.0):
        """The status, the object and the Date of a request on a connection of its own. Status 0 without a reply."""
        with self.connect() as connection:
            connection.settimeout(seconds)
            text = request(method, path, token or self.token, "" if body is None else json.dumps(body))
            try:
                connection.sendall(text)
                connection.shutdown(1)
                raw = b"".join(iter(lambda: connection.recv(65_536), b""))
            except OSError:
                return 0, None, None
        if not raw:
            return 0, None, None
        head, _, found = raw.partition(b"\r\n\r\n")
        return int(head[9:12]), json.loads(found) if found else None, DATE.search(head + b"\r\n").group(1).decode()

    def whoami(self, seconds=20.0):
        """The status of a look-up of the root token."""
        return self.ask("GET", "auth/token/lookup-self", seconds=seconds)[0]

    def seconds_of_processor(self):
        """How long the program has run on a processor."""
        fields = Path(f"/proc/{self.process.pid}/stat").read_text(encoding="ascii").rpartition(")")[2].split()
        return (int(fields[11]) + int(fields[12])) / 100

    def kilobytes(self):
        """How much memory the program has in use."""
        status = Path(f"/proc/{self.process.pid}/status").read_text(encoding="ascii")
        return int(re.search(r"VmRSS:\s*(\d+)", status).group(1))

    def close(self):
        """Ends the program."""
        if self.process.poll() is None:
            self.process.kill()
        self.process.communicate()


@contextmanager
def served(program, *arguments, is_new=True, **named):
    """A program that serves, and ends with the block. A new broker tells its token."""
    running = Served(program, *arguments, **named)
    try:
        if is_new:
            running.read_token()
        yield running
    finally:
        running.close()


def unlimited(*arguments):
    """The arguments, and those that serve without an end."""
    return ("--until-stopped", *arguments)


# --------------------------------------------------------------------------------------- descriptors

def with_descriptors(program, number, arguments):
    """What comes of so few descriptors: `not loaded`, `fault 2`, `fault 5`, `waits` or `serves`."""
    with served(program, *unlimited(*arguments), limits=[(resource.RLIMIT_NOFILE, number)]) as running:
        if running.token is None:
            status, said = running.ended(10) or (None, "")
            if status == 127 and "shared libraries" in said:
                return "not loaded"
            expect((status, said) in ((1, "fault 2"), (1, "fault 5")), f"it ends with status {status}: {said}")
            return said
        try:
            connection = connect(running.port, 1.0)
        except OSError:
            found = running.ended(10)
            expect(found == (1, "fault 5"), f"it ends with {found}")
            return found[1]
        with connection:
            connection.sendall(request("GET", "auth/token/lookup-self", running.token))
            connection.settimeout(1.0)
            before = running.seconds_of_processor()
            try:
                status = reply(connection)[0]
            except OSError:
                status = None
            if status is None:
                spent = running.seconds_of_processor() - before
                expect(running.ended(0) is None, f"it ends with {running.ended(0)} while a client waits")
                expect(spent < 0.5, f"it takes {spent} s of processor in a second in which it waits")
                hard = resource.prlimit(running.process.pid, resource.RLIMIT_NOFILE)[1]
                resource.prlimit(running.process.pid, resource.RLIMIT_NOFILE, (min(64, hard), hard))
                connection.settimeout(5.0)
                expect(reply(connection)[0] == 200, "a client that waited is not served once there are descriptors")
                return "waits"
        expect(status == 200, f"the status is {status}")
        expect([running.whoami() for _ in range(20)] == [200] * 20, "it does not serve twenty connections")
        return "serves"


def many_with_few_descriptors(program):
    """More connections at once than there are descriptors: each is served in the end."""
    with served(program, *unlimited(), limits=[(resource.RLIMIT_NOFILE, 32)]) as running:
        opened = [running.connect() for _ in range(AT_ONCE)]

        def ask(connection):
            with connection:
                connection.settimeout(30)
                connection.sendall(request("GET", "auth/token/lookup-self", running.token))
                return reply(connection)[0]
        with concurrent.futures.ThreadPoolExecutor(AT_ONCE) as pool:
            statuses = list(pool.map(ask, opened))
        expect(set(statuses) <= {200, 0}, f"the statuses are {statuses}")
        # The program may have let go some that had not asked in time, but not those that it had no room for.
        expect(statuses.count(200) >= AT_ONCE // 2, f"{statuses.count(200)} of {AT_ONCE} are served")
        expect(running.whoami() == 200, "the next connection is not served")


@part
def descriptors(program, folder):
    """With few descriptors the program says so and ends, or waits for one, or serves."""
    wrong, found, tried = [], {}, 0
    for place, arguments in (("in memory", ()), ("over a file", ("--db",))):
        for number in DESCRIPTORS:
            tried += 1
            file = [str(folder / f"descriptors-{number}.db")] if arguments else []
            try:
                came = with_descriptors(program, number, (*arguments, *file))
                found.setdefault(place, []).append((number, came))
            except (Wrong, OSError) as error:
                wrong.append(f"{number} descriptors, {place}: {error}")
    for place, came in found.items():
        tried += 2
        print(f"descriptors, {place}: {', '.join(f'{number} {what}' for number, what in came)}")
        ways = [what for _, what in came]
        if came[-1:] != [(32, "serves")] or "waits" not in ways:
            wrong.append(f"{place}: it never waits for a descriptor, or does not serve with 32")
        if sorted(ways, key=WAYS.index) != ways:
            wrong.append(f"{place}: more descriptors do less")
    try:
        many_with_few_descriptors(program)
    except (Wrong, OSError) as error:
        wrong.append(f"{AT_ONCE} connections with 32 descriptors: {error}")
    return wrong, tried + 1


# -------------------------------------------------------------------------------------------- memory

def write_until_refused(running, written):
    """Writes secrets of a megabyte, and notes those that were answered. Answers how many were refused."""
    refused = 0
    text = "x" * (MEGABYTE - 40)
    for number in range(WRITES):
        try:
            status, _, _ = running.ask("POST", f"secret/data/k{number}", {"data": {"n": number, "text": text}})
        except Wrong:
            refused += 1
            break
        expect(status in (200, 0), f"write {number} gets status {status}")
        if status == 200:
            written.append(number)
        else:
            refused += 1
        if running.process.poll() is not None:
            break
    return refused


def with_memory(program, megabytes, file):
    """How the program ends, how many writes were answered, and how many refused. What was answered is there later."""
    written, refused, end = [], 0, None
    with served(program, *unlimited("--db", file), limits=[(resource.RLIMIT_AS, megabytes * MEGABYTE)]) as running:
        token = running.token
        if token is not None:
            refused = write_until_refused(running, written)
        end = running.ended(10 if token is None else 0.2)
        if end is not None:
            faults = ("fault 1", "fault 2") if token is None else ("fault 2",)
            has_no_stack = end[0] == -signal.SIGSEGV and megabytes < ROOM_FOR_THE_STACK
            expect(has_no_stack or (end[0] == 1 and end[1] in faults), f"it ends with {end}")
    if token is None:  # nobody can ask the broker that the file may have
        return end, 0, refused
    with served(program, *unlimited("--db", file), is_new=False) as running:
        running.token = token
        for number in written:
            status, found, _ = running.ask("GET", f"secret/data/k{number}")
            is_there = status == 200 and found["data"]["data"]["n"] == number
            expect(is_there, f"secret {number} was answered and is not there")
        expect(running.whoami() == 200, "it does not serve without the limit")
    return end, len(written), refused


def told(end):
    """How a program ended, or that it did not."""
    return "serves" if end is None else end[1] or "no stack"


@part
def memory(program, folder):
    """With little memory in all, writes of a megabyte end in the faults that are listed, and nothing is lost. With next
    to none the stack cannot grow either: that ends the program, and nothing is lost then."""
    wrong, found = [], []
    for megabytes in MEMORY:
        try:
            found.append((megabytes, *with_memory(program, megabytes, str(folder / f"memory-{megabytes}.db"))))
        except (Wrong, OSError) as error:
            wrong.append(f"{megabytes} MB: {error}")
    print("memory: " + "; ".join(f"{size} MB: {written} written, {refused} refused, {told(end)}"
                                 for size, end, written, refused in found))
    if not any(refused for _, _, _, refused in found):
        wrong.append("nothing is refused")
    if not any(0 < written for _, _, written, _ in found):
        wrong.append("nothing is written")
    return wrong, len(MEMORY) + 2


# --------------------------------------------------------------------------------------------- clock

def moment_of(date):
    """The seconds since 1970 of a Date field."""
    return int(time.mktime(time.strptime(date, "%a, %d %b %Y %H:%M:%S GMT")) - time.timezone) if date else None


def made(running, number):
    """The Date of a write, and the time that its reply tells."""
    status, found, date = running.ask("POST", f"secret/data/c{number}", {"data": {}})
    expect(status == 200, f"a write gets status {status}")
    return date, found["data"]["created_time"]


@contextmanager
def clocked(program, library, folder, rule):
    """A program whose time of day is moved, and the file of its report."""
    report = folder / "clock-report"
    report.unlink(missing_ok=True)
    with served(program, *unlimited(), variables=environment(library, rule, report=report)) as running:
        yield running, report


def at_a_moment(program, library, folder, seconds, date, told):
    """A clock that stands at a moment, which the program tells as this date and this time."""
    with clocked(program, library, folder, f"clock_gettime:1+:set={seconds}") as (running, report):
        expect(made(running, 1) == (date, told), f"at {seconds} it tells {made(running, 2)} in place of {date}, {told}")
        expect(running.whoami() == 200, f"at {seconds} it does not serve")
        expect(Report(report).rules[0].changed > 0, "no call of the clock was changed")


def back_an_hour(program, library, folder):
    """A clock that is set back an hour while the program serves: Date follows it, and no other time goes back."""
    with clocked(program, library, folder, f"clock_gettime:{ENDLESS}+:add=-3600") as (running, report):
        before = made(running, 1)
        expect(running.ask("POST", "auth/token/create", {"ttl": 1800})[1]["auth"]["lease_duration"] == 1800, "no token")
        aim(report, 0, 1, ENDLESS)
        after = made(running, 2)
        difference = moment_of(before[0]) - moment_of(after[0])
        expect(3590 <= difference <= 3600, f"Date goes back {difference} s")
        expect(after[1] >= before[1], f"a time goes back from {before[1]} to {after[1]}")
        expect(Report(report).rules[0].changed > 0, "no call of the clock was changed")


def ahead_an_hour(program, library, folder):
    """A clock that is set ahead while the program serves: what is due by then is gone."""
    with clocked(program, library, folder, f"clock_gettime:{ENDLESS}+:add=3600") as (running, report):
        token = running.ask("POST", "auth/token/create", {"ttl": 1800})[1]["auth"]["client_token"]
        expect(running.ask("GET", "auth/token/lookup-self", token=token)[0] == 200, "the token is not there")
        aim(report, 0, 1, ENDLESS)
        expect(running.ask("GET", "auth/token/lookup-self", token=token)[0] == 403, "a token is there after its end")
        aim(report, 0, ENDLESS, ENDLESS)
        expect(running.ask("GET", "auth/token/lookup-self", token=token)[0] == 403, "a token is there once more")


@part
def clock(program, folder):
    """The time of day goes back, is before 1970, or past the greatest moment."""
    library, wrong = build(folder), []
    first = ("Thu, 01 Jan 1970 00:00:00 GMT", "1970-01-01T00:00:00Z")
    last = ("Tue, 08 Mar 9892 12:26:40 GMT", "9892-03-08T12:26:40Z")
    trials = [
        (at_a_moment, -1, *first), (at_a_moment, -10**12, *first), (at_a_moment, 0, *first),
        (at_a_moment, GREATEST_MOMENT, *last), (at_a_moment, GREATEST_MOMENT + 1, *last), (at_a_moment, 10**15, *last),
        (back_an_hour,), (ahead_an_hour,)]
    for trial, *values in trials:
        try:
            trial(program, library, folder, *values)
        except (Wrong, OSError) as error:
            wrong.append(f"{trial.__name__} {values}: {error}")
    return wrong, len(trials)


def start_without_randomness(program, library, folder, rule, arguments):
    """The fault of a start whose calls for randomness fail by the rule. The next start makes a broker as usual."""
    report = folder / "randomness-report"
    report.unlink(missing_ok=True)
    with served(program, *unlimited(*arguments), variables=environment(library, rule, report=report)) as running:
        found = running.ended(10)
        expect(found is not None and found[0] == 1, f"{rule}: it ends with {found}")
        expect(running.token is None, f"{rule}: a token is told")
        expect(Report(report).changed["getentropy"] > 0, f"{rule}: no call was changed")
    with served(program, *unlimited(*arguments)) as running:
        expect(running.token is not None and running.whoami() == 200, f"{rule}: the next start makes no broker")
    return found[1]


@part
def randomness(program, folder):
    """Without randomness the program does not start. In memory it asks for it once; the database asks for some too."""
    library, report, wrong, tried = build(folder), folder / "randomness-report", [], 0
    for place, wanted in (("in memory", {"fault 5"}), ("over a file", {"fault 2", "fault 5"})):
        def arguments(name):
            return ("--db", str(folder / f"{name}.db")) if place == "over a file" else ()
        variables = environment(library, "getentropy:0:EIO", report=report)
        with served(program, *unlimited(*arguments("usual")), variables=variables) as running:
            expect(running.whoami() == 200, f"{place}: it does not serve")
            calls = Report(report).made["getentropy"]
        faults = set()
        for number in range(1, calls + 1):
            for rule in (f"getentropy:{number}:EIO", f"getentropy:{number}+:ENOSYS"):
                tried += 1
                try:
                    faults.add(start_without_randomness(program, library, folder, rule, arguments(f"{tried}")))
                except (Wrong, OSError) as error:
                    wrong.append(f"{place}: {error}")
        tried += 1
        print(f"randomness, {place}: {calls} calls; {', '.join(sorted(faults))}")
        if faults != wanted:
            wrong.append(f"{place}: the faults are {faults}")
    return wrong, tried


# --------------------------------------------------------------------------------------- connections

def ask_and_close(port, token):
    """The status of a request that closes its connection."""
    text = request("GET", "auth/token/lookup-self", token).replace(b"\r\n\r\n", b"\r\nConnection: close\r\n\r\n", 1)
    with connect(port, 5.0) as connection:
        connection.sendall(text)
        return reply(connection)[0]


def one_by_one_and_together(program, arguments):
    """So many connections one after another, which ask for what takes no storage, and so many at once; then the program
    ends by itself."""
    with served(program, "--connections", str(ONE_BY_ONE + TOGETHER), *arguments) as running:
        for number in range(ONE_BY_ONE):
            if number == ONE_BY_ONE // 5:
                before = running.kilobytes()
            connection, closes = running.connect(), number % 2 == 0
            closed_connections.ask(connection, closes)
            closed_connections.close(connection, closes)
        growth = running.kilobytes() - before
        expect(growth < MOST_GROWTH, f"{ONE_BY_ONE} connections take {growth} kB")
        ready = threading.Barrier(TOGETHER)

        def ask(_):
            ready.wait()
            return ask_and_close(running.port, running.token)
        with concurrent.futures.ThreadPoolExecutor(TOGETHER) as pool:
            statuses = list(pool.map(ask, range(TOGETHER)))
        expect(statuses == [200] * TOGETHER, f"{statuses.count(200)} of {TOGETHER} at once are served")
        expect(running.ended(10) == (0, ""), f"after its last connection it ends with {running.ended(0)}")


def exactly(program, connections, arguments):
    """The program ends after exactly so many connections, whatever they bring."""
    with served(program, "--connections", str(connections), *arguments) as running:
        for number in range(connections):
            expect(running.ended(0) is None, f"it ends after {number} of {connections} connections")
            with running.connect() as connection:
                if number % 3 == 0:
                    connection.sendall(request("GET", "auth/token/lookup-self", running.token))
                    expect(reply(connection)[0] == 200, f"connection {number} is not served")
                elif number % 3 == 1:
                    connection.sendall(b"no request\r\n\r\n")
                    expect(reply(connection)[0] == 400, f"connection {number} is not refused")
        expect(running.ended(10) == (0, ""), f"after {connections} connections it ends with {running.ended(0)}")
        try:
            connect(running.port, 0.0).close()
        except OSError:
            return
        raise Wrong(f"it listens after {connections} connections")


@part
def connections(program, folder):
    """Thousands of connections, and a program that ends after exactly as many as it was told."""
    ways = [(), ("--at-once", "1"), ("--at-once", "8")]
    trials = [(one_by_one_and_together, program, way) for way in ways[:1]]
    trials += [(exactly, program, number, way) for way in ways for number in (1, 2, 7, 12)]
    wrong = []
    for trial, *values in trials:
        try:
            trial(*values)
        except (Wrong, AssertionError, OSError) as error:
            wrong.append(f"{trial.__name__} {values[1:]}: {error}")
    return wrong, len(trials)


def main():
    program, names = sys.argv[1], sys.argv[2:] or list(PARTS)
    passed = failed = 0
    found = []
    with scratch() as name:
        for part_name in names:
            begin = time.monotonic()
            try:
                wrong, tried = PARTS[part_name](program, Path(name))
            except (Wrong, OSError) as error:
                wrong, tried = [str(error)], 1
            print("".join(f"limits, {part_name}: {line}\n" for line in wrong), end="")
            found.append(f"{part_name} {tried - len(wrong)} of {tried} in {time.monotonic() - begin:.1f} s")
            passed, failed = passed + tried - len(wrong), failed + len(wrong)
    print("; ".join(found))
    print(f"{passed} passed, {failed} failed")
    return 1 if failed else 0


if __name__ == "__main__":
    sys.exit(main())
