#!/usr/bin/env python3
"""Many peers at once, against `brokerd serve`: none makes the others wait, and each one is let go in time.

    python3 tests/served/many_peers.py PROGRAM [CASE..]

Each case has a process and a broker of its own, and all run at once; those that keep the machine busy begin when the
waits of the others have been measured. The whole takes some 30 seconds. Each case prints what it has met, and fails
where that is too little. If a case fails, and its own process was kept from running for longer than a twentieth of a
second, it shows nothing, and is tried again, for a minute at most. The last line is 'N passed, M failed'.
"""

import concurrent.futures
import contextlib
import os
import signal
import socket
import struct
import sys
import tempfile
import threading
import time
from pathlib import Path

from broker import Broker, connect, exchange, reply, request
from cases import between, expect, tried
from closed_connections import memory

sys.path.insert(0, str(Path(__file__).resolve().parent.parent / "known_system"))
from known import Known  # noqa: E402

LONGEST_WAIT = 0.1  # seconds until a request is answered, whatever other peers do
AT_ONCE = 0.5  # seconds until all of 196 requests are, which are sent at once
BUSY = 6  # seconds after which the cases begin that keep the machine busy
CASES = []


def case(function, begins=0):
    """A case, which begins after so many seconds."""
    CASES.append((function, begins))
    return function


def busy_case(function):
    """A case that keeps the machine busy."""
    return case(function, BUSY)


def look_up(broker):
    """A request that each of these tests sends mostly."""
    return request("GET", "auth/token/lookup-self", broker.token)


def ask(broker, connection):
    """Asks on a connection, and answers how many seconds the reply took."""
    status, _, seconds = exchange(connection, look_up(broker))
    expect(status == 200, f"status {status}")
    return seconds


def asking(broker, count):
    """So many connections, each of which has asked once."""
    connections = [connect(broker.port) for _ in range(count)]
    for connection in connections:
        ask(broker, connection)
    return connections


def rest_of(connection):
    """All that still comes on a connection."""
    found = b""
    with contextlib.suppress(ConnectionResetError):
        while more := connection.recv(1 << 20):
            found += more
    return found


def wait_until(condition, patience, what):
    until = time.monotonic() + patience
    while not condition():
        expect(time.monotonic() < until, what)
        time.sleep(0.01)


# None makes the others wait.

def write_long(broker):
    """A secret that makes a reply of 900,000 bytes."""
    status, _ = broker.ask("POST", "secret/data/long", '{"data":{"value":"' + "x" * 900_000 + '"}}')
    expect(status == 200, f"the long secret is not written: status {status}")


def greedy_peer(broker, requests):
    """A peer that asks for the long secret so often, and reads nothing. Its receive buffer is small; it has to be so
    before it connects."""
    connection = socket.socket()
    connection.setsockopt(socket.SOL_SOCKET, socket.SO_RCVBUF, 4096)
    connection.connect(("127.0.0.1", broker.port))
    connection.sendall(request("GET", "secret/data/long", broker.token) * requests)
    return connection


def drip(broker, connection):
    """Sends a request, a byte a second."""
    with contextlib.suppress(OSError):
        for byte in look_up(broker):
            connection.sendall(bytes([byte]))
            time.sleep(1)


def burst(broker, peers):
    """How many seconds it takes until all peers are answered, which ask at once."""
    text, begin = look_up(broker), time.monotonic()
    for peer in peers:
        peer.sendall(text)
    for peer in peers:
        expect(reply(peer)[0] == 200, "a peer of many is not answered")
    return time.monotonic() - begin


def rounds(broker, peers):
    """How many requests were answered, and the longest wait of one; and of all peers, which ask at once."""
    waits = [ask(broker, peer) for _ in range(5) for peer in peers]
    bursts = [burst(broker, peers) for _ in range(5)]
    return len(waits) + len(bursts) * len(peers), max(waits), max(bursts)


@case
def two_hundred_peers(program):
    """One is idle, one sends half a request, one never reads, one sends a byte a second, and the others ask."""
    with Broker(program) as broker, contextlib.ExitStack() as stack:
        write_long(broker)
        idle, half, slow = (stack.enter_context(connect(broker.port)) for _ in range(3))
        ask(broker, idle)
        slow_since = time.monotonic()
        threading.Thread(target=drip, args=(broker, slow), daemon=True).start()
        greedy = stack.enter_context(greedy_peer(broker, 30))
        expect(broker.wait_until_stuck([greedy], 4.5), "the large replies are still made")
        half.sendall(look_up(broker)[:40])
        half_since = time.monotonic()
        peers = [stack.enter_context(connect(broker.port)) for _ in range(196)]
        count, longest, all_at_once = rounds(broker, peers)
        expect(broker.hold([idle, half, slow, greedy]) == 4, "a peer was let go before the others had asked")
        expect(count >= 1960 and longest <= LONGEST_WAIT, f"a wait of {longest:.3f} s, of {count} requests")
        expect(all_at_once <= AT_ONCE, f"{all_at_once:.3f} s until all of {len(peers)} were answered")
        broker.lets_go(half, 12)
        between(4.5, time.monotonic() - half_since, 12, "half a request was let go")
        expect(broker.lets_go(greedy, 6) is not None, "a peer that never reads was not let go")
        taken, whole = len(rest_of(greedy)), 900_000
        expect(0 < taken < 30 * whole, f"the peer that never read was sent {taken} bytes")
        broker.lets_go(slow, 30)
        between(18, time.monotonic() - slow_since, 40, "a byte a second was let go")
        for peer in (idle, *peers):
            ask(broker, peer)
        return (f"{count} requests, the longest wait {longest * 1000:.1f} ms, all of {len(peers)} within "
                f"{all_at_once * 1000:.0f} ms; {taken} bytes were sent to the one that never read")


@case
def at_rest(program):
    """Two hundred idle peers take no processor time."""
    with Broker(program) as broker:
        peers = asking(broker, 200)
        time.sleep(0.5)
        used = broker.processor()
        time.sleep(2)
        used = broker.processor() - used
        expect(broker.hold(peers) == 200, "an idle peer was let go")
        expect(used < 0.1, f"{used:.3f} s of processor time in two seconds")
        return f"{used * 1000:.1f} ms of processor time in two seconds"


@case
def six_hundred_peers(program):
    """More places are given: 600 peers ask at once, twice, and all have their places."""
    with Broker(program, "--at-once", "10000") as broker, contextlib.ExitStack() as stack:
        peers = [stack.enter_context(connect(broker.port)) for _ in range(600)]
        burst(broker, peers)
        seconds = burst(broker, peers)
        expect(broker.hold(peers) == 600 and seconds < 2, f"{broker.hold(peers)} are held; they took {seconds:.2f} s")
        return f"all were answered within {seconds * 1000:.0f} ms"


@case
def no_reply_is_kept(program):
    """When fifty peers have read a long secret, and are idle, the program has no more memory than after the first."""
    with Broker(program) as broker, contextlib.ExitStack() as stack:
        write_long(broker)
        text, kept = request("GET", "secret/data/long", broker.token), []
        for _ in range(50):
            status, body, _ = exchange(stack.enter_context(connect(broker.port)), text)
            expect(status == 200 and len(body) > 900_000, f"status {status}, {len(body)} bytes")
            kept.append(memory(broker.process)[0])
        expect(len(broker.held()) == 50, "an idle peer was let go")
        expect(kept[-1] - kept[0] < 4000, f"it had {kept[0]} kB after the first reply, and {kept[-1]} kB after 50")
        return f"{kept[-1] - kept[0]} kB more after 50 replies of 900 kB than after one"


@case
def ninety_seconds(program):
    """An idle peer stays for a minute and a half. The program's clock runs thirty times as fast, and another peer asks
    all the time: to the program a wait of 100 ms is the longest that counts, however long it was."""
    with tempfile.TemporaryDirectory() as folder:
        known = Known(folder, speed=30)
        with Broker(program, env=known.environment) as broker, connect(broker.port) as peer, \
                connect(broker.port) as other:
            ask(broker, peer)
            begin, count = time.monotonic(), 0
            while count % 100 or (broker.holds(peer) and time.monotonic() < begin + 40):
                ask(broker, other)
                count += 1
                time.sleep(0.002)
            seconds = time.monotonic() - begin
            between(2.9, seconds, 40, "thirty times as fast, an idle peer was let go")
            expect(count >= 300, f"another has asked {count} times only")
            return f"let go after {seconds * 30:.0f} s, while another asked {count} times"


# More peers than places.

def peers_with_a_pause(broker, peers):
    """Asks on each connection, on one a little later than on the other."""
    for peer in peers:
        ask(broker, peer)
        time.sleep(0.02)


@case
def the_longest_idle_goes(program):
    """Four places are taken by idle peers. All stay while nobody waits. The one that has been idle longest goes for
    another, when it has been idle for a quarter of a second, and the others stay."""
    with Broker(program, "--at-once", "4") as broker, contextlib.ExitStack() as stack:
        peers = [stack.enter_context(connect(broker.port)) for _ in range(4)]
        peers_with_a_pause(broker, peers)
        time.sleep(1)
        expect(broker.hold(peers) == 4, "one was let go, though nobody waited")
        peers = [peers[place] for place in (2, 0, 3, 1)]
        begin = time.monotonic()
        peers_with_a_pause(broker, peers)
        peers.append(stack.enter_context(connect(broker.port)))
        ask(broker, peers[-1])
        first = time.monotonic() - begin
        between(0.2, first, 0.7, "since the one that was idle longest had asked, the fifth was answered")
        time.sleep(0.5)
        held = [broker.holds(peer) for peer in peers]
        expect(held == [False, True, True, True, True], f"in the order in which they were idle, these are held: {held}")
        peers.append(stack.enter_context(connect(broker.port)))
        second = ask(broker, peers[-1])
        between(0, second, 0.4, "the sixth was answered")
        time.sleep(0.5)
        held = [broker.holds(peer) for peer in peers]
        expect(held == [False, False, True, True, True, True], f"after the sixth these are held: {held}")
        peers_with_a_pause(broker, peers[2:])
        return f"the fifth was answered after {first * 1000:.0f} ms, the sixth after {second * 1000:.0f} ms"


@case
def busy_peers_stay(program):
    """Four places are taken by peers that ask again in time. Another waits until one of them leaves."""
    with Broker(program, "--at-once", "4") as broker, contextlib.ExitStack() as stack:
        peers = [stack.enter_context(connect(broker.port)) for _ in range(4)]
        peers_with_a_pause(broker, peers)
        waiting = stack.enter_context(connect(broker.port))
        waiting.sendall(look_up(broker))
        begin, count = time.monotonic(), 0
        while time.monotonic() < begin + 2:
            peers_with_a_pause(broker, peers)
            count += len(peers)
        expect(count >= 20 and not broker.holds(waiting), f"another was taken in after {count} requests")
        begin = time.monotonic()
        peers[0].close()
        expect(reply(waiting)[0] == 200, "the one that waited is not answered")
        wait = time.monotonic() - begin
        between(0, wait, 0.3, "when one had left, the one that waited was answered")
        return f"{count} requests; then the one that waited was answered within {wait * 1000:.0f} ms"


@case
def one_at_once(program):
    """With one place an idle peer is let go for the next one after a quarter of a second."""
    with Broker(program, "--at-once", "1") as broker, connect(broker.port) as first, connect(broker.port) as second:
        begin = time.monotonic()
        ask(broker, first)
        ask(broker, second)
        wait = time.monotonic() - begin
        between(0.2, wait, 0.7, "since the first had asked, the second was answered")
        expect(not broker.holds(first) and first.recv(1) == b"", "the first is still held")
        return f"the second was answered after {wait * 1000:.0f} ms"


# The last connection.

@case
def the_last_connection(program):
    """After the last of N connections no more are taken. Those that are open are served to their ends."""
    with Broker(program, connections=4) as broker, contextlib.ExitStack() as stack:
        asks, idle, half = (stack.enter_context(connect(broker.port)) for _ in range(3))
        ask(broker, asks)
        ask(broker, idle)
        half.sendall(look_up(broker)[:40])
        idle.setblocking(False)
        begin, count, gone, is_refused = time.monotonic(), 0, None, False
        while time.monotonic() < begin + 1.5:
            ask(broker, asks)
            count += 1
            gone = gone or (has_ended(idle) and time.monotonic() - begin)
            is_refused = is_refused or refuses(broker)
            time.sleep(0.05)
        expect(is_refused and count >= 10, f"after {count} requests the program still listens: {not is_refused}")
        between(0.01, gone, 1, "an idle one was let go")
        half.sendall(look_up(broker)[40:])
        expect(reply(half)[0] == 200, "the request in two halves is not answered")
        asks.close()
        expect(broker.ended() == (0, ""), "the program does not end with status 0")
        return f"{count} requests after the last one was taken in"


def has_ended(connection):
    """Whether the end of a connection that does not wait is there."""
    try:
        return connection.recv(1) == b""
    except BlockingIOError:
        return False
    except ConnectionResetError:
        return True


def refuses(broker):
    """Whether the program does not listen any more."""
    try:
        connect(broker.port, 0.0).close()
        return False
    except ConnectionRefusedError:
        return True


@case
def those_after_the_last(program):
    """Of ten peers that wait, the first five are the last of N. They are answered, and the others are not."""
    with Broker(program, connections=6) as broker, contextlib.ExitStack() as stack:
        os.kill(broker.process.pid, signal.SIGSTOP)
        peers = [stack.enter_context(connect(broker.port)) for _ in range(10)]
        for peer in peers:
            peer.sendall(look_up(broker))
        os.kill(broker.process.pid, signal.SIGCONT)
        expect(broker.ended() == (0, ""), "the program does not end with status 0")
        answered = [rest_of(peer).startswith(b"HTTP/1.1 200 OK\r\n") for peer in peers]
        expect(answered == [True] * 5 + [False] * 5, f"answered are {answered}")
        return "five were answered, and five were not"


# Peers that end their input, read late, or send on.

@busy_case
def half_closed(program):
    """Each of 200 peers ends its input after three requests, and a third of them within one more. All have their
    replies, and then the end."""
    with Broker(program) as broker, contextlib.ExitStack() as stack:
        peers = [stack.enter_context(connect(broker.port)) for _ in range(200)]
        text, replies = look_up(broker), 0
        for number, peer in enumerate(peers):
            peer.sendall(text * 3 + text[:40] * (number % 3 == 0))
            peer.shutdown(socket.SHUT_WR)
        for number, peer in enumerate(peers):
            rest = b""
            for _ in range(3):
                status, _, rest = reply(peer, rest)
                expect(status == 200, f"peer {number}: status {status}")
                replies += 1
            expect(rest == b"" and rest_of(peer) == b"", f"peer {number}: there are further bytes")
        expect(replies == 600 and not broker.held(), f"{replies} replies; still held are {len(broker.held())}")
        return f"{replies} replies"


@busy_case
def replies_are_read_late(program):
    """A peer sends 20,000 requests, and begins to read after a second. It gets each reply, whole and in order. Another
    is answered at once, while the peer does not read and while it does."""
    count, kinds = 20_000, 10
    with Broker(program) as broker, connect(broker.port) as peer, connect(broker.port) as other:
        for number in range(kinds):
            status, _ = broker.ask("POST", f"cubbyhole/{number}", f'{{"n":{number}}}')
            expect(status == 204, f"status {status}")
        texts = b"".join(request("GET", f"cubbyhole/{number}", broker.token) for number in range(kinds))
        sender = threading.Thread(target=peer.sendall, args=(texts * (count // kinds),), daemon=True)
        sender.start()
        waits, begin, rest = [], time.monotonic(), b""
        while time.monotonic() < begin + 1:
            waits.append(ask(broker, other))
            time.sleep(0.01)
        for number in range(count):
            status, body, rest = reply(peer, rest)
            expect(status == 200 and b'"data":{"n":%d}' % (number % kinds) in body, f"reply {number}: {body[:200]}")
            if number % 500 == 0:
                waits.append(ask(broker, other))
        sender.join(5)
        expect(len(waits) >= 45 and max(waits) <= 0.25, f"another asked {len(waits)} times, and waited {max(waits)} s")
        return f"{count} replies; another was answered {len(waits)} times, within {max(waits) * 1000:.0f} ms"


def leave(peer):
    """Closes a connection at once, so that its other end is told of a reset."""
    peer.setsockopt(socket.SOL_SOCKET, socket.SO_LINGER, struct.pack("ii", 1, 0))
    peer.close()


@busy_case
def peers_that_reset(program):
    """Peers leave by a reset: in the middle of a request, before their replies, and with replies in part. That ends
    their connections alone."""
    with Broker(program) as broker, connect(broker.port) as other, contextlib.ExitStack() as stack:
        write_long(broker)
        for number in range(150):
            peer = greedy_peer(broker, 8) if number % 15 == 0 else stack.enter_context(connect(broker.port))
            if number % 15:
                peer.sendall((look_up(broker) * 20)[:40 if number % 3 == 0 else None])
            if number % 2:
                ask(broker, other)
            leave(peer)
        wait_until(lambda: len(broker.held()) == 1, 3, "a peer that has left is still held")
        ask(broker, other)
        used = broker.processor()
        time.sleep(0.5)
        expect(broker.processor() - used < 0.05, "the program does not come to rest")
        return "150 peers have left, and another was served all the time"


@case
def always_within_a_request(program):
    """A peer sends the rest of a request and the beginning of the next in one piece, for longer than one request may
    take. It is served on, since each one is complete in time."""
    with Broker(program) as broker, connect(broker.port) as peer:
        text = look_up(broker)
        peer.sendall(text[:40])
        begin, count, rest = time.monotonic(), 0, b""
        while time.monotonic() < begin + 22:
            time.sleep(0.5)
            peer.sendall(text[40:] + text[:40])
            status, _, rest = reply(peer, rest)
            expect(status == 200, f"status {status} after {time.monotonic() - begin:.1f} s")
            count += 1
        expect(count >= 30, f"{count} replies only")
        return f"{count} replies in 22 s"


def last_request(broker):
    """A request after whose reply the connection is to be closed."""
    return look_up(broker).replace(b"Host: b\r\n", b"Host: b\r\nConnection: close\r\n")


def farewell(broker):
    """The reply to a last request, where 200,000 bytes follow it."""
    with connect(broker.port) as peer:
        peer.sendall(last_request(broker) + b"y" * 200_000)
        status, _, rest = reply(peer)
        expect((status, rest) == (200, b""), f"the last reply is {status}")


def beside_farewells(broker, other):
    """Ten peers have their last replies, and do not leave. How many of them are held when another has asked ten times,
    and its longest wait; and when the last of them is let go."""
    peers = [connect(broker.port) for _ in range(10)]
    for peer in peers:
        expect(exchange(peer, last_request(broker))[0] == 200, "the last reply does not come")
    waits = [ask(broker, other) for _ in range(10)]
    return broker.hold(peers), max(waits), broker.lets_go(peers[-1], 3)


@busy_case
def the_last_reply_comes(program):
    """Where the peer still sends, the last reply is not lost. The broker waits for its end for a quarter of a second,
    and serves others meanwhile."""
    with Broker(program) as broker, connect(broker.port) as other:
        for _ in range(50):
            farewell(broker)
        held, longest, gone = beside_farewells(broker, other)
        expect(held == 10 and longest <= LONGEST_WAIT, f"{held} of ten are held, and another waited {longest:.3f} s")
        between(0.05, gone, 0.6, "after its last reply a peer was let go")
        return f"50 last replies; ten requests beside ten farewells, within {longest * 1000:.0f} ms"


def run(program, function, begins):
    """A case, when it is to begin."""
    time.sleep(begins)
    return tried(function, program)


def main():
    program, names = sys.argv[1], sys.argv[2:]
    cases = [(function, begins) for function, begins in CASES if not names or function.__name__ in names]
    failed = 0
    with concurrent.futures.ProcessPoolExecutor(max(1, len(cases))) as pool:
        running = [(function.__name__, pool.submit(run, program, function, begins)) for function, begins in cases]
        for name, case_run in running:
            met, wrong = case_run.result()
            failed += wrong is not None
            print(f"many peers, {name}: {wrong or met}", flush=True)
    print(f"{len(cases) - failed} passed, {failed + (not cases)} failed")
    return 1 if failed or not cases else 0


if __name__ == "__main__":
    sys.exit(main())
