#!/usr/bin/env python3
"""Peers that are idle or slow, against `brokerd serve`: each is let go in time, and other clients are served.

    python3 tests/served/slow_peers.py PROGRAM [--alone | --twenty]

Each peer has a broker of its own, and all run at once, so the whole takes some 22 seconds. Another client connects when
the peer begins to be idle or slow. Without `--alone` it is answered at once, and what is measured is when the broker
lets the peer go, if it does. With `--alone` the program has one place (`--at-once 1`), so the other client has to wait
for the peer's, and what is measured is how long it waits.

With `--twenty` there are twenty slow peers at once: beside another client, in all places that there are, and before it
in the line for one place. That takes some 40 seconds, and is told. The last line is 'N passed, M failed'.
"""

import socket
import sys
import threading
import time

from broker import Broker, connect, reply, request

LONGEST_BODY = 1048576
LONGEST_WAIT = 0.25  # seconds for another client, beside the peer; a large reply may be made meanwhile
WATCHED = 3  # seconds for which an idle peer is looked at, which has its place for longer
PEERS = []
WANTED = (0.9, 4)  # seconds after which a peer that is slow is let go where its place is wanted
TWENTY = 20
FEWEST_WAITS = 5  # requests beside twenty peers
NEXT = 600  # seconds that a client waits for its reply behind twenty peers, also beside much other work


def peer(least, most, stays=False):
    """A peer, which is let go between so many seconds. One that stays is so only where another client waits."""
    def add(function):
        PEERS.append((function, least, most, stays))
        return function
    return add


def expect(condition, what):
    if not condition:
        raise AssertionError(what)


def next_client(broker):
    """How many seconds another client waits for its reply from now on."""
    status, seconds = broker.ask("GET", "auth/token/lookup-self")
    expect(status == 200, f"the next client got {status}")
    return seconds


def expect_end(connection):
    """The broker has closed the connection, without a further byte."""
    try:
        expect(connection.recv(1) == b"", "there are further bytes")
    except ConnectionResetError:
        pass


def look_up(broker):
    return request("GET", "auth/token/lookup-self", broker.token)


def first_reply(connection, text):
    """Sends the text, whose first request is answered 200, and nothing else is."""
    connection.sendall(text)
    status, _, rest = reply(connection)
    expect((status, rest) == (200, b""), f"the first reply is {status}")


# Each peer does something on its connection, and answers whether it is over when it is let go, without a further byte.

@peer(0.1, 2, stays=True)
def idle_between_requests(broker, connection):
    first_reply(connection, look_up(broker))
    return True


@peer(3.5, 12)
def idle_from_the_beginning(_, __):
    return True


@peer(3.5, 12)
def half_a_request(broker, connection):
    connection.sendall(look_up(broker)[:40])
    return True


@peer(3.5, 12)
def one_and_a_half_requests(broker, connection):
    """The half one, which came in one piece with a whole one, gets the longer limit."""
    text = look_up(broker)
    first_reply(connection, text + text[:40])
    return True


@peer(0, 2, stays=True)
def the_other_half_comes(broker, connection):
    """It is answered, though its client was idle for longer than between two requests."""
    text = look_up(broker)
    first_reply(connection, text + text[:40])
    time.sleep(2)
    first_reply(connection, text[40:])
    return True


@peer(18, 40)
def a_byte_a_second(broker, connection):
    def send():
        for byte in look_up(broker):
            try:
                connection.sendall(bytes([byte]))
            except OSError:
                return
            time.sleep(1)

    threading.Thread(target=send, daemon=True).start()
    return False


@peer(3.5, 40)
def takes_no_reply(broker, connection):
    """It asks for more than the system keeps for it, and reads none of it. How often the system takes some more of the
    reply into its buffers before it takes nothing for five seconds is its own affair."""
    connection.sendall(request("GET", "secret/data/long", broker.token) * 30)
    return False


@peer(0, 2, stays=True)
def a_slow_line(broker, connection):
    """The longest body at 80,000 bytes a second is taken."""
    value = "x" * (LONGEST_BODY - len('{"data":{"value":""}}'))
    text = request("POST", "secret/data/long", broker.token, '{"data":{"value":"' + value + '"}}')
    begin = time.monotonic()
    for place in range(0, len(text), 8000):
        connection.sendall(text[place:place + 8000])
        time.sleep(max(0.0, begin + (place + 8000) / 80000 - time.monotonic()))
    first_reply(connection, b"")
    return True


def connected(broker, function):
    """The connection of a peer. One that takes no reply has a small receive buffer, and a secret that is long."""
    connection = socket.socket()
    if function is takes_no_reply:
        body = '{"data":{"value":"' + "x" * 900000 + '"}}'
        expect(broker.ask("POST", "secret/data/long", body)[0] == 200, "the long secret is not written")
        connection.setsockopt(socket.SOL_SOCKET, socket.SO_RCVBUF, 4096)
    connection.connect(("127.0.0.1", broker.port))
    return connection


def alone(program, function, stays):
    """Another client waits for the place of the peer."""
    least, most = (0, 2) if stays else WANTED
    with Broker(program, "--at-once", "1") as broker, connected(broker, function) as connection:
        ends = function(broker, connection)
        waited = next_client(broker)
        expect(least <= waited <= most, f"the next client waited {waited:.2f} s, not {least} to {most} s")
        if ends:
            expect_end(connection)


def beside(program, function, least, most, stays):
    """Another client is answered beside the peer. It is asked again where a large reply was made for the peer."""
    with Broker(program) as broker, connected(broker, function) as connection:
        ends = function(broker, connection)
        begin = time.monotonic()
        waits = [next_client(broker)]
        while waits[-1] > LONGEST_WAIT and len(waits) < 10:
            waits.append(next_client(broker))
        expect(waits[-1] <= LONGEST_WAIT, f"another client waited {waits}")
        if stays:
            expect(broker.lets_go(connection, WATCHED) is None, "it was let go, though there was room")
            first_reply(connection, look_up(broker))
            return
        expect(broker.lets_go(connection, most) is not None, f"it was not let go within {most} s")
        waited = time.monotonic() - begin
        expect(least <= waited <= most, f"it was let go after {waited:.2f} s, not {least} to {most} s")
        if ends:
            expect_end(connection)


def twenty_peers(broker, function):
    """Twenty peers on connections of their own."""
    connections = [connect(broker.port) for _ in range(TWENTY)]
    for connection in connections:
        function(broker, connection)
    return connections


def close_all(connections):
    for connection in connections:
        connection.close()


def behind_twenty(broker):
    """How long the client waits for its reply that comes after twenty peers, and for how much of it the program waits
    for a processor."""
    begin, without = time.monotonic(), broker.waited()
    with connect(broker.port) as connection:
        connection.settimeout(NEXT)
        first_reply(connection, look_up(broker))
    return time.monotonic() - begin, broker.waited() - without


def twenty_beside(program):
    """Another client is answered at once while twenty peers send a byte a second, until each is let go. On a busy
    machine any client may wait for a processor, so waits are judged by those of the client of a broker without peers:
    the longest, and that which nine in ten do not exceed."""
    with Broker(program) as broker, Broker(program) as other:
        begin, waits, alone, gone = time.monotonic(), [], [], []
        connections = twenty_peers(broker, a_byte_a_second)
        while len(gone) < TWENTY and time.monotonic() < begin + 40 + broker.waited():
            waits.append(next_client(broker))
            alone.append(next_client(other))
            gone += [time.monotonic() - begin] * (TWENTY - broker.hold(connections) - len(gone))
            time.sleep(0.2)
        close_all(connections)
    expect(len(gone) == TWENTY, f"{len(gone)} are let go in {time.monotonic() - begin:.0f} s")
    expect(gone[0] >= 18, f"one is let go after {gone[0]:.1f} s")
    nine_in_ten, of_others = (sorted(some)[len(some) * 9 // 10] for some in (waits, alone))
    told = (f"{len(waits)} requests beside them in {max(waits):.2f} s at most, nine in ten in {nine_in_ten:.2f} s, and "
            f"without peers in {max(alone):.2f} s and {of_others:.2f} s")
    expect(len(waits) >= FEWEST_WAITS, told)
    expect(nine_in_ten <= LONGEST_WAIT + of_others and max(waits) <= LONGEST_WAIT + 2 * max(alone), told)
    return f"{told}, let go after {gone[0]:.1f} to {gone[-1]:.1f} s"


def twenty_in_all_places(program):
    """Twenty peers have all places: another client waits until one of them is let go."""
    with Broker(program, "--at-once", f"{TWENTY}") as broker:
        connections = twenty_peers(broker, a_byte_a_second)
        waited, without = behind_twenty(broker)
        close_all(connections)
    told = f"behind twenty places {waited:.1f} s, {without:.1f} s of them for a processor"
    expect(WANTED[0] <= waited <= WANTED[1] + without, told)
    return told


def twenty_in_line(program):
    """Twenty peers with half a request each come before another client, and there is one place."""
    with Broker(program, "--at-once", "1") as broker:
        connections = twenty_peers(broker, half_a_request)
        waited, without = behind_twenty(broker)
        close_all(connections)
    told = f"behind twenty for one place {waited:.1f} s, {without:.1f} s of them for a processor"
    expect(WANTED[0] * TWENTY <= waited <= 2 * TWENTY + without, told)
    return told


def run_twenty(program):
    """The three cases at once: what each has met, and what is wrong."""
    found, wrong = [], []

    def run_case(case):
        try:
            found.append(case(program))
        except (AssertionError, OSError, SystemExit) as error:
            wrong.append(f"{case.__name__}: {error}")

    cases = (twenty_beside, twenty_in_all_places, twenty_in_line)
    threads = [threading.Thread(target=run_case, args=(case,)) for case in cases]
    for thread in threads:
        thread.start()
    for thread in threads:
        thread.join()
    print("".join(f"slow peers, {line}\n" for line in wrong), end="")
    print(f"twenty slow peers: {'; '.join(sorted(found))}")
    print(f"{len(found)} passed, {len(wrong)} failed")
    return 1 if wrong else 0


def run(program, is_alone, function, least, most, stays, found):
    try:
        if is_alone:
            alone(program, function, stays)
        else:
            beside(program, function, least, most, stays)
        found.append((function.__name__, None))
    except (AssertionError, OSError, SystemExit) as error:
        found.append((function.__name__, error))


def main():
    if sys.argv[2:] == ["--twenty"]:
        return run_twenty(sys.argv[1])
    program, is_alone, found = sys.argv[1], sys.argv[2:] == ["--alone"], []
    threads = [threading.Thread(target=run, args=(program, is_alone, *peer, found)) for peer in PEERS]
    for thread in threads:
        thread.start()
    for thread in threads:
        thread.join()
    failed = [f"{name}: {error}" for name, error in sorted(found, key=lambda one: one[0]) if error is not None]
    print("".join(f"slow peers, {line}\n" for line in failed), end="")
    print(f"{len(PEERS) - len(failed)} passed, {len(failed)} failed")
    return 1 if failed else 0


if __name__ == "__main__":
    sys.exit(main())
