#!/usr/bin/env python3
"""More peers than the program may have descriptors, against `brokerd serve`: all are answered in the end.

    python3 tests/served/scarce_descriptors.py PROGRAM

A connection that cannot be accepted for want of a descriptor is not lost and not counted as one of `--connections N`;
the peer that has been idle longest is let go for it, or else, after a second, the one whose request has been unfinished
longest; and until then the program waits without work. Each case prints what it has met, and fails where that is too
little. It takes some 15 seconds. The last line is 'N passed, M failed'.
"""

import contextlib
import resource
import selectors
import sys
import time

from broker import Broker, connect, exchange, reply, request
from cases import expect, tried

DESCRIPTORS = 32
PEERS = 60


@contextlib.contextmanager
def limited(program, **options):
    """A broker whose process may have so many descriptors."""
    with Broker(program, **options) as broker:
        resource.prlimit(broker.process.pid, resource.RLIMIT_NOFILE, (DESCRIPTORS, DESCRIPTORS))
        yield broker


def look_up(broker):
    return request("GET", "auth/token/lookup-self", broker.token)


def statuses_of(peers, patience):
    """The status of the first reply to each peer, whichever comes first; 0 where none comes in time."""
    statuses, until = dict.fromkeys(peers, 0), time.monotonic() + patience
    with selectors.DefaultSelector() as waiting:
        for peer in peers:
            waiting.register(peer, selectors.EVENT_READ)
        while waiting.get_map() and time.monotonic() < until:
            for key, _ in waiting.select(0.1):
                waiting.unregister(key.fileobj)
                with contextlib.suppress(ConnectionResetError):
                    statuses[key.fileobj] = reply(key.fileobj)[0]
    return [statuses[peer] for peer in peers]


def all_are_answered(program):
    """More peers than places ask and stay. All are answered; N are counted; and the program ends after the last one."""
    with contextlib.ExitStack() as stack:
        broker = stack.enter_context(limited(program, connections=1 + PEERS))
        used, begin = broker.processor(), time.monotonic()
        peers = [stack.enter_context(connect(broker.port)) for _ in range(PEERS)]
        for peer in peers:
            peer.sendall(look_up(broker))
        statuses = statuses_of(peers, 20)
        expect(statuses == [200] * PEERS, f"the replies to {PEERS} peers are {statuses}")
        seconds, used = time.monotonic() - begin, broker.processor() - used
        expect(seconds > 0.2, "nobody has waited for a descriptor")
        expect(used < 0.5, f"{used:.2f} s of processor time in {seconds:.1f} s")
        expect(broker.ended() == (0, ""), "after the last of them the program does not end with status 0")
        return f"{PEERS} peers were answered in {seconds:.1f} s, with {used * 1000:.0f} ms of processor time"


def nobody_is_idle(program):
    """All places are taken by peers that have sent half a request. While others wait, the program has no work; after a
    second as many peers are let go as there are others, and these are answered."""
    with contextlib.ExitStack() as stack:
        broker = stack.enter_context(limited(program))
        begin = time.monotonic()
        halves = [stack.enter_context(connect(broker.port)) for _ in range(DESCRIPTORS)]
        for half in halves:
            half.sendall(look_up(broker)[:40])
        time.sleep(0.3)
        places = broker.hold(halves)
        expect(DESCRIPTORS // 2 <= places < DESCRIPTORS, f"{places} places, with {DESCRIPTORS} descriptors")
        others = [stack.enter_context(connect(broker.port)) for _ in range(8)]
        for other in others:
            other.sendall(look_up(broker))
        used = broker.processor()
        time.sleep(0.5)
        used = broker.processor() - used
        expect(used < 0.1, f"{used:.2f} s of processor time in half a second in which nobody could be taken in")
        found, age = (broker.hold(others), broker.hold(halves)), time.monotonic() - begin
        expect(age > 0.9 or found == (0, places),
               f"after {age:.1f} s {found[0]} others were taken in, {found[1]} have their places")
        statuses = statuses_of(others, 12)
        expect(statuses == [200] * len(others), f"the replies to those that waited are {statuses}")
        left = broker.hold(halves)
        expect(left >= places - len(others) or time.monotonic() - begin > 4, f"{left} of {places} have their places")
        return f"{places} places, {used * 1000:.0f} ms of processor time in half a second, then {len(others)} answered"


def idle_ones_go_in_their_order(program):
    """Where a descriptor is wanted, the peer that has been idle longest is let go, and those that ask stay."""
    with contextlib.ExitStack() as stack:
        broker = stack.enter_context(limited(program))
        peers = []
        while len(peers) < DESCRIPTORS and (not peers or broker.holds(peers[-1])):
            peers.append(stack.enter_context(connect(broker.port)))
            peers[-1].sendall(look_up(broker))
            statuses_of(peers[-1:], 1)
        gone = sum(not broker.holds(peer) for peer in peers)
        stayed = [broker.holds(peer) for peer in peers]
        expect(gone >= 1 and stayed == [False] * gone + [True] * (len(peers) - gone), f"these are held: {stayed}")
        last = stack.enter_context(connect(broker.port))
        expect(exchange(last, look_up(broker))[0] == 200, "the last one is not answered")
        return f"{len(peers) + 1} peers, {gone} of whom were let go"


def main():
    cases, failed = [all_are_answered, nobody_is_idle, idle_ones_go_in_their_order], 0
    for case in cases:
        met, wrong = tried(case, sys.argv[1])
        failed += wrong is not None
        print(f"scarce descriptors, {case.__name__}: {wrong or met}")
    print(f"{len(cases) - failed} passed, {failed} failed")
    return 1 if failed else 0


if __name__ == "__main__":
    sys.exit(main())
