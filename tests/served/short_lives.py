#!/usr/bin/env python3
"""Short connections from eight threads, against `brokerd serve`: none waits, and the program ends after the last one.

    python3 tests/served/short_lives.py PROGRAM CONNECTIONS

Each connection sends one to three requests, and ends its input at once, or leaves that to the broker by a field of its
last request. Its replies come whole, and then the end. The program is given the number of the connections, and ends
with status 0. 4,000 connections take some 3 seconds. The last line is 'N passed, M failed'.
"""

import socket
import sys
import threading
import time

from broker import Broker, connect, reply, request

THREADS = 8
LONGEST = 3.0  # seconds of one connection


def live(broker, number, thread):
    """One connection: what is wrong with it, or None; and how many replies it got."""
    wanted, by_field = 1 + number % 3, number % 5 == 4
    text = request("GET", "auth/token/lookup-self", broker.token)
    last = text.replace(b"Host: b\r\n", b"Host: b\r\nConnection: close\r\n") if by_field else text
    with connect(broker.port) as connection:
        connection.sendall(text * (wanted - 1) + last)
        if number % 4 == 3:
            time.sleep(0.0002 * (thread % 3))
        if not by_field:
            connection.shutdown(socket.SHUT_WR)
        rest = b""
        for place in range(wanted):
            status, _, rest = reply(connection, rest)
            if status != 200:
                return f"reply {place} of {wanted} has status {status}", place
        if rest or connection.recv(1):
            return "there are further bytes", wanted
    return None, wanted


def lives(broker, count, thread, found):
    """So many connections, one after another: each with its replies, its seconds, and what is wrong with it."""
    for number in range(count):
        begin = time.monotonic()
        try:
            wrong, replies = live(broker, number, thread)
        except OSError as error:
            wrong, replies = str(error), 0
        seconds = time.monotonic() - begin
        if wrong is None and seconds > LONGEST:
            wrong = f"it took {seconds:.2f} s"
        found.append((replies, seconds, wrong))


def run(program, connections):
    """What is wrong, or None."""
    count, found = connections // THREADS, []
    with Broker(program, connections=1 + count * THREADS) as broker:
        threads = [threading.Thread(target=lives, args=(broker, count, thread, found)) for thread in range(THREADS)]
        begin = time.monotonic()
        for thread in threads:
            thread.start()
        for thread in threads:
            thread.join()
        seconds, ended = time.monotonic() - begin, broker.ended()
    wrong = [text for _, _, text in found if text]
    replies = sum(count for count, _, _ in found)
    print(f"short lives: {len(found)} connections, {replies} replies in {seconds:.1f} s, the longest "
          f"{max(seconds for _, seconds, _ in found) * 1000:.0f} ms")
    if wrong:
        return f"{len(wrong)} connections failed, one of them so: {wrong[0]}"
    if len(found) < 1000 or replies < len(found) * 3 // 2:
        return "that is too few"
    return None if ended == (0, "") else f"after the last one the program ended so: {ended}"


def main():
    wrong = run(sys.argv[1], int(sys.argv[2]))
    if wrong is not None:
        print(f"short lives: {wrong}")
    print("0 passed, 1 failed" if wrong else "1 passed, 0 failed")
    return 1 if wrong else 0


if __name__ == "__main__":
    sys.exit(main())
