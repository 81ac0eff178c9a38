#!/usr/bin/env python3
"""Asks a broker by wrk (Debian's `wrk`) on one connection, and looks at the replies and at the memory of the program.

    python3 tests/served/wrk_calls.py PROGRAM [SECONDS [ARGUMENT..]]

It takes so many seconds, 600 if not given. The further arguments are for `brokerd serve`, such as `--db FILE`, where
the file is not there yet. wrk.lua says what is asked; no reply may be an error. Each of the secrets has as many
versions as are kept before it begins, so the rows do not grow. The memory is looked at once a second. The most in the
last tenth of the time may not be more than the most in the fifth tenth, but for a hundredth: over a file on disk it
took the program 330,000 requests until it had all that it keeps, and it took no more in the 490,000 after them.

The connection may not break. If wrk is not installed, it says so, and nothing is tried. The last line is 'N passed, M
failed'.
"""

import re
import resource
import shutil
import subprocess
import sys
import threading
from pathlib import Path

from broker import Broker, connect, reply, request

LUA = Path(__file__).resolve().parent / "wrk.lua"
SECONDS = "600"
SECRETS = 100
KEPT = 10  # versions of a secret
LEAST = 10  # seconds in which the memory is looked at often enough


class Memory(threading.Thread):
    """The bytes that a process has in memory, once a second until it is stopped."""

    def __init__(self, process):
        super().__init__()
        self.file = Path(f"/proc/{process}/statm")
        self.stopped = threading.Event()
        self.found = []

    def run(self):
        while not self.stopped.wait(1):
            self.found.append(int(self.file.read_text(encoding="ascii").split()[1]) * resource.getpagesize())

    def stop(self):
        self.stopped.set()
        self.join()

    def tenths(self):
        """The most in each tenth of the time."""
        count = len(self.found)
        return [max(self.found[count * place // 10:count * (place + 1) // 10]) for place in range(10)]


def fill(broker):
    """Writes the secrets that wrk reads."""
    rest = b""
    with connect(broker.port) as connection:
        for place in range(SECRETS * KEPT):
            body = f'{{"data":{{"value":"{0:012}"}}}}'
            connection.sendall(request("POST", f"secret/data/wrk{place % SECRETS}", broker.token, body))
            status, _, rest = reply(connection, rest)
            if status != 200:
                raise SystemExit(f"a secret is not written: status {status}")


def ask(broker, seconds):
    """What wrk prints."""
    command = ["wrk", "-t1", "-c1", f"-d{seconds}s", "--timeout", "20s", "--latency", "-s", str(LUA),
               f"http://127.0.0.1:{broker.port}", "--", broker.token, str(SECRETS)]
    return subprocess.run(command, stdout=subprocess.PIPE, text=True, check=True).stdout


def mistakes_of(printed):
    """What is wrong with the replies that wrk told of."""
    counts = re.search(r"(\d+) reads, (\d+) writes, (\d+) wrong, (\d+) broken", printed)
    if not counts:
        return "wrk has told nothing"
    reads, writes, wrong, broken = map(int, counts.groups())
    if not reads or not writes:
        return "nothing was read or written"
    if broken:
        return f"the connection broke {broken} times"
    return f"{wrong} replies are wrong" if wrong else None


def growth_of(memory):
    """What is wrong with the memory of the program."""
    if len(memory.found) < LEAST:
        return f"the memory was looked at {len(memory.found)} times only"
    tenths = memory.tenths()
    print("memory in each tenth of the time, in MB:", *(f"{most / 1e6:.2f}" for most in tenths))
    return "the program grows" if tenths[9] > tenths[4] * 1.01 else None


def main():
    program, *words = sys.argv[1:]
    seconds, *arguments = words or [SECONDS]
    if shutil.which("wrk") is None:
        print("wrk is not installed: its requests are skipped")
        print("0 passed, 0 failed")
        return 0
    with Broker(program, *arguments) as broker:
        fill(broker)
        memory = Memory(broker.process.pid)
        memory.start()
        try:
            printed = ask(broker, seconds)
        finally:
            memory.stop()
        print(printed, end="")
        ended = None if broker.process.poll() is None else "the program has ended"
        found = [mistakes_of(printed), growth_of(memory), ended]
        said = broker.close()
    failed = [text for text in (*found, said) if text]
    print("".join(f"wrk: {text}\n" for text in failed), end="")
    print(f"{len(found) + 1 - len(failed)} passed, {len(failed)} failed")
    return 1 if failed else 0


if __name__ == "__main__":
    sys.exit(main())
