#!/usr/bin/env python3
"""Finds the least stack with which the program does all that it usually does.

    python3 tests/measure/stack.py PROGRAM

By halves, in steps of 4 KB: for `brokerd replay`, each row of tests/rows with its usual output; and for `brokerd serve
--db`, a start, requests with the deepest body that is taken, and another start. It prints both figures, and which row
needs the most. What a program needs for its environment comes on top, so it is run with none. A program that the
system stops, or whose output is another one, has too little. The system moves the stack by some KB at random, so it has
to be enough three times.
"""

import re
import resource
import subprocess
import sys
import tempfile
from pathlib import Path

TESTS = Path(__file__).resolve().parent.parent
sys.path.insert(0, str(TESTS / "served"))

from broker import Broker, connect, reply, request  # noqa: E402

STEP = 4  # KB
MOST = 8192
TIMES = 3
LEVELS = 127  # of a body, with itself
DEEPEST = '{"a":' * (LEVELS - 1) + "{}" + "}" * (LEVELS - 1)
DEEP_SECRET = '{"data":' + '{"a":' * (LEVELS - 2) + "{}" + "}" * (LEVELS - 2) + "}"
STATUS = re.compile(r"^\| `(\w+)` \|[^|]*\| (\d) \|", re.MULTILINE)


def limited(kilobytes):
    """How a program is started that has so much stack."""
    def limit():
        resource.setrlimit(resource.RLIMIT_STACK, (kilobytes << 10, kilobytes << 10))
    return {"preexec_fn": limit, "env": {}}


def least(is_enough):
    """The least number of KB that is enough; what is enough for it is so for more."""
    low, high = 0, MOST
    while high - low > STEP:
        middle = (low + high) // 2 // STEP * STEP
        low, high = (low, middle) if all(is_enough(middle) for _ in range(TIMES)) else (middle, high)
    return high


def is_replayed(program, file, status, kilobytes):
    """Whether a row is run as usual."""
    try:
        done = subprocess.run([program, "replay"], input=file.read_bytes(), capture_output=True, **limited(kilobytes))
    except (OSError, subprocess.SubprocessError):
        return False
    return (done.returncode, done.stdout) == (status, file.with_suffix(".out").read_bytes())


def rows():
    """The file and the status of each row."""
    index = (TESTS / "rows/INDEX.md").read_text(encoding="utf-8")
    return [(TESTS / f"rows/{name}.replay", int(status)) for name, status in STATUS.findall(index)]


def answers(broker, *asked):
    """The status and the body of the reply to a request; 0 if there is none."""
    with connect(broker.port) as connection:
        connection.sendall(request(*asked))
        try:
            return reply(connection)[:2]
        except OSError:
            return 0, b""


def is_served(program, kilobytes):
    """Whether requests with the deepest body are served, before and after another start."""
    with tempfile.TemporaryDirectory() as folder:
        token = None
        for paths in (("cubbyhole/a", "secret/data/a"), ("cubbyhole/b", "secret/data/b")):
            try:
                with Broker(program, "--db", f"{folder}/db", token=token, **limited(kilobytes)) as broker:
                    token = broker.token
                    if not all(is_kept(broker, path) for path in (*paths, "cubbyhole/a", "secret/data/a")):
                        return False
            except (OSError, SystemExit, subprocess.SubprocessError):
                return False
    return True


def is_kept(broker, path):
    """Whether the deepest body can be written there and read, also from a wrapped reply."""
    body, token = (DEEP_SECRET if path.startswith("secret") else DEEPEST), broker.token
    written = answers(broker, "POST", path, token, body)
    wrapped = answers(broker, "GET", path, token, "", "60")
    unwrapping = re.search(rb'"token":"([^"]*)"', wrapped[1])
    read = answers(broker, "POST", "sys/wrapping/unwrap", unwrapping[1].decode() if unwrapping else "x")
    return written[0] in (200, 204) and read[0] == 200 and b'{"a":{"a":{}}' in read[1]


def main():
    program = str(Path(sys.argv[1]).resolve())
    found = {file.stem: least(lambda kb, row=(file, status): is_replayed(program, *row, kb)) for file, status in rows()}
    most = max(found, key=found.get)
    if not is_served(program, MOST) or found[most] == MOST:
        sys.exit(f"with {MOST} KB it does not do what it usually does: {most}")
    print(f"replay: {found[most]} KB, for {most}; the least of a row is {min(found.values())} KB")
    print(f"serve --db: {least(lambda kb: is_served(program, kb))} KB")


if __name__ == "__main__":
    main()
