#!/usr/bin/env python3
"""Asks a running broker so many times on one connection, each time when the reply before is there.

    python3 tests/clients/keep_alive.py PORT TOKEN REQUESTS

The last line is 'N passed, M failed'.
"""

import sys
from pathlib import Path

sys.path.insert(0, str(Path(__file__).resolve().parent.parent / "served"))
from broker import connect, reply, request  # noqa: E402


def main():
    port, token, requests = int(sys.argv[1]), sys.argv[2], int(sys.argv[3])
    text, rest = request("GET", "auth/token/lookup-self", token), b""
    with connect(port) as connection:
        for number in range(1, requests + 1):
            connection.sendall(text)
            status, _, rest = reply(connection, rest)
            if status != 200:
                print(f"request {number} of {requests} on one connection: status {status}")
                print("0 passed, 1 failed")
                return 1
    print("1 passed, 0 failed")
    return 0


if __name__ == "__main__":
    sys.exit(main())
