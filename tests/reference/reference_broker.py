#!/usr/bin/env python3
"""The reference broker as a program.

    python3 reference_broker.py replay [--parts PARTS] < lines > replies
    python3 reference_broker.py serve --listen HOST:PORT [--parts PARTS]

`replay` reads one JSON line for the start and one for each event, and writes the bytes of the replies, with the exit
status and the standard error of `brokerd replay`. `serve` answers real clients on a TCP port, with the system's clock
and random words. Without `--parts` it answers what `brokerd` serves today.
"""

import argparse
import sys

from broker.lines import replay
from broker.parts import add_parts_option
from broker.sockets import serve


def main() -> int:
    parser = argparse.ArgumentParser(description="the reference broker")
    commands = parser.add_subparsers(dest="command", required=True)
    replaying = commands.add_parser("replay", help="lines on standard input, replies on standard output")
    serving = commands.add_parser("serve", help="answer clients on a TCP port")
    serving.add_argument("--listen", required=True, metavar="HOST:PORT")
    for command in (replaying, serving):
        add_parts_option(command)
    arguments = parser.parse_args()
    if arguments.command == "serve":
        return serve(arguments.listen, arguments.parts)
    replies, status, told = replay(sys.stdin.buffer.read(), arguments.parts)
    sys.stdout.buffer.write(b"".join(replies))
    sys.stdout.buffer.flush()
    if told:
        print(told, file=sys.stderr)
    return status


if __name__ == "__main__":
    sys.exit(main())
