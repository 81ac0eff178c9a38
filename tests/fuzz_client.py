#!/usr/bin/env python3
"""Sends changed replies to `client`, which has to print and answer what docs/CLIENT.md says.

    python3 tests/fuzz_client.py [--replies N] [--minutes M] [--seed S] [PROGRAM]

PROGRAM is the built client; without it the one of the repository is built. Real replies are changed: bits,
bytes, slices, line ends, status lines, fields, lengths of heads and bodies, and the place where they end. They come in
pieces. What is right is judged by `Rule`, which was written from that page and from the grammar of `httparse` (RFC
9112, sections 4 and 5), apart from the client. Each reason for a bad reply has to be met, and each way to be read. As a
control, the rule with one limit or one choice turned has to disagree with the client on some reply.

The last line is `N passed, M failed`; the status is 0 if nothing failed. A reply on which the client differs is
printed.
"""

import argparse
import concurrent.futures
import os
import random
import re
import socket
import struct
import subprocess
import sys
import time
from collections import Counter
from dataclasses import dataclass, replace
from pathlib import Path

from fuzzing import TESTS, TOP
from fuzzing.changes import Changer, a_bit, a_byte, a_number, a_slice, line_end, utf8

REPLIES = 2_000
SECONDS = 30  # for one reply
LEAST_OF_EACH = 5
LEAST_READ = 0.2  # of the changed replies are read
WORKERS = 4


# -------------------------------------------------------------------------------------- what is right

class Bad(Exception):
    """The bytes are no reply, for this reason."""


TOKEN = rb"[!#$%&'*+.^_`|~0-9A-Za-z-]+"
TEXT = rb"[\t\x20-\x7e\x80-\xff]*"
REASONS = ("nothing came", "the head does not end", "the head is too long", "the head is refused", "too many fields",
           "the length is no number", "the length is too great", "the body does not end")


@dataclass(frozen=True)
class Rule:
    """When bytes are a reply. A line ends in CR LF or in LF alone; empty lines may come before the first one."""
    longest_head: int = 16_384
    most_fields: int = 64
    longest_body: int = 16_777_216
    place_of_length: int = 0  # of the fields Content-Length, the one that counts
    number: bytes = rb"[0-9]+"
    line_end: bytes = rb"\r?\n"
    empty_lines: bytes = rb"(?:\r?\n)*"
    version: bytes = rb"HTTP/1\.[01]"
    phrase: bytes = rb"(?: " + TEXT + rb")?"
    value: bytes = TEXT
    space: bytes = rb""  # between a name and its colon
    good: tuple = (200, 204)

    def head(self):
        """The form of a head."""
        field = TOKEN + self.space + rb":" + self.value + self.line_end
        return re.compile(self.empty_lines + self.version + rb" ([0-9]{3})" + self.phrase + self.line_end
                          + rb"((?:" + field + rb")*)" + self.line_end)

    def read(self, data):
        """The status and the body of the reply that the bytes begin with. Raises Bad."""
        found = self.head().match(data)
        if not found:
            raise Bad(self.why_no_head(data))
        if found.end() > self.longest_head:
            raise Bad("the head is too long")
        fields = [line.partition(b":") for line in found.group(2).splitlines()]
        if len(fields) > self.most_fields:
            raise Bad("too many fields")
        lengths = [value.strip(b" \t") for name, _, value in fields if name.strip().lower() == b"content-length"]
        length = self.length(lengths)
        body = data[found.end():found.end() + length]
        if len(body) < length:
            raise Bad("the body does not end")
        return int(found.group(1)), body

    @staticmethod
    def why_no_head(data):
        """Why the bytes do not begin with a head."""
        if not data:
            return "nothing came"
        return "the head is refused" if re.search(rb"\n\r?\n", data.lstrip(b"\r\n")) else "the head does not end"

    def length(self, values):
        """The length of the body. Raises Bad."""
        if not values:
            return 0
        value = values[min(self.place_of_length, len(values) - 1)]
        if not re.fullmatch(self.number, value):
            raise Bad("the length is no number")
        digits = value.lstrip(b"+-0")
        if len(digits) > 20 or int(digits or b"0") > self.longest_body:
            raise Bad("the length is too great")
        return int(digits or b"0")

    def judge(self, data):
        """The exit status, standard output and standard error of the client, and the reason if the reply is bad."""
        try:
            status, body = self.read(data)
        except Bad as bad:
            return (1, b"", b"bad reply\n"), str(bad)
        return (0 if status in self.good else 1, body, b""), None


RULE = Rule()
TURNED = {
    "a head of 16,385 bytes": replace(RULE, longest_head=16_385),
    "a head of 16,383 bytes": replace(RULE, longest_head=16_383),
    "65 fields": replace(RULE, most_fields=65),
    "63 fields": replace(RULE, most_fields=63),
    "a body of 16,777,217 bytes": replace(RULE, longest_body=16_777_217),
    "a body of 16,777,215 bytes": replace(RULE, longest_body=16_777_215),
    "the last length": replace(RULE, place_of_length=1 << 30),
    "a length with a sign": replace(RULE, number=rb"[+]?[0-9]+"),
    "no length": replace(RULE, number=rb"[0-9]*"),
    "no line that ends in LF alone": replace(RULE, line_end=rb"\r\n"),
    "no empty lines before": replace(RULE, empty_lines=rb""),
    "HTTP/1.1 alone": replace(RULE, version=rb"HTTP/1\.1"),
    "a phrase always": replace(RULE, phrase=rb" " + TEXT),
    "values in ASCII": replace(RULE, value=rb"[\t\x20-\x7e]*"),
    "spaces before a colon": replace(RULE, space=rb" *"),
    "204 is no success": replace(RULE, good=(200,)),
}


# ------------------------------------------------------------------------------------ changed replies

STATUS_LINES = (b"HTTP/1.1 200 OK", b"HTTP/1.1 204 No Content", b"HTTP/1.0 200 OK", b"HTTP/1.1 200", b"HTTP/1.1 200 ",
                b"HTTP/1.1 404 Not Found", b"HTTP/1.1 100 Continue", b"HTTP/1.1 999 ?", b"HTTP/1.1 000 -",
                b"HTTP/1.1 99 ?", b"HTTP/1.1 2000 OK", b"HTTP/1.1  200 OK", b"HTTP/1.2 200 OK", b"HTTP/2 200",
                b"HTTP/1.1 20x OK", b"http/1.1 200 OK", b"HTTP/1.1 200 \xc3\xa9\xff", b"HTTP/1.1 200 \x00",
                b"HTTP/1.1\t200 OK", b"HTTP/1.1 204\tOK", b"HTTP/1.1 200 OK\r", b" HTTP/1.1 200 OK", b"HTTP/1.1 +20 OK",
                b"ICY 200 OK", b"HTTP/1.1 500 \t ")
LENGTHS = (b"0", b"1", b"", b"+5", b"-1", b"5, 5", b"0x5", b"5 5", b"00000000000000000000000000000000000000005",
           b"16777215", b"16777216", b"16777217", b"18446744073709551616", b"99999999999999999999999999", b"\t5 ",
           b"5\xa0", b"\xd9\xa5", b"5.0")
FIELDS = (b"Content-Length: 0", b"Content-Length: 7", b"content-length: 1", b"CONTENT-LENGTH:2", b"Content-Length : 3",
          b"Content-Length:", b"Transfer-Encoding: chunked", b"Connection: close", b" folded", b"\tfolded", b"bad",
          b": b", b"A:", b"A: \x80\xff", b"A: \x00", b"A: \x7f", b"A\x80: b", b"A b: c", b"Content-Length\x00: 1",
          b"(: b", b"A: b\rc", b"A : b", b"Server  : x")


def lines_of(data):
    """The lines of a head, and the body."""
    head, _, body = data.partition(b"\r\n\r\n")
    return head.split(b"\r\n"), body


def joined(lines, body):
    """A reply of lines and a body."""
    return b"\r\n".join(lines) + b"\r\n\r\n" + body


def status_line(it, data):
    """Another status line."""
    lines, body = lines_of(data)
    return joined([it.pick(STATUS_LINES), *lines[1:]], body)


def field(it, data):
    """A field more, less, or twice."""
    lines, body = lines_of(data)
    place = it.draw.randrange(1, len(lines) + 1)
    lines[place:place] = it.pick(([it.pick(FIELDS)], lines[place:place + 1], []))
    if it.chance(3) and place < len(lines):
        del lines[place]
    return joined(lines, body)


def length(it, data):
    """Another Content-Length, or one by the side of it."""
    lines, body = lines_of(data)
    value = it.pick((*LENGTHS, b"%d" % (len(body) + 1), b"%d" % max(0, len(body) - 1), b"%d" % len(body)))
    line = it.pick((b"Content-Length: ", b"content-length:", b"Content-LENGTH:\t")) + value
    places = [place for place, one in enumerate(lines) if one.lower().startswith(b"content-length:")]
    if places and not it.chance(4):
        lines[places[0]:places[0] + 1] = it.pick(([line], [line], [line, lines[places[0]]], [lines[places[0]], line]))
    else:
        lines.insert(it.draw.randrange(1, len(lines) + 1), line)
    return joined(lines, body)


def head_length(it, data):
    """A head about as long as it may be."""
    lines, body = lines_of(data)
    missing = it.pick((16_382, 16_383, 16_384, 16_385, 16_386)) - len(joined(lines, b"")) - len(b"A: \r\n")
    if missing > 0:
        lines.insert(it.draw.randrange(1, len(lines) + 1), b"A: " + b"b" * missing)
    return joined(lines, body)


def many_fields(it, data):
    """About as many fields as there may be."""
    lines, body = lines_of(data)
    lines += [b"A: b"] * (it.pick((62, 63, 64, 65, 66)) + 1 - len(lines))
    return joined(lines, body)


def end(it, data):
    """The reply ends early."""
    return data[:it.place(data, 1)]


def more(it, data):
    """Bytes come after the reply."""
    return data + it.pick((b"\n", data, b"HTTP/1.1 200 OK\r\n\r\n"))


CHANGES = {a_bit: 6, a_byte: 8, a_slice: 4, line_end: 6, utf8: 2, a_number: 6, status_line: 12, field: 12, length: 16,
           head_length: 4, many_fields: 4, end: 8, more: 3}


def replies_of(output):
    """The replies that an output of a row is made of."""
    found = []
    while output:
        try:
            _, body = RULE.read(output)
        except Bad:
            break
        size = output.index(b"\r\n\r\n") + 4 + len(body)
        found.append(output[:size])
        output = output[size:]
    return found


def real_replies():
    """All replies of tests/rows that differ, in the order of their bytes."""
    found = {reply for file in (TESTS / "rows").glob("*.out") for reply in replies_of(file.read_bytes())}
    if len(found) < 300:
        raise AssertionError(f"{len(found)} replies of tests/rows can be read")
    return sorted(reply for reply in found if len(reply) < 8_000)


def drawn_replies(seed, replies):
    """So many replies, of which three in four are changed. The longest bodies come first."""
    draw, real = random.Random(f"client {seed}"), real_replies()
    changer = Changer(draw, {}, lambda: draw.choice(real), CHANGES)
    for size in (16_777_215, 16_777_216, 16_777_217):
        yield b"HTTP/1.1 200 OK\r\nContent-Length: %d\r\n\r\n" % size + b"x" * size, True
    yield b"", True
    for _ in range(replies):
        reply = draw.choice(real)
        changed = changer.changed(reply) if draw.randrange(4) else reply
        yield changed, changed != reply


# ----------------------------------------------------------------------------------------- the client

class Server:
    """A port on which a client is sent replies, one after another."""

    def __init__(self, program):
        self.program = program
        self.listener = socket.create_server(("127.0.0.1", 0))
        self.listener.settimeout(SECONDS)
        self.command = [program, "--addr", f"127.0.0.1:{self.listener.getsockname()[1]}", "read", "cubbyhole/a"]
        self.environment = {name: value for name, value in os.environ.items() if not name.startswith("VAULT_")}

    def send(self, connection, data, draw, is_reset):
        """Sends the bytes in pieces, and ends the stream, or resets it once the client has had time to read."""
        connection.setsockopt(socket.IPPROTO_TCP, socket.TCP_NODELAY, 1)
        places = sorted(draw.randrange(len(data) + 1) for _ in range(draw.choice((0, 0, 1, 3))))
        for begin, finish in zip((0, *places), (*places, len(data))):
            connection.sendall(data[begin:finish])
        if is_reset:
            time.sleep(0.02)
            connection.setsockopt(socket.SOL_SOCKET, socket.SO_LINGER, struct.pack("ii", 1, 0))
        else:
            connection.shutdown(socket.SHUT_WR)

    def ask(self, data, draw, is_reset):
        """The exit status, standard output and standard error of a client that is sent the bytes."""
        client = subprocess.Popen(self.command, env=self.environment, stdin=subprocess.DEVNULL, stdout=subprocess.PIPE,
                                  stderr=subprocess.PIPE)
        try:
            connection, _ = self.listener.accept()
            with connection:
                connection.settimeout(SECONDS)
                asked = b""
                while b"\r\n\r\n" not in asked:
                    asked += connection.recv(65_536) or b"\r\n\r\n"
                try:
                    self.send(connection, data, draw, is_reset)
                    while not is_reset and connection.recv(65_536):
                        pass
                except OSError:
                    pass  # the client may go before all was sent
            output, error = client.communicate(timeout=SECONDS)
        finally:
            if client.poll() is None:
                client.kill()
                client.communicate()
        return client.returncode, output, error


class Found:
    """What came of the replies."""

    def __init__(self):
        self.right = 0
        self.read = self.changed = 0
        self.met = Counter()
        self.turned = Counter()
        self.wrong = []

    def add(self, other):
        """Adds what came of other replies."""
        self.right += other.right
        self.read += other.read
        self.changed += other.changed
        self.met += other.met
        self.turned += other.turned
        self.wrong += other.wrong

    def note(self, data, is_changed, answer):
        """Judges what the client has answered."""
        wanted, why = RULE.judge(data)
        self.changed += is_changed
        self.read += is_changed and why is None
        self.met[why or ("read, with status 0" if wanted[0] == 0 else "read, with status 1")] += 1
        if answer == wanted:
            self.right += 1
        else:
            self.wrong.append(f"{data[:600]!r} ({len(data)} bytes): {answer[0]}, {answer[1][:200]!r}, "
                              f"{answer[2][:200]!r} in place of {wanted[0]}, {wanted[1][:200]!r}, {wanted[2]!r} "
                              f"({why or 'it is a reply'})")
        for name, rule in TURNED.items():
            self.turned[name] += rule.judge(data)[0] != answer


def try_replies(program, seed, replies):
    """Sends replies to the client from several servers."""
    found, drawn = Found(), list(drawn_replies(seed, replies))
    draws = [random.Random(f"pieces {seed} {number}") for number in range(len(drawn))]

    def answers(worker):
        server = Server(program)
        # A reset is only sent after bytes that are no reply: what is lost by it then is all the same.
        return [(number, server.ask(drawn[number][0], draws[number],
                                    RULE.judge(drawn[number][0])[1] is not None and number % 8 == 0))
                for number in range(worker, len(drawn), WORKERS)]

    with concurrent.futures.ThreadPoolExecutor(WORKERS) as pool:
        for number, answer in sorted(one for some in pool.map(answers, range(WORKERS)) for one in some):
            found.note(*drawn[number], answer)
    return found


def judge(found):
    """What the replies should have met and did not, as lines; and how many things they had to meet."""
    wanted = (*REASONS, "read, with status 0", "read, with status 1")
    missing = [f"`{what}` is met {found.met[what]} times" for what in wanted
               if found.met[what] < (1 if what == "nothing came" else LEAST_OF_EACH)]
    missing += [f"no reply tells the rule from the one with {name}" for name in TURNED if found.turned[name] == 0]
    if found.read < LEAST_READ * found.changed:
        missing.append(f"only {found.read} of {found.changed} changed replies are read")
    return missing, len(wanted) + len(TURNED) + 1


def main():
    parser = argparse.ArgumentParser(description="sends changed replies to the client")
    parser.add_argument("--replies", type=int, default=REPLIES)
    parser.add_argument("--minutes", type=float, default=0.0)
    parser.add_argument("--seed", default="1")
    parser.add_argument("program", nargs="?")
    arguments = parser.parse_args()
    if arguments.program is None:
        subprocess.run([TOP / "bin/run-program", "--build", "client"])
    program = os.path.abspath(arguments.program or TOP / "crates/client/out/client")
    until = time.monotonic() + 60 * arguments.minutes
    found, rounds = Found(), 0
    while rounds == 0 or time.monotonic() < until:
        seed = arguments.seed if rounds == 0 else f"{arguments.seed}.{rounds}"
        made = try_replies(program, seed, arguments.replies)
        print("".join(f"{line}\n" for line in made.wrong), end="", flush=True)
        found.add(made)
        rounds += 1
    missing, wanted = judge(found) if arguments.replies >= REPLIES else ([], 0)
    print("".join(f"{line}\n" for line in missing), end="")
    met = ", ".join(f"{what} {count}" for what, count in sorted(found.met.items()))
    print(f"{sum(found.met.values())} replies, seed {arguments.seed} ({met}); of {found.changed} changed ones "
          f"{found.read} were read")
    failed = len(found.wrong) + len(missing)
    print(f"{found.right + wanted - len(missing)} passed, {failed} failed")
    return 1 if failed else 0


if __name__ == "__main__":
    sys.exit(main())
