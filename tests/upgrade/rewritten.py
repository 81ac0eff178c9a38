#!/usr/bin/env python3
"""Rows of keys in format 1, which the standard library's SQLite has written, under `brokerd serve --db`.

    python3 tests/upgrade/rewritten.py PROGRAM

A broker with 200 keys is made, asked for all of them, and stopped. Each case is a copy of its database in which rows of
keys were changed: rewritten in format 1, all or some; few keys; keys beside each other; numbers at their bounds; and a
row that is in neither format. The program is started over it. The replies are those of before, but for their request
ids; each row of format 1 is rewritten in format 2, and no other row is changed. A row in neither format stays byte for
byte, and the request that reads it ends the program with `fault 3`, after all others were answered. A database that is
refused is not changed at all. The last line is 'N passed, M failed'.
"""

import functools
import re
import sys
from pathlib import Path

from upgraded import (KEY, LAST_MOMENT, LAST_VERSION, NO_SETTINGS, NUMBERS, apart, copied, differing, formats_in,
                      keys_in, left_in, old_body, upgraded)  # it sets the paths

from asking import Reply, Request
from hostile import Tally
from program import Running, Wrong, expect
from rows import close_log, rows_in
from trial import MOMENT, Trial, temporary_folder

KEYS = 200
UPDATE = "UPDATE broker_rows SET owner = ?, due = ?, body = ? WHERE kind = 8 AND key = ?"
DELETE = "DELETE FROM broker_rows WHERE kind = 8 AND key = ?1 OR kind = 9 AND instr(key, ?2) = 1"
INSERT = "INSERT INTO broker_rows (kind, key, owner, due, body) VALUES (8, ?, '', NULL, ?)"
FEW = (0, 1, 2, 15, 16, 17, 31, 32, 33)  # keys: a page of the walk has 16
REQUEST_ID = re.compile(rb'"request_id":"[0-9a-f-]{36}"')
AGAIN = 40  # keys each of which is the one before and a byte 0: nothing is between them
LISTS = (Request("LIST", "secret/metadata"), Request("LIST", "secret/metadata/team"))

# What is made of the row of a key in format 1, whose body has 25 bytes, so that it is in neither format.
DAMAGES = {
    "of format 3": lambda body: ("", None, b"\x03" + body[1:]),
    "of format 0": lambda body: ("", None, b"\x00" + body[1:]),
    "cut by a byte": lambda body: ("", None, body[:-1]),
    "longer by a byte": lambda body: ("", None, body + b"\x00"),
    "without fields": lambda body: ("", None, body[:1]),
    "empty": lambda body: ("", None, b""),
    "with too great a version": lambda body: ("", None, b"\x01" + NUMBERS.pack(LAST_VERSION + 1, 0, 0)),
    "created too late": lambda body: ("", None, b"\x01" + NUMBERS.pack(1, LAST_MOMENT + 1, 0)),
    "updated too late": lambda body: ("", None, b"\x01" + NUMBERS.pack(1, 0, LAST_MOMENT + 1)),
    "with an owner": lambda body: ("a", None, body),
    "that is due": lambda body: ("", LAST_MOMENT, body),
    "of format 2 without settings": lambda body: ("", None, b"\x02" + body[1:]),
    "of format 2 cut by a byte": lambda body: ("", None, b"\x02" + body[1:] + NO_SETTINGS[:-1]),
    "of format 1 with settings": lambda body: ("", None, body + NO_SETTINGS),
}
PLACES = (0, 15, 16, KEYS - 1)  # of the row in neither format: at the ends of the walk and of its first page
# What makes a database one that is refused, and the fault.
REFUSALS = {
    "no clock": ("DELETE FROM broker_rows WHERE kind = 1", 4),
    "a row of kind 14": ("INSERT INTO broker_rows VALUES (14, 'a', '', NULL, x'01')", 2),
    "another table": ("CREATE TABLE a (b)", 2),
}
BOUNDS = [b"\x01" + NUMBERS.pack(*numbers) for numbers in (
    (0, 0, 0), (1, 0, 0), (0, 1, 0), (0, 0, 1), (LAST_VERSION, LAST_MOMENT, LAST_MOMENT))]


def path_of(number):
    """The path of a key: most lie in a folder."""
    return f"key{number:03}" if number % 7 else f"team/key{number:03}"


def writes(number):
    """What makes a key: some have further versions, or deleted or destroyed ones."""
    path = path_of(number)
    for version in range(1, 13 if number == 100 else 3 if number % 5 == 0 else 2):
        yield Request("POST", f"secret/data/{path}", '{"data":{"of":%d,"version":%d}}' % (number, version))
    if number % 11 == 0:
        yield Request("DELETE", f"secret/data/{path}")
    if number % 13 == 0:
        yield Request("POST", f"secret/destroy/{path}", '{"versions":[1]}')


def reads(path):
    """What is asked of a key."""
    return [Request("GET", f"secret/{what}/{path}") for what in ("data", "metadata")]


class Made:
    """A broker with many keys, and the replies to what is asked of each of them."""

    def __init__(self, program, folder):
        self.program, self.folder = program, folder
        self.variables = Trial(program, folder).at(MOMENT)
        self.file = folder / "made.db"
        with self.running(self.file) as running:
            self.known = {"root": running.told_root()}
            for request in (each for number in range(KEYS) for each in writes(number)):
                found = Reply(running.ask(request.text(self.known)))
                expect(found.status in (200, 204), f"{request.method} {request.path}: status {found.status}")
            asked = [*LISTS, *(request for number in range(KEYS) for request in reads(path_of(number)))]
            self.replies = {(request.method, request.path): self.answer(running, request) for request in asked}
        close_log(self.file)
        self.rows = rows_in(self.file)
        self.keys = keys_in(self.rows)
        expect(len(self.keys) == KEYS, f"{len(self.keys)} keys are made")

    def running(self, file, *options):
        """The program over a file. Its clock stands still, so no read changes a row."""
        return Running(self.program, file, self.variables, options=options)

    def answer(self, running, request):
        """A reply without its request id."""
        return REQUEST_ID.sub(b"", running.ask(request.text(self.known)))

    def old(self, *keys):
        """The changes that write these keys in format 1."""
        return [(UPDATE, (*self.rows[KEY, key][:2], old_body(self.rows[KEY, key][2]), key)) for key in keys]

    def try_case(self, changes, left=None, damaged=None, is_sound=True):
        """A copy with these changes, which leave those of the keys (all, if none are named), and of them a damaged one;
        or rows that are those of no broker. Raises Wrong."""
        file = self.folder / "copy.db"
        before = copied(self.file, file, changes)
        paths = [key.removeprefix("secret/") for key in (self.keys if left is None else left) if key != damaged]
        with self.running(file, *(() if is_sound and damaged is None else ("--unchecked",))) as running:
            asked = [request for path in paths for request in reads(path)]
            for request in (*asked, *(LISTS if left is None else ())):
                found, wanted = self.answer(running, request), self.replies[request.method, request.path]
                expect(found == wanted, f"the reply to {request.method} {request.path} is {apart(found, wanted)}")
            if damaged is not None:
                found = self.answer(running, reads(damaged.removeprefix("secret/"))[0])
                expect(found == b"", f"the damaged row is read, and the reply is {found[-160:]!r}")
                running.ends()
            running.connect()
            end = running.close()
        expect(end.is_kill() if damaged is None else end.is_fault(3), f"{end}")
        rows, formats = left_in(file)
        expect(rows == upgraded(before), differing(rows, upgraded(before)))
        expect("01" not in formats or damaged is not None, f"the formats are {formats}")

    def try_refused(self, statement, fault):
        """All keys in format 1, in a database that is refused. Raises Wrong."""
        file = self.folder / "copy.db"
        before = copied(self.file, file, [*self.old(*self.keys), (statement, ())])
        with self.running(file) as running:
            running.ends()
            end = running.close()
        rows, formats = left_in(file)
        expect(end.is_fault(fault) and not end.printed, f"in place of fault {fault}: {end}")
        expect(rows == before and formats == {"01": KEYS}, f"it was changed: {formats}, {differing(rows, before)}")


def few_keys(made, count):
    """So many keys in format 1, and none besides."""
    left, gone = made.keys[:count], made.keys[count:]
    return {"changes": [*made.old(*left), *((DELETE, (key, f"{key}\n")) for key in gone)], "left": left}


def damaged_key(made, damage, place):
    """All keys in format 1, but for one that is in neither."""
    key = made.keys[place]
    row = DAMAGES[damage](old_body(made.rows[KEY, key][2]))
    return {"changes": [*made.old(*made.keys), (UPDATE, (*row, key))], "damaged": key}


def cases(made):
    """The name of each case, and what `try_case` is called with."""
    yield "no key in format 1", {"changes": []}
    yield "all keys in format 1", {"changes": made.old(*made.keys)}
    yield "every other key in format 1", {"changes": made.old(*made.keys[::2])}
    yield "one page of keys in format 1", {"changes": made.old(*made.keys[16:32])}
    yield "the last key in format 1", {"changes": made.old(made.keys[-1])}
    for count in FEW:
        yield f"{count} keys", few_keys(made, count)
    beside = [(INSERT, (f"secret/z{chr(0) * number}", BOUNDS[0])) for number in range(AGAIN)]
    yield "keys beside each other", {
        "changes": [*made.old(*made.keys), *beside], "left": made.keys, "is_sound": False}
    bounds = [(INSERT, (f"secret/z{number}", body)) for number, body in enumerate(BOUNDS)]
    yield "numbers at their bounds", {"changes": [*made.old(*made.keys), *bounds], "left": made.keys}
    for number, damage in enumerate(DAMAGES):
        for place in (PLACES[number % len(PLACES)], PLACES[(number + 1) % len(PLACES)]):
            yield f"key {place} is {damage}", damaged_key(made, damage, place)


def main():
    tally = Tally("rewritten keys")
    with temporary_folder() as folder:
        made = Made(sys.argv[1], Path(folder))
        formats = formats_in(made.file)
        tally.expect(formats == {"02": KEYS}, f"the formats that the program writes are {formats}")
        tried = [(name, functools.partial(made.try_case, **case)) for name, case in cases(made)]
        tried += [(name, functools.partial(made.try_refused, *case)) for name, case in REFUSALS.items()]
        for name, task in tried:
            try:
                task()
                tally.expect(True, name)
            except Wrong as error:
                tally.expect(False, f"{name}: {error}")
    return tally.end()


if __name__ == "__main__":
    sys.exit(main())
