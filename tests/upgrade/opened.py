#!/usr/bin/env python3
"""Opens a database that an earlier program has written, with keys of format 1 (README.md).

    python3 tests/upgrade/opened.py PROGRAM

Once it is opened, each row of a key is that of the same key in format 2, and no other row has changed; a second start
changes none. Over another copy each request of `keys_of_format_1.replies` gets the reply that is kept there, byte for
byte. The reference broker answers so too, from the rows of the file, and has the rows that are left in the end. The
last line is 'N passed, M failed'.
"""

import json
import shutil
import sys
from collections import Counter
from pathlib import Path

from upgraded import HERE, apart, differing, keys_in, left_in, open_alone, upgraded  # it sets the paths

from asking import Reply, Server, rows_of
from hostile import Tally
from make import ASKED, seed_of, standing
from program import Running, Wrong, expect
from rows import rows_in
from stored_broker import broker_of
from trial import temporary_folder

DATABASE, REPLIES = (HERE / f"keys_of_format_1.{name}" for name in ("db", "replies"))
LEAST = {"kinds of rows": 13, "rows of keys": 33, "200": 100, "204": 5, "400": 5, "403": 5, "404": 5}


def check_opening(program, folder, tally):
    """The file is opened and no more, twice. Raises Wrong."""
    file = folder / "opened.db"
    shutil.copy(DATABASE, file)
    before, formats = left_in(file)
    count = len(keys_in(before))
    tally.expect(formats == {"01": count}, f"the formats of the kept file are {formats}")
    for turn in ("opened", "opened again"):
        open_alone(program, file)
        rows, formats = left_in(file)
        tally.expect(formats == {"02": count}, f"{turn}: the formats are {formats}")
        tally.expect(rows == upgraded(before), f"{turn}: {differing(rows, upgraded(before))}")
    return Counter({"kinds of rows": len({kind for kind, _ in before}), "rows of keys": count})


def pairs():
    """The kept requests and replies."""
    with open(REPLIES, encoding="ascii") as lines:
        for line in lines:
            pair = json.loads(line)
            yield pair["request"].encode(), pair["reply"].encode()


def check_replies(program, folder, tally):
    """A copy is asked what is kept. Raises Wrong."""
    file, met = folder / "asked.db", Counter()
    shutil.copy(DATABASE, file)
    server = Server(0, range(8))
    server.broker = broker_of(upgraded(rows_in(file)))
    with Running(program, file, standing(folder, seed_of(3), ASKED)) as running:
        for text, kept in pairs():
            line, reply = text.partition(b"\r\n")[0].decode(), Reply(kept)
            found = running.ask(text)
            tally.expect(found == kept, f"the reply to {line} is {apart(found, kept)}")
            expected = server.feed(1, text, reply.moment, reply.words())
            tally.expect(expected == kept, f"the reference broker's reply to {line} is {apart(expected, kept)}")
            met[str(reply.status)] += found == kept
        end = running.close()
    expect(end.is_kill() and not end.printed, f"after all replies: {end}, {end.printed!r}")
    rows, wanted = rows_in(file), rows_of(server.broker)
    tally.expect(rows == wanted, f"after all replies {differing(rows, wanted)}")
    return met


def main():
    tally, met = Tally("kept database"), Counter()
    with temporary_folder() as folder:
        for check in (check_opening, check_replies):
            try:
                met += check(sys.argv[1], Path(folder), tally)
            except Wrong as error:
                tally.expect(False, f"{error}")
    for name, least in LEAST.items():
        tally.expect(met[name] >= least, f"{met[name]} {name}, where {least} are the least")
    return tally.end()


if __name__ == "__main__":
    sys.exit(main())
