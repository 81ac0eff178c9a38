"""What a run has written to its two files, and what a crash may leave of it.

A crash keeps what was synced. Of each write since then it keeps each byte below the end that the file had, or the old
one, and anything past that end; the file is as long as before, or longer by a part of the write. Of a change of length
it keeps any length in between. Writes that were made one after another are lost in any order.
"""

import random
from dataclasses import dataclass

from hostile import recorded

NAMES = ("", "-wal")  # of the files, behind the name of the database
SECTOR = 512


@dataclass(frozen=True)
class Step:
    """A write at an offset, or a change of the length."""
    at: int
    data: bytes = None

    def take(self, file):
        """The file, which is a `bytearray`, becomes what it is after the step."""
        if len(file) < self.at:
            file.extend(bytes(self.at - len(file)))
        if self.data is None:
            del file[self.at:]
        else:
            file[self.at:self.at + len(self.data)] = self.data

    def torn(self, end):
        """The step if it was torn at an offset."""
        return Step(end) if self.data is None else Step(self.at, self.data[:end - self.at])

    def tears(self, length):
        """The offsets at which it may be torn, in a file of this length."""
        low, high = sorted((length, self.at)) if self.data is None else (self.at, self.at + len(self.data))
        return range((low // SECTOR + 1) * SECTOR, high, SECTOR)

    def take_mixed(self, file, draw, grain):
        """The same, if of each piece of so many bytes the old one or the new one was kept, as they are drawn."""
        length = len(file)
        if self.data is None:
            Step(draw.randint(*sorted((length, self.at)))).take(file)
            return
        end = self.at + len(self.data)
        high = min(end, length)
        if self.at < high:
            file[self.at:high] = mixture(file[self.at:high], self.data[:high - self.at], self.at, draw, grain)
        if end > length:
            kept = draw.choice((end, draw.randint(length, end)))
            past = (bytes(max(0, self.at - length)) + self.data[max(0, length - self.at):])[:kept - length]
            file.extend(past if draw.random() < 0.8 else draw.randbytes(len(past)))


def mixture(old, new, at, draw, grain):
    """Old and new bytes of one length, in pieces whose ends are multiples of the grain in the file."""
    odds = draw.choice((1, 32, 128, 224, 255))
    kept = bytes(255 if value < odds else 0 for value in range(256))
    if grain == 1:
        mask = draw.randbytes(len(old)).translate(kept)
    else:
        pieces = draw.randbytes(len(old) // grain + 2).translate(kept)
        mask = b"".join(bytes([piece]) * grain for piece in pieces)[at % grain:][:len(old)]
    taken = int.from_bytes(mask, "big")
    mixed = int.from_bytes(old, "big") & ~taken | int.from_bytes(new, "big") & taken
    return mixed.to_bytes(len(old), "big")


@dataclass(frozen=True)
class Part:
    """One of the files at an instant: what it had at first, and its steps in stretches that end with a sync each, but
    for the last."""
    first: bytes
    stretches: tuple

    def synced(self, count=None):
        """What was synced, or what was after so many syncs."""
        found = bytearray(self.first)
        for stretch in self.stretches[:-1] if count is None else self.stretches[:count]:
            take_all(stretch, found)
        return found

    def steps(self):
        """The steps since the last sync."""
        return self.stretches[-1]

    def left(self, way, *which):
        """What a crash has left of the file."""
        return bytes(getattr(self, f"left_{way}")(*which))

    def left_all(self):
        """Each step was taken."""
        return self.left_front(len(self.steps()))

    def left_none(self):
        """No step since the sync was taken."""
        return self.synced()

    def left_front(self, count):
        """So many steps were taken, and the later ones were not."""
        return take_all(self.steps()[:count], self.synced())

    def left_without(self, place):
        """One step was not taken."""
        return take_all((*self.steps()[:place], *self.steps()[place + 1:]), self.synced())

    def left_torn(self, place, end):
        """A step was torn, and the later ones were not taken."""
        return take_all([self.steps()[place].torn(end)], self.left_front(place))

    def left_mixed(self, seed, grain):
        """Each step was taken in part, as it is drawn."""
        draw, found = random.Random(seed), self.synced()
        for step in self.steps():
            step.take_mixed(found, draw, grain)
        return found

    def left_forgotten(self, stretch, place):
        """A step was lost that had been synced, and all else was kept: no crash leaves this."""
        found = self.synced(stretch)
        for number, steps in enumerate(self.stretches[stretch:]):
            take_all([step for at, step in enumerate(steps) if (number, at) != (0, place)], found)
        return found


def take_all(steps, file):
    """The file after the steps."""
    for step in steps:
        step.take(file)
    return file


@dataclass(frozen=True)
class Instant:
    """The files after a call, how many bytes of replies were sent by then, and whether the root token was printed."""
    parts: tuple  # of each of the files, or None if it was not there
    sent: int
    is_told: bool
    is_end: tuple  # whether the next call on each file is a sync, or there is none


class Writing:
    """A file while its calls are read."""

    def __init__(self, data):
        self.first = data or b""
        self.is_there = data is not None
        self.stretches = ((),)

    def takes(self, step):
        self.stretches = (*self.stretches[:-1], (*self.stretches[-1], step))

    def syncs(self):
        if self.stretches[-1]:
            self.stretches = (*self.stretches, ())

    def part(self):
        return Part(self.first, self.stretches) if self.is_there else None


def instants_of(record, file, first):
    """The instants of a recorded run over a database, from what its files had at first (None: not there). If they had
    something, the root token was printed by an earlier run."""
    files = {f"{file}{name}": Writing(first[name]) for name in NAMES}
    opened, found, sent, is_told = {}, [], 0, any(first.values())
    for call in recorded(record):
        if call.result < 0:
            continue
        if call.name == "open":
            opened[call.result] = files.get(call.data.decode())
            if opened[call.result] is not None:
                opened[call.result].is_there = True
            continue
        if call.name == "close":
            opened.pop(call.fd, None)
            continue
        written = opened.get(call.fd)
        if call.name == "pwrite" and written:
            written.takes(Step(call.offset, call.data))
        elif call.name == "ftruncate" and written:
            written.takes(Step(call.offset))
        elif call.name in ("fsync", "fdatasync") and written:
            mark_end(found, files, written)
            written.syncs()
        elif call.name == "write" and call.fd == 1:
            is_told = is_told or call.data.endswith(b"\n")
        elif call.name in ("send", "write") and call.fd > 2:
            sent += call.result
        else:
            continue
        found.append(Instant(tuple(each.part() for each in files.values()), sent, is_told, (False, False)))
    for written in files.values():
        mark_end(found, files, written)
    return found


def mark_end(found, files, written):
    """The last instant is the end of a stretch of a file."""
    if found:
        last = found[-1]
        is_end = tuple(was or each is written for was, each in zip(last.is_end, files.values()))
        found[-1] = Instant(last.parts, last.sent, last.is_told, is_end)
