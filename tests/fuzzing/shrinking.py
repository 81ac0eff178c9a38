"""Runs that show a difference made short, as long as they show one."""

import json
import time

from broker.lines import replay

from .events import bytes_of

SECONDS = 60.0


def shorter(lines, differs, seconds=SECONDS):
    """The lines with as few events, and as short pieces, as still differ, found within so many seconds."""
    until = time.monotonic() + seconds
    start, events = lines[0], lines[1:]
    size = len(events)
    while size > 0 and time.monotonic() < until:
        place = 0
        while place < len(events) and time.monotonic() < until:
            fewer = events[:place] + events[place + size:]
            if differs([start, *fewer]):
                events = fewer
            else:
                place += size
        size //= 2
    for place in range(len(events)):
        if time.monotonic() < until:
            events = with_shorter_piece(start, events, place, differs, until)
    return [start, *map(readable, events)]


def piece_of(event):
    """The bytes of an event's piece."""
    line = json.loads(event)
    return bytes.fromhex(line["hex"]) if "hex" in line else line["piece"].encode("utf-8")


def with_piece(event, piece):
    """The event with another piece."""
    line = {name: value for name, value in json.loads(event).items() if name not in ("hex", "piece")}
    return json.dumps({**line, "hex": piece.hex()})


def with_shorter_piece(start, events, place, differs, until):
    """The events with slices taken out of the piece of one."""
    piece = piece_of(events[place])
    size = len(piece) // 2
    while size > 0 and time.monotonic() < until:
        begin = 0
        while begin < len(piece) and time.monotonic() < until:
            fewer = piece[:begin] + piece[begin + size:]
            changed = [*events[:place], with_piece(events[place], fewer), *events[place + 1:]]
            if differs([start, *changed]):
                piece, events = fewer, changed
            else:
                begin += size
        size //= 2
    return events


def readable(event):
    """The event with its piece as a string, if it is one."""
    try:
        text = piece_of(event).decode("utf-8")
    except UnicodeDecodeError:
        return event
    line = {name: value for name, value in json.loads(event).items() if name not in ("hex", "piece")}
    return json.dumps({**line, "piece": text})


def answers_of_reference(lines):
    """What the reference broker answers to lines: the output, the status, and the words on standard error."""
    replies, status, told = replay(bytes_of(lines))
    return b"".join(replies), status, told
