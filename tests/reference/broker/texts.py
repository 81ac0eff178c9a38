"""Identifiers, times, durations and numbers as strings."""

import datetime
import re
from typing import Optional

GREATEST_MOMENT = 250_000_000_000  # seconds since 1970, in the year 9892
GREATEST_SECONDS = 4_294_967_295  # of a duration
LONGEST_LIFE = 2_764_800  # 32 days: the longest ttl of tokens, leases and wrapped responses


def identifier(word: int) -> str:
    """The identifier of a 128-bit word: 36 characters, hyphenated, lower-case (RFC 9562)."""
    digits = f"{word:032x}"
    return "-".join((digits[:8], digits[8:12], digits[12:16], digits[16:20], digits[20:]))


def token_text(word: int) -> str:
    """The token of a word."""
    return "hvs." + identifier(word)


EPOCH = datetime.datetime(1970, 1, 1)


def time_text(moment: int) -> str:
    """A moment as `2023-11-14T22:13:20Z` (RFC 3339)."""
    return (EPOCH + datetime.timedelta(seconds=moment)).strftime("%Y-%m-%dT%H:%M:%SZ").rjust(20, "0")


DAYS = ("Mon", "Tue", "Wed", "Thu", "Fri", "Sat", "Sun")
MONTHS = ("Jan", "Feb", "Mar", "Apr", "May", "Jun", "Jul", "Aug", "Sep", "Oct", "Nov", "Dec")


def date_text(moment: int) -> str:
    """A moment as the value of a Date field: `Tue, 14 Nov 2023 22:13:20 GMT` (RFC 9110, 5.6.7)."""
    t = EPOCH + datetime.timedelta(seconds=moment)
    return (f"{DAYS[t.weekday()]}, {t.day:02} {MONTHS[t.month - 1]} {t.year:04} "
            f"{t.hour:02}:{t.minute:02}:{t.second:02} GMT")


def digits_value(digits: str, greatest: int) -> Optional[int]:
    """The value of a string of ASCII digits (leading zeros count for nothing), or None above `greatest`."""
    digits = digits.lstrip("0")
    if len(digits) > 20:
        return None
    value = int(digits or "0")
    return value if value <= greatest else None


def read_duration(text: str) -> Optional[int]:
    """The seconds of a duration: empty is 0; digits alone are seconds; else groups of digits with h, m or s, added up.

    None if it is no duration, or longer than the longest.
    """
    if text == "":
        return 0
    if re.fullmatch("[0-9]+", text):
        return digits_value(text, GREATEST_SECONDS)
    if not re.fullmatch("(?:[0-9]+[hms])+", text):
        return None
    total = 0
    for digits, unit in re.findall("([0-9]+)([hms])", text):
        value = digits_value(digits, GREATEST_SECONDS)
        if value is None:
            return None
        total += value * {"h": 3600, "m": 60, "s": 1}[unit]
    return total if total <= GREATEST_SECONDS else None


def is_name(text: str) -> bool:
    """Whether a write may make a mount, a policy or a role of this name."""
    return re.fullmatch("[A-Za-z0-9_.-]{1,128}", text) is not None
