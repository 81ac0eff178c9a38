"""Rows of replay lines: their forms, and bad ones."""

import json

from .tools import FIRST_200, FIRST_204, FIRST_GET, FIRST_PUT, bad_line, request, row

# ------------------------------------------------------------------------------------- good lines


@row("A piece in hexadecimal digits", "lines", start=1700000000)
def hex_piece(r):
    r.event(FIRST_PUT, as_hex=True).bytes_are(FIRST_204)


@row("Words as a list of eight", "lines", start=1700000000)
def list_of_words(r):
    r.event(FIRST_PUT, words=list(range(0x10, 0x18))).bytes_are(FIRST_204)
    r.event(FIRST_GET, words=[0x20, 1, 1, 1, 1, 1, 1, 1]).bytes_are(FIRST_200)


def last_line(r, members):
    """How a run ends whose last line, an empty piece, has a form that is a bad line until `lines` is served."""
    r.get("cubbyhole/a").refused(404)
    r.lines.append(json.dumps(members).encode() + b"\n")
    if not r.serves("lines"):
        return bad_line(3)
    r.replies.append(b"")
    return None


@row("An empty piece in hexadecimal digits")
def line_with_hex(r):
    return last_line(r, {"conn": 1, "moment": 1000, "words": "0" * 32, "hex": ""})


@row("A list of eight words")
def line_with_list_of_words(r):
    return last_line(r, {"conn": 1, "moment": 1000, "words": ["0" * 32] * 8, "piece": ""})


WORDS = '"words":"' + "0" * 31 + '1"'
GOOD = '{"conn":1,"moment":1000,' + WORDS + ',"piece":""}'


@row("Lines in other spellings: order, spaces, digits in capitals, no last LF", "lines")
def spellings_of_lines(r):
    r.get("cubbyhole/a").refused(404)
    again = request("GET", "/v1/cubbyhole/a").encode().hex().upper()
    words = '"words": "ABCDEFabcdef0000000000000000000F"'
    for line in ('\t{ "hex":"' + again + '", ' + words + ', "conn":18446744073709551615, "moment":0 } \r\n',
                 '{"conn":5,"conn":0,"moment":1000,"moment":250000000000,' + words + ',"piece":"\\u0000"}\n',
                 GOOD.replace('"piece"', '"hex"')):
        r.lines.append(line.encode())
    r.replies += [r.replies[0].replace(b"00:16:40", b"00:00:00"), b"", b""]


# -------------------------------------------------------------------------------------- bad lines

@row("Characters that are not digits, in the first event: nothing is written", start=1700000000)
def bad_hex(r):
    r.line({"conn": 1, "moment": 1700000000, "words": f"{0x10:032x}", "hex": "4g"})
    return bad_line(2)


def refused_line(name, title, line):
    """A row whose third line is bad. The event before it is answered."""
    def tell(r):
        r.get("cubbyhole/a").refused(404)
        r.lines.append(line.encode() if isinstance(line, str) else line)
        return bad_line(3)
    tell.__name__ = name
    row(title)(tell)


SEVEN_WORDS = ",".join(['"' + "0" * 32 + '"'] * 7)

refused_line("line_that_is_empty", "A line that is empty", "\n")
refused_line("line_that_is_no_object", "A line that is not an object", "[]\n")
refused_line("line_with_another_member", "A line with another member", GOOD[:-1] + ',"x":1}\n')
refused_line("line_with_piece_and_hex", "A line with both forms of a piece", GOOD[:-1] + ',"hex":""}\n')
refused_line("line_without_piece", "A line without a piece", '{"conn":1,"moment":1000,' + WORDS + "}\n")
refused_line("line_without_conn", "A line without a connection", '{"moment":1000,' + WORDS + ',"piece":""}\n')
refused_line("line_with_late_moment", "A moment past the greatest", GOOD.replace("1000", "250000000001") + "\n")
refused_line("line_with_moment_as_text", "A moment that is a string", GOOD.replace("1000", '"1000"') + "\n")
refused_line("line_with_conn_too_great", "A connection past the greatest",
             GOOD.replace('"conn":1', '"conn":18446744073709551616') + "\n")
refused_line("line_with_minus_zero", "A connection that is `-0`", GOOD.replace('"conn":1', '"conn":-0') + "\n")
refused_line("line_with_float", "A connection that is a float", GOOD.replace('"conn":1', '"conn":1.0') + "\n")
refused_line("line_with_short_words", "Words of 31 digits",
             '{"conn":1,"moment":1000,"words":"' + "0" * 31 + '","piece":""}\n')
refused_line("line_with_seven_words", "A list of seven words",
             '{"conn":1,"moment":1000,"words":[' + SEVEN_WORDS + '],"piece":""}\n')
refused_line("line_with_odd_hex", "An odd number of hexadecimal digits",
             GOOD.replace('"piece":""', '"hex":"abc"') + "\n")
refused_line("line_that_is_no_utf8", "A line that is not UTF-8", GOOD.encode().replace(b'""', b'"\xff"') + b"\n")
refused_line("line_with_two_objects", "Two objects in a line", GOOD + GOOD + "\n")


@row("A bad line after the start and three events, itself without LF")
def good_lines_then_bad(r):
    r.get("cubbyhole/a").refused(404)
    r.lines += [GOOD.encode() + b"\n", GOOD.encode() + b"\n", b"{}"]
    r.replies += [b"", b""]
    return bad_line(5)


# ------------------------------------------------------------------------------------ bad starts

def refused_start(name, title, line):
    """A row whose start line is bad."""
    def tell(r):
        r.lines[0] = line
        return bad_line(1)
    tell.__name__ = name
    row(title)(tell)


refused_start("start_line_with_event", "A start line with the members of an event", GOOD.encode() + b"\n")
refused_start("start_line_too_late", "A start past the greatest moment",
              b'{"moment":250000000001,' + WORDS.encode() + b"}\n")
refused_start("no_lines", "No line at all", b"")
refused_start("one_empty_line", "One line that is empty", b"\n")


@row("A start whose words are equal: a fault comes before a bad line", "lines")
def start_with_equal_words(r):
    r.lines[0] = b'{"moment":0,"words":[' + b",".join([b'"' + b"0" * 32 + b'"'] * 8) + b"]}\n"
    r.lines.append(b"bad\n")
    return 1, "fault 4"
