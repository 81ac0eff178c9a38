"""Rows of requests as bytes: how they are cut from a stream, and when the connection closes."""

import json

from .tools import (BAD_PATH, BODY_TOO_LARGE, DENIED, FIRST_200, FIRST_204, FIRST_GET, FIRST_PUT, HEAD_TOO_LARGE,
                    MALFORMED, expand, ident, request, row)


@row("A cubbyhole path written and read by root", start=1700000000)
def first_run(r):
    r.event(FIRST_PUT).bytes_are(FIRST_204)
    r.event(FIRST_GET).bytes_are(FIRST_200)


@row("An empty piece gives no bytes", start=1700000000)
def empty_piece(r):
    r.event("").nothing()


@row("A head cut within its empty line, then one byte an event", start=1700000000)
def byte_by_byte(r):
    put = expand(FIRST_PUT)
    cut = put.index("\r\n\r\n") + 2
    pieces = [put[:cut], *put[cut:]]
    for piece in pieces[:-1]:
        r.event(piece).nothing()
    r.event(pieces[-1]).bytes_are(FIRST_204)


@row("Two requests in one piece: the second is answered by an empty piece", start=1700000000)
def pipelined_requests(r):
    r.event(FIRST_PUT + FIRST_GET).bytes_are(FIRST_204)
    r.event("").bytes_are(FIRST_200)


@row("When a reply comes: each event at its own moment", "limits")
def moments_of_replies(r):
    def late(n):
        return f"Thu, 01 Jan 1970 00:16:4{n} GMT"
    whole = request("PUT", "/v1/cubbyhole/a", {"a": 1})
    r.event(whole[:20], at=1001).nothing()
    r.event(whole[20:-3], at=1002).nothing()
    r.event("", at=1003).nothing()
    assert r.event(whole[-3:] + whole + whole[:9], at=1004).is_(204).fields["Date"] == late(4)
    assert r.event("", at=1005).is_(204).fields["Date"] == late(5)
    r.event("", at=1006).nothing()
    # too large a body is refused at the end of the head
    got = r.event("PUT /v1/a HTTP/1.1\r\nHost: b\r\nContent-Length: 1048577\r\n\r\n", conn=2, at=1007)
    assert got.refused(413, BODY_TOO_LARGE, closing=True).fields["Date"] == late(7)
    r.event("x" * 2000, conn=2, at=1008).nothing()
    # connections do not see each other's bytes
    r.event("GET /v1/cubby", conn=3, at=1008).nothing()
    r.event("hole/a HTTP/1.1\r\nHost: b\r\n\r\n", conn=4, at=1008).refused(400, MALFORMED, closing=True)
    r.event("hole/a HTTP/1.1\r\nHost: b\r\n\r\n", conn=3, at=1009).refused(403, DENIED)


@row("The greatest body, one byte more, no Host, and a target outside the API", "limits", start=1700000000)
def limits_of_requests(r):
    r.event("POST /v1/cubbyhole/a HTTP/1.1\r\nHost: b\r\nContent-Length: 1048576\r\n\r\n", conn=1).nothing()
    r.event("POST /v1/cubbyhole/a HTTP/1.1\r\nHost: b\r\nContent-Length: 1048577\r\n\r\n", conn=2).bytes_are(
        "HTTP/1.1 413 Payload Too Large\r\nDate: Tue, 14 Nov 2023 22:13:20 GMT\r\nCache-Control: no-store\r\n"
        "Connection: close\r\nContent-Type: application/json\r\nContent-Length: 38\r\n\r\n"
        '{"errors":["request body too large"]}\n')
    got = r.event("GET /v1/cubbyhole/a HTTP/1.1\r\n\r\n", conn=3).refused(400, MALFORMED, closing=True)
    assert got.fields["Content-Length"] == "33"
    got = r.event(request("GET", "/v2/x"), conn=4).refused(404)
    assert got.fields["Content-Length"] == "14"
    r.event(request("GET", "/v2/x"), conn=4).refused(404)


@row("Empty lines before a request, and a lone CR there")
def empty_lines_before(r):
    r.event("\r\n\r\n\n" + request("GET", "/v1/cubbyhole/a"), conn=1).refused(404)
    r.event("\r\n", conn=1).nothing()
    r.event("\n" + request("GET", "/v1/cubbyhole/a"), conn=1).refused(404)
    r.event("\r" + request("GET", "/v1/cubbyhole/a"), conn=2).refused(400, MALFORMED, closing=True)


@row("Lines that end in LF alone")
def lines_in_lf(r):
    r.event("GET /v1/cubbyhole/a HTTP/1.1\nHost: b\nX-Vault-Token: hvs.#1\r\n\r\n", conn=1).refused(404)
    r.event("GET /v1/cubbyhole/a HTTP/1.1\nHost: b\n\r\n", conn=2).nothing()
    r.event("GET /v1/cubbyhole/a HTTP/1.1\nHost: b\n\n", conn=3).nothing()
    r.event("X: y\r\n\r\n", conn=3).refused(400, MALFORMED, closing=True)
    r.event("GET /v1/cubbyhole/a HTTP/1.1\nHost: b\n\n", conn=4).nothing()
    r.event("\r\n\r\n", conn=4).refused(400, MALFORMED, closing=True)


@row("Heads that are not valid wait for their empty line, and are refused then", "lines")
def heads_refused(r):
    bad = ["GET  /v1/a HTTP/1.1\r\nHost: b", "GET /v1/a  HTTP/1.1\r\nHost: b", "GET\t/v1/a HTTP/1.1\r\nHost: b",
           "GET /v1/a http/1.1\r\nHost: b", "GET /v1/a HTTP/2.0\r\nHost: b", "GET /v1/a HTTP/1.2\r\nHost: b",
           "GET /v1/a HTTP/1.1 \r\nHost: b", "GET /v1/a\r\nHost: b", "GET HTTP/1.1\r\nHost: b",
           " GET /v1/a HTTP/1.1\r\nHost: b", "G{T /v1/a HTTP/1.1\r\nHost: b",
           "GET /v1/a HTTP/1.1\r\nHost: b\r\n folded", "GET /v1/a HTTP/1.1\r\nHost : b",
           "GET /v1/a HTTP/1.1\r\nHost: b\r\n: x", "GET /v1/a HTTP/1.1\r\nHost: b\r\nno colon",
           "GET /v1/a HTTP/1.1\r\nHost: b\r\nA: \x01", "GET /v1/a HTTP/1.1\r\nHost: b\r\nA: \x7f",
           "GET /v1/a HTTP/1.1\r\nHost: b\r\nA: x\ry", "GET /v1/\x7f HTTP/1.1\r\nHost: b",
           b"GET /v1/\xff HTTP/1.1\r\nHost: b", b"GET /v1/a HTTP/1.1\r\nHost: b\r\n\xc3\xa9: x"]
    for conn, head in enumerate(bad):
        r.raw(head, conn).nothing()
        # a moment of its own, so that the Date tells which event was answered
        r.event("\r\n\r\n", conn=conn, at=2000 + conn).refused(400, MALFORMED, closing=True)
        r.event(request("GET", "/v1/cubbyhole/a"), conn=conn).nothing()
    # the greatest of tokens, an empty value, a tab in a value, bytes past ASCII in a value: all served
    r.raw(b"GET /v1/cubbyhole/a HTTP/1.1\r\n!#$%&'*+-.^_`|~09azAZ:\r\nHost:\r\nA:\tx\t\xff y \r\nX-VAULT-token:\thvs."
        + ident(1).encode() + b" \t\r\n\r\n", 99).refused(404)


@row("A head of exactly the limit, and one byte more", "limits")
def longest_head(r):
    def padded(length):
        head = request("GET", "/v1/cubbyhole/a", fields=("A: ",))
        return head.replace("A: ", "A: " + "x" * (length - len(head)))
    r.event(padded(16384), conn=1).refused(404)
    r.event(padded(16385), conn=2).refused(431, HEAD_TOO_LARGE, closing=True)
    whole = padded(16385)
    r.event(whole[:16383], conn=3).nothing()
    r.event(whole[16383:16384], conn=3).refused(431, HEAD_TOO_LARGE, closing=True)
    # empty lines before the head are counted, a body after it is not
    r.event("\r\n" + padded(16383), conn=4).refused(431, HEAD_TOO_LARGE, closing=True)
    r.event("\r\n" + padded(16382), conn=5).refused(404)
    r.event(request("PUT", "/v1/cubbyhole/a", json.dumps({"a": "x" * 20000})), conn=6).is_(204)
    # a head that is not valid, but long enough, is too large first
    r.event("\x01" * 16384 + "\r\n\r\n", conn=7).refused(431, HEAD_TOO_LARGE, closing=True)


@row("A head that does not end within its limit", "limits")
def endless_head(r):
    r.event("\r\n" * 8191 + "\r").nothing()
    r.event("\n").refused(431, HEAD_TOO_LARGE, closing=True)
    r.event("\r\n" * 8192, conn=2).refused(431, HEAD_TOO_LARGE, closing=True)
    assert len(r.replies[-1].partition(b"\r\n\r\n")[2]) == 38


@row("Sixty-five fields; sixty-four")
def many_fields(r):
    def more(n):
        return tuple(f"A{i}: x" for i in range(n))
    r.get("cubbyhole/a", fields=more(63)).refused(400, MALFORMED, closing=True)
    r.get("cubbyhole/a", fields=more(62), conn=2).refused(404)


@row("HTTP/1.0: no Host is asked for, and the connection always closes", "limits")
def old_http(r):
    got = r.event("GET /v1/cubbyhole/a HTTP/1.0\r\nX-Vault-Token: hvs.#1\r\nConnection: keep-alive\r\n\r\n", conn=1)
    got.refused(404, closing=True)
    r.event("GET /v1/cubbyhole/a HTTP/1.0\r\nHost: b\r\nHost: b\r\n\r\n", conn=2).refused(400, MALFORMED, closing=True)
    r.event("GET /v1/cubbyhole/a HTTP/1.1\r\nHost: b\r\nHost: b\r\n\r\n", conn=3).refused(400, MALFORMED, closing=True)


@row("Transfer-Encoding comes before a missing Host", "limits")
def transfer_encoding(r):
    got = r.event("POST /v1/cubbyhole/a HTTP/1.1\r\nTransfer-Encoding: chunked\r\n\r\n").refused(501, closing=True)
    assert got.data == (b"HTTP/1.1 501 Not Implemented\r\nDate: Thu, 01 Jan 1970 00:16:40 GMT\r\n"
                        b"Cache-Control: no-store\r\nConnection: close\r\nContent-Length: 0\r\n\r\n")


@row("Content-Length that is not a number, or twice")
def bad_lengths(r):
    lengths = ("Content-Length: 5, 5", "Content-Length: +5", "Content-Length: 5\r\nContent-Length: 5")
    for conn, text in enumerate(lengths):
        r.event(f"POST /v1/cubbyhole/a HTTP/1.1\r\nHost: b\r\n{text}\r\n\r\nabcde", conn=conn).refused(
            400, MALFORMED, closing=True)


@row("Content-Length with spaces around it and zeros before it", start=1700000000)
def padded_length(r):
    r.event(FIRST_PUT.replace("Content-Length: 9", "Content-Length:  0009 ")).bytes_are(FIRST_204)


@row("The length of a body: forms, and a body that a GET brings", "limits")
def body_lengths(r):
    def put(length, conn, body=""):
        head = "PUT /v1/cubbyhole/a HTTP/1.1\r\nHost: b\r\nX-Vault-Token: hvs.#1\r\n"
        return r.event(f"{head}content-LENGTH:{length}\r\n\r\n{body}", conn=conn)
    for conn, length in enumerate(("", " ", "-1", "0x9", "9a", "9 9", "9,9")):
        put(length, conn).refused(400, MALFORMED, closing=True)
    put("0" * 5000 + "9", 10, '{"k":"v"}').is_(204)
    put("\t9", 10, '{"k":"v"}').is_(204)
    put("0" * 5000 + "1048577", 11).refused(413, BODY_TOO_LARGE, closing=True)
    put("9" * 5000, 12).refused(413, BODY_TOO_LARGE, closing=True)
    r.event("GET /v1/cubbyhole/a HTTP/1.1\r\nHost: b\r\nX-Vault-Token: hvs.#1\r\nContent-Length: 4\r\n\r\n{{{{"
            + request("DELETE", "/v1/cubbyhole/a"), conn=13).is_(200, data={"k": "v"})
    deleted = r.event("", conn=13)
    if r.serves("cubbyhole-lists"):
        deleted.is_(204)
    else:
        deleted.no_method("GET, POST, PUT")
    r.event("PUT /v1/x HTTP/1.1\r\nHost: b\r\nContent-Length: 5\r\nTransfer-Encoding: x\r\n\r\n", conn=14).refused(
        501, closing=True)
    r.event("PUT /v1/x HTTP/1.1\r\nContent-Length: 9999999\r\n\r\n", conn=15).refused(400, MALFORMED, closing=True)


@row("After `Connection: close` nothing more is answered")
def close_then_nothing(r):
    first = request("GET", "/v1/cubbyhole/a", fields=("Connection: keep-alive, CLOSE",))
    r.event(first + expand(FIRST_GET)).refused(404, closing=True)
    r.event("").nothing()
    r.event(FIRST_GET).nothing()


@row("The elements of Connection fields")
def connection_elements(r):
    for conn, (text, closing) in enumerate((
            ("closed", False), ("x-close", False), ("close;q=1", False), ("Close", True), ("a , \tclose\t,b", True),
            ("keep-alive\r\nConnection: close", True), (",,close", True), ("\"close\"", False))):
        r.get("cubbyhole/a", fields=(f"Connection: {text}",), conn=conn).refused(404, closing=closing)
    got = r.ask("PUT", "cubbyhole/a", '{"a":1}', fields=("Connection: close",), conn=20).is_(204)
    assert got.data.endswith(b"Cache-Control: no-store\r\nConnection: close\r\n\r\n")
    r.get("cubbyhole/a/../b", fields=("Connection: close",), conn=21).refused(400, BAD_PATH, closing=True)


@row("Methods that are not served")
def other_methods(r):
    for conn, method in enumerate(("HEAD", "PATCH", "OPTIONS", "get", "LISt")):
        r.event(request(method, "/v2/x", fields=("X-Vault-Token: twice",)), conn=conn).refused(501, closing=True)
        r.event(request("GET", "/v2/x"), conn=conn).nothing()


@row("Before the limits of requests: heads of any length, and no refusal but 400", until=("limits",))
def cutting_before_its_limits(r):
    r.get("cubbyhole/a", fields=("A: " + "x" * 20000,), conn=1).refused(404)
    r.event("\r\n" * 10000, conn=2).nothing()
    r.event(request("GET", "/v1/cubbyhole/a"), conn=2).refused(404)
    for conn, head in enumerate((
            "GET /v1/cubbyhole/a HTTP/1.0\r\nHost: b", "GET /v1/cubbyhole/a HTTP/1.1",
            "PUT /v1/cubbyhole/a HTTP/1.1\r\nHost: b\r\nTransfer-Encoding: chunked",
            "PUT /v1/cubbyhole/a HTTP/1.1\r\nHost: b\r\nContent-Length: 1048577",
            "PUT /v1/cubbyhole/a HTTP/1.1\r\nHost: b\r\nContent-Length: x"), start=3):
        r.event(head + "\r\n\r\n", conn=conn).refused(400, MALFORMED, closing=True)
    r.event(request("HEAD", "/v1/cubbyhole/a"), conn=20).refused(501, closing=True)
