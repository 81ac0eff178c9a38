"""The themes about requests as bytes and lines of a replay, and those about what is not served so far."""

import json

from drawing import GREATEST_CONNECTION, GREATEST_MOMENT, GREATEST_WORD, identifier, request


def bodies(run):
    """Objects written and read back: every spelling of texts, numbers, white space, members of one name."""
    while run.room() > 0:
        path = run.path()
        run.event(run.write(path, run.object_text(3)))
        run.event(run.read(path))


EMPTY_BODIES = (None, "", "null", "{}", " { } ", " null\n", "{ }", " ", "\n", "nul", "Null", "{}{}", "null null")
NO_OBJECTS = ("[]", "1", '"a"', "true", "[{}]", "-1", '"{}"', "[[]]", "false", "0")
NO_JSON = ('{"a":1}x', '{"a":1}}', '{"a":1', '{"a"}', '{"a":}', '{a:1}', "{'a':1}", '{"a":1,}', '{,"a":1}',
           '{"a":1,,"b":2}', '{"a" 1}', '{"a":1 "b":2}', '{"a":tru}', '{"a":True}', '{"a":nulll}', '{"a":[1,]}',
           '{"a":[,1]}', '{"a":[1 2]}', '{"a":"', '{"a":"b}', '{"a":[}', '{"a":]}', '{1:2}', '{null:1}',
           '\ufeff{"a":1}', '{"a":1}\x00', '\x0b{"a":1}', '{"a":1}\u00a0', '/**/{"a":1}', '{"a":1}\n\n\r\t ',
           '{"a":undefined}', '{"a":{}', '{"a":{"b":1,}}', '{"a":1;"b":2}')
NO_WHOLE_NUMBERS = ("1.0", "1.5", "0.0", "-0", "-0.0", "1e3", "1E3", "1e-3", "0e0", "18446744073709551616",
                    "-9223372036854775809", "1" + "0" * 40, "1e308", "1e309", "-1e999", "1" + "0" * 400, "1e-999",
                    "01", "-01", "+1", "1.", ".5", "-", "--1", "0x1", "1e", "1e+", "NaN", "Infinity", "-Infinity",
                    "1_0", "00", "1.e1", "- 1", "1 1", "1e1.0", "９", "1a")
NO_TEXTS = ('"\n"', '"\x00"', '"\x1f"', '"\t"', '"\\x"', '"\\u12"', '"\\u12g4"', '"\\ud800"', '"\\udc00"',
            '"\\ud800\\u0041"', '"\\ud83d\\ud83d"', '"\\ud83d', '"\\', '"\\"', '"\\u', '"\\ud83dx"',
            '"\\udE00\\ud83d"', '"\\U0041"', "\"\\'\"", "'a'", '"\\a"', '"\\ud83d\\n"', '"\\u+123"', '"\\u 123"',
            '"a\r"')


def refused_bodies(run):
    """Bodies that are not JSON objects, or have floats, between good ones that must stay."""
    path = run.path()
    run.event(run.write(path, run.object_text(1)))
    while run.room() > 0:
        run.event(run.write(path, run.pick(
            run.pick(*EMPTY_BODIES), run.pick(*NO_OBJECTS), run.pick(*NO_JSON), run.pick(*NO_JSON),
            f'{{"a":{run.pick(*NO_WHOLE_NUMBERS)}}}', f'{{"a":[1,{{"b":{run.pick(*NO_WHOLE_NUMBERS)}}}]}}',
            f'{{"a":{run.pick(*NO_TEXTS)}}}', f"{{{run.pick(*NO_TEXTS)}:1}}", changed(run, run.object_text(2)))))
        if run.chance(3):
            run.event(run.read(path))


def changed(run, text):
    """The text with one character taken out, put in or another one. It may still be good."""
    place = run.random.randrange(len(text) + 1)
    return text[:place] + run.pick("", *'",:[]{}\\0-.e u\n') + text[place + run.random.randrange(2):]


def numbers(run):
    """Numbers of many digits, with points and exponents; in half of them a later member takes the place."""
    while run.room() > 0:
        sign = run.pick("", "-")
        whole = run.pick("0", str(run.random.randrange(1, 10)) + digits(run, 0, 17, 18, 19, 30, 310))
        point = run.pick("", "", "." + digits(run, 1, 20))
        exponent = run.pick("", "", run.pick("e", "E-", "e+") + digits(run, 1, 3, 20))
        number, path = sign + whole + point + exponent, run.path()
        run.event(run.write(path, run.pick(f'{{"a":{number}}}', f'{{"a":{number},"a":1}}')))
        run.event(run.read(path))


def digits(run, *counts):
    """So many digits as one of the counts."""
    return "".join(run.random.choices("0123456789", k=run.pick(*counts)))


def replaced_members(run):
    """Members of one name: the last one counts, but what the reader refuses stays refused."""
    while run.room() > 0:
        path = run.path()
        first = run.pick(*NO_WHOLE_NUMBERS, "1", "null", nested(run, run.pick(125, 126, 127, 200)), '{"b":1.5}',
                         "[1e3]", '"\\ud800"')
        last = run.pick("2", "null", '"x"', "{}", "[]", "1.5", run.value_text(1))
        name, again = run.pick(('"a"', '"a"'), ('"a"', '"\\u0061"'), ('"é"', '"\\u00e9"'), ('""', '""'),
                               ('"a"', '"A"'))
        text = f"{{{name}:{first},{again}:{last}}}"
        run.event(run.write(path, text if run.chance(2) else f'{{"in":[{text}]}}'))
        run.event(run.read(path))


def nested(run, levels):
    """A value of so many levels of arrays and objects."""
    kinds = [run.pick(("[", "]"), ('{"a":', "}")) for _ in range(levels)]
    inner = "" if kinds and kinds[-1][0] == "[" and run.chance(2) else "1"
    return "".join(begin for begin, _ in kinds) + inner + "".join(end for _, end in reversed(kinds))


def depths(run):
    """Objects of about as many levels as are read, and of far more."""
    while run.room() > 0:
        path = run.path()
        levels = run.pick(125, 126, 127, 127, 128, 128, 129, run.pick(300, 600))
        text = f'{{"a":{nested(run, levels - 1)}}}'
        if run.chance(8):
            text = "[" * levels if run.chance(2) else text[:-levels]
        run.event(run.write(path, text))
        run.event(run.read(path))


def spelled(run, path):
    """A path as a target has it: some of its characters are percent-encoded, and those that must be."""
    return "".join(encoded(run, c) if c in " %?" or run.chance(4) else c for c in path)


def encoded(run, character):
    """A character, percent-encoded by digits of either case."""
    return "".join(f"%{byte:02x}" if run.chance(2) else f"%{byte:02X}" for byte in character.encode())


ODD_ESCAPES = ("%", "%%", "a%", "%4", "%zz", "%%34", "%2541", "%25", "%u0041", "a%2", "%2f", "%2F%2f", "a%2F", "%2Fa",
               "a%2fb/", "a/%2e", "%2E%2e", "a/%2e%2e/b", ".%2e", "%2e%2e%2e", "a%2f..", "%00", "a%1f", "%7F",
               "a%0d%0ab", "%ff", "%C3", "%c3%28", "%c3%A9", "%ed%a0%80", "%f4%90%80%80", "%F0%9F%98%80", "%e9", "%5C",
               "%3f%23", "%2Aa", "a%3Flist=true", "%20", "+", "%2B", "%7e", "a%20", "%41%", "0%30")


def odd_escape(run):
    """A target with percent signs that are escapes, or not, in any place of it."""
    if run.chance(6):
        letter, size = run.pick(("%78", 1), ("%c3%a9", 2), ("%2541", 3), ("x%20", 2))
        return "/v1/cubbyhole/" + letter * (502 // size) + run.pick("", "", "y", "%79", "/", "yy")
    return run.pick(
        "/v1/cubbyhole/" + run.pick(*ODD_ESCAPES), "/v1/cubbyhole/" + run.pick(*ODD_ESCAPES),
        "/v1/cubbyhole/a/" + run.pick(*ODD_ESCAPES), "/v1/" + run.pick(*ODD_ESCAPES),
        run.pick("/v1/%63ubbyhole/a", "/v1/cubbyhole%2Fa", "/v1/cubbyhole%2fa%2F", "/v1/cubbyhole%",
                 "/v1%2Fcubbyhole/a", "/%761/cubbyhole/a", "%2Fv1/cubbyhole/a", "/v2/%", "/v1/cubbyhole/a?%",
                 "/v1/cubbyhole/%61?list=tru%65", "/v1/cubbyhole/a%3F?a", "/v1/%2e/cubbyhole/a",
                 "/v1/auth/token/lookup%2Dself", "/v1/n%6fne/x"))


def odd_target(run):
    """A target that may be a path, or not."""
    if run.chance(3):
        return odd_escape(run)
    if run.chance(6):
        length = run.pick(511, 512, 512, 513, 513, 514)
        path = run.pick("cubbyhole/", "cubbyhole/a/", "cubbyhole/b/c/").ljust(length, "x")
        return "/v1/" + path + run.pick("", "", "/")
    return run.pick(
        "/v1/cubbyhole/a/", "/v1/cubbyhole/a//", "/v1/cubbyhole//a", "/v1//cubbyhole/a", "/v1/cubbyhole/./a",
        "/v1/cubbyhole/..", "/v1/cubbyhole/.", "/v1/cubbyhole/...", "/v1/cubbyhole/.a", "/v1/cubbyhole/a/../b",
        "/v1/", "/v1", "/v1//", "/v2/cubbyhole/a", "/V1/cubbyhole/a", "/", "*", "v1/cubbyhole/a", "//v1/a",
        "http://b/v1/cubbyhole/a", "b:80", "/v1/Cubbyhole/a", "/v1/cubbyholes/a", "/v1/cubbyhol", "/v1/cubbyhole\\a",
        '/v1/cubbyhole/"', "/v1/cubbyhole/<a>", "/v1/cubbyhole/a#b", "/v1/cubbyhole/{a}", "/v1/cubbyhole/:a",
        "/v1/cubbyhole/*a", "/v1/cubbyhole/^|`", "/v1/cubbyhole/é", "/v1/cubbyhole/e\u0301", "/v1/cubbyhole/\u0085",
        "/v1/cubbyhole/\ufffe", "/v1/none", "/v1/.", "/v1/..", "/v1/./cubbyhole/a", "/v1x/a",
        "/v1/cubbyhole/a/b/c/d/e/f", "/v1/cubbyhole/" + "é" * run.pick(250, 251, 252),
        "/v1/cubbyhole/" + "a/" * run.pick(250, 251, 252), "/" + "v1/a" * 200)


def paths(run):
    """Paths of every form: segments, final slashes, lengths, letters past ASCII, targets that are not valid."""
    while run.room() > 0:
        target = odd_target(run)
        if run.chance(2):
            run.event(request(run.pick("POST", "PUT"), target, run.fields(), json.dumps({"to": target[-9:]})))
        run.event(request("GET", run.pick(target, target, target.rstrip("/"), target + "/"), run.fields()))


def authorization(run, token):
    """An Authorization field with a token, in one of its forms, or nearly."""
    name = run.pick("Authorization", "Authorization", "authorization", "AUTHORIZATION", "Proxy-Authorization")
    scheme = run.pick("Bearer", "Bearer", "Bearer", "bearer", "BEARER", "beArEr", "Basic", "Token", "Bearer:",
                      "Bearers")
    value = run.pick(
        f"{scheme} {token}", f"{scheme} {token}", f"{scheme} {token}", f"{scheme}   {token}", f"{scheme}\t{token}",
        f"{scheme} \t{token}", f" {scheme} {token} ", f"{scheme}{token}", f"{scheme} {token} x", f"{scheme} x {token}",
        f"{scheme} {token},", f'{scheme} "{token}"', f"{scheme} {token.upper()}", f"{scheme} {token[4:]}", token,
        run.pick(scheme, f"{scheme} ", f"{scheme} é", "", f"{scheme} {token}, {scheme} {token}"))
    return f"{name}: {value}"


def authorized(run, token, other):
    """Fields of the client token, an Authorization field among them, and now and then the other token beside it."""
    bearer = authorization(run, token)
    fields = run.pick(
        [bearer], [bearer], [bearer], ["X-Vault-Token:", bearer], ["X-Vault-Token: ", bearer],
        [f"X-Vault-Token: {other}", bearer], [f"X-Vault-Token: {token}", authorization(run, other)],
        [bearer, authorization(run, other)], [bearer, bearer], [bearer, f"X-Vault-Token: {other}", "x-vault-token: x"])
    run.random.shuffle(fields)
    return ["Host: b", *fields]


def odd_token(run):
    """Fields of the client token: another one, none, two, other spellings."""
    root = run.root()
    if run.chance(3):
        return authorized(run, root, run.pick("x", "nobody", root + "x"))[1:]
    return run.pick(
        [], ["X-Vault-Token:"], ["X-Vault-Token: "], [f"X-Vault-Token: {root}x"], [f"X-Vault-Token: {root[:-1]}"],
        [f"X-Vault-Token: {root[4:]}"], [f"X-Vault-Token: {root.upper()}"], [f"X-Vault-Token: HVS{root[3:]}"],
        ["X-Vault-Token: hvs." + identifier(run.first_word + 2)],
        ["X-Vault-Token: hvs." + identifier(run.first_word)], ["X-Vault-Token: é"], ["X-Vault-Token: nobody"],
        [f"X-Vault-Token: {root} {root}"], [f"X-Vault-Token: {root},x"], [f"X-Vault-Token:{root}"],
        [f"X-Vault-Token: \t {root} \t "], [f"x-VAULT-tokeN: {root}"], [f"X-Vault-Token: \"{root}\""],
        [f"X-Vault-Token: {root}", f"X-Vault-Token: {root}"], [f"X-Vault-Token: {root}", "x-vault-token: x"],
        ["X-Vault-Token:", f"X-Vault-Token: {root}"], [f"X_Vault_Token: {root}"], [f"X-Vault-Tokens: {root}"],
        [f"Cookie: {root}"], ["X-Vault-Token: " + "x" * 300], [f"X-Vault-Token: {root.replace('-', '')}"])


def tokens(run):
    """Fields of the client token: the root token alone is there, and what the others send changes nothing."""
    path = run.path()
    run.event(run.write(path, '{"kept":1}'))
    while run.room() > 0:
        fields = ["Host: b", *odd_token(run)]
        target = "/v1/" + run.pick(path, path, path, "none/x")
        if run.chance(6):
            target = run.pick("/v2/x", "/v1/a//b", "/")
        if run.chance(2):
            run.event(request("GET", target, fields))
        else:
            run.event(request(run.pick("PUT", "POST"), target, fields, run.pick('{"other":2}', "{", '{"a":1.5}')))
        if run.chance(4):
            run.event(run.read(path))


def escapes(run):
    """Paths with percent-encoded bytes: what is written by one spelling is read by another, if policies allow it."""
    run.size = run.random.randrange(6, 15)
    mount, body = run.pick(("cubbyhole/", '{"a":1}'), ("cubbyhole/", '{"a":1}'), ("secret/data/", '{"data":{"a":1}}'))
    path = mount + run.pick("a b", "a/b", "a%b", "%41", "a?b=c", "a#b", "été", "Ω/😀", "a+b", 'x"y', "a/b/c d", ".a",
                            "...", "a\\b", "a*", "a&b=%")
    token = run.root()
    if run.chance(3):
        pattern = run.pick(path, path, path + "*", mount + "*", spelled(run, path))
        run.grant("p", {pattern: ["read", "create", "update"]})
        token, _ = run.make({"policies": ["p"], "no_default_policy": True})
    while run.room() > 0:
        target = "/v1/" + spelled(run, path) + run.pick("", "", "", "/", encoded(run, "/"))
        way = run.random.randrange(11)
        if way < 3:
            run.event(request(run.pick("PUT", "POST"), target, run.fields(token), body))
        elif way < 6:
            run.event(request("GET", target + run.pick("", "", "?", "?version=%31", "?a%"), run.fields(token)))
        elif way < 9:
            run.event(request(run.pick("GET", "GET", "PUT"), odd_escape(run), run.fields(), run.pick(None, body)))
        elif way == 9:
            run.event(request(run.pick("LIST", "DELETE"), target, run.fields(run.pick(token, run.root()))))
        else:
            run.call(run.pick("LIST", "GET"), run.pick("secret/metadata", "secret/m%65tadata", "sys/policies/acl/%70",
                                                       "sys/policies/%61cl"))


def authorizations(run):
    """The client token in an Authorization field: of root and of tokens with few uses, in every form, and twice."""
    run.size = run.random.randrange(6, 15)
    run.make({"num_uses": run.pick(1, 2, 3), "policies": run.pick(["root"], ["default"])})
    while run.room() > 0:
        token, other = run.pick(run.token(), run.root()), run.pick(run.token(), run.stranger(), "x")
        fields = authorized(run, token, other) if not run.chance(6) else run.fields(token)
        target = run.pick("/v1/auth/token/lookup-self", "/v1/auth/token/lookup-self", "/v1/cubbyhole/a", "/v1/none",
                          run.pick("/v2/x", "/v1/a//b", "/v1/auth/token/lookup%2Dself"))
        if run.chance(5):
            run.event(request("PUT", "/v1/cubbyhole/a", fields, run.pick('{"a":1}', "{")))
        else:
            run.event(request("GET", target, fields))


def methods(run):
    """Methods that are not served end the connection."""
    for connection in range(1, run.size + 1):
        method = run.pick("HEAD", "PATCH", "OPTIONS", "TRACE", "CONNECT", "get", "Post", "puT", "GETX", "GE", "X",
                          "SCAN", "list", "Delete", "PROPFIND", "!#$%&'*+.^_`|~9", "G", "P" * 40)
        target = run.pick("/v1/cubbyhole/a", "/v1/none", "/v2/a", "/v1/a//b", "*")
        fields = run.fields() if not run.chance(4) else ["Host: b", "X-Vault-Token: x", "X-Vault-Token: y"]
        run.event(request(method, target, fields, run.pick(None, None, '{"a":1}')), connection)
        run.event(run.pick("", run.read("cubbyhole/a")), run.pick(connection, connection, connection + 1))


ODD_LINES = ("Host: c", "host:", "A : b", " A: b", "\tA: b", "A", ": b", "A b: c", "A\t: b", "(a): b", "é: b",
             "A: \x01", "A: \x7f", "A: b\rc", "A: \x00", "A\x00: b", "A: é", "A: \u0085", "A: b\tc",
             "!#$%&'*+-.^_`|~0: b", "A:b:c", "A:", "A: \"", "A/b: c", "A@: b", "A: b\n c", "A: b\r\n c",
             "A: b\r\n\tc", "A;b: c", "A=b: c", "[A]: b", "{A}: b")
ODD_LENGTHS = ("Content-Length: x", "Content-Length:", "Content-Length: ", "Content-Length: -1", "Content-Length: +7",
               "Content-Length: 7, 7", "Content-Length: 7 7", "Content-Length: 0x7", "Content-Length: 7.0",
               "Content-Length: 7e0", "Content-Length: 7\r\nContent-Length: 7",
               "Content-Length: 7\r\ncontent-length: 8", "Content-Length: ７", "Content-Length: 7;",
               "Content-Length: \"7\"", "Content-Length: 1_0", "Content-Length:\t7\r\nContent-Length:7")
GOOD_LENGTHS = ("Content-Length: 7", "Content-Length:7", "Content-Length: \t 7 \t ", "content-length: 007",
                "CONTENT-LENGTH: 0000000000000000000000000000000000000000000000000007")


ODD_FIRST_LINES = (
    "GET  {} HTTP/1.1", "GET {}  HTTP/1.1", "GET {} HTTP/1.1 ", " GET {} HTTP/1.1", "GET {} HTTP/1.2",
    "GET {} HTTP/2", "GET {} HTTP/2.0", "GET {} http/1.1", "GET {}", "GET", "", "GET {} HTTP/1.1\t",
    "GET\t{}\tHTTP/1.1", "GET HTTP/1.1", "GET {} b HTTP/1.1", "G(T {} HTTP/1.1", "GÉT {} HTTP/1.1",
    "GET {}\x01 HTTP/1.1", "GET {}\x7f HTTP/1.1", "GET {}\tb HTTP/1.1", "GET {} HTTP/1.11", "GET {} HTTP/11",
    "GET {} HTTP /1.1", "HTTP/1.1 200 OK", "GET\x00{} HTTP/1.1", "GET {} HTTP/1.1\x00", "GET {}\r HTTP/1.1",
    "{{}}GET {} HTTP/1.1", "GET {} HTTP/0.9", "GET {} HTTP/1,1", "GET {} HTTP/01.1")


def odd_head(run, target="/v1/cubbyhole/a"):
    """A request whose head is well made, or has one fault, or what is nearly one."""
    first = f"GET {target} HTTP/1.1"
    fields = [f"X-Vault-Token: {run.root()}", "Host: b"]
    body, before, end = "", "", "\r\n"
    kind = run.random.randrange(10)
    if kind < 3:
        first = run.pick(*ODD_FIRST_LINES).format(target)
    elif kind < 6:
        fields.append(run.pick(*ODD_LINES))
    elif kind < 8:
        fields.append(run.pick(*ODD_LENGTHS, *GOOD_LENGTHS * 2))
        body = '{"a":1}'
    elif kind == 8:
        fields = run.pick(fields[:1], [*fields, "Host: b"], [*fields[:1], "Hosts: b"], [*fields[:1], "Host:"])
    else:
        before, end = run.pick(("\r\n", "\r\n"), ("\n", "\r\n"), ("\r", "\r\n"), (" ", "\r\n"), ("", "\n"))
    run.random.shuffle(fields)
    return before + "".join(line + end for line in [first, *fields]) + "\r\n" + body


def heads(run):
    """Heads that are not valid or nearly so, each on a connection of its own, and what comes behind them."""
    path = run.path()
    run.event(run.write(path, run.object_text(1)))
    connection = run.pick(1, GREATEST_CONNECTION - 20)
    while run.room() > 0:
        connection += 1
        run.event(odd_head(run, "/v1/" + path), connection)
        if run.chance(3):
            run.event(run.pick("", "\r\n\r\n", run.read(path)), connection)


def changed_heads(run):
    """Requests with one character taken out, put in or another one, on a connection each."""
    path = run.path()
    run.event(run.write(path, run.object_text(1)))
    letters = " \t\r\n:,;/.\"()<>@[]{}=\\-_aZ9\x00\x01\x0b\x1f\x7f\x80é€"
    for connection in range(2, run.size + 1):
        text = run.read(path) if run.chance(2) else run.write(path, '{"a":1}')
        place = run.random.randrange(text.index("\r\n\r\n") + 4)
        text = text[:place] + run.pick("", *letters) + text[place + run.random.randrange(2):]
        run.event(text, connection)
        if run.chance(3):
            run.event(run.pick("", "\r\n\r\n", run.read(path)), connection)


def line_ends(run):
    """Line ends: LF alone, CR alone, empty lines before a request, an empty line that comes late."""
    path = run.path()
    run.event(run.write(path, run.object_text(1)))
    for connection in range(2, run.size + 1):
        text = run.read(path) if run.chance(2) else run.write(path, '{"a":1}')
        head, _, body = text.partition("\r\n\r\n")
        lines = head.split("\r\n")
        ends = [run.pick("\r\n", "\n") for _ in lines[1:]] + [run.pick("\r\n", "\r\n", "\r\n", "\n")]
        if run.chance(3):
            ends[run.random.randrange(len(ends))] = run.pick("\r", "\n\r", "\r\r\n", "\n\n", "\r\n\n")
        before = run.pick("", "", "\r\n", "\n", "\n\n\r\n", "\r\n" * 40, run.pick("\r", "\r\r\n", "\n\r"))
        last = run.pick("\r\n", "\r\n", "\r\n", "\r\n", "\n", "\r", "")
        run.event(before + "".join(line + end for line, end in zip(lines, ends)) + last + body, connection)
        if run.chance(2):
            run.event(run.pick("", "\r\n", "\r\n\r\n", "\n", text), connection)


def many_fields(run):
    """The number of fields that are read: 64 at most, the known ones among them."""
    path = run.path()
    run.event(run.write(path, run.object_text(1)))
    for connection in range(2, run.size + 1):
        body = run.pick(None, None, '{"a":1}')
        known = run.fields()
        count = run.pick(62, 63, 64, 64, 65, 66, 100) - len(known) - (body is not None and run.chance(2))
        more = [run.pick("A: b", "B:", "C: " + "c" * n) for n in range(count)]
        place = run.random.randrange(len(known) + 1)
        fields = known[:place] + more + known[place:]
        run.event(request("PUT" if body else "GET", "/v1/" + path, fields, body), connection)


def body_lengths(run):
    """Lengths that are not those of the body: what is over comes before the next request."""
    path = run.path()
    for connection in range(1, run.size + 1):
        body = run.pick('{"a":1}', '{"é":"😀"}', '{"a":"\\u00e9"}', "", "{}", '{"a":{"b":[]}}')
        length = max(0, len(body.encode()) + run.pick(-3, -2, -1, -1, 0, 0, 1, 1, 2, 5))
        method = run.pick("PUT", "POST", "PUT", "GET")
        fields = [*run.fields(), f"Content-Length: {length}"]
        run.event(request(method, "/v1/" + path, fields) + body, connection)
        run.event(run.pick("", "\r\n", "}", " ", run.read(path)), connection)
        run.event(run.pick("", run.read(path)), run.pick(connection, connection + 100))


def cuts(run):
    """Requests that come in pieces, cut anywhere; the words and moment are those of the last piece."""
    path = run.path()
    while run.room() > 0:
        text = run.pick(run.write(path, run.object_text(1)), run.read(path), run.served(),
                        run.write(path, run.pick(*NO_JSON)))
        for piece in run.pieces(text, min(run.pick(1, 2, 2, 3, 5), run.room())):
            run.event(piece)


def single_bytes(run):
    """The last bytes of a request, one by one."""
    path = run.path()
    run.event(run.write(path, run.object_text(1)))
    text = run.pick(run.read(path), run.write(path, '{"a":1}'), run.pick("\r\n", "\n") + run.read(path))
    count = min(run.room() - 1, len(text))
    place = len(text) - count if run.chance(2) else text.index("\r\n\r\n") + 4 - count
    run.event(text[:place])
    for piece in text[place:place + count - 1]:
        run.event(piece)
    run.event(text[place + count - 1:])


def pipelines(run):
    """Several requests in one piece: each event answers one of them."""
    while run.room() > 0:
        path = run.path()
        count = run.pick(2, 2, 3, 4)
        parts = [run.pick(run.write(path, run.object_text(1)), run.read(path), run.served()) for _ in range(count)]
        if run.chance(4):
            parts.insert(run.random.randrange(count), run.pick("\r\n", "\n\n", "garbage\r\n\r\n", "\r\n\r\n"))
        text = "".join(parts)
        waiting = run.pieces(text, 2)[-1] if run.chance(3) else ""
        run.event(text[:len(text) - len(waiting)])
        for _ in range(count - 1):
            run.event("")
        if waiting:
            run.event(waiting)
            run.event("")


def connections(run):
    """Several connections at once, each with a stream of its own, in any order."""
    run.event(run.write(run.path(), run.object_text(1)))
    numbers = [run.pick(0, 1, 2), run.pick(3, 2**32, 2**63), run.pick(7, 2**63 + 1, GREATEST_CONNECTION)]
    streams = {}
    for number in numbers:
        text = "".join(run.served() for _ in range(run.pick(1, 2, 3)))
        streams[number] = run.pieces(text, run.pick(2, 3, 4)) + ["", ""]
    while run.room() > 0 and any(streams.values()):
        number = run.random.choice([n for n in numbers if streams[n]])
        run.event(streams[number].pop(0), number)


def closing(run):
    """Fields that end a connection after its reply, and fields that do not."""
    path = run.path()
    run.event(run.write(path, run.object_text(1)))
    for connection in range(2, run.size + 1):
        element = run.pick(
            "close", "close", "Close", "CLOSE", "keep-alive", "keep-alive, close", "close,keep-alive", " close ,",
            ",,close", "close;q=1", "closed", "clos", "\"close\"", "upgrade,\tclose", "", ",", "close close",
            "x, y, cLoSe")
        fields = [*run.fields(), f"{run.pick('Connection', 'connection')}: {element}"]
        if run.chance(5):
            fields.append(run.pick("Connection: close", "Connection: keep-alive", "Proxy-Connection: close",
                                   "Keep-Alive: close"))
        run.random.shuffle(fields)
        method, target, body = run.pick(
            ("GET", "/v1/" + path, None), ("GET", "/v1/" + path, None), ("PUT", "/v1/" + path, '{"a":1}'),
            ("PUT", "/v1/" + path, "["), ("GET", "/v2/a", None), ("GET", "/v1/a//b", None), ("GET", "/v1/none", None))
        text = request(method, target, fields, body)
        run.event(text + run.pick("", "", run.read(path), "x"), connection)
        run.event(run.pick("", run.read(path)), connection)


def moments(run):
    """Moments that go back and moments at the ends of what is handed in; words of every size."""
    days = (0, 1, 59, 86399, 86400, 951782399, 951868800, 1709164800, 4107542400, GREATEST_MOMENT,
            GREATEST_MOMENT - 1, 68169600, 1000000000)
    words = (0, 1, GREATEST_WORD, GREATEST_WORD - 6, 2**64 - 1, 2**64, 2**127, 0xABCDEF << 100, run.first_word)
    path = run.path()
    while run.room() > 0:
        word = run.pick(*words, run.random.getrandbits(128))
        moment = run.pick(*days, run.random.randrange(GREATEST_MOMENT + 1))
        run.event(run.pick(run.write(path, run.object_text(1)), run.read(path)), moment=moment, word=word)


def spellings(run):
    """Lines in other spellings: the order of members, white space, escapes, capitals, members of one name."""
    lines = []
    while run.room() > 0:
        run.event(run.served(), run.pick(1, 2), word=run.random.getrandbits(128))
    for line in run.lines:
        members = list(json.loads(line).items())
        run.random.shuffle(members)
        if run.chance(4):
            members.insert(0, (members[-1][0], run.pick(0, "x", None, [], {"a": 1.5}, 2.5)))
        parts = [run.member(respelled(run, name), respelled(run, value)) for name, value in members]
        text = run.pick("", " ", "\t") + "{" + ",".join(parts) + "}" + run.pick("", "\r", " ")
        lines.append(text.replace("\n", " ").encode())
    run.lines = lines


def respelled(run, value):
    """One way to write a member of a line. Words may have capitals."""
    if not isinstance(value, str):
        return json.dumps(value)
    if len(value) == 32 and run.chance(2):
        value = value.upper()
    return '"' + "".join(run.character(c) if run.chance(3) else json.dumps(c)[1:-1] for c in value) + '"'


def changed_lines(run):
    """Lines with one byte taken out, put in or another one: most are bad."""
    while run.room() > 0:
        run.event(run.served(), run.pick(1, 2))
    place = run.random.randrange(min(3, run.size), run.size + 1) if not run.chance(6) else 0
    line = run.lines[place]
    column = run.random.randrange(len(line) + 1) if run.chance(2) else run.random.randrange(80)
    byte = run.pick(b"", bytes([run.random.randrange(256)]),
                    run.pick(*[bytes([b]) for b in b'{}[]",:\\0-+.eEu \n\r\t']))
    run.lines[place] = line[:column] + byte + line[column + run.random.randrange(2):]


def bad_line(run):
    """A line that is no event."""
    good = {"conn": 1, "moment": 1000, "words": "0" * 32, "piece": ""}
    text = json.dumps(good)
    short = run.pick(b"", b" ", b"{}", b"null", b"[]", b"1", b'"x"', b"x", b"{", b"\xff", b"\x00")
    return run.pick(
        short, b"\xef\xbb\xbf" + text.encode(),
        json.dumps(run.pick(*bad_members(run, good))).encode(),
        json.dumps(run.pick(*bad_members(run, good))).encode(),
        run.pick(f"[{text}]", text + text, text + ",", text[:-1], text[1:]).encode(),
        text.replace("1000", run.pick("-0", "1e3", "1000.0", "01000", "+1", "1" + "0" * 30, "0x10")).encode(),
        text.replace('""', run.pick('"\\ud800"', '"\x01"', '"\\x"', "''")).encode(),
        text.replace('"conn": 1', '"conn": 1, "conn": -1').encode(),
        text.replace("1000", str(GREATEST_MOMENT + 1)).encode(),
        text.replace("1,", f"{GREATEST_CONNECTION + 1},").encode(),
        text.encode()[:-2] + run.pick(b"\xff", b"\xc3", b"\xed\xa0\x80", b"\xf5\x80\x80\x80") + b'"}')


def bad_members(run, good):
    """Objects with the members of an event, but for one that is lacking, wrong or over."""
    lacking = dict(good)
    del lacking[run.pick("conn", "moment", "words", "piece")]
    return (lacking, {"moment": 1000, "words": "0" * 32}, {**good, "more": 1}, {**good, "Conn": 1},
            {**good, "moment": GREATEST_MOMENT + 1}, {**good, "conn": GREATEST_CONNECTION + 1},
            {**good, run.pick("conn", "moment"): run.pick(-1, 1.5, "1", None, True, [], {})},
            {**good, "words": run.pick("0" * 31, "0" * 33, "g" * 32, "", " " + "0" * 31, "０" * 32, "-" + "0" * 31)},
            {**good, "words": run.pick(0, None, [], ["0" * 32], {})},
            {**good, "piece": run.pick(None, 1, [], ["a"], {}, True)})


def lines(run):
    """A bad line behind good ones, or at once; replies before it are written, those behind it are not."""
    while run.room() > 0:
        run.event(run.served(), run.pick(1, 2))
    if not run.chance(5):
        del run.lines[run.random.randrange(2, len(run.lines)):]
        run.lines.append(bad_line(run))
        if not run.chance(4):
            run.event(run.served())
        return
    start = run.pick(b"", b"{}", b"null", run.lines[1], b'{"moment":1}', b'{"moment":-1,"words":"%032d"}' % 0,
                     b"\xff", b'{"moment":250000000001,"words":"%032d"}' % 0, b'{"moment":1.0,"words":"%032d"}' % 0,
                     b'{"moment":1,"words":"%031d"}' % 0, b'{"moment":1,"words":"%032d","conn":1}' % 0,
                     run.lines[0] + b"}")
    run.lines = [] if run.chance(6) else [start, *run.lines[1:run.pick(1, 3)]]


def large(run):
    """Long heads and bodies that are served."""
    path = run.path()
    size = run.pick(4096, 8192, 8193, 12000)
    run.event(run.write(path, json.dumps({"a": "x" * size, "b": [0] * run.pick(1, 500)})))
    run.event(run.read(path))
    run.event(request("GET", "/v1/" + path, [*run.fields(), "A: " + "b" * run.pick(4000, 8000)]), moment=0)
    for piece in run.pieces("\r\n" * 2000 + run.write(path, "{" + " " * size + '"a":1}') + run.read(path), 4):
        run.event(piece)
    while run.room() > 0:
        run.event(run.pick("", run.read(path)))


def mixed(run):
    """Requests of all kinds, on three connections, some cut and some pipelined."""
    path = run.path()
    run.event(run.write(path, run.object_text(1)))
    while run.room() > 0:
        text = run.pick(
            run.served(), run.served(), run.served(), run.read(path), run.read(path),
            run.write(path, run.pick(*NO_JSON)), request("GET", odd_target(run), run.fields()),
            request("GET", "/v1/" + path, ["Host: b", *odd_token(run)]),
            request("GET", "/v1/" + path, [*run.fields(), "Connection: close"]), odd_head(run, "/v1/" + path))
        connection = run.pick(1, 1, 2, 3, 4)
        if run.chance(3):
            text += run.served()
        for piece in run.pieces(text, run.pick(1, 1, 1, 2)):
            run.event(piece, connection)
            if run.chance(4):
                run.event("", run.pick(1, 2, 3))


UNSERVED_ROUTES = (
    ("GET", "auth/token/roles/x", None), ("POST", "auth/token/create/x", '{"ttl":60}'),
    ("POST", "auth/token/tidy", "["), ("LIST", "auth/token/roles", None), ("GET", "auth/token", None),
    ("POST", "secret/metadata", '{"max_versions":1}'), ("PUT", "secret/metadata", "["),
    ("GET", "secret/subkeys/x", None), ("LIST", "sys/leases/lookup/db", None),
    ("POST", "sys/mounts/db/tune", '{"type":"issued"}'),
    ("POST", "sys/leases/revoke-force/secret", None), ("GET", "sys/policy/default", None),
    ("PUT", "sys/leases/tidy", "{}"), ("GET", "sys/auth", None),
    ("GET", "cubbyhole", None), ("DELETE", "cubbyhole", None), ("POST", "cubbyhole", '{"a":1}'),
    ("GET", "sys", None), ("GET", "auth", None), ("DELETE", "none", None), ("LIST", "secret", None))


def unserved_routes(run):
    """Routes of the broker that are not served so far, and methods of cubbyholes and secrets that are not. Lists and
    deletions of an object are between them."""
    path = run.path()
    run.event(run.write(path, run.object_text(1)))
    while run.room() > 0:
        method, route, body = run.pick(*UNSERVED_ROUTES)
        if run.chance(3):
            method, route, body = run.pick("LIST", "DELETE"), path, run.pick(None, None, '{"a":1}', "{")
        fields = run.fields() if not run.chance(6) else ["Host: b", *odd_token(run)]
        run.event(request(method, "/v1/" + route + run.pick("", "", "", "/"), fields, body))
        if run.chance(4):
            run.event(run.read(path))


def queries(run):
    """Queries: `list=true`, versions, and parts that are ignored."""
    path = run.path()
    run.event(run.write(path, run.object_text(1)))
    while run.room() > 0:
        parts = [run.pick("list=true", "list=true", "list=1", "list=false", "list=True", "list", "version=1",
                          "version=2", "version=", "version", "versions=1", "a=b", "", "?", "list=true?", "../b", "/",
                          "é")
                 for _ in range(run.random.randrange(4))]
        target = "/v1/" + path + run.pick("?", "?", "?", "/?", "??") + "&".join(parts)
        if run.chance(8):
            target = run.pick("/v2/x?list=true", "/?", "/v1?a", "/v1/?a", "/v1//?", "?", "?/v1/" + path)
        method = run.pick("GET", "GET", "GET", "GET", "PUT", "LIST", "DELETE")
        run.event(request(method, target, run.fields(), run.pick(None, None, '{"a":1}')))


def limits(run):
    """Heads of HTTP/1.0, transfer codings, hosts, too great lengths, and heads about as long as they may be."""
    for connection in range(1, run.size + 1):
        fields = run.fields()
        version = "HTTP/1.1"
        blank = ""
        kind = run.random.randrange(6)
        if kind in (0, 1):
            version = run.pick("HTTP/1.0", "HTTP/1.0", "HTTP/1.1")
            fields = run.pick(fields, [*fields, "Host: c"], [f"X-Vault-Token: {run.root()}"],
                              [*fields, "Connection: keep-alive"])
        if kind in (1, 2):
            fields.append(run.pick("Transfer-Encoding: chunked", "transfer-encoding: identity", "Transfer-Encoding:",
                                   "Transfer-Encoding: gzip, chunked\r\nContent-Length: 3"))
        if kind in (2, 3):
            fields.append("Content-Length: " + run.pick("1048576", "1048577", "2000000", "0001048577", "x",
                                                        "18446744073709551616", "9" * 50))
        if kind == 4 and not run.chance(4):
            blank = "\r\n" * run.pick(0, 0, 1, 100)
            rest = len(blank) + len(request("GET", "/v1/cubbyhole/a", [*fields, "A: "]))
            fields.append("A: " + "b" * (16384 - rest + run.pick(-1, 0, 0, 1, 1, 700)))
        method = run.pick("GET", "PUT") if kind != 4 else "GET"
        run.event(blank + request(method, "/v1/cubbyhole/a", fields, version=version), connection)
        run.event(run.pick("", run.read("cubbyhole/a"), "0\r\n\r\n"),
                  run.pick(connection, connection, connection + 1))


def hex_and_lists(run):
    """Pieces in hexadecimal digits, and words as lists of eight. The last line but one may be bad."""
    if run.chance(4):
        run.lines[0] = json.dumps({"moment": run.moment, "words": eight_words(run, run.first_word)}).encode()
    while run.room() > 2:
        for piece in run.pieces(run.served().encode(), run.pick(1, 1, 2, 3)):
            run.add(in_digits(run, piece))
    run.add({**in_digits(run, b""), **run.pick(
        {}, {}, {}, {"hex": "0"}, {"hex": "0g"}, {"hex": " 00"}, {"hex": 0}, {"piece": ""}, {"words": []},
        {"words": ["0" * 32] * 7}, {"words": ["0" * 32] * 9}, {"words": ["0" * 31, *["0" * 32] * 7]})})
    run.event(run.served())


def in_digits(run, piece):
    """An event whose piece is written in hexadecimal digits, and mostly its words as a list."""
    words = eight_words(run, 0x10 * len(run.lines))
    digits = piece.hex()
    return {"conn": run.pick(1, 1, 1, 2), "moment": run.moment, "words": run.pick(words, words, words[0]),
            "hex": run.pick(digits, digits.upper())}


def eight_words(run, first):
    """Eight words, mostly each one greater than the one before."""
    words = [(first + n) % 2**128 for n in range(8)]
    if run.chance(4):
        words[3:] = [run.random.getrandbits(128) for _ in range(5)]
    return [run.pick(f"{word:032x}", f"{word:032X}") for word in words]
