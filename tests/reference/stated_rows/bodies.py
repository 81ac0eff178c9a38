"""Rows of bodies: JSON, and the members that are read from it."""

from .tools import BAD_JSON, USED, request, row


@row("Bodies at the limits of JSON")
def limits_of_json(r):
    r.post("cubbyhole/a", '{"a":-0}').refused(400, BAD_JSON)
    r.post("cubbyhole/a", '{"a":1.5}').refused(400, BAD_JSON)
    r.post("cubbyhole/a", '{"a":' + "[" * 127 + "]" * 127 + "}").refused(400, BAD_JSON)
    r.post("cubbyhole/a", '{"a":' + "[" * 126 + "]" * 126 + "}").is_(204)
    r.post("cubbyhole/b", '{"a":18446744073709551615}').is_(204)
    got = r.get("cubbyhole/b").is_(200)
    assert b'"data":{"a":18446744073709551615}' in got.body


@row("Texts that are JSON, and the bytes that they are read back as")
def json_read_back(r):
    for text, back in (
            ('{"b":1,"a":2}', '{"a":2,"b":1}'),
            (' \t\r\n{ "a" : [ 1 , true , false , null , { } , [ ] ] } \n', '{"a":[1,true,false,null,{},[]]}'),
            ('{"a":1,"a":2}', '{"a":2}'),
            ('{"a":1.5,"a":2}', '{"a":2}'),
            ('{"a":"\\u0041\\u00e9\\ud83d\\ude00\\/\\"\\\\"}', '{"a":"Aé😀/\\"\\\\"}'),
            ('{"a":"\\b\\f\\n\\r\\t\\u0000\\u001F\\u007f\\u0008"}', '{"a":"\\b\\f\\n\\r\\t\\u0000\\u001f\x7f\\b"}'),
            ('{"é":1,"z":2,"\\uffff":3,"😀":4,"":5}', '{"":5,"z":2,"é":1,"\uffff":3,"😀":4}'),
            ('{"a":-9223372036854775808,"b":18446744073709551615,"c":-1,"d":0}',
             '{"a":-9223372036854775808,"b":18446744073709551615,"c":-1,"d":0}'),
            ('{"A":0,"a":0,"a.":0,"a0":0}', '{"A":0,"a":0,"a.":0,"a0":0}')):
        r.post("cubbyhole/a", text).is_(204)
        got = r.get("cubbyhole/a").is_(200)
        assert b'{"auth":null,"data":' + back.encode() + b',"lease_duration"' in got.body, (text, got.body)


@row("Bodies that are not JSON objects, or have floats", "lines")
def json_refused(r):
    for text in ("[]", "1", '"a"', "true", " ", "\n", "{", "{}{}", "{},", "nul", "nullx", "{a:1}", "{'a':1}",
                 '{"a":1,}', '{"a"}', '{"a":}', '{"a":01}', '{"a":+1}', '{"a":.5}', '{"a":1.}', '{"a":-}',
                 '{"a":1e2}', '{"a":1E0}', '{"a":0.0}', '{"a":-0}', '{"a":-0.0}', '{"a":1e999}', '{"a":1e999,"a":1}',
                 '{"a":18446744073709551616}', '{"a":-9223372036854775809}', '{"a":' + "9" * 5000 + "}",
                 '{"a":[[1.5]]}', '{"a":"\\ud800"}', '{"a":"\\udc00"}', '{"a":"\\ud800\\u0041"}', '{"a":"\\ud800x"}',
                 '{"a":"\\x41"}', '{"a":"\\u00g0"}', '{"a":"\n"}', '{"a":"\x00"}', '{"a":"\t"}', '{"a":"', '{"a":1]',
                 "\ufeff{}", '{"a":NaN}', '{"a":Infinity}', '{"a":True}', "{}\x00", "{}\x0b", "/**/{}",
                 '{"a":' + "[" * 127 + "]" * 127 + ',"a":1}'):
        r.post("cubbyhole/a", text).refused(400, BAD_JSON)
    for data in (b'{"a":"\xff"}', b'{"a":"\xed\xa0\x80"}', b'{"a":"\xc0\x80"}', b'{"\xff":1}', b"{}\xff"):
        r.raw(request("PUT", "/v1/cubbyhole/a").encode()[:-2] + b"Content-Length: %d\r\n\r\n" % len(data) + data,
            1).refused(400, BAD_JSON)


@row("No body, `null` and `{}` mean the same on the routes of tokens", "tokens")
def empty_bodies(r):
    for body in (None, "", "null", " null\n", "{}", " { } "):
        r.post("cubbyhole/a", body).refused(400, "missing data fields")
        r.post("auth/token/lookup", body).refused(400, "missing field: token")
        r.post("auth/token/create", body).is_(200)
    # a null member is a member
    r.post("cubbyhole/a", '{"a":null}').is_(204)
    r.get("cubbyhole/a").is_(200, data={"a": None})


@row("Members of a creation in every form that is read: numbers as texts, durations", "tokens")
def lenient_members(r):
    def auth(body):
        return r.post("auth/token/create", body).is_(200)["auth"]
    assert auth({"policies": " a , b,,default, "})["policies"] == ["a", "b", "default"]
    assert auth({"policies": ""})["policies"] == ["root"]
    assert auth({"policies": []})["policies"] == ["root"]
    nothing = {"policies": None, "ttl": None, "num_uses": None, "no_parent": None, "meta": None}
    assert auth(nothing)["policies"] == ["root"]
    assert auth({"policies": ["b", "a", "b"]})["policies"] == ["a", "b", "default"]
    assert auth({"policies": ["a", "root"]})["policies"] == ["root"]
    assert auth({"num_uses": "000000000000000005"})["num_uses"] == 5
    assert auth({"num_uses": 18446744073709551615})["num_uses"] == 18446744073709551615
    assert auth({"num_uses": 0})["num_uses"] == 0
    assert auth({"no_parent": "true"})["orphan"] is True
    assert auth({"no_parent": "false"})["orphan"] is False
    for ttl, seconds in ((60, 60), ("60", 60), ("1m", 60), ("1h1m1s", 3661), ("1s1h1s", 3602), ("0" * 30 + "7", 7),
                         ("0h0s", 0), ("", 0), (4294967295, 2764800), ("4294967295", 2764800),
                         ("1193046h28m15s", 2764800)):
        assert auth({"ttl": ttl})["lease_duration"] == seconds, ttl
    assert auth({"meta": {"b": "2", "a": ""}})["metadata"] == {"a": "", "b": "2"}
    assert auth({"meta": {}})["metadata"] is None
    auth({"renewable": True, "id": "", "type": "service", "period": 0, "other": [1]})
    auth({"renewable": "true", "id": None, "type": "", "period": "0s"})


@row("Members of the wrong kind, and which one of several is named", "tokens")
def members_refused(r):
    def named(body, name):
        r.post("auth/token/create", body).refused(400, f"invalid field: {name}")

    members_of_another_kind(named)
    first_of_several(named)
    # members are read before the identifiers are looked at, and these before the operation
    r.post("auth/token/create", {"num_uses": -1}, words=0).refused(400, "invalid field: num_uses")
    r.post("auth/token/create", {"policies": ["a b"]}, words=0).refused(500, USED)
    for path, name in (("auth/token/lookup", "token"), ("auth/token/lookup-accessor", "accessor"),
                       ("auth/token/renew", "token"), ("auth/token/revoke", "token"),
                       ("auth/token/revoke-orphan", "token"), ("auth/token/revoke-accessor", "accessor")):
        r.post(path, {}).refused(400, f"missing field: {name}")
        r.post(path, {name: None}).refused(400, f"missing field: {name}")
        r.post(path, {name: 1}).refused(400, f"invalid field: {name}")
    r.post("auth/token/renew", {"increment": -1}).refused(400, "missing field: token")
    r.post("auth/token/renew", {"token": "x", "increment": -1}).refused(400, "invalid field: increment")
    r.post("auth/token/renew-self", {"increment": "1d"}).refused(400, "invalid field: increment")


def members_of_another_kind(named):
    """Each member of a creation in kinds that are refused."""
    for value in (1, True, {}, [1], [None], [["a"]]):
        named({"policies": value}, "policies")
    for value in ("a", [], 1, {"a": 1}, {"a": None}, {"a": {}}):
        named({"meta": value}, "meta")
    for value in (-1, 4294967296, "4294967296", "1193046h28m16s", "1d", True, [], {}, " 1", "1h ", "h", "1h1",
                  "-1", "1.5h", "1H", "1h-1s"):
        named({"ttl": value}, "ttl")
        named({"explicit_max_ttl": value}, "explicit_max_ttl")
        named({"period": value}, "period")
    for value in (-1, "", "-1", "1h", " 1", "1234567890123456789", True, [], {}, "a"):
        named({"num_uses": value}, "num_uses")
    for value in (0, 1, "", "True", "yes", [], {}):
        named({"no_parent": value}, "no_parent")
        named({"no_default_policy": value}, "no_default_policy")
        named({"renewable": value}, "renewable")
    named({"renewable": False}, "renewable")
    named({"renewable": "false"}, "renewable")
    for value in ("x", 1, True, []):
        named({"id": value}, "id")
        named({"type": value}, "type")
    named({"type": "batch"}, "type")


def first_of_several(named):
    """Several members that are refused: the first one in the order of reading is named."""
    named({"type": "x", "id": "x", "renewable": 0, "period": -1, "no_default_policy": 0}, "no_default_policy")
    named({"type": "x", "id": "x", "renewable": 0, "period": -1}, "period")
    named({"type": "x", "id": "x", "renewable": 0}, "renewable")
    named({"type": "x", "id": "x"}, "id")
    named({"num_uses": -1, "explicit_max_ttl": -1, "ttl": -1, "meta": 1, "policies": 1}, "policies")
    named({"num_uses": -1, "explicit_max_ttl": -1, "ttl": -1, "meta": 1}, "meta")
    named({"num_uses": -1, "explicit_max_ttl": -1, "ttl": -1}, "ttl")
    named({"num_uses": -1, "explicit_max_ttl": -1}, "explicit_max_ttl")
