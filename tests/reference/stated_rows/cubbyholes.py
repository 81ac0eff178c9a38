"""Rows of cubbyholes."""

from .tools import DENIED, USED, expand, row


@row("A list of a cubbyhole, and its path with another method", "queries", "cubbyhole-lists")
def cubbyhole_list(r):
    r.post("cubbyhole/a", {"x": 1}).is_(204)
    r.post("cubbyhole/b/c", {"x": 1}).is_(204)
    r.get("cubbyhole?list=true").is_(200, data={"keys": ["a", "b/"]})
    r.get("cubbyhole").no_method("LIST")


@row("A cubbyhole belongs to one token, and goes with it", "tokens")
def cubbyhole_of_one_token(r):
    r.post("auth/token/create", {"policies": ["default"]}).is_(200)
    r.post("cubbyhole/a", {"x": 1}, token="hvs.#11").is_(204)
    r.get("cubbyhole/a").refused(404)

    def owners():
        return {owner for (kind, _), (owner, _, _) in r.broker.rows().items() if kind == 5}

    assert owners() == {expand("hvs.#11")}
    r.post("auth/token/revoke", {"token": "hvs.#11"}).is_(204)
    assert owners() == set()


@row("A path that a token wrote is not there for root, and root's deletion leaves it", "tokens", "cubbyhole-lists")
def path_of_another_token(r):
    r.post("auth/token/create", {"policies": ["default"]}).is_(200)
    r.post("cubbyhole/a", {"x": 1}, token="hvs.#11").is_(204)
    r.get("cubbyhole/a").refused(404)
    r.list("cubbyhole").refused(404)
    r.delete("cubbyhole/a").is_(204)
    r.get("cubbyhole/a", token="hvs.#11").is_(200, data={"x": 1})
    r.list("cubbyhole", token="hvs.#11").is_(200, data={"keys": ["a"]})


@row("A revoked token leaves no object, of whatever depth, and others keep theirs", "tokens", "cubbyhole-lists")
def objects_of_revoked_token(r):
    r.post("auth/token/create", {"policies": ["default"]}).is_(200)
    for path in ("a", "a/b", "c/d/e"):
        r.post(f"cubbyhole/{path}", {"x": 1}, token="hvs.#11").is_(204)
    r.post("cubbyhole/a", {"x": 2}).is_(204)
    r.list("cubbyhole", token="hvs.#11").is_(200, data={"keys": ["a", "a/", "c/"]})
    r.post("auth/token/revoke", {"token": "hvs.#11"}).is_(204)
    r.list("cubbyhole", token="hvs.#11").refused(403, DENIED)
    assert {key for kind, key in r.broker.rows() if kind == 5} == {expand("hvs.#1/a")}
    r.list("cubbyhole").is_(200, data={"keys": ["a"]})


@row("Cubbyhole paths and folders of one name", "cubbyhole-lists")
def cubbyhole_folders(r):
    r.list("cubbyhole").refused(404)
    for path in ("a", "a/b", "a/b/c", "z"):
        r.post(f"cubbyhole/{path}", {"at": path}).is_(204)
    r.list("cubbyhole").is_(200, data={"keys": ["a", "a/", "z"]})
    r.list("cubbyhole/a").is_(200, data={"keys": ["b", "b/"]})
    r.list("cubbyhole/z").refused(404)
    r.delete("cubbyhole/a").is_(204)
    r.delete("cubbyhole/a").is_(204)
    r.get("cubbyhole/a").refused(404)
    r.get("cubbyhole/a/b").is_(200, data={"at": "a/b"})
    r.post("cubbyhole/z", {"new": [1]}).is_(204)
    r.get("cubbyhole/z").is_(200, data={"new": [1]})
    # words 5 and 6 of this event are those of the root token
    wrapped = r.post("cubbyhole/z", {}, wrap="5", words=2**128 - 4)
    if r.serves("wrapping"):
        wrapped.refused(500, USED)
    else:
        wrapped.refused(400, "missing data fields")
    r.post("cubbyhole/z", {}, wrap="5").refused(400, "missing data fields")
