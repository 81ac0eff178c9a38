"""Rows of secrets with versions, and of their settings."""

from .tools import row


@row("A secret is written twice, read by version, deleted, undeleted, listed and described (`examples/secrets.replay`)",
     "secrets", "queries", "key-settings", start=1700000000)
def life_of_a_secret(r):
    r.post("secret/data/team/db", {"data": {"password": "old"}, "options": {"cas": 0}}).is_(200).has("data", version=1)
    r.post("secret/data/team/db", {"data": {"password": "new"}}, at=1700086400).is_(200).has("data", version=2)
    r.get("secret/data/team/db?version=1", at=1700086460).is_(200).has("data", data={"password": "old"})
    r.delete("secret/data/team/db", at=1700086520).is_(204)
    r.get("secret/data/team/db", at=1700086520).is_(404).has("data", data=None)
    r.post("secret/undelete/team/db", {"versions": [2]}, at=1700086580).is_(204)
    r.get("secret/data/team/db", at=1700086580).is_(200).has("data", data={"password": "new"})
    r.list("secret/metadata/team", at=1700086640).is_(200, data={"keys": ["db"]})
    owner = {"owner": "db team"}
    r.post("secret/metadata/team/db", {"custom_metadata": owner, "max_versions": 3}, at=1700086700).is_(204)
    r.get("secret/metadata/team/db", at=1700086700).is_(200).has("data", custom_metadata=owner, max_versions=3)


@row("A soft deletion keeps the number of the current version, which check-and-set compares", "secrets")
def check_and_set(r):
    r.post("secret/data/x", {"data": {"a": 1}, "options": {"cas": 0}}).is_(200, data={
        "created_time": "1970-01-01T00:16:40Z", "custom_metadata": None, "deletion_time": "",
        "destroyed": False, "version": 1})
    r.delete("secret/data/x").is_(204)
    no_match = "check-and-set parameter did not match the current version"
    r.post("secret/data/x", {"data": {"a": 1}, "options": {"cas": 0}}).refused(400, no_match)
    r.post("secret/data/x", {"data": {"a": 1}, "options": {"cas": 1}}).is_(200).has("data", version=2)


@row("Eleven versions of a secret: the first is gone", "secrets", "queries")
def eleven_versions(r):
    for n in range(1, 12):
        r.post("secret/data/x", {"data": {"n": n}}).is_(200).has("data", version=n)
    r.get("secret/data/x?version=1").refused(404)
    got = r.get("secret/metadata/x").is_(200).has("data", current_version=11, oldest_version=2)
    assert list(got["data"]["versions"]) == ["10", "11", "2", "3", "4", "5", "6", "7", "8", "9"]


@row("A deleted version is undeleted, a destroyed one does not come back", "secrets", "queries")
def soft_delete_and_destroy(r):
    for _ in range(2):
        r.post("secret/data/x", {"data": {"a": 1}}).is_(200)
    r.post("secret/delete/x", {"versions": [1]}).is_(204)
    r.post("secret/destroy/x", {"versions": [2]}).is_(204)
    r.get("secret/data/x?version=1").is_(404, data={"data": None, "metadata": {
        "created_time": "1970-01-01T00:16:40Z", "custom_metadata": None,
        "deletion_time": "1970-01-01T00:16:40Z", "destroyed": False, "version": 1}})
    r.post("secret/undelete/x", {"versions": ["1", 2]}).is_(204)
    r.get("secret/data/x?version=1").is_(200)
    got = r.get("secret/data/x?version=2").is_(404)
    assert got["data"]["metadata"]["destroyed"] is True and got["data"]["data"] is None


@row("The settings of secrets after the start", "secrets")
def settings_at_start(r):
    r.get("secret/config").is_(200, data={
        "cas_required": False, "delete_version_after": "0s", "max_versions": 0})


@row("The settings ask for check-and-set and keep two versions", "secrets", "queries")
def settings_of_mount(r):
    r.post("secret/config", {"cas_required": "true", "max_versions": 2}).is_(204)
    r.post("secret/data/x", {"data": {}}).refused(400, "check-and-set parameter required for this call")
    for cas in (0, 1, 2):
        r.post("secret/data/x", {"data": {}, "options": {"cas": cas}}).is_(200).has("data", version=cas + 1)
    r.get("secret/data/x?version=1").refused(404)
    r.get("secret/metadata/x").is_(200).has("data", oldest_version=2, max_versions=0)


@row("Keys and folders in a list", "secrets")
def list_of_keys(r):
    for key in ("a", "a/b", "c/d/e"):
        r.post(f"secret/data/{key}", {"data": {}}).is_(200)
    r.list("secret/metadata").is_(200, data={"keys": ["a", "a/", "c/"]})


@row("Undelete of a key that is not there", "secrets")
def undelete_nothing(r):
    r.post("secret/undelete/none", {"versions": [7]}).is_(204)


@row("The body of a write: its data and its options in every form, and which refusal comes first", "secrets", "queries")
def forms_of_secret_writes(r):
    def put(body):
        return r.post("secret/data/x", body)

    for body in ({}, {"data": None}, {"data": []}, {"data": "x"}, {"data": 1}, {"options": 1}):
        put(body).refused(400, "no data provided")
    for options in (1, "x", [], True):
        put({"data": {}, "options": options}).refused(400, "invalid field: options")
    for cas in (-1, "x", "", True, [], {}, "1234567890123456789"):
        put({"data": {}, "options": {"cas": cas}}).refused(400, "invalid field: cas")
    no_match = "check-and-set parameter did not match the current version"
    put({"data": {}, "options": {"cas": 1}}).refused(400, no_match)
    put({"data": {}, "options": {"cas": 18446744073709551615}}).refused(400, no_match)
    put({"data": {}, "options": {"cas": "0", "more": []}}).is_(200).has("data", version=1)
    put({"data": {"a": None}, "options": {"cas": None}}).is_(200).has("data", version=2)
    put({"data": {}, "options": None, "more": 1}).is_(200).has("data", version=3)
    r.get("secret/data/x?version=2").is_(200).has("data", data={"a": None})
    put({"data": {}, "options": {"cas": "000000000000000003"}}).is_(200).has("data", version=4)


@row("Lists of versions in every form", "secrets")
def forms_of_versions(r):
    for _ in range(3):
        r.post("secret/data/x", {"data": {}}).is_(200)

    def delete(versions):
        return r.post("secret/delete/x", {"versions": versions})

    r.post("secret/delete/x", {}).refused(400, "missing field: versions")
    for versions in (None, [], "", " , ,"):
        delete(versions).refused(400, "missing field: versions")
    for versions in (1, True, {}, [-1], ["a"], [1, None], [[1]], "1,a", "1;2", [""], [" 1"], ["1234567890123456789"],
                     "1h"):
        delete(versions).refused(400, "invalid field: versions")

    def deleted():
        return [v["deletion_time"] != "" for v in r.get("secret/metadata/x").is_(200)["data"]["versions"].values()]

    delete([0, 4, 18446744073709551615]).is_(204)
    assert deleted() == [False, False, False]
    delete(" 1 ,,000000000000000003").is_(204)
    assert deleted() == [True, False, True]
    r.post("secret/undelete/x", {"versions": "1"}).is_(204)
    delete([2, "2", 3]).is_(204)
    assert deleted() == [False, True, True]


@row("Deletions of what is deleted or destroyed already, and of keys that are not there", "secrets")
def deletions_twice(r):
    for _ in range(2):
        r.post("secret/data/x", {"data": {}}).is_(200)

    def state():
        versions = r.get("secret/metadata/x", at=2000).is_(200)["data"]["versions"]
        return [(v["deletion_time"], v["destroyed"]) for v in versions.values()]

    r.delete("secret/data/x", at=1001).is_(204)
    r.delete("secret/data/x", at=1002).is_(204)
    assert state() == [("", False), ("1970-01-01T00:16:41Z", False)]
    r.post("secret/destroy/x", {"versions": [1, 2]}).is_(204)
    r.post("secret/destroy/x", {"versions": [1, 2]}).is_(204)
    assert state() == [("", True), ("1970-01-01T00:16:41Z", True)]
    r.post("secret/undelete/x", {"versions": [1, 2]}).is_(204)
    assert state() == [("", True), ("1970-01-01T00:16:41Z", True)]
    # a destroyed version that was not deleted takes a deletion time
    r.post("secret/delete/x", {"versions": [1]}, at=2000).is_(204)
    assert state() == [("1970-01-01T00:33:20Z", True), ("1970-01-01T00:16:41Z", True)]
    r.get("secret/data/x").is_(404, lease_id="").has("data", data=None)
    for verb in ("delete", "undelete", "destroy"):
        r.post(f"secret/{verb}/none", {"versions": [1]}).is_(204)
    r.delete("secret/data/none").is_(204)
    r.delete("secret/metadata/none").is_(204)
    r.get("secret/metadata/none").refused(404)
    r.list("secret/metadata").is_(200, data={"keys": ["x"]})


@row("The settings of secrets: members in every form, and what stays", "secrets")
def forms_of_settings(r):
    def put(body):
        return r.post("secret/config", body)

    for body, name in (({"cas_required": 1}, "cas_required"), ({"cas_required": "yes"}, "cas_required"),
                       ({"max_versions": -1}, "max_versions"), ({"max_versions": "x"}, "max_versions"),
                       ({"delete_version_after": "1s"}, "delete_version_after"),
                       ({"delete_version_after": "0"}, "delete_version_after"),
                       ({"delete_version_after": 0}, "delete_version_after"),
                       ({"delete_version_after": ""}, "delete_version_after"),
                       ({"delete_version_after": 1, "max_versions": -1, "cas_required": 1}, "cas_required"),
                       ({"delete_version_after": 1, "max_versions": -1}, "max_versions")):
        put(body).refused(400, f"invalid field: {name}")
    put({"max_versions": "18446744073709551615"}).refused(400, "invalid field: max_versions")
    put({"max_versions": 18446744073709551615, "delete_version_after": "0s"}).is_(204)
    put({"cas_required": True, "delete_version_after": None}).is_(204)
    put({}).is_(204)
    r.get("secret/config").is_(200, data={"cas_required": True, "delete_version_after": "0s",
                                          "max_versions": 18446744073709551615})
    for cas in range(12):
        r.post("secret/data/x", {"data": {}, "options": {"cas": cas}}).is_(200)
    put({"max_versions": 1, "cas_required": "false"}).is_(204)
    r.get("secret/metadata/x").is_(200).has("data", oldest_version=0)
    r.post("secret/data/x", {"data": {}}).is_(200).has("data", version=13)
    r.get("secret/metadata/x").is_(200).has("data", oldest_version=13, current_version=13)


@row("Lists of folders, and the order of names", "secrets")
def sorted_lists(r):
    for key in ("a", "a-b", "a/b", "a0", "é", "Z", "a/b/c", "team/x"):
        r.post(f"secret/data/{key}", {"data": {}}).is_(200)
    r.list("secret/metadata").is_(200, data={"keys": ["Z", "a", "a-b", "a/", "a0", "team/", "é"]})
    r.list("secret/metadata/a").is_(200, data={"keys": ["b", "b/"]})
    r.list("secret/metadata/a/").is_(200, data={"keys": ["b", "b/"]})
    r.list("secret/metadata/a/b").is_(200, data={"keys": ["c"]})
    for path in ("Z", "a-b", "te", "none"):
        r.list(f"secret/metadata/{path}").refused(404)
    r.delete("secret/data/Z").is_(204)
    r.delete("secret/metadata/a").is_(204)
    r.list("secret/metadata").is_(200, data={"keys": ["Z", "a-b", "a/", "a0", "team/", "é"]})


@row("Custom metadata, and a number of versions for one secret", "secrets", "queries", "key-settings")
def custom_metadata(r):
    r.post("secret/metadata/x", {"custom_metadata": {"b": "2", "a": "1"}, "max_versions": 1}).is_(204)
    r.post("secret/data/x", {"data": {}, "options": {"cas": 0}}).is_(200).has(
        "data", version=1, custom_metadata={"a": "1", "b": "2"})
    r.post("secret/data/x", {"data": {}}).is_(200).has("data", version=2)
    r.get("secret/data/x?version=1").refused(404)
    r.get("secret/metadata/x").is_(200).has(
        "data", max_versions=1, oldest_version=2, custom_metadata={"a": "1", "b": "2"})


@row("A secret made by its settings has no version", "secrets", "key-settings")
def key_without_version(r):
    r.post("secret/metadata/y", {}).is_(204)
    r.get("secret/metadata/y").is_(200).has("data", current_version=0, versions={}, oldest_version=0,
                                            custom_metadata=None)
    r.get("secret/data/y").refused(404)


@row("Custom metadata that is not a string", "key-settings")
def custom_metadata_refused(r):
    r.post("secret/metadata/x", {"custom_metadata": {"a": 1}}).refused(400, "invalid field: custom_metadata")


@row("The settings of one secret: members in every form, and what stays", "secrets", "queries", "key-settings")
def forms_of_key_settings(r):
    def put(body):
        return r.post("secret/metadata/x", body)

    many = {f"k{n}": "v" for n in range(65)}
    for custom in ([], 1, "x", {"a": None}, {"a": {}}, many, {"": "v"}, {"x" * 129: "v"}, {"é" * 65: "v"},
                   {"a": "x" * 513}, {"a": "é" * 257}):
        put({"custom_metadata": custom}).refused(400, "invalid field: custom_metadata")
    for body, name in (({"max_versions": -1, "cas_required": 1}, "max_versions"), ({"cas_required": 1}, "cas_required"),
                       ({"delete_version_after": "1h"}, "delete_version_after"),
                       ({"custom_metadata": 1, "max_versions": -1}, "custom_metadata")):
        put(body).refused(400, f"invalid field: {name}")
    r.get("secret/metadata/x").refused(404)
    del many["k64"]
    put({"custom_metadata": many, "delete_version_after": "0s"}).is_(204)
    put({"custom_metadata": {"x" * 128: "y" * 512, "é": ""}, "cas_required": "true"}).is_(204)
    put({"custom_metadata": None, "max_versions": None}).is_(204)
    r.get("secret/metadata/x").is_(200).has("data", cas_required=True, max_versions=0, current_version=0,
                                            custom_metadata={"x" * 128: "y" * 512, "é": ""})
    r.post("secret/data/x", {"data": {}}).refused(400, "check-and-set parameter required for this call")
    r.delete("secret/data/x").is_(204)
    r.post("secret/data/x", {"data": {"a": 1}, "options": {"cas": 0}}).is_(200)
    r.post("secret/metadata/x", {"custom_metadata": {}, "cas_required": False}, at=2000).is_(204)
    r.get("secret/metadata/x").is_(200).has("data", custom_metadata=None, created_time="1970-01-01T00:16:40Z",
                                            updated_time="1970-01-01T00:33:20Z", cas_required=False)
    r.get("secret/data/x").is_(200).has("data", data={"a": 1})
    number_of_versions(r, put)
    # a secret without versions is listed, and may be written with cas 0
    r.post("secret/metadata/y", {}).is_(204)
    r.list("secret/metadata").is_(200, data={"keys": ["x", "y"]})
    r.get("secret/data/y").refused(404)
    r.get("secret/data/y?version=1").refused(404)
    r.post("secret/undelete/y", {"versions": [1]}).is_(204)


def number_of_versions(r, put):
    """The secret's own number of versions comes before the mount's."""
    r.post("secret/config", {"max_versions": 5}).is_(204)
    put({"max_versions": 2}).is_(204)
    for _ in range(4):
        r.post("secret/data/x", {"data": {}}).is_(200)
    r.get("secret/metadata/x").is_(200).has("data", oldest_version=4, current_version=5)
    put({"max_versions": 0}).is_(204)
    for _ in range(5):
        r.post("secret/data/x", {"data": {}}).is_(200)
    r.get("secret/metadata/x").is_(200).has("data", oldest_version=6, current_version=10)
