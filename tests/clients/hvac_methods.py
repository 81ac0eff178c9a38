#!/usr/bin/env python3
"""Each method of Python's hvac that a broker serves, called and its answer compared; and each that it does not serve.

    python3 tests/clients/hvac_methods.py PORT ROOT_TOKEN
    python3 tests/clients/hvac_methods.py --table

Those that are not served are tried by hvac_refused.py; the second line prints them as a table, without a broker. What
the installed hvac lacks is named, and is neither passed nor failed. If hvac is not installed, it says so, and nothing
is tried. The last line is 'N passed, M failed'.
"""

import inspect
import sys
import warnings
from unittest.mock import ANY

from hvac_refused import method_of, table, try_refused

try:
    import hvac
    import hvac.exceptions
    import requests
except ImportError:
    hvac = None

POLICY = '{"path":{"secret/data/team/*":{"capabilities":["read"]}}}'
CREATOR = '{"path":{"auth/token/create":{"capabilities":["update"]}}}'
CALLS = []


def calls(*methods, argument=None):
    """A function that calls these methods, and compares their answers. The first one is given the argument, if any."""
    def add(function):
        CALLS.append((function, methods, argument))
        return function
    return add


def lacks(client, methods, argument):
    """What the installed hvac lacks of such a function."""
    missing = [name for name in methods if method_of(client, name) is None]
    if argument and argument not in inspect.signature(method_of(client, methods[0])).parameters:
        missing.append(f"{methods[0]}({argument}=..)")
    return missing


def expect(condition, what):
    if not condition:
        raise AssertionError(what)


def expect_same(found, wanted):
    expect(found == wanted, f"{found} in place of {wanted}")


def expect_done(found):
    """The reply was a 204, which hvac hands on as it is."""
    expect(getattr(found, "status_code", None) == 204, f"{found} in place of a 204")


def expect_refused(error, call, *words, **named):
    """The call raises this exception of hvac."""
    try:
        found = call(*words, **named)
    except getattr(hvac.exceptions, error):
        return
    raise AssertionError(f"{found} in place of {error}")


def answer(data=None, auth=None, **members):
    """A whole reply."""
    envelope = {"auth": auth, "data": data, "lease_duration": 0, "lease_id": "", "renewable": False, "request_id": ANY,
                "warnings": None, "wrap_info": None}
    return {**envelope, **members}


def token_in_auth(policies, **members):
    """The member `auth` of a reply, of a token that is a child and ends in an hour."""
    auth = {"accessor": ANY, "client_token": ANY, "entity_id": "", "lease_duration": 3600, "metadata": None,
            "num_uses": 0, "orphan": False, "policies": policies, "renewable": True, "token_policies": policies,
            "token_type": "service"}
    return {**auth, **members}


def token_in_data(policies, **members):
    """The member `data` of a look-up of such a token."""
    data = {"accessor": ANY, "creation_time": ANY, "creation_ttl": 3600, "expire_time": ANY, "explicit_max_ttl": 0,
            "id": ANY, "issue_time": ANY, "meta": None, "num_uses": 0, "orphan": False, "policies": policies,
            "renewable": True, "ttl": ANY, "type": "service"}
    return {**data, **members}


def version(number, **members):
    """The metadata of a version of a secret."""
    data = {"created_time": ANY, "custom_metadata": None, "deletion_time": "", "destroyed": False, "version": number}
    return {**data, **members}


def wrap_info(path, ttl, **members):
    """The member `wrap_info` of a wrapped reply."""
    return {"accessor": ANY, "creation_path": path, "creation_time": ANY, "token": ANY, "ttl": ttl, **members}


def new_token(client, **settings):
    """The member `auth` of a new token."""
    return client.auth.token.create(policies=["default"], ttl="1h", **settings)["auth"]


def client_of(client, token):
    """Another client of the same broker."""
    return hvac.Client(url=client.url, token=token)


# Tokens.

@calls("auth.token.create")
def a_token_is_created(client):
    made = client.auth.token.create(policies=["default", "app"], meta={"team": "db"}, ttl="1h", explicit_max_ttl="2h",
                                    num_uses=5, no_default_policy=True, display_name="app")
    auth = token_in_auth(["app"], metadata={"team": "db"}, num_uses=5)
    expect_same(made, answer(auth=auth))
    client.auth.token.revoke(made["auth"]["client_token"])


@calls("auth.token.create_orphan")
def an_orphan_is_created(client):
    made = client.auth.token.create_orphan(policies=["app"], ttl="1h")
    expect_same(made, answer(auth=token_in_auth(["app", "default"], orphan=True)))
    client.auth.token.revoke(made["auth"]["client_token"])


def try_periodic(client, made, **members):
    """A new periodic token that lasts for an hour renews itself, whatever increment it names."""
    auth = token_in_auth(["app", "default"], **members)
    expect_same(made, answer(auth=auth))
    child = client_of(client, made["auth"]["client_token"])
    expect_same(child.auth.token.renew_self(), answer(auth={**auth, "client_token": child.token}))
    expect_same(child.auth.token.renew_self(increment=60), answer(auth=auth))
    expect_same(client.auth.token.renew(token=child.token, increment="2h"), answer(auth=auth))
    data = token_in_data(["app", "default"], id=child.token, period=3600, **members)
    expect_same(child.auth.token.lookup_self(), answer(data=data))
    expect_same(client.auth.token.lookup(token=child.token), answer(data=data))
    child.auth.token.revoke_self()


@calls("auth.token.create", "auth.token.renew_self")
def a_periodic_token_is_created(client):
    try_periodic(client, client.auth.token.create(policies=["app"], period="1h"))
    try_periodic(client, client.auth.token.create(policies=["app"], period="1h", ttl="1m"))
    root = client.auth.token.create(period="1h")["auth"]
    expect_same(root, token_in_auth(["root"]))
    client.auth.token.revoke(root["client_token"])


@calls("auth.token.create_orphan", "auth.token.renew_self")
def a_periodic_orphan_is_created(client):
    try_periodic(client, client.auth.token.create_orphan(policies=["app"], period="1h"), orphan=True)


@calls("write", "auth.token.renew_self")
def a_periodic_orphan_is_created_by_a_write(client):
    """As with an hvac that has no method for it."""
    try_periodic(client, client.write("auth/token/create-orphan", policies=["app"], period="1h"), orphan=True)


@calls("auth.token.create")
def a_period_needs_sudo(client):
    caller = client_of(client, client.auth.token.create(policies=["default"], ttl="1m")["auth"]["client_token"])
    expect_refused("Forbidden", caller.auth.token.create, period="1h")  # by its policy
    client.adapter.put("/v1/sys/policies/acl/creator", json={"policy": CREATOR})
    caller = client_of(client, client.auth.token.create(policies=["creator"], ttl="1m")["auth"]["client_token"])
    expect_refused("InvalidRequest", caller.auth.token.create, period="1h")
    expect_same(caller.auth.token.create(ttl="1h")["auth"], token_in_auth(["creator", "default"]))
    client.adapter.delete("/v1/sys/policies/acl/creator")


@calls("auth.token.lookup")
def a_token_is_looked_up(client):
    made = new_token(client)
    data = token_in_data(["default"], id=made["client_token"], accessor=made["accessor"])
    expect_same(client.auth.token.lookup(token=made["client_token"]), answer(data=data))


@calls("auth.token.lookup_self")
def a_token_looks_itself_up(client):
    made = new_token(client)
    data = token_in_data(["default"], id=made["client_token"], accessor=made["accessor"])
    expect_same(client_of(client, made["client_token"]).auth.token.lookup_self(), answer(data=data))


@calls("auth.token.lookup_accessor", "auth.token.list_accessors")
def accessors_are_listed(client):
    made = new_token(client, meta={"team": "db"})
    data = token_in_data(["default"], id="", accessor=made["accessor"], meta={"team": "db"})
    expect_same(client.auth.token.lookup_accessor(accessor=made["accessor"]), answer(data=data))
    listed = client.auth.token.list_accessors()
    expect_same(listed, answer(data={"keys": ANY}))
    keys = listed["data"]["keys"]
    expect(made["accessor"] in keys and keys == sorted(keys), f"the accessors are {keys}")


@calls("auth.token.renew", "auth.token.renew_self")
def tokens_are_renewed(client):
    made = new_token(client)
    auth = token_in_auth(["default"], client_token=made["client_token"], lease_duration=7200)
    expect_same(client.auth.token.renew(token=made["client_token"], increment="2h"), answer(auth=auth))
    auth["lease_duration"] = 60
    child = client_of(client, made["client_token"])
    expect_same(child.auth.token.renew_self(increment=60), answer(auth=auth))
    wrapped = child.auth.token.renew_self(wrap_ttl="1m")
    expect_same(wrapped, answer(wrap_info=wrap_info("auth/token/renew-self", 60)))


@calls("auth.token.revoke", "auth.token.revoke_accessor", "auth.token.revoke_self")
def tokens_are_revoked(client):
    first, second, third = new_token(client), new_token(client), new_token(client)
    expect_done(client.auth.token.revoke(token=first["client_token"]))
    expect_done(client.auth.token.revoke_accessor(accessor=second["accessor"]))
    expect_done(client_of(client, third["client_token"]).auth.token.revoke_self())
    for made in (first, second, third):
        expect_refused("Forbidden", client_of(client, made["client_token"]).auth.token.lookup_self)
    expect_refused("InvalidRequest", client.auth.token.lookup_accessor, accessor=second["accessor"])


@calls("auth.token.revoke_and_orphan_children")
def a_token_is_revoked_alone(client):
    parent = client.auth.token.create(policies=["root"], ttl="1h")["auth"]["client_token"]
    child = new_token(client_of(client, parent))["client_token"]
    expect_done(client.auth.token.revoke_and_orphan_children(token=parent))
    expect_same(client.auth.token.lookup(token=child)["data"]["orphan"], True)
    expect_refused("Forbidden", client.auth.token.lookup, token=parent)


# Versioned secrets.

def fresh(client, path):
    """The path of a secret that is not there."""
    client.secrets.kv.v2.delete_metadata_and_all_versions(path=path)
    return path


@calls("secrets.kv.v2.configure", "secrets.kv.v2.read_configuration")
def a_mount_is_configured(client):
    kv = client.secrets.kv.v2
    client.sys.enable_secrets_engine(backend_type="kv-v2", path="hvac-set")
    expect_done(kv.configure(max_versions=2, cas_required=True, mount_point="hvac-set"))
    data = {"cas_required": True, "delete_version_after": "0s", "max_versions": 2}
    expect_same(kv.read_configuration(mount_point="hvac-set"), answer(data=data))
    expect_refused("InvalidRequest", kv.create_or_update_secret, path="a", secret={"k": "v"}, mount_point="hvac-set")
    client.sys.disable_secrets_engine(path="hvac-set")


@calls("secrets.kv.v2.create_or_update_secret", "secrets.kv.v2.read_secret", "secrets.kv.v2.read_secret_version")
def secrets_are_written_and_read(client):
    kv, path = client.secrets.kv.v2, fresh(client, "methods/a")
    expect_same(kv.create_or_update_secret(path=path, secret={"k": "v"}, cas=0), answer(data=version(1)))
    expect_same(kv.create_or_update_secret(path=path, secret={"k": ["w", 1, None]}), answer(data=version(2)))
    first = answer(data={"data": {"k": "v"}, "metadata": version(1)})
    second = answer(data={"data": {"k": ["w", 1, None]}, "metadata": version(2)})
    expect_same(kv.read_secret_version(path=path, version=1), first)
    expect_same(kv.read_secret_version(path=path), second)
    expect_same(kv.read_secret(path=path), second)
    expect_refused("InvalidRequest", kv.create_or_update_secret, path=path, secret={"k": "v"}, cas=1)
    expect_refused("InvalidPath", kv.read_secret_version, path="methods/none")


@calls("secrets.kv.v2.patch")
def a_secret_is_patched(client):
    """hvac reads the secret and writes it anew with check-and-set."""
    kv, path = client.secrets.kv.v2, fresh(client, "methods/b")
    kv.create_or_update_secret(path=path, secret={"k": "v", "user": "app"})
    expect_same(kv.patch(path=path, secret={"k": "w"}), answer(data=version(2)))
    expect_same(kv.read_secret_version(path=path)["data"]["data"], {"k": "w", "user": "app"})
    expect_refused("InvalidPath", kv.patch, path="methods/none", secret={"k": "w"})


@calls("secrets.kv.v2.delete_latest_version_of_secret", "secrets.kv.v2.delete_secret_versions",
       "secrets.kv.v2.undelete_secret_versions", "secrets.kv.v2.destroy_secret_versions",
       "secrets.kv.v2.read_secret_metadata")
def versions_are_deleted(client):
    kv, path = client.secrets.kv.v2, fresh(client, "methods/c")
    for number in (1, 2, 3):
        kv.create_or_update_secret(path=path, secret={"number": number})
    expect_done(kv.delete_latest_version_of_secret(path=path))
    expect_refused("InvalidPath", kv.read_secret_version, path=path)
    expect_done(kv.delete_secret_versions(path=path, versions=[1, 2]))
    expect_done(kv.undelete_secret_versions(path=path, versions=[2, 3]))
    expect_done(kv.destroy_secret_versions(path=path, versions=[2]))
    told = kv.read_secret_metadata(path=path)
    versions = {"1": {"created_time": ANY, "deletion_time": ANY, "destroyed": False},
                "2": {"created_time": ANY, "deletion_time": "", "destroyed": True},
                "3": {"created_time": ANY, "deletion_time": "", "destroyed": False}}
    expect_same(told, answer(data={
        "cas_required": False, "created_time": ANY, "current_version": 3, "custom_metadata": None,
        "delete_version_after": "0s", "max_versions": 0, "oldest_version": 0, "updated_time": ANY,
        "versions": versions}))
    expect(told["data"]["versions"]["1"]["deletion_time"] != "", "the first version is not deleted")
    expect_same(kv.read_secret_version(path=path)["data"]["data"], {"number": 3})


@calls("secrets.kv.v2.read_secret_version", argument="raise_on_deleted_version")
def a_deleted_version_is_told_of(client):
    """A newer hvac hands on what the 404 of a deleted version has."""
    kv, path = client.secrets.kv.v2, fresh(client, "methods/e")
    kv.create_or_update_secret(path=path, secret={"k": "v"})
    kv.delete_latest_version_of_secret(path=path)
    found = kv.read_secret_version(path=path, raise_on_deleted_version=False)
    expect_same(found, answer(data={"data": None, "metadata": version(1, deletion_time=ANY)}))
    expect(found["data"]["metadata"]["deletion_time"], "the version is not deleted")


@calls("secrets.kv.v2.update_metadata", "secrets.kv.v2.read_secret_metadata")
def a_secret_is_configured(client):
    """Before its first version: it is there then, and each write has to name the version that it follows."""
    kv, path = client.secrets.kv.v2, fresh(client, "methods/f")
    expect_done(kv.update_metadata(path=path, max_versions=1, cas_required=True, delete_version_after="0s"))
    data = {"cas_required": True, "created_time": ANY, "current_version": 0, "custom_metadata": None,
            "delete_version_after": "0s", "max_versions": 1, "oldest_version": 0, "updated_time": ANY, "versions": {}}
    expect_same(kv.read_secret_metadata(path=path), answer(data=data))
    expect_refused("InvalidRequest", kv.create_or_update_secret, path=path, secret={"k": "v"})
    for number in (1, 2):
        made = kv.create_or_update_secret(path=path, secret={"k": "v"}, cas=number - 1)
        expect_same(made, answer(data=version(number)))
    expect_refused("InvalidPath", kv.read_secret_version, path=path, version=1)
    expect_done(kv.update_metadata(path=path, cas_required=False))
    expect_same(kv.patch(path=path, secret={"k": "w"}), answer(data=version(3)))


@calls("secrets.kv.v2.update_metadata", "secrets.kv.v2.read_secret_metadata", argument="custom_metadata")
def a_secret_has_custom_metadata(client):
    kv, path = client.secrets.kv.v2, fresh(client, "methods/g")
    custom = {"owner": "app", "team": "db"}
    kv.create_or_update_secret(path=path, secret={"k": "v"})
    expect_done(kv.update_metadata(path=path, custom_metadata=custom))
    expect_same(kv.read_secret_metadata(path=path)["data"]["custom_metadata"], custom)
    expect_same(kv.read_secret_version(path=path)["data"]["metadata"], version(1, custom_metadata=custom))
    made = kv.create_or_update_secret(path=path, secret={"k": "w"})
    expect_same(made, answer(data=version(2, custom_metadata=custom)))
    expect_done(kv.update_metadata(path=path, custom_metadata={"team": "app"}))
    expect_same(kv.read_secret_metadata(path=path)["data"]["custom_metadata"], {"team": "app"})


@calls("write", "secrets.kv.v2.read_secret_metadata")
def custom_metadata_are_set_by_a_write(client):
    """As with an hvac whose method does not take them."""
    kv, path = client.secrets.kv.v2, fresh(client, "methods/h")
    expect_done(client.write(f"secret/metadata/{path}", custom_metadata={"team": "db"}))
    expect_same(kv.read_secret_metadata(path=path)["data"]["custom_metadata"], {"team": "db"})
    expect_refused("InvalidRequest", client.write, f"secret/metadata/{path}", custom_metadata={"team": 1})
    expect_done(client.write(f"secret/metadata/{path}", custom_metadata={}))
    expect_same(kv.read_secret_metadata(path=path)["data"]["custom_metadata"], None)


@calls("secrets.kv.v2.list_secrets", "secrets.kv.v2.delete_metadata_and_all_versions")
def secrets_are_listed(client):
    kv = client.secrets.kv.v2
    for path in ("methods/d/one", "methods/d/two", "methods/d/one/more"):
        kv.create_or_update_secret(path=path, secret={"k": "v"})
    expect_same(kv.list_secrets(path="methods/d"), answer(data={"keys": ["one", "one/", "two"]}))
    expect_done(kv.delete_metadata_and_all_versions(path="methods/d/one"))
    expect_same(kv.list_secrets(path="methods/d")["data"]["keys"], ["one/", "two"])
    expect_refused("InvalidPath", kv.read_secret_metadata, path="methods/d/one")
    expect_refused("InvalidPath", kv.list_secrets, path="methods/none")


# Policies.

@calls("sys.create_or_update_acl_policy", "sys.read_acl_policy", "sys.list_acl_policies", "sys.delete_acl_policy")
def policies_are_set(client):
    expect_done(client.sys.create_or_update_acl_policy(name="methods", policy=POLICY))
    expect_same(client.sys.read_acl_policy(name="methods"), answer(data={"name": "methods", "policy": POLICY}))
    listed = client.sys.list_acl_policies()["data"]["keys"]
    expect({"default", "methods", "root"} <= set(listed), f"the policies are {listed}")
    expect_done(client.sys.create_or_update_acl_policy(name="methods", policy={"path": {"a": {"capabilities": []}}}))
    expect_refused("InvalidRequest", client.sys.create_or_update_acl_policy, name="methods", policy='path "a" {}')
    expect_done(client.sys.delete_acl_policy(name="methods"))
    expect_refused("InvalidPath", client.sys.read_acl_policy, name="methods")


@calls("adapter.put", "adapter.list", "adapter.get", "adapter.delete")
def policies_are_set_by_requests(client):
    """As with an hvac that has no methods for it."""
    path = "/v1/sys/policies/acl/methods"
    expect_done(client.adapter.put(path, json={"policy": POLICY}))
    expect_same(client.adapter.get(path), answer(data={"name": "methods", "policy": POLICY}))
    listed = client.adapter.list("/v1/sys/policies/acl")["data"]["keys"]
    expect({"default", "methods", "root"} <= set(listed), f"the policies are {listed}")
    expect_done(client.adapter.delete(path))


# Mounts.

@calls("sys.enable_secrets_engine", "sys.list_mounted_secrets_engines", "sys.retrieve_mount_option",
       "sys.disable_secrets_engine")
def mounts_are_enabled(client):
    expect_done(client.sys.enable_secrets_engine(backend_type="kv", path="hvac-kv", options={"version": "2"}))
    expect_done(client.sys.enable_secrets_engine(backend_type="issued", path="hvac-issued", description="a database"))
    listed = client.sys.list_mounted_secrets_engines()
    kv = {"options": {"version": "2"}, "type": "kv"}
    expect_same(listed, answer(data={
        "cubbyhole/": {"options": None, "type": "cubbyhole"}, "hvac-issued/": {"options": None, "type": "issued"},
        "hvac-kv/": kv, "secret/": kv, "sys/": {"options": None, "type": "system"}}))
    expect_same(client.sys.retrieve_mount_option(mount_point="hvac-kv", option_name="version"), "2")
    expect_same(client.sys.retrieve_mount_option(mount_point="cubbyhole", option_name="version"), None)
    expect_refused("InvalidRequest", client.sys.enable_secrets_engine, backend_type="kv", path="hvac-kv-1")
    expect_refused("InvalidRequest", client.sys.enable_secrets_engine, backend_type="transit")
    expect_done(client.sys.disable_secrets_engine(path="hvac-kv"))
    expect_done(client.sys.disable_secrets_engine(path="hvac-issued"))
    left = set(client.sys.list_mounted_secrets_engines()["data"])
    expect_same(left, {"cubbyhole/", "secret/", "sys/"})


# Leases.

def issued_lease(client):
    """The id of a lease on a mount that issues credentials."""
    client.sys.enable_secrets_engine(backend_type="issued", path="hvac-leases")
    client.write("hvac-leases/roles/app", ttl="1h", max_ttl="24h")
    return client.read("hvac-leases/creds/app")["lease_id"]


@calls("sys.read_lease", "sys.renew_lease", "sys.revoke_lease")
def leases_are_renewed(client):
    lease_id = issued_lease(client)
    data = {"expire_time": ANY, "id": lease_id, "issue_time": ANY, "last_renewal": None, "renewable": True, "ttl": ANY}
    expect_same(client.sys.read_lease(lease_id=lease_id), answer(data=data))
    renewed = answer(lease_id=lease_id, lease_duration=60, renewable=True)
    expect_same(client.sys.renew_lease(lease_id=lease_id, increment=60), renewed)
    expect(client.sys.read_lease(lease_id=lease_id)["data"]["last_renewal"], "it was not renewed")
    expect_done(client.sys.revoke_lease(lease_id=lease_id))
    expect_refused("InvalidRequest", client.sys.read_lease, lease_id=lease_id)
    client.sys.disable_secrets_engine(path="hvac-leases")


@calls("sys.revoke_prefix")
def leases_are_revoked_by_prefix(client):
    lease_id = issued_lease(client)
    expect_done(client.sys.revoke_prefix(prefix="hvac-leases/creds/other"))
    expect_same(client.sys.read_lease(lease_id=lease_id)["data"]["id"], lease_id)
    expect_done(client.sys.revoke_prefix(prefix="hvac-leases/creds"))
    expect_refused("InvalidRequest", client.sys.read_lease, lease_id=lease_id)
    client.sys.disable_secrets_engine(path="hvac-leases")


# Response wrapping.

@calls("sys.wrap", "sys.unwrap")
def a_body_is_wrapped(client):
    made = client.sys.wrap(payload={"k": "v"}, ttl=300)
    expect_same(made, answer(wrap_info=wrap_info("sys/wrapping/wrap", 300)))
    expect_same(client.sys.unwrap(token=made["wrap_info"]["token"]), answer(data={"k": "v"}))
    expect_refused("InvalidRequest", client.sys.unwrap, token=made["wrap_info"]["token"])


@calls("write", "sys.unwrap")
def a_body_is_wrapped_by_a_write(client):
    made = client.write("sys/wrapping/wrap", wrap_ttl="5m", k="v")
    expect_same(made, answer(wrap_info=wrap_info("sys/wrapping/wrap", 300)))
    expect_same(client.sys.unwrap(token=made["wrap_info"]["token"]), answer(data={"k": "v"}))


@calls("adapter.post")
def a_response_is_moved(client):
    """Look-up and rewrap have no methods of their own."""
    client.write("cubbyhole/methods", k="v")
    token = client.read("cubbyhole/methods", wrap_ttl="5m")["wrap_info"]["token"]
    nobody = hvac.Client(url=client.url)
    told = nobody.adapter.post("/v1/sys/wrapping/lookup", json={"token": token})
    expect_same(told, answer(data={"creation_path": "cubbyhole/methods", "creation_time": ANY, "creation_ttl": 300}))
    moved = client.adapter.post("/v1/sys/wrapping/rewrap", json={"token": token})
    expect_same(moved, answer(wrap_info=wrap_info("cubbyhole/methods", 300)))
    expect_refused("InvalidRequest", client.sys.unwrap, token=token)
    reader = client_of(client, moved["wrap_info"]["token"])
    expect_same(reader.sys.unwrap(), answer(data={"k": "v"}))


@calls("auth_cubbyhole")
def a_wrapped_token_is_handed_on(client):
    wrapped = client.auth.token.create(policies=["default"], ttl="1h", wrap_ttl="1m")
    expect_same(wrapped, answer(wrap_info=wrap_info("auth/token/create", 60, wrapped_accessor=ANY)))
    reader = hvac.Client(url=client.url)
    reader.auth_cubbyhole(wrapped["wrap_info"]["token"])
    told = reader.auth.token.lookup_self()["data"]["accessor"]
    expect_same(told, wrapped["wrap_info"]["wrapped_accessor"])


# Calls that name a path.

@calls("read", "write", "delete")
def cubbyholes_are_read_by_paths(client):
    client.write("cubbyhole/plain/a", k="v", number=1)
    expect_same(client.read("cubbyhole/plain/a"), answer(data={"k": "v", "number": 1}))
    expect_same(client.read("cubbyhole/plain?list=true"), answer(data={"keys": ["a"]}))
    client.delete("cubbyhole/plain/a")
    expect_same(client.read("cubbyhole/plain/a"), None)


@calls("write_data")
def any_member_is_written(client):
    expect_done(client.write_data("cubbyhole/any", data={"path": "a", "wrap_ttl": "b"}))
    expect_same(client.read("cubbyhole/any"), answer(data={"path": "a", "wrap_ttl": "b"}))


@calls("secrets.kv.v1")
def cubbyholes_are_read_as_secrets_of_version_1(client):
    kv = client.secrets.kv.v1
    expect_done(kv.create_or_update_secret(path="one/a", secret={"k": "v"}, mount_point="cubbyhole"))
    expect_same(kv.read_secret(path="one/a", mount_point="cubbyhole"), answer(data={"k": "v"}))
    expect_same(kv.list_secrets(path="one", mount_point="cubbyhole"), answer(data={"keys": ["a"]}))
    expect_done(kv.delete_secret(path="one/a", mount_point="cubbyhole"))
    expect_refused("InvalidPath", kv.list_secrets, path="one", mount_point="cubbyhole")


@calls("lookup_token", "renew_token", "revoke_token")
def a_client_looks_after_tokens(client):
    first, second, third = new_token(client), new_token(client), new_token(client)
    data = token_in_data(["default"], id=first["client_token"])
    expect_same(client.lookup_token(first["client_token"]), answer(data=data))
    expect_same(client.lookup_token(first["accessor"], accessor=True), answer(data={**data, "id": ""}))
    expect_same(client.lookup_token()["data"]["policies"], ["root"])
    auth = token_in_auth(["default"], client_token=first["client_token"], lease_duration=60)
    expect_same(client.renew_token(first["client_token"], increment=60), answer(auth=auth))
    client.revoke_token(first["client_token"])
    client.revoke_token(second["accessor"], accessor=True)
    client.revoke_token(third["client_token"], orphan=True)
    for made in (first, second, third):
        expect_refused("Forbidden", client.lookup_token, made["client_token"])


@calls("create_token", "renew_self_token", "revoke_self_token", "unwrap")
def tokens_are_created_as_before(client):
    """By the methods of an older hvac."""
    child = client_of(client, client.create_token(policies=["default"], ttl="1h")["auth"]["client_token"])
    expect_same(child.renew_self_token(increment=60)["auth"]["lease_duration"], 60)
    expect_same(child.lookup_token(), answer(data=token_in_data(["default"], id=child.token)))
    child.revoke_self_token()
    expect_refused("Forbidden", child.lookup_token)
    wrapped = client.create_token(policies=["app"], ttl="1h", orphan=True, num_uses=1, wrap_ttl="1m")
    expect_same(wrapped, answer(wrap_info=wrap_info("auth/token/create-orphan", 60, wrapped_accessor=ANY)))
    auth = token_in_auth(["app", "default"], orphan=True, num_uses=1)
    expect_same(client.unwrap(wrapped["wrap_info"]["token"]), answer(auth=auth))


@calls("enable_secret_backend", "list_secret_backends", "disable_secret_backend", "read_lease", "renew_secret",
       "revoke_secret", "revoke_secret_prefix")
def leases_are_renewed_as_before(client):
    client.enable_secret_backend("issued", mount_point="hvac-old")
    client.write("hvac-old/roles/app", ttl="1h")
    expect("hvac-old/" in client.list_secret_backends()["data"], "the mount is not listed")
    first, second = (client.read("hvac-old/creds/app")["lease_id"] for _ in range(2))
    expect_same(client.renew_secret(first, increment=60)["lease_duration"], 60)
    expect_same(client.read_lease(first)["data"]["ttl"] <= 60, True)
    client.revoke_secret(first)
    expect_refused("InvalidRequest", client.read_lease, first)
    client.revoke_secret_prefix("hvac-old/creds")
    expect_refused("InvalidRequest", client.read_lease, second)
    client.disable_secret_backend("hvac-old")


@calls("login")
def a_login_takes_the_token(client):
    """Of whatever path makes one."""
    child = client_of(client, client.token)
    made = child.login("/v1/auth/token/create", json={"policies": ["default"], "ttl": "1h"})
    expect_same(made, answer(auth=token_in_auth(["default"], client_token=child.token)))
    expect(child.token != client.token and child.is_authenticated(), "the client has another token")


@calls("adapter.list", "secrets.kv.v2.list_secrets")
def lists_are_asked_for_without_their_method(client):
    """With `strict_http`, for a proxy that knows the common methods alone, LIST is sent as GET with `list=true`."""
    client.secrets.kv.v2.create_or_update_secret(path="methods/strict/a", secret={"k": "v"})
    strict, seen = hvac.Client(url=client.url, token=client.token, strict_http=True), []
    strict.session.hooks["response"] = [lambda reply, **_: seen.append(reply.request.method)]
    expect_same(strict.secrets.kv.v2.list_secrets(path="methods/strict"), answer(data={"keys": ["a"]}))
    expect_same(strict.adapter.list("/v1/secret/metadata/methods/strict"), answer(data={"keys": ["a"]}))
    expect_same(seen, ["GET", "GET"])


@calls("is_authenticated", "logout")
def a_client_knows_its_token(client):
    child = client_of(client, new_token(client)["client_token"])
    expect_same(child.is_authenticated(), True)
    stranger = client_of(client, child.token)
    child.logout(revoke_token=True)
    expect_same(stranger.is_authenticated(), False)


def try_served(client):
    """What is wrong with each function of methods that are served, or None."""
    for function, methods, argument in CALLS:
        if lacks(client, methods, argument):
            continue
        try:
            function(client)
            yield None
        except Exception as error:  # whatever the client raises
            yield f"{function.__name__} ({', '.join(methods)}): {type(error).__name__}: {error}"


def main():
    if sys.argv[1:] == ["--table"]:
        print(table())
        return 0
    if hvac is None:
        print("hvac is not installed for this Python: its methods are skipped")
        print("0 passed, 0 failed")
        return 0
    warnings.showwarning = lambda *_, **__: None  # of what is deprecated: hvac lets none be ignored
    client = hvac.Client(url=f"http://127.0.0.1:{sys.argv[1]}", token=sys.argv[2], session=requests.Session())
    served = {name for _, methods, _ in CALLS for name in methods}
    refused, missing = try_refused(client, served)
    missing += [name for _, methods, argument in CALLS for name in lacks(client, methods, argument)]
    if missing:
        print(f"the installed hvac lacks {', '.join(sorted(set(missing)))}")
    found = [*try_served(client), *refused]
    failed = [text for text in found if text]
    print("".join(f"hvac, {text}\n" for text in failed), end="")
    print(f"{len(found) - len(failed)} passed, {len(failed)} failed")
    return 1 if failed else 0


if __name__ == "__main__":
    sys.exit(main())
