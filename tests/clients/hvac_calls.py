#!/usr/bin/env python3
"""Calls of Python's hvac, a client of HashiCorp Vault, against a running broker.

    python3 tests/clients/hvac_calls.py PORT ROOT_TOKEN

If hvac is not installed, it says so, and nothing is tried. The last line is 'N passed, M failed'.
"""

import contextlib
import io
import os
import re
import sys
import textwrap
from pathlib import Path

try:
    import hvac
    import hvac.exceptions
except ImportError:
    hvac = None


PAGE = Path(__file__).resolve().parent.parent.parent / "docs/CLIENTS.md"


def expect(condition, what):
    if not condition:
        raise AssertionError(what)


def page(root, url):
    """What docs/CLIENTS.md shows."""
    code = re.search(r"^    import hvac\n(?:(?:    .*)?\n)+", PAGE.read_text(encoding="utf-8"), re.MULTILINE)[0]
    os.environ.update(VAULT_ADDR=url, VAULT_TOKEN=root.token)
    with contextlib.redirect_stdout(io.StringIO()) as printed:
        exec(textwrap.dedent(code), {})
    expect(printed.getvalue() == "{'user': 'app'}\n", f"it prints {printed.getvalue()}")


def secrets(root, _):
    kv = root.secrets.kv.v2
    kv.create_or_update_secret(path="hvac/one", secret={"user": "app"})
    found = kv.read_secret_version(path="hvac/one")
    expect(found["data"]["data"] == {"user": "app"}, "another secret is read")
    expect(kv.list_secrets(path="hvac")["data"]["keys"] == ["one"], "another list")
    kv.delete_latest_version_of_secret(path="hvac/one")
    try:
        kv.read_secret_version(path="hvac/one")
        raise AssertionError("a deleted version is read")
    except hvac.exceptions.InvalidPath:
        pass
    kv.delete_metadata_and_all_versions(path="hvac/one")


def tokens(root, url):
    """A token that one client object makes and another one uses, while the connection of the first stays open."""
    made = root.auth.token.create(policies=["default"])
    child = hvac.Client(url=url, token=made["auth"]["client_token"])
    expect(child.auth.token.lookup_self()["data"]["policies"] == ["default"], "other policies")
    root.auth.token.revoke(child.token)
    try:
        child.auth.token.lookup_self()
        raise AssertionError("a revoked token is served")
    except hvac.exceptions.Forbidden:
        pass


def policies(root, _):
    text = '{"path":{"secret/data/hvac/*":{"capabilities":["read"]}}}'
    root.sys.create_or_update_acl_policy(name="hvac", policy=text)
    expect(root.sys.read_acl_policy(name="hvac")["data"]["policy"] == text, "another policy is read")
    expect("hvac" in root.sys.list_acl_policies()["data"]["keys"], "it is not listed")
    root.sys.delete_acl_policy(name="hvac")


def mounts(root, _):
    root.sys.enable_secrets_engine(backend_type="kv", path="hvac-kv", options={"version": "2"})
    expect(root.sys.list_mounted_secrets_engines()["data"]["hvac-kv/"]["type"] == "kv", "another type is listed")
    root.secrets.kv.v2.create_or_update_secret(path="one", secret={"user": "app"}, mount_point="hvac-kv")
    root.sys.disable_secrets_engine(path="hvac-kv")
    expect("hvac-kv/" not in root.sys.list_mounted_secrets_engines()["data"], "it is still listed")


def leases(root, _):
    """A credential that is issued, its lease renewed and revoked, and another one revoked by its prefix."""
    root.sys.enable_secrets_engine(backend_type="issued", path="hvac-db")
    root.write("hvac-db/roles/app", ttl="1h", max_ttl="24h")
    issued = root.read("hvac-db/creds/app")
    lease_id = issued["lease_id"]
    expect(root.sys.read_lease(lease_id=lease_id)["data"]["id"] == lease_id, "another lease is read")
    expect(root.sys.renew_lease(lease_id=lease_id, increment=60)["lease_duration"] == 60, "another end")
    root.sys.revoke_lease(lease_id=lease_id)
    try:
        root.sys.read_lease(lease_id=lease_id)
        raise AssertionError("a revoked lease is read")
    except hvac.exceptions.InvalidRequest:
        pass
    credential = root.read("hvac-db/creds/app")["data"]["credential"]
    expect(root.write("hvac-db/verify", credential=credential)["data"]["valid"], "a credential is not valid")
    root.sys.revoke_prefix(prefix="hvac-db/creds/app")
    expect(not root.write("hvac-db/verify", credential=credential)["data"]["valid"], "it is still valid")
    root.sys.disable_secrets_engine(path="hvac-db")


def wrapping(root, url):
    """A secret that is handed on as a wrapping token, which another client object opens once."""
    root.write("cubbyhole/hvac", user="app")
    wrapped = root.read("cubbyhole/hvac", wrap_ttl="1m")["wrap_info"]
    told = hvac.Client(url=url).write("sys/wrapping/lookup", token=wrapped["token"])["data"]
    expect(told["creation_path"] == "cubbyhole/hvac", "another path is told")
    reader = hvac.Client(url=url, token=wrapped["token"])
    expect(reader.sys.unwrap()["data"] == {"user": "app"}, "another reply is handed out")
    try:
        reader.sys.unwrap()
        raise AssertionError("a reply is handed out twice")
    except hvac.exceptions.InvalidRequest:
        pass
    made = root.auth.token.create(policies=["default"], wrap_ttl="1m")
    expect(made["auth"] is None, "a token is told beside its wrapping token")
    child = hvac.Client(url=url, token=root.sys.unwrap(token=made["wrap_info"]["token"])["auth"]["client_token"])
    found = child.auth.token.lookup_self()["data"]["accessor"]
    expect(found == made["wrap_info"]["wrapped_accessor"], "another accessor")


def main():
    if hvac is None:
        print("hvac is not installed for this Python: its calls are skipped")
        print("0 passed, 0 failed")
        return 0
    url = f"http://127.0.0.1:{sys.argv[1]}"
    calls, failed = [page, secrets, tokens, mounts, leases, wrapping], 0
    if hasattr(hvac.Client(url=url).sys, "create_or_update_acl_policy"):  # older ones only have `sys/policy`
        calls.append(policies)
    for call in calls:
        try:
            call(hvac.Client(url=url, token=sys.argv[2]), url)
        except Exception as error:  # whatever the client raises
            failed += 1
            print(f"hvac, {call.__name__}: {type(error).__name__}: {error}")
    print(f"{len(calls) - failed} passed, {failed} failed")
    return 1 if failed else 0


if __name__ == "__main__":
    sys.exit(main())
