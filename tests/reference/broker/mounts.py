"""Mounts: enabled, disabled and listed."""

from dataclasses import replace

from .answers import bad_request
from .calls import Call, Done, data_reply, silent
from .state import Mount, having, keeping, without, without_leases
from .texts import is_name


def list_mounts(call: Call) -> Done:
    """All mounts."""
    found = {"cubbyhole/": {"options": None, "type": "cubbyhole"}, "sys/": {"options": None, "type": "system"}}
    for name, mount in call.b.mounts.items():
        found[name + "/"] = {"options": {"version": "2"} if mount.type == "kv" else None, "type": mount.type}
    return data_reply(call, found)


def enable_mount(call: Call) -> Done:
    """A mount enabled."""
    kind, version = call.members
    if not is_name(call.rest):
        raise bad_request("invalid name")
    if call.rest in ("sys", "auth", "cubbyhole", "identity") or call.rest in call.b.mounts:
        raise bad_request("path is already in use")
    if kind == "issued":
        mount = Mount("issued")
    elif kind == "kv-v2" or (kind == "kv" and version == 2):
        mount = Mount("kv")
    else:
        raise bad_request("unsupported mount")
    return silent(replace(call.b, mounts=having(call.b.mounts, call.rest, mount)))


def disable_mount(call: Call) -> Done:
    """A mount disabled: its secrets, its roles and the leases under it go."""
    name = call.rest
    if name in ("sys", "auth", "cubbyhole"):
        raise bad_request("cannot be disabled")
    if name not in call.b.mounts:
        return silent(call.b)
    b = without_leases(call.b, lambda lease_id: lease_id.startswith(name + "/"))
    return silent(replace(
        b, mounts=without(b.mounts, name),
        secrets=keeping(b.secrets, lambda key, _: key[0] != name),
        roles=keeping(b.roles, lambda key, _: key[0] != name)))
