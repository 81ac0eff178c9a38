"""Secrets with versions (Vault's KV version 2)."""

import re
from dataclasses import replace
from types import MappingProxyType
from typing import Callable, Optional

from .answers import bad_request, invalid_field, not_found
from .calls import Call, Done, Reply, children, data_reply, keys_reply, silent
from .http import Ask
from .state import Broker, Key, Version, having, keeping, without
from .texts import time_text

GREATEST_VERSION = 999_999_999_999_999_999
KEPT_VERSIONS = 10  # if the settings name no number


def get_config(call: Call) -> Done:
    """The settings of the mount."""
    mount = call.b.mounts[call.mount]
    return data_reply(call, {"cas_required": mount.cas_required, "delete_version_after": "0s",
                             "max_versions": mount.max_versions})


def set_config(call: Call) -> Done:
    """The settings of the mount changed; what is absent stays."""
    cas_required, max_versions = call.members
    mount = call.b.mounts[call.mount]
    mount = replace(
        mount, cas_required=mount.cas_required if cas_required is None else cas_required,
        max_versions=mount.max_versions if max_versions is None else max_versions)
    return silent(replace(call.b, mounts=having(call.b.mounts, call.mount, mount)))


def with_key(call: Call, key: Key) -> Broker:
    """With the secret that is asked for, new or changed."""
    return replace(call.b, secrets=having(call.b.secrets, (call.mount, call.rest), key))


def key_of(call: Call) -> Optional[Key]:
    """The secret that is asked for."""
    return call.b.secrets.get((call.mount, call.rest))


def deletion_text(version: Version) -> str:
    """When a version was deleted; empty if it was not."""
    return "" if version.deleted is None else time_text(version.deleted)


# ------------------------------------------------------------------------------- reads and writes

def version_object(key: Key, number: int) -> dict:
    """What a read or a write replies of a version."""
    version = key.versions[number]
    return {"created_time": time_text(version.created), "custom_metadata": dict(key.custom_metadata) or None,
            "deletion_time": deletion_text(version), "destroyed": version.destroyed, "version": number}


def read_version(ask: Ask) -> int:
    """The version that a read asks for; 0 is the current one. Raises Refusal."""
    if ask.version is None:
        return 0
    if not re.fullmatch("[0-9]{1,18}", ask.version):
        raise invalid_field("version")
    return int(ask.version)


def read_secret_version(call: Call) -> Done:
    """A version of a secret; 404 with its metadata if it was deleted or destroyed."""
    key = key_of(call)
    number = call.members or (key.current if key else 0)
    if key is None or number not in key.versions:
        raise not_found()
    version = key.versions[number]
    gone = version.destroyed or version.deleted is not None
    data = {"data": None if gone else version.data, "metadata": version_object(key, number)}
    return Done(Reply(status=404 if gone else 200, data=data), call.b)


def write_secret(call: Call) -> Done:
    """A new version of a secret; the oldest ones go."""
    data, cas = call.members
    mount, now = call.b.mounts[call.mount], call.b.clock
    key = key_of(call) or Key(created=now, updated=now, current=0)
    if cas is None and (mount.cas_required or key.cas_required):
        raise bad_request("check-and-set parameter required for this call")
    if cas is not None and cas != key.current:
        raise bad_request("check-and-set parameter did not match the current version")
    if key.current == GREATEST_VERSION:
        raise invalid_field("version")
    number = key.current + 1
    kept = key.max_versions or mount.max_versions or KEPT_VERSIONS
    versions = having(key.versions, number, Version(now, None, False, data))
    key = replace(key, updated=now, current=number,
                  versions=keeping(versions, lambda n, _: n > number - kept))
    return Done(Reply(data=version_object(key, number)), with_key(call, key))


# ------------------------------------------------------------------------- versions that are changed

def change_versions(call: Call, numbers: list, change: Callable[[Version], Version]) -> Done:
    """Changes the versions that exist; the rest is passed over."""
    key = key_of(call)
    if key is None:
        return silent(call.b)
    versions = {n: change(v) if n in numbers else v for n, v in key.versions.items()}
    return silent(with_key(call, replace(key, versions=MappingProxyType(versions))))


def soft_delete(call: Call) -> Callable:
    """Deletes a version now, unless it was deleted before."""
    return lambda v: v if v.deleted is not None else replace(v, deleted=call.b.clock)


def delete_current(call: Call) -> Done:
    """The current version deleted."""
    key = key_of(call)
    return change_versions(call, [key.current] if key else [], soft_delete(call))


def delete_versions(call: Call) -> Done:
    """Versions deleted; their data stays."""
    return change_versions(call, call.members, soft_delete(call))


def undelete_versions(call: Call) -> Done:
    """Versions undeleted, but for destroyed ones."""
    return change_versions(call, call.members, lambda v: v if v.destroyed else replace(v, deleted=None))


def destroy_versions(call: Call) -> Done:
    """The data of versions destroyed."""
    return change_versions(call, call.members, lambda v: replace(v, destroyed=True, data=None))


# --------------------------------------------------------------------------------------- metadata

def get_metadata(call: Call) -> Done:
    """The metadata of a secret and of its versions."""
    key = key_of(call)
    if key is None:
        raise not_found()
    oldest = min(key.versions, default=0)
    return data_reply(call, {
        "cas_required": key.cas_required, "created_time": time_text(key.created),
        "current_version": key.current, "custom_metadata": dict(key.custom_metadata) or None,
        "delete_version_after": "0s", "max_versions": key.max_versions,
        "oldest_version": oldest if oldest > 1 else 0, "updated_time": time_text(key.updated),
        "versions": {
            str(number): {"created_time": time_text(version.created), "deletion_time": deletion_text(version),
                          "destroyed": version.destroyed}
            for number, version in key.versions.items()}})


def set_metadata(call: Call) -> Done:
    """The settings of a single secret changed; what is absent stays."""
    custom, max_versions, cas_required = call.members
    now = call.b.clock
    key = key_of(call) or Key(created=now, updated=now, current=0)
    return silent(with_key(call, replace(
        key, updated=now,
        custom_metadata=key.custom_metadata if custom is None else custom,
        max_versions=key.max_versions if max_versions is None else max_versions,
        cas_required=key.cas_required if cas_required is None else cas_required)))


def delete_metadata(call: Call) -> Done:
    """A secret deleted with all its versions."""
    return silent(replace(call.b, secrets=without(call.b.secrets, (call.mount, call.rest))))


def list_metadata(call: Call) -> Done:
    """The names of secrets and folders in a folder, or in the whole mount."""
    paths = [path for mount, path in call.b.secrets if mount == call.mount]
    return keys_reply(call, children(paths, call.rest + "/" if call.rest else ""))
