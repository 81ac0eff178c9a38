"""The table of routes, and which route a verb and a path mean."""

from dataclasses import dataclass
from typing import Any, Callable, Mapping, Optional

from .answers import Refusal, not_found
from .bodies import (any_object, no_members, read_config, read_creation, read_increment, read_key_settings, read_mount,
                     read_renewal, read_role, read_secret, read_versions, read_wrapping_token, required_text)
from .calls import Call, Done
from .cubbyholes import delete_cubbyhole, list_cubbyhole, read_cubbyhole, write_cubbyhole
from .leases import (delete_role, get_role, issue_credential, lookup_lease, renew_lease, revoke_lease, revoke_prefix,
                     set_role, verify_credential)
from .mounts import disable_mount, enable_mount, list_mounts
from .policies import delete_policy, get_policy, list_policies, set_policy
from .secrets import (delete_current, delete_metadata, delete_versions, destroy_versions, get_config, get_metadata,
                      list_metadata, read_secret_version, set_config, set_metadata, undelete_versions, write_secret)
from .state import Broker
from .tokens import (create, list_accessors, lookup_accessor, lookup_self, lookup_token, renew_self, renew_token,
                     revoke, revoke_accessor, revoke_orphan, revoke_self)
from .wrapping import lookup_wrapping, rewrap, unwrap, wrap


@dataclass(frozen=True)
class Route:
    """One route: where it is, what it does, and what it needs."""
    part: str  # the part that serves it
    mount_type: str  # auth, sys, cubbyhole, kv or issued
    pattern: str  # after the mount; NAME is one segment, PATH one or more
    verb: str
    run: Callable[[Call], Done]
    read: Callable[[Mapping, frozenset], Any] = no_members  # the members of a write's body
    words: tuple = ()  # the words that it makes identifiers of
    reads_version: bool = False


ROUTES = (
    Route("tokens", "auth", "token/create", "WRITE", create(orphan=False), read_creation, words=(1, 2)),
    Route("tokens", "auth", "token/create-orphan", "WRITE", create(orphan=True), read_creation, words=(1, 2)),
    Route("tokens", "auth", "token/lookup-self", "GET", lookup_self),
    Route("tokens", "auth", "token/lookup", "WRITE", lookup_token, required_text("token")),
    Route("tokens", "auth", "token/lookup-accessor", "WRITE", lookup_accessor, required_text("accessor")),
    Route("tokens", "auth", "token/renew", "WRITE", renew_token, read_renewal("token")),
    Route("tokens", "auth", "token/renew-self", "WRITE", renew_self, read_increment),
    Route("tokens", "auth", "token/revoke", "WRITE", revoke, required_text("token")),
    Route("tokens", "auth", "token/revoke-orphan", "WRITE", revoke_orphan, required_text("token")),
    Route("tokens", "auth", "token/revoke-self", "WRITE", revoke_self),
    Route("tokens", "auth", "token/revoke-accessor", "WRITE", revoke_accessor, required_text("accessor")),
    Route("tokens", "auth", "token/accessors", "LIST", list_accessors),
    Route("wrapping", "sys", "wrapping/wrap", "WRITE", wrap, any_object),
    Route("wrapping", "sys", "wrapping/lookup", "WRITE", lookup_wrapping, read_wrapping_token),
    Route("wrapping", "sys", "wrapping/rewrap", "WRITE", rewrap, read_wrapping_token, words=(5, 6)),
    Route("wrapping", "sys", "wrapping/unwrap", "WRITE", unwrap, read_wrapping_token),
    Route("mounts", "sys", "leases/lookup", "WRITE", lookup_lease, required_text("lease_id")),
    Route("mounts", "sys", "leases/renew", "WRITE", renew_lease, read_renewal("lease_id")),
    Route("mounts", "sys", "leases/revoke", "WRITE", revoke_lease, required_text("lease_id")),
    Route("mounts", "sys", "leases/revoke-prefix/PATH", "WRITE", revoke_prefix),
    Route("mounts", "sys", "mounts", "GET", list_mounts),
    Route("mounts", "sys", "mounts/NAME", "WRITE", enable_mount, read_mount),
    Route("mounts", "sys", "mounts/NAME", "DELETE", disable_mount),
    Route("policies", "sys", "policies/acl", "LIST", list_policies),
    Route("policies", "sys", "policies/acl/NAME", "GET", get_policy),
    Route("policies", "sys", "policies/acl/NAME", "WRITE", set_policy, required_text("policy")),
    Route("policies", "sys", "policies/acl/NAME", "DELETE", delete_policy),
    Route("cubbyhole-lists", "cubbyhole", "", "LIST", list_cubbyhole),
    Route("cubbyholes", "cubbyhole", "PATH", "GET", read_cubbyhole),
    Route("cubbyhole-lists", "cubbyhole", "PATH", "LIST", list_cubbyhole),
    Route("cubbyholes", "cubbyhole", "PATH", "WRITE", write_cubbyhole, any_object),
    Route("cubbyhole-lists", "cubbyhole", "PATH", "DELETE", delete_cubbyhole),
    Route("secrets", "kv", "config", "GET", get_config),
    Route("secrets", "kv", "config", "WRITE", set_config, read_config),
    Route("secrets", "kv", "data/PATH", "GET", read_secret_version, reads_version=True),
    Route("secrets", "kv", "data/PATH", "WRITE", write_secret, read_secret),
    Route("secrets", "kv", "data/PATH", "DELETE", delete_current),
    Route("secrets", "kv", "delete/PATH", "WRITE", delete_versions, read_versions),
    Route("secrets", "kv", "undelete/PATH", "WRITE", undelete_versions, read_versions),
    Route("secrets", "kv", "destroy/PATH", "WRITE", destroy_versions, read_versions),
    Route("secrets", "kv", "metadata", "LIST", list_metadata),
    Route("secrets", "kv", "metadata/PATH", "GET", get_metadata),
    Route("secrets", "kv", "metadata/PATH", "LIST", list_metadata),
    Route("key-settings", "kv", "metadata/PATH", "WRITE", set_metadata, read_key_settings),
    Route("secrets", "kv", "metadata/PATH", "DELETE", delete_metadata),
    Route("mounts", "issued", "roles/NAME", "GET", get_role),
    Route("mounts", "issued", "roles/NAME", "WRITE", set_role, read_role),
    Route("mounts", "issued", "roles/NAME", "DELETE", delete_role),
    Route("mounts", "issued", "creds/NAME", "GET", issue_credential, words=(3, 4)),
    Route("mounts", "issued", "verify", "WRITE", verify_credential, required_text("credential")),
)

METHODS = (("GET", "GET"), ("LIST", "LIST"), ("POST", "WRITE"), ("PUT", "WRITE"), ("DELETE", "DELETE"))


def match_pattern(pattern: str, path: str) -> Optional[str]:
    """What stands for NAME or PATH (empty where the pattern has neither), or None."""
    head, _, last = pattern.rpartition("/")
    if last not in ("NAME", "PATH"):
        return "" if path == pattern else None
    prefix = head + "/" if head else ""
    rest = path[len(prefix):]
    if not path.startswith(prefix) or rest == "" or (last == "NAME" and "/" in rest):
        return None
    return rest


def find_route(b: Broker, verb: str, path: str, parts: frozenset) -> tuple:
    """The route, its mount and what stands for NAME or PATH. Raises Refusal."""
    mount, _, within = path.partition("/")
    if mount in ("auth", "sys", "cubbyhole"):
        mount_type = mount
    elif mount in b.mounts:
        mount_type = b.mounts[mount].type
    else:
        raise not_found()
    found = [(route, match_pattern(route.pattern, within)) for route in ROUTES
             if route.mount_type == mount_type and route.part in parts]
    found = [(route, rest) for route, rest in found if rest is not None]
    if not found:
        raise not_found()
    for route, rest in found:
        if route.verb == verb:
            return route, mount, rest
    verbs = {route.verb for route, _ in found}
    raise Refusal(405, "unsupported operation", tuple(method for method, v in METHODS if v in verbs))
