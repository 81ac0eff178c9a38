"""What a caller's policies allow."""

from typing import Optional

from .answers import forbidden
from .http import Ask
from .json_text import BadJson, read_json
from .state import Broker, Token

CAPABILITIES = ("create", "read", "update", "delete", "list", "sudo", "deny", "patch")


def read_policy(text: str) -> Optional[dict]:
    """The rules of a policy's text, a map from pattern to capabilities, or None if it is not a policy."""
    try:
        policy = read_json(text.encode("utf-8"))
    except BadJson:
        return None
    if not isinstance(policy, dict) or not set(policy) <= {"name", "path"}:
        return None
    paths = policy.get("path")
    if not isinstance(paths, dict) or not all(is_rule(pattern, rule) for pattern, rule in paths.items()):
        return None
    return {pattern: frozenset(rule["capabilities"]) for pattern, rule in paths.items()}


def is_rule(pattern: str, rule) -> bool:
    """Whether a pattern has no segment `+`, and its rule is a list of capabilities and nothing else."""
    if "+" in pattern.split("/") or not isinstance(rule, dict) or set(rule) != {"capabilities"}:
        return False
    granted = rule["capabilities"]
    return isinstance(granted, list) and all(isinstance(g, str) and g in CAPABILITIES for g in granted)


def allows(b: Broker, caller: Token, verb: str, path: str, capability: str, parts: frozenset) -> bool:
    """Whether the caller has a capability at a path. Before policies are served all have all but `sudo`."""
    if caller.is_root():
        return True
    if "policies" not in parts:
        return capability != "sudo"
    policies = [read_policy(b.policies[name]) for name in caller.policies if name in b.policies]
    pattern = chosen_pattern({p for rules in policies for p in rules}, verb, path)
    granted = {c for rules in policies for c in rules.get(pattern, ())}
    return capability in granted and "deny" not in granted


def chosen_pattern(patterns: set, verb: str, path: str) -> Optional[str]:
    """An exact pattern comes first, else the longest prefix. LIST tries the path with `/` before the path."""
    text = path + "/" if verb == "LIST" else path
    for exact in (text, path):
        if exact in patterns and not exact.endswith("*"):
            return exact
    prefixes = [p for p in patterns if p.endswith("*") and text.startswith(p[:-1])]
    return max(prefixes, key=len, default=None)


def needs_sudo(path: str) -> bool:
    """Whether a path asks for `sudo` in addition to the capability of the verb."""
    return (path in ("auth/token/accessors", "auth/token/revoke-orphan")
            or path.startswith("sys/leases/revoke-prefix/"))


def needed_capability(b: Broker, caller: Token, ask: Ask) -> str:
    """A write creates a secret or a cubbyhole path that does not exist, and updates all else."""
    if ask.verb != "WRITE":
        return {"GET": "read", "LIST": "list", "DELETE": "delete"}[ask.verb]
    mount, _, rest = ask.path.partition("/")
    if mount == "cubbyhole" and rest:
        return "update" if rest in caller.cubbyhole else "create"
    if mount in b.mounts and b.mounts[mount].type == "kv" and rest.startswith("data/"):
        return "update" if (mount, rest[len("data/"):]) in b.secrets else "create"
    return "update"


def permit(b: Broker, caller: Token, ask: Ask, parts: frozenset) -> None:
    """Raises Refusal unless the caller's policies allow the ask."""
    if not allows(b, caller, ask.verb, ask.path, needed_capability(b, caller, ask), parts):
        raise forbidden()
    if needs_sudo(ask.path) and not allows(b, caller, ask.verb, ask.path, "sudo", parts):
        raise forbidden()
