"""Policies: set, read, deleted and listed. What they allow is in `permissions.py`."""

from dataclasses import replace

from .answers import bad_request, not_found
from .calls import Call, Done, data_reply, keys_reply, silent
from .permissions import read_policy
from .state import having, without
from .texts import is_name


def list_policies(call: Call) -> Done:
    """The names of all policies, the two that cannot go among them."""
    return keys_reply(call, {"default", "root", *call.b.policies})


def get_policy(call: Call) -> Done:
    """The text of a policy; that of `root` is empty."""
    if call.rest != "root" and call.rest not in call.b.policies:
        raise not_found()
    return data_reply(call, {"name": call.rest, "policy": "" if call.rest == "root" else call.b.policies[call.rest]})


def set_policy(call: Call) -> Done:
    """A policy, new or changed."""
    if not is_name(call.rest):
        raise bad_request("invalid name")
    if call.rest == "root":
        raise bad_request("policy cannot be changed")
    if read_policy(call.members) is None:
        raise bad_request("unsupported policy")
    return silent(replace(call.b, policies=having(call.b.policies, call.rest, call.members)))


def delete_policy(call: Call) -> Done:
    """A policy deleted."""
    if call.rest in ("root", "default"):
        raise bad_request("policy cannot be changed")
    return silent(replace(call.b, policies=without(call.b.policies, call.rest)))
