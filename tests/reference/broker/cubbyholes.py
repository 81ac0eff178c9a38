"""Cubbyholes: what each token keeps for itself."""

from dataclasses import replace

from .answers import bad_request, not_found
from .calls import Call, Done, children, data_reply, keys_reply, silent
from .state import having, with_token, without


def read_cubbyhole(call: Call) -> Done:
    """The object at a path."""
    if call.rest not in call.token().cubbyhole:
        raise not_found()
    return data_reply(call, call.token().cubbyhole[call.rest])


def list_cubbyhole(call: Call) -> Done:
    """The names in a folder, or in the whole cubbyhole."""
    return keys_reply(call, children(call.token().cubbyhole, call.rest + "/" if call.rest else ""))


def write_cubbyhole(call: Call) -> Done:
    """An object written to a path."""
    if not call.members:
        raise bad_request("missing data fields")
    token = call.token()
    kept = having(token.cubbyhole, call.rest, call.members)
    return silent(with_token(call.b, call.caller, replace(token, cubbyhole=kept)))


def delete_cubbyhole(call: Call) -> Done:
    """The object at a path deleted."""
    token = call.token()
    return silent(with_token(call.b, call.caller, replace(token, cubbyhole=without(token.cubbyhole, call.rest))))
