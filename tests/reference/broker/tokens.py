"""Tokens: created, looked up, renewed, revoked and listed."""

from dataclasses import replace
from typing import Callable, Optional

from .answers import Refusal, bad_request
from .calls import Call, Done, Reply, data_reply, keys_reply, least, seconds_left, silent
from .state import Broker, Token, orphaned, revoked, with_token, without_response
from .texts import LONGEST_LIFE, identifier, is_name, time_text, token_text


def auth_object(b: Broker, text: str) -> dict:
    """What a creation or a renewal replies of a token."""
    token = b.tokens[text]
    return {
        "accessor": token.accessor, "client_token": text, "entity_id": "",
        "lease_duration": seconds_left(b, token.end), "metadata": dict(token.meta) or None,
        "num_uses": token.uses or 0, "orphan": token.parent is None, "policies": token.policies,
        "renewable": token.end is not None, "token_policies": token.policies, "token_type": "service"}


def token_object(b: Broker, text: str) -> dict:
    """What a look-up replies of a token."""
    token = b.tokens[text]
    found = {
        "accessor": token.accessor, "creation_time": token.issued, "creation_ttl": token.ttl,
        "expire_time": None if token.end is None else time_text(token.end),
        "explicit_max_ttl": token.explicit_max, "id": text, "issue_time": time_text(token.issued),
        "meta": dict(token.meta) or None, "num_uses": token.uses or 0, "orphan": token.parent is None,
        "policies": token.policies, "renewable": token.end is not None,
        "ttl": seconds_left(b, token.end), "type": "service"}
    if token.period > 0:
        found["period"] = token.period
    return found


# ----------------------------------------------------------------------------------------- creation

def refuse_creation(call: Call, orphan: bool, no_end: bool) -> None:
    """Raises the first refusal that holds, in the fixed order."""
    asked_for, caller = call.members, call.token()
    privileged = call.has_sudo()
    if caller.uses is not None:
        raise bad_request("restricted use token cannot generate child tokens")
    if not all(is_name(name) for name in asked_for.policies):
        raise bad_request("invalid name")
    if "root" in asked_for.policies and not caller.is_root():
        raise bad_request("only a root token can create root tokens")
    if not privileged and not set(asked_for.policies) <= set(caller.policies):
        raise bad_request("child policies must be subset of parent")
    if not privileged and not orphan and asked_for.no_parent:
        raise bad_request("root or sudo privileges required to create orphan token")
    if no_end and caller.end is not None:
        raise bad_request("expiring root tokens cannot create non-expiring root tokens")
    if not privileged and asked_for.period > 0:
        raise bad_request("root or sudo privileges required to create periodic token")


def child_policies(call: Call) -> tuple:
    """The policies of the token that is created."""
    asked_for, caller = call.members, call.token()
    found = set(asked_for.policies or caller.policies)
    if "root" in found:
        return ("root",)
    if asked_for.policies and (call.has_sudo() or "default" in caller.policies):
        found.add("default")
    if asked_for.no_default_policy:
        found.discard("default")
    return tuple(sorted(found))


def child_ttl(asked_for, no_end: bool) -> int:
    """The ttl of the token that is created; 0 if it does not expire."""
    if no_end:
        return 0
    if asked_for.period > 0:
        return least(asked_for.period, asked_for.explicit_max)
    return least(asked_for.ttl, LONGEST_LIFE, asked_for.explicit_max)


def create(orphan: bool) -> Callable:
    """The creation of a token; with `orphan` it has no parent, whatever its body says."""
    def run(call: Call) -> Done:
        asked_for = call.members
        policies = child_policies(call)
        no_end = policies == ("root",) and not (asked_for.ttl or asked_for.explicit_max or asked_for.period)
        refuse_creation(call, orphan, no_end)
        ttl = child_ttl(asked_for, no_end)
        text, accessor, now = token_text(call.words[1]), identifier(call.words[2]), call.b.clock
        token = Token(
            parent=None if orphan or asked_for.no_parent else call.caller,
            accessor=accessor, policies=policies, issued=now, end=None if no_end else now + ttl,
            ttl=ttl, explicit_max=asked_for.explicit_max, period=asked_for.period,
            uses=asked_for.num_uses or None, meta=asked_for.meta)
        b = with_token(call.b, text, token)
        return Done(Reply(auth=auth_object(b, text), made_accessor=accessor), b,
                    (identifier(call.words[1]), accessor))
    return run


# ---------------------------------------------------------------------------------------- look-ups

def known_token(call: Call, text: str) -> str:
    """The token, which must exist."""
    if text not in call.b.tokens:
        raise Refusal(403, "bad token")
    return text


def token_of_accessor(b: Broker, accessor: str) -> Optional[str]:
    """The token of an accessor."""
    return next((text for text, token in b.tokens.items() if token.accessor == accessor), None)


def wrapping_token_of_accessor(b: Broker, accessor: str) -> Optional[str]:
    """The wrapping token of an accessor."""
    return next((text for text, entry in b.waiting.items() if entry.accessor == accessor), None)


def lookup_self(call: Call) -> Done:
    """The caller's own token."""
    return data_reply(call, token_object(call.b, call.caller))


def lookup_token(call: Call) -> Done:
    """A token by itself."""
    return data_reply(call, token_object(call.b, known_token(call, call.members)))


def lookup_accessor(call: Call) -> Done:
    """A token by its accessor, without the token itself."""
    text = token_of_accessor(call.b, call.members)
    if text is None:
        raise bad_request("invalid accessor")
    return data_reply(call, {**token_object(call.b, text), "id": ""})


def list_accessors(call: Call) -> Done:
    """The accessors of all tokens."""
    return keys_reply(call, [token.accessor for token in call.b.tokens.values()])


# ------------------------------------------------------------------------------ renewal, revocation

def renew_token(call: Call) -> Done:
    """The renewal of a token."""
    text, increment = call.members
    return renewed_token(call, known_token(call, text), increment)


def renew_self(call: Call) -> Done:
    """The renewal of the caller's own token."""
    return renewed_token(call, call.caller, call.members)


def renewed_token(call: Call, text: str, increment: int) -> Done:
    """A token renewed by its period, or by the increment within its longest life."""
    token, now = call.b.tokens[text], call.b.clock
    if token.end is None:
        raise bad_request("lease is not renewable")
    latest = token.issued + token.explicit_max if token.explicit_max > 0 else 0
    if token.period > 0:
        end = least(now + token.period, latest)
    else:
        end = least(now + (increment or token.ttl), latest, token.issued + LONGEST_LIFE)
    b = with_token(call.b, text, replace(token, end=end))
    return Done(Reply(auth=auth_object(b, text)), b)


def revoke(call: Call) -> Done:
    """A token revoked with its descendants, or a wrapping token with its response."""
    return silent(without_response(revoked(call.b, call.members), call.members))


def revoke_self(call: Call) -> Done:
    """The caller's own token revoked."""
    return silent(revoked(call.b, call.caller))


def revoke_orphan(call: Call) -> Done:
    """A token revoked, whose children become orphans."""
    return silent(without_response(orphaned(call.b, call.members), call.members))


def revoke_accessor(call: Call) -> Done:
    """A token or a wrapping token revoked by its accessor."""
    text = token_of_accessor(call.b, call.members)
    if text is not None:
        return silent(revoked(call.b, text))
    wrapping = wrapping_token_of_accessor(call.b, call.members)
    if wrapping is None:
        raise bad_request("invalid accessor")
    return silent(without_response(call.b, wrapping))
