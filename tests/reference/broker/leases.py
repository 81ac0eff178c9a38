"""Leases, looked up, renewed and revoked; and the mounts of type `issued`, whose credentials have them."""

from dataclasses import replace
from typing import Optional

from .answers import bad_request, not_found
from .calls import Call, Done, Reply, data_reply, least, seconds_left, silent
from .state import Broker, Lease, having, with_token, without, without_leases
from .texts import LONGEST_LIFE, identifier, is_name, time_text


def lease_holder(b: Broker, lease_id: str) -> Optional[str]:
    """The token that has a lease."""
    return next((text for text, token in b.tokens.items() if lease_id in token.leases), None)


def known_lease(call: Call, lease_id: str) -> tuple:
    """The token that has the lease, and the lease. Raises Refusal."""
    holder = lease_holder(call.b, lease_id)
    if holder is None:
        raise bad_request("invalid lease")
    return holder, call.b.tokens[holder].leases[lease_id]


def with_lease(b: Broker, holder: str, lease_id: str, lease: Lease) -> Broker:
    """With a lease of a token, new or changed."""
    token = b.tokens[holder]
    return with_token(b, holder, replace(token, leases=having(token.leases, lease_id, lease)))


def lookup_lease(call: Call) -> Done:
    """A lease by its id."""
    _, lease = known_lease(call, call.members)
    return data_reply(call, {
        "expire_time": time_text(lease.end), "id": call.members, "issue_time": time_text(lease.issued),
        "last_renewal": None if lease.renewed is None else time_text(lease.renewed),
        "renewable": True, "ttl": seconds_left(call.b, lease.end)})


def renew_lease(call: Call) -> Done:
    """A lease renewed, within its longest life."""
    lease_id, increment = call.members
    holder, lease = known_lease(call, lease_id)
    now = call.b.clock
    end = min(now + (increment or lease.ttl), lease.issued + lease.max)
    b = with_lease(call.b, holder, lease_id, replace(lease, end=end, renewed=now))
    return Done(Reply(lease_id=lease_id, lease_duration=end - now, renewable=True), b)


def revoke_lease(call: Call) -> Done:
    """One lease revoked."""
    return silent(without_leases(call.b, lambda lease_id: lease_id == call.members))


def revoke_prefix(call: Call) -> Done:
    """The leases revoked whose id begins with a path and `/`."""
    return silent(without_leases(call.b, lambda lease_id: lease_id.startswith(call.rest + "/")))


# ------------------------------------------------------------------------- roles and credentials

def get_role(call: Call) -> Done:
    """A role."""
    role = call.b.roles.get((call.mount, call.rest))
    if role is None:
        raise not_found()
    return data_reply(call, {"max_ttl": role.max_ttl, "ttl": role.ttl})


def set_role(call: Call) -> Done:
    """A role, new or changed."""
    if not is_name(call.rest):
        raise bad_request("invalid name")
    return silent(replace(call.b, roles=having(call.b.roles, (call.mount, call.rest), call.members)))


def delete_role(call: Call) -> Done:
    """A role deleted."""
    return silent(replace(call.b, roles=without(call.b.roles, (call.mount, call.rest))))


def issue_credential(call: Call) -> Done:
    """A credential issued for a role, with its lease."""
    role = call.b.roles.get((call.mount, call.rest))
    if role is None:
        raise not_found()
    if call.token().uses == 0:
        raise bad_request("a last use cannot take a lease")
    longest = least(role.max_ttl, LONGEST_LIFE)
    ttl, now = least(role.ttl, longest), call.b.clock
    own, credential = identifier(call.words[3]), identifier(call.words[4])
    lease_id = f"{call.mount}/creds/{call.rest}/{own}"
    b = with_lease(call.b, call.caller, lease_id, Lease(now, ttl, longest, now + ttl, None, credential))
    reply = Reply(data={"credential": credential}, lease_id=lease_id, lease_duration=ttl, renewable=True)
    return Done(reply, b, (own, credential))


def verify_credential(call: Call) -> Done:
    """Whether a credential has a lease that has not ended."""
    valid = any(lease.credential == call.members
                for token in call.b.tokens.values() for lease in token.leases.values())
    return data_reply(call, {"valid": valid})
