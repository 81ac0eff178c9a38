"""The clauses of `blind`: what a caller learns if one is left out, and the change of `blind` that leaves it out."""

from unittest.mock import patch

from . import blind

WITHOUT = {}


def clause(name: str, **changed):
    """A clause, by the names of `blind` that have other values without it."""
    WITHOUT[name] = lambda: patch.multiple(blind, **changed)


def members_but(name: str) -> tuple:
    """The members of bodies that requests bring, without one."""
    return tuple(it for it in blind.MEMBERS if it != name)


for below, capability in sorted(blind.SHOWS):
    clause(f"`{capability}` below `{below}/`", SHOWS=blind.SHOWS - {(below, capability)})
clause("LIST on a folder above", LISTS=False)
clause("the caller's own cubbyhole", OWN_CUBBYHOLE=False)
clause("the client token, if it is a wrapping token", CLIENT_TOKEN=False)
for member in blind.MEMBERS:
    clause(f"`{member}` of a body", MEMBERS=members_but(member))
clause("LIST `auth/token/accessors`", ALL_ACCESSORS=None)
clause("identifiers that were issued", NEW_WORDS=False)
clause("policies that a request changes", is_blind_caller=lambda b, caller, hidden: True)
