"""What a caller is blind to, and when two brokers are alike but for what is hidden.

Nothing here is taken from how the reference broker serves a request, but for the types of its state.

*What is hidden* is chosen once, and stays while requests come: secrets, what is in secrets, cubbyholes, tokens, leases
and responses that wait. Two brokers are *alike* if nothing is left to tell them apart once what is hidden is taken out
of both; of the identifiers that were issued nothing is seen. A request is *blind* to what is hidden

- if its caller's policies let it see none of the hidden secrets, by no path,
- if its caller's own cubbyhole is not hidden,
- and if it brings the text of no hidden token, lease or response, nor asks for the accessors of all tokens while a
  token is hidden.

The law: to a request that is blind two alike brokers give the same answer, and the next two are alike; if each
identifier that the request's words can make was issued in both, or in neither.
"""

import functools
import json
from dataclasses import dataclass, replace

from broker.http import Ask
from broker.state import Broker, Key, Token
from broker.texts import identifier

# What shows what is in a secret: a capability on its path below `data/` or `metadata/`. To read is to see; a write that
# is served shows its number, and whether it needs `create` or `update` shows whether the secret is there.
SHOWS = frozenset({("data", "create"), ("data", "read"), ("data", "update"), ("metadata", "read")})
LISTS = True  # LIST on a folder above a secret shows that it is there
CLIENT_TOKEN = True  # a request brings its client token
MEMBERS = ("token", "accessor", "lease_id", "credential")  # of a body: it brings these
ALL_ACCESSORS = ("LIST", "auth/token/accessors")
OWN_CUBBYHOLE = True  # a caller sees its own cubbyhole
NEW_WORDS = True  # the law speaks of words whose identifiers were issued in both brokers, or in neither


# ------------------------------------------------------------------------------------- what policies grant

@functools.lru_cache(maxsize=4096)
def rules_in(text: str) -> dict:
    """The rules of a policy: from pattern to capabilities."""
    return {pattern: frozenset(rule["capabilities"]) for pattern, rule in json.loads(text)["path"].items()}


@functools.lru_cache(maxsize=65536)
def granted(texts: tuple, path: str, is_list: bool = False) -> frozenset:
    """What policies grant on a path: all that they say of the one pattern that counts, or nothing if one denies."""
    policies = [rules_in(text) for text in texts]
    patterns = {pattern for rules in policies for pattern in rules}
    asked = path + "/" if is_list else path
    exact = [it for it in (asked, path) if it in patterns and not it.endswith("*")]
    prefixes = sorted((it for it in patterns if it.endswith("*") and asked.startswith(it[:-1])), key=len)
    counting = exact[:1] or prefixes[-1:]
    said = {capability for rules in policies for it in counting for capability in rules.get(it, ())}
    return frozenset() if "deny" in said else frozenset(said)


def policies_of(b: Broker, token: Token) -> tuple:
    """The texts of a token's policies."""
    return tuple(b.policies[name] for name in token.policies if name in b.policies)


# ------------------------------------------------------------------------------- what a caller sees of secrets

def sees_into(b: Broker, token: Token, place: tuple) -> bool:
    """Whether a caller may see what is in the secret of a mount and a path."""
    mount, path = place
    texts = policies_of(b, token)
    return "root" in token.policies or any(
        capability in granted(texts, f"{mount}/{below}/{path}") for below, capability in SHOWS)


def sees_there(b: Broker, token: Token, place: tuple) -> bool:
    """Whether a caller may see that there is a secret of a mount and a path: also by the list of a folder above it."""
    mount, path = place
    texts = policies_of(b, token)
    above = [f"{mount}/metadata", *(f"{mount}/metadata/{path[:n]}" for n, c in enumerate(path) if c == "/")]
    return sees_into(b, token, place) or (LISTS and any("list" in granted(texts, it, True) for it in above))


# ----------------------------------------------------------------------------------- what is hidden

@dataclass(frozen=True)
class Hidden:
    """What is hidden. With a token all that hangs on it is: its descendants, and the texts of their leases."""
    places: frozenset = frozenset()  # (mount, path): whether there is a secret, and all of it
    contents: frozenset = frozenset()  # (mount, path): what is in the secret, and not whether there is one
    cubbyholes: frozenset = frozenset()  # tokens
    tokens: frozenset = frozenset()
    texts: frozenset = frozenset()  # lease ids, credentials, wrapping tokens, accessors

    def adding(self, tokens=(), texts=()) -> "Hidden":
        """With more tokens and texts."""
        return replace(self, tokens=self.tokens | set(tokens), texts=self.texts | set(texts))


def seen(b: Broker, hidden: Hidden) -> tuple:
    """A broker without what is hidden: its clock, and its maps."""
    tokens = {
        text: {**vars(token), "cubbyhole": None if text in hidden.cubbyholes else token.cubbyhole,
               "leases": {key: lease for key, lease in token.leases.items() if key not in hidden.texts}}
        for text, token in b.tokens.items() if text not in hidden.tokens}
    secrets = {place: None if place in hidden.contents else key
               for place, key in b.secrets.items() if place not in hidden.places}
    waiting = {text: entry for text, entry in b.waiting.items() if text not in hidden.texts}
    return b.clock, tokens, secrets, waiting, b.mounts, b.roles, b.policies


def alike(first: Broker, second: Broker, hidden: Hidden) -> bool:
    """Whether two brokers are alike but for what is hidden."""
    return seen(first, hidden) == seen(second, hidden)


def bare(b: Broker, hidden: Hidden) -> Broker:
    """The broker that has nothing of what is hidden; a secret whose contents are hidden has no version."""
    clock, tokens, secrets, waiting, *settings = seen(b, hidden)
    tokens = {text: Token(**{**fields, "cubbyhole": fields["cubbyhole"] or {}}) for text, fields in tokens.items()}
    secrets = {place: key or Key(0, 0, 0) for place, key in secrets.items()}
    return Broker(clock, tokens, secrets, waiting, b.used, *settings)


# ------------------------------------------------------------------------------------ blind requests

def brought(ask: Ask) -> set:
    """The texts that a request brings: its client token, and what members of its body name."""
    texts = {ask.token} if CLIENT_TOKEN and ask.token else set()
    if ask.verb == "WRITE":
        try:
            body = json.loads(ask.body or b"{}")
        except ValueError:
            body = None
        if isinstance(body, dict):
            texts |= {body[name] for name in MEMBERS if isinstance(body.get(name), str)}
    return texts


def is_blind(b: Broker, ask: Ask, hidden: Hidden) -> bool:
    """Whether a request is blind to what is hidden."""
    texts = brought(ask)
    if not texts.isdisjoint(hidden.texts) or not texts.isdisjoint(hidden.tokens):
        return False
    if hidden.tokens and (ask.verb, ask.path) == ALL_ACCESSORS:
        return False
    return ask.token not in b.tokens or is_blind_caller(b, ask.token, hidden)


def is_blind_caller(b: Broker, caller: str, hidden: Hidden) -> bool:
    """Whether a caller is blind to the secrets and the cubbyholes that are hidden."""
    token = b.tokens[caller]
    return (not (OWN_CUBBYHOLE and caller in hidden.cubbyholes)
            and not any(sees_there(b, token, place) for place in hidden.places)
            and not any(sees_into(b, token, place) for place in hidden.contents))


def are_alike_words(first: Broker, second: Broker, words: list) -> bool:
    """Whether each identifier of the words was issued in both brokers, or in neither."""
    return not NEW_WORDS or all((identifier(it) in first.used) == (identifier(it) in second.used) for it in words)
