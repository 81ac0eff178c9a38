"""The state of the broker: one immutable value of three maps.

The maps are the tokens, with the cubbyhole and the leases of each; the secrets; and the wrapped responses that wait.
Beside them are the clock, the used identifiers and the settings: mounts, roles and policies. Nothing is ever changed
in place, so a refusal needs no undoing: it answers with an earlier value.
"""

from dataclasses import dataclass, field, replace
from types import MappingProxyType
from typing import Callable, Mapping, Optional

from .texts import identifier, token_text

NO_ENTRIES: Mapping = MappingProxyType({})


def no_entries():
    """The default of a field that is an empty map."""
    return field(default_factory=lambda: NO_ENTRIES)


@dataclass(frozen=True)
class Lease:
    """A lease of an issued credential."""
    issued: int
    ttl: int
    max: int
    end: int
    renewed: Optional[int]
    credential: str


@dataclass(frozen=True)
class Token:
    """A token, with what belongs to it alone."""
    parent: Optional[str]
    accessor: str
    policies: tuple  # sorted, each once
    issued: int
    end: Optional[int]  # None: it does not expire
    ttl: int  # as created; 0 if it does not expire
    explicit_max: int  # 0 is none
    period: int  # 0 is none
    uses: Optional[int]  # uses left; None is no limit
    meta: tuple  # of (name, string), sorted by name
    cubbyhole: Mapping = no_entries()  # path -> object
    leases: Mapping = no_entries()  # lease id -> Lease

    def is_root(self) -> bool:
        """Whether it has the policy `root`."""
        return "root" in self.policies


@dataclass(frozen=True)
class Version:
    """One version of a secret."""
    created: int
    deleted: Optional[int]
    destroyed: bool
    data: Optional[dict]  # None if destroyed


@dataclass(frozen=True)
class Key:
    """A secret with its versions."""
    created: int
    updated: int
    current: int
    versions: Mapping = no_entries()  # number -> Version
    cas_required: bool = False
    max_versions: int = 0
    custom_metadata: tuple = ()  # of (name, string), sorted by name


@dataclass(frozen=True)
class Waiting:
    """A wrapped response that waits for its wrapping token."""
    accessor: str
    created: int
    ttl: int
    path: str
    text: str  # the body of the kept reply, its LF included
    origin: str  # the identifier of the first wrapping token that held it

    def end(self) -> int:
        """When it expires."""
        return self.created + self.ttl


@dataclass(frozen=True)
class Mount:
    """A mount and its settings."""
    type: str  # kv or issued
    cas_required: bool = False
    max_versions: int = 0


@dataclass(frozen=True)
class Role:
    """A role that credentials are issued for."""
    ttl: int
    max_ttl: int


@dataclass(frozen=True)
class Broker:
    """The whole state."""
    clock: int
    tokens: Mapping  # token -> Token
    secrets: Mapping = no_entries()  # (mount, path) -> Key
    waiting: Mapping = no_entries()  # wrapping token -> Waiting
    used: frozenset = frozenset()  # identifiers
    mounts: Mapping = no_entries()  # name -> Mount
    roles: Mapping = no_entries()  # (mount, name) -> Role
    policies: Mapping = no_entries()  # name -> text


def having(entries: Mapping, key, value) -> Mapping:
    """The map with one entry more, or another one there."""
    return MappingProxyType({**entries, key: value})


def keeping(entries: Mapping, test: Callable) -> Mapping:
    """The entries whose key and value pass the test."""
    return MappingProxyType({k: v for k, v in entries.items() if test(k, v)})


def without(entries: Mapping, key) -> Mapping:
    """The map without one entry."""
    return keeping(entries, lambda k, _: k != key)


DEFAULT_POLICY = (
    '{"path":{"auth/token/lookup-self":{"capabilities":["read"]},'
    '"auth/token/renew-self":{"capabilities":["update"]},'
    '"auth/token/revoke-self":{"capabilities":["update"]},'
    '"cubbyhole/*":{"capabilities":["create","read","update","delete","list"]},'
    '"sys/leases/lookup":{"capabilities":["update"]},'
    '"sys/leases/renew":{"capabilities":["update"]},'
    '"sys/wrapping/lookup":{"capabilities":["update"]},'
    '"sys/wrapping/unwrap":{"capabilities":["update"]},'
    '"sys/wrapping/wrap":{"capabilities":["update"]}}}')


def first_broker(moment: int, words: list) -> Broker:
    """The broker after its start: the root token of words 1 and 2, which differ."""
    root = Token(None, identifier(words[2]), ("root",), moment, None, 0, 0, 0, None, ())
    return Broker(
        clock=moment,
        tokens=having(NO_ENTRIES, token_text(words[1]), root),
        used=frozenset((identifier(words[1]), identifier(words[2]))),
        mounts=having(NO_ENTRIES, "secret", Mount("kv")),
        policies=having(NO_ENTRIES, "default", DEFAULT_POLICY))


# ------------------------------------------------------------ changes that do not depend on the route

def under(b: Broker, token: Optional[str], above: str) -> bool:
    """Whether a token is another one or one of its descendants."""
    while token is not None:
        if token == above:
            return True
        token = b.tokens[token].parent if token in b.tokens else None
    return False


def at(b: Broker, moment: int) -> Broker:
    """The broker at a moment: the clock never goes back, and what has expired is gone.

    A token is there while it and every token above it do not expire, or expire later.
    """
    clock = max(b.clock, moment)

    def stands(text: Optional[str]) -> bool:
        while text is not None:
            end = b.tokens[text].end
            if end is not None and end <= clock:
                return False
            text = b.tokens[text].parent
        return True

    tokens = {
        text: replace(token, leases=keeping(token.leases, lambda _, lease: lease.end > clock))
        for text, token in b.tokens.items() if stands(text)}
    return replace(
        b, clock=clock, tokens=MappingProxyType(tokens),
        waiting=keeping(b.waiting, lambda _, entry: entry.end() > clock))


def revoked(b: Broker, token: str) -> Broker:
    """Without the token and its descendants."""
    return replace(b, tokens=keeping(b.tokens, lambda text, _: not under(b, text, token)))


def orphaned(b: Broker, token: str) -> Broker:
    """Without the token; its children are orphans then."""
    tokens = {
        text: replace(t, parent=None) if t.parent == token else t
        for text, t in b.tokens.items() if text != token}
    return replace(b, tokens=MappingProxyType(tokens))


def without_response(b: Broker, token: str) -> Broker:
    """Without the response that waits for a wrapping token, if there is one."""
    return replace(b, waiting=without(b.waiting, token))


def spent(b: Broker, caller: str) -> Broker:
    """With one use less where the caller's uses are limited."""
    token = b.tokens[caller]
    if token.uses is None:
        return b
    return with_token(b, caller, replace(token, uses=token.uses - 1))


def after_last_use(b: Broker, caller: Optional[str]) -> Broker:
    """Without a caller that has no uses left, and without its descendants."""
    if caller in b.tokens and b.tokens[caller].uses == 0:
        return revoked(b, caller)
    return b


def with_token(b: Broker, text: str, token: Token) -> Broker:
    """With a token, new or changed."""
    return replace(b, tokens=having(b.tokens, text, token))


def without_leases(b: Broker, test: Callable[[str], bool]) -> Broker:
    """Without the leases whose id passes the test, whichever token has them."""
    tokens = {
        text: replace(token, leases=keeping(token.leases, lambda lease_id, _: not test(lease_id)))
        for text, token in b.tokens.items()}
    return replace(b, tokens=MappingProxyType(tokens))
