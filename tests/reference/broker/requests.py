"""One request: the checks in their order, the operation, and the wrapping of its reply."""

from dataclasses import replace
from typing import Optional

from .answers import Answer, Refusal, bad_request, forbidden
from .bodies import read_body, read_wrapping_token
from .calls import Call, Done
from .http import Ask
from .permissions import permit
from .routes import find_route
from .secrets import read_version
from .state import Broker, after_last_use, at, spent, without_response
from .texts import identifier
from .wrapping import wrapped

# The wrap TTL is ignored on these.
UNWRAPPED_PATHS = ("sys/wrapping/lookup", "sys/wrapping/rewrap", "sys/wrapping/unwrap")


def is_open(ask: Ask, parts: frozenset) -> bool:
    """Whether the ask needs no caller: it names a wrapping token, or is one, and that is permission enough."""
    if "wrapping" not in parts or ask.verb != "WRITE":
        return False
    if ask.path == "sys/wrapping/lookup":
        return True
    if ask.path not in ("sys/wrapping/unwrap", "sys/wrapping/rewrap"):
        return False
    try:
        token = read_wrapping_token(read_body(ask.body), parts)
    except Refusal:
        return False
    return not token or token == ask.token


def step(b: Broker, moment: int, words: list, ask: Ask, parts: frozenset) -> tuple:
    """The answer to an ask, and the next broker."""
    b = at(b, moment)
    caller = None
    if not is_open(ask, parts):
        if ask.token in b.waiting:
            return forbidden().answer(), without_response(b, ask.token)
        if ask.token not in b.tokens:
            return forbidden().answer(), b
        caller = ask.token
        b = spent(b, caller)
    try:
        done = served(b, caller, ask, words, parts)
    except Refusal as refusal:
        return refusal.answer(), after_last_use(b, caller)
    answer = Answer(done.reply.status, (), done.reply.text(words))
    if answer.status == 404:
        return answer, after_last_use(b, caller)
    after = replace(done.b, used=done.b.used | set(done.taken))
    return answer, after_last_use(after, caller)


def served(b: Broker, caller: Optional[str], ask: Ask, words: list, parts: frozenset) -> Done:
    """The checks before the operation, the operation, and the wrapping of its reply. Raises Refusal."""
    if caller is not None:
        permit(b, b.tokens[caller], ask, parts)
    route, mount, rest = find_route(b, ask.verb, ask.path, parts)
    members = None
    if route.verb == "WRITE":
        members = route.read(read_body(ask.body), parts)
    elif route.reads_version:
        members = read_version(ask)
    wraps = ask.wrap_ttl > 0 and ask.path not in UNWRAPPED_PATHS
    needed = [identifier(words[n]) for n in route.words + ((5, 6) if wraps else ())]
    if len(set(needed)) < len(needed) or any(each in b.used for each in needed):
        raise Refusal(500, "identifier already used")
    if ask.path == "sys/wrapping/wrap" and not wraps:
        raise bad_request("response wrapping is required")
    done = route.run(Call(b, caller, ask, words, mount, rest, members, parts))
    if not wraps or done.reply.status != 200:
        return done
    outer = wrapped(done.b, ask, done.reply, words)
    return replace(outer, taken=done.taken + outer.taken)
