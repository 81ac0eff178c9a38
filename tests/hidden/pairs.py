"""Makes two brokers that are alike but for what some callers are blind to, and asks both what these callers ask."""

import copy
import json
from collections import Counter

from broker.answers import Refusal
from broker.http import Ask
from broker.parts import TODAY
from broker.requests import step
from broker.routes import find_route
from broker.state import Broker, under

from . import blind
from .blind import Hidden
from .drawing import ISSUED, KV, PATHS, ROOT, drawn_broker

PLACES = [(mount, path) for mount in KV for path in PATHS]
KINDS = ("places", "contents", "cubbyholes", "tokens", "leases", "responses")
MOST_CHANGES = 18  # of what is hidden, in each broker before the first request
LEAPS = (0, 0, 0, 0, 0, 1, 1, 30, 400)
UNKNOWN = "hvs.unknown"


class Told(Exception):
    """A caller was told something that it is blind to."""


class Pair:
    """Two brokers, and what is hidden of them."""

    def __init__(self, seed: str):
        base, drawer = drawn_broker(seed)
        self.draw_by(drawer.again())
        tokens = [it for it in base.tokens if it != ROOT]
        able = [it for it in tokens if blind.granted(blind.policies_of(base, base.tokens[it]), "sys/mounts")]
        tokens = (able if not self.chance(6) else tokens) or [ROOT]
        self.callers = self.drawer.draw.sample(tokens, min(len(tokens), self.pick([1, 1, 1, 2])))
        if self.chance(12):
            self.callers.append(ROOT)
        self.hidden = self.hidden_of(base)
        self.brokers = [base, base]
        self.words_of_one = []  # of changes in one of the two that were served
        for which in (0, 1):
            for _ in range(self.drawer.draw.randrange(MOST_CHANGES)):
                self.change(which)
        if self.chance(6):
            self.brokers[1] = blind.bare(self.brokers[0], self.hidden)

    def draw_by(self, drawer) -> None:
        """Draws by this drawer from now on."""
        self.drawer, self.pick, self.chance = drawer, drawer.pick, drawer.chance

    def again(self) -> "Pair":
        """The same pair once more, with the same to come."""
        pair = copy.copy(self)
        pair.brokers, pair.words_of_one = list(self.brokers), list(self.words_of_one)
        pair.draw_by(self.drawer.again())
        return pair

    def is_over(self) -> bool:
        """Whether no caller is left, or those that are have come to see what is hidden."""
        b = self.brokers[0]
        return not any(it in b.tokens and blind.is_blind_caller(b, it, self.hidden) for it in self.callers)

    # ---- what is hidden

    def hidden_of(self, b: Broker) -> Hidden:
        """What all callers are blind to: all of it but for texts and tokens, of which it is some."""
        places = {it for it in PLACES if not any(blind.sees_there(b, b.tokens[c], it) for c in self.callers)}
        contents = {it for it in PLACES if not any(blind.sees_into(b, b.tokens[c], it) for c in self.callers)}
        seen_cubbyholes = self.callers if blind.OWN_CUBBYHOLE else ()
        hidden = Hidden(frozenset(places), frozenset(contents - places), frozenset(b.tokens) - set(seen_cubbyholes))
        for text in b.tokens:
            if self.chance(4) and not any(under(b, caller, text) for caller in self.callers):
                hidden = self.hiding_token(b, hidden, text)
        for text, token in b.tokens.items():
            leases = [(key, it.credential) for key, it in token.leases.items() if self.chance(2)]
            hidden = hidden.adding(texts=[text for lease in leases for text in lease])
        responses = [(text, it.accessor) for text, it in b.waiting.items() if self.chance(2)]
        return hidden.adding(texts=[text for response in responses for text in response])

    def hiding_token(self, b: Broker, hidden: Hidden, above: str) -> Hidden:
        """What is hidden, and a token with all that hangs on it."""
        for text, token in b.tokens.items():
            if under(b, text, above):
                leases = [it for key, lease in token.leases.items() for it in (key, lease.credential)]
                hidden = hidden.adding([text], [token.accessor, *leases])
        return hidden

    # ---- changes of what is hidden, in one of the two

    def change(self, which: int) -> None:
        """Changes something of what is hidden in one of the two, by a request of another one. What it makes is hidden,
        and the two are alike as before."""
        before = self.brokers[which]
        if ROOT not in before.tokens:
            return
        request = self.pick([*[self.of_secrets, self.of_contents] * 3, self.of_cubbyholes, self.of_cubbyholes,
                             self.of_leases, self.of_responses, self.of_tokens, self.of_texts])(before)
        if request is None:
            return
        token, verb, path, body, wrap = request
        data = b"" if body is None else json.dumps(body).encode()
        words = self.drawer.words()
        ask = Ask(verb, path, None, token, wrap, data)
        answer, after = step(before, before.clock, words, ask, TODAY)
        if answer.status == 200:
            self.hide_made(after, json.loads(answer.text), path)
            self.words_of_one.append(words)
        if blind.seen(before, self.hidden) != blind.seen(after, self.hidden):
            raise AssertionError(f"{verb} {path} changes more than what is hidden")
        self.brokers[which] = after

    def hide_made(self, b: Broker, reply: dict, path: str) -> None:
        """Hides the token, the lease or the response that a reply tells."""
        auth, wrap = reply.get("auth"), reply.get("wrap_info")
        if reply.get("lease_id") and "/creds/" in path:
            self.hidden = self.hidden.adding(texts=[reply["lease_id"], reply["data"]["credential"]])
        if auth and path.startswith("auth/token/create"):
            self.hidden = self.hiding_token(b, self.hidden, auth["client_token"])
        if wrap:
            self.hidden = self.hidden.adding(texts=[wrap["token"], wrap["accessor"]])

    def of_secrets(self, b: Broker):
        """A change of a hidden secret."""
        places = sorted(self.hidden.places)
        places = [it for it in places if it[0] in b.mounts and b.mounts[it[0]].type == "kv"]
        return (ROOT, *self.drawer.change_of_secret(b, self.pick(places)), 0) if places else None

    def of_contents(self, b: Broker):
        """A change of what is in a secret that is there."""
        places = sorted(it for it in self.hidden.contents if it in b.secrets)
        return (ROOT, *self.drawer.change_of_secret(b, self.pick(places), False), 0) if places else None

    def of_cubbyholes(self, b: Broker):
        """A change of another token's cubbyhole."""
        others = [it for it in b.tokens if it in self.hidden.cubbyholes and b.tokens[it].uses is None]
        return (self.pick(others), *self.drawer.own(), 0) if others else None

    def of_leases(self, b: Broker):
        """A credential with its lease, of any token."""
        tokens = [text for text, token in b.tokens.items() if token.uses is None]
        return self.pick(tokens), "GET", f"{self.pick(ISSUED)}/creds/r", None, 0

    def of_responses(self, b: Broker):
        """A response that waits."""
        path = self.pick(["sys/wrapping/wrap", "secret/data/a", "secret/metadata"])
        verb = {"sys/wrapping/wrap": "WRITE", "secret/data/a": "GET"}.get(path, "LIST")
        return ROOT, verb, path, {"k": self.drawer.draw.randrange(9)} if verb == "WRITE" else None, 3600

    def of_tokens(self, b: Broker):
        """A new token, of another one."""
        makers = [it for it in b.tokens if b.tokens[it].uses is None]
        return self.pick(makers), "WRITE", "auth/token/create", {"policies": ["default"], "ttl": 3000}, 0

    def of_texts(self, b: Broker):
        """Something done with a hidden token, lease or response by its text."""
        tokens = [it for it in b.tokens if it in self.hidden.tokens]
        leases = [key for token in b.tokens.values() for key in token.leases if key in self.hidden.texts]
        responses = [it for it in b.waiting if it in self.hidden.texts]
        return self.pick([
            *[(ROOT, "WRITE", f"auth/token/{self.pick(['renew', 'revoke'])}", {"token": it}, 0) for it in tokens[:2]],
            *[(ROOT, "WRITE", f"sys/leases/{self.pick(['renew', 'revoke'])}", {"lease_id": it}, 0) for it in leases],
            *[(ROOT, "WRITE", "sys/wrapping/unwrap", {"token": it}, 0) for it in responses], None])

    # ---- what is asked of both

    def places(self) -> list:
        """Of which secrets something is asked: all, and as often those in which the two differ, and those that are
        seen."""
        first, second = self.brokers
        hidden = self.hidden.places | self.hidden.contents
        differ = [it for it in PLACES if it in hidden and first.secrets.get(it) != second.secrets.get(it)]
        seen = [it for it in PLACES if it not in hidden]
        return [self.pick(some) for some in (PLACES, differ, seen) if some]

    def texts(self) -> dict:
        """What requests may name: what is there in the first broker. What is hidden is among it where it is left out
        of what a request must not bring."""
        b, rest = self.brokers[0], [UNKNOWN]
        tokens = {text: it for text, it in b.tokens.items() if text not in self.hidden.tokens or self.names_hidden()}
        leases = [(key, it) for token in b.tokens.values() for key, it in token.leases.items()
                  if key not in self.hidden.texts or self.names_hidden()]
        waiting = {text: it for text, it in b.waiting.items() if text not in self.hidden.texts or self.names_hidden()}
        return {"token": [*tokens, *waiting] + rest, "response": [*waiting] + rest, "place": self.places(),
                "caller": self.callers,
                "accessor": [it.accessor for it in (*tokens.values(), *waiting.values())] + rest,
                "lease": [key for key, _ in leases] + rest, "credential": [it.credential for _, it in leases] + rest}

    def names_hidden(self) -> bool:
        """Now and then a request would name what is hidden; it is then not blind, and not sent."""
        return self.chance(3)

    def ask(self, met: Counter):
        """Asks both, unless the request is not blind, and returns whether it did. Raises Told."""
        drawer = self.drawer
        if self.chance(8):
            self.change(drawer.draw.randrange(2))
        texts = self.texts()
        others = [None, UNKNOWN, *self.brokers[0].waiting]
        caller = self.pick(others if self.chance(12) else self.callers)
        ask, words = drawer.ask(caller, texts), drawer.words()
        if self.words_of_one and self.chance(12):
            words = self.pick(self.words_of_one)
        first, second = self.brokers
        if not blind.is_blind(first, ask, self.hidden):
            met["not blind"] += 1
            return False
        if not blind.are_alike_words(first, second, words):
            met["words issued in one"] += 1
            return False
        drawer.moment += self.pick(LEAPS)
        (answer, first), (other, second) = (step(b, drawer.moment, words, ask, TODAY) for b in self.brokers)
        self.note(met, ask, answer)
        if answer != other:
            raise Told(f"{shown(ask, self)}\n    is answered {said(answer)}\n    and         {said(other)}")
        self.brokers = [first, second]
        if not blind.alike(first, second, self.hidden):
            raise Told(f"{shown(ask, self)}\n    leaves brokers that are not alike, and answers {said(answer)}")
        return True

    def note(self, met: Counter, ask: Ask, answer) -> None:
        """Notes the route, the outcome, and what the two differ in."""
        try:
            route, mount, rest = find_route(self.brokers[0], ask.verb, ask.path, TODAY)
        except Refusal:
            met["route", "none"] += 1
            met["outcome", answer.status, reason(answer)] += 1
            return
        met["route", route_name(route)] += 1
        met["served", route_name(route)] += answer.status in (200, 204)
        met["outcome", answer.status, reason(answer)] += 1
        met["aimed at a hidden secret"] += (mount, rest) in self.hidden.places | self.hidden.contents

    def differences(self) -> list:
        """The kinds of what is hidden in which the two differ."""
        first, second = self.brokers
        of_secrets = {it for it in first.secrets.keys() | second.secrets.keys()
                      if first.secrets.get(it) != second.secrets.get(it)}
        leases = [{key: it for token in b.tokens.values() for key, it in token.leases.items()} for b in self.brokers]
        cubbyholes = [{text: it.cubbyhole for text, it in b.tokens.items() if text not in self.hidden.tokens}
                      for b in self.brokers]
        tokens = [{it for it in b.tokens if it in self.hidden.tokens} for b in self.brokers]
        differ = (of_secrets & self.hidden.places, of_secrets & self.hidden.contents, cubbyholes[0] != cubbyholes[1],
                  tokens[0] != tokens[1], leases[0] != leases[1], dict(first.waiting) != dict(second.waiting))
        return [kind for kind, does in zip(KINDS, differ) if does]


def route_name(route) -> str:
    """A route in one line."""
    mount = "MOUNT" if route.mount_type in ("kv", "issued") else route.mount_type
    return f"{route.verb} {mount}/{route.pattern}".rstrip("/")


def reason(answer) -> str:
    """The text of a refusal, or nothing."""
    return json.loads(answer.text)["errors"][0] if answer.text.startswith('{"errors":["') else ""


def said(answer) -> str:
    """An answer in one line."""
    return f"{answer.status} {answer.text.strip()[:300]}"


def shown(ask: Ask, pair: Pair) -> str:
    """A request in one line, with the policies of its caller."""
    b = pair.brokers[0]
    policies = b.tokens[ask.token].policies if ask.token in b.tokens else ()
    wrap = f", to be wrapped for {ask.wrap_ttl} s" if ask.wrap_ttl else ""
    return f"{ask.verb} {ask.path} {ask.body.decode()}{wrap}, by {ask.token} with the policies {list(policies)},"
