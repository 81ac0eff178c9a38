#!/usr/bin/env python3
"""Tries whether the reference broker tells a caller anything of what the caller is blind to.

    python3 tests/unseen.py [--requests N] [--seed S] [--all] [NAME..]

Two brokers are drawn that differ only in what is hidden: secrets, what is in secrets, cubbyholes of other tokens,
other tokens, leases and responses that wait. Both are asked the same, over all routes, by callers that are blind to it.
Each answer has to be the same in both, and the two have to be alike again. `hidden/blind.py` says what these words
mean. Between requests, others change what is hidden in one of the two.

Then leaks of `hidden/leaks.py` are made in the reference broker, one at a time: as many requests have to tell each.
With `--all` these are all, also those that are rare; and one after another the clauses of `hidden/clauses.py` are left
out of the definitions, which requests have to tell too. With names only these leaks and clauses are tried.

A caller is blind to a secret unless its policies grant `create`, `read` or `update` on the path below `data/`, or
`read` on that below `metadata/`; and LIST on a folder above shows that it is there, though not what is in it. So to
`delete`, and to write below `metadata/`, `delete/`, `undelete/` and `destroy/`, is not to see. These are the places
where replies depend on what one might call hidden, and each is the smallest that tells:

- `create` or `update` alone on data/a: a write is 403 where a is there, or is not. With both it is 200 with the number.
- LIST secret/metadata: `a/` is named if there is a/b, which the caller may not read.
- What a request names: `lookup` of a token, `lookup-accessor`, `renew` of a lease and `unwrap` of a response are 200 if
  it is there, else 400 or 403; `revoke-accessor` is 204 or 400, and `verify` of a credential says true or false. A
  wrapping token is also named by sending it as the client token, without a caller.
- LIST auth/token/accessors names all tokens.
- Words of which one identifier was issued in one broker alone: 500 there, 200 in the other.
- A caller that may write its own policies, and grants itself what it was blind to: it sees from then on.
- Mounts, their settings, policies, roles, what is told of tokens that are not hidden, and the time are never hidden.

A mount that is disabled is no such place: its secrets go in both. Each route has to be served, each kind of what is
hidden has to differ, and the commonest refusals have to be met. The last line is `N passed, M failed`; the status is 0
if nothing failed.
"""

import argparse
import sys
import time
from collections import Counter

from hidden.clauses import WITHOUT
from hidden.leaks import LEAKS, RARE
from hidden.pairs import KINDS, Pair, Told, route_name
from broker.routes import ROUTES

REQUESTS = 3_000
REQUESTS_OF_A_PAIR, TRIED_OF_A_PAIR = 40, 80
OUTCOMES = ((200, ""), (204, ""), (400, "invalid lease"), (400, "invalid accessor"), (403, "permission denied"),
            (400, "wrapping token is not valid or does not exist"), (403, "bad token"), (404, ""),
            (405, "unsupported operation"), (500, "identifier already used"),
            (400, "check-and-set parameter did not match the current version"))
LEAST_AIMED = 0.1  # of the requests name a hidden secret
LEAST_SERVED = 0.25  # of them are 200 or 204


class Pairs:
    """The pairs of a seed, each made once and then told again and again."""

    def __init__(self, seed):
        self.seed, self.made = seed, []

    def new(self, number):
        """A pair that is made now."""
        return Pair(f"{self.seed}.{number}")

    def same(self, number):
        """A pair as it was made the first time."""
        while len(self.made) <= number:
            self.made.append(self.new(len(self.made)))
        return self.made[number].again()


def asked_of_pair(pair, met):
    """Asks a pair until it is over. Returns how many requests were asked, and what was told, if something was."""
    asked = 0
    for _ in range(TRIED_OF_A_PAIR):
        if asked == REQUESTS_OF_A_PAIR or pair.is_over():
            break
        try:
            asked += pair.ask(met)
        except Told as told:
            return asked + 1, str(told)
    return asked, None


def first_told(make, requests, met):
    """Asks pair after pair. Returns how many requests were asked until something was told, and what, or None."""
    asked = number = 0
    while asked < requests:
        pair = make(number)
        for kind in pair.differences():
            met["differ", kind] += 1
        more, told = asked_of_pair(pair, met)
        asked, number = asked + more, number + 1
        if told:
            return asked, told
    met["requests"], met["pairs"] = asked, number
    return asked, None


def missing(met):
    """What should have been met and was not, as lines; and how many things had to be met."""
    served = [f"{route_name(it)} is not served" for it in ROUTES if not met["served", route_name(it)]]
    differ = [f"no two brokers differ in {kind}" for kind in KINDS if not met["differ", kind]]
    outcomes = [f"{status} {text} is not met" for status, text in OUTCOMES if not met["outcome", status, text]]
    lines = served + differ + outcomes
    if met["aimed at a hidden secret"] < LEAST_AIMED * met["requests"]:
        lines.append(f"only {met['aimed at a hidden secret']} of {met['requests']} requests name a hidden secret")
    if met["outcome", 200, ""] + met["outcome", 204, ""] < LEAST_SERVED * met["requests"]:
        lines.append("too few requests are served")
    return lines, len({route_name(it) for it in ROUTES}) + len(KINDS) + len(OUTCOMES) + 2


def tell_met(met, seed, seconds):
    """Prints what the requests met."""
    outcomes = Counter({key[1:]: count for key, count in met.items() if key[0] == "outcome"})
    statuses = Counter()
    for (status, _), count in outcomes.items():
        statuses[status] += count
    routes = [f"{key[1]} {count} {met['served', key[1]]}" for key, count in sorted(met.items(), key=str)
              if key[0] == "route"]
    print(f"routes, as often as asked and as served: {', '.join(routes)}")
    print("outcomes: " + ", ".join(f"{status} {text} {count}".replace("  ", " ")
                                   for (status, text), count in sorted(outcomes.items())))
    differ = ", ".join(f"{kind} {met['differ', kind]}" for kind in KINDS)
    print(f"{met['requests']} requests to {met['pairs']} pairs of brokers, seed {seed}, {seconds:.1f} s: "
          f"{', '.join(f'{status} {count}' for status, count in sorted(statuses.items()))}; the brokers differ in "
          f"{differ}; {met['aimed at a hidden secret']} requests name a hidden secret; not sent were "
          f"{met['not blind']} that are not blind, and {met['words issued in one']} whose words were issued in one")


def tried(names, given, pairs):
    """Makes each leak, or leaves out each clause. Returns how many were told and how many not."""
    passed = failed = 0
    for what, changes, make in (("leak", LEAKS, pairs.same), ("without", WITHOUT, pairs.new)):
        for name, change in changes.items():
            if name not in names:
                continue
            with change():
                asked, told = first_told(make, given.requests, Counter())
            passed, failed = passed + bool(told), failed + (not told)
            print(f"{what}: {name}: " + (f"told by request {asked}" if told else "NOT TOLD"), flush=True)
            if given.names:
                print(told)
    return passed, failed


def main():
    parser = argparse.ArgumentParser(description="tries whether replies tell what is hidden")
    parser.add_argument("--requests", type=int, default=REQUESTS)
    parser.add_argument("--seed", default="3")
    parser.add_argument("--all", action="store_true")
    parser.add_argument("names", nargs="*", metavar="NAME")
    given = parser.parse_args()
    if not {*given.names} <= {*LEAKS, *WITHOUT}:
        parser.error("a name is that of no leak and of no clause")
    pairs, met, passed, failed = Pairs(given.seed), Counter(), 0, 0
    if not given.names:
        begin = time.process_time()
        make = pairs.same if given.requests <= REQUESTS else pairs.new
        _, told = first_told(make, given.requests, met)
        if told:
            print(f"{told}\n0 passed, 1 failed")
            return 1
        lines, wanted = missing(met)
        for line in lines:
            print(line)
        passed, failed = 1 + wanted - len(lines), len(lines)
    everything = {*LEAKS, *WITHOUT} if given.all else {*LEAKS} - RARE
    more = tried({*given.names} or everything, given, pairs)
    if not given.names:
        tell_met(met, given.seed, time.process_time() - begin)
    passed, failed = passed + more[0], failed + more[1]
    print(f"{passed} passed, {failed} failed")
    return 1 if failed else 0


if __name__ == "__main__":
    sys.exit(main())
