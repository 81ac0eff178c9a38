#!/usr/bin/env python3
"""Counts the instructions that requests cost a replay, by callgrind: the same on any machine, whatever else it does.

    python3 instructions.py PROGRAM [--many N] [--requests N] [--callers CALLER..] [--kinds KIND..]
    python3 instructions.py PROGRAM --kept N.. [--requests N]

PROGRAM is a built `brokerd`. Each figure is the difference of two runs of `PROGRAM replay` under callgrind, with
REQUESTS requests of one kind (100 if not given) and without them, for one request. Before them, requests of the root
token made MANY tokens and as many secrets (100 if not given), and the policies and the token of the caller.

CALLER is `root` or `policies`: a token that has five policies of ten patterns each, and no other. KIND is `read` or
`write` (of secrets, spread over all; a write adds the second version), `create` (a token) or `look_up_self`.

With --kept a mount keeps so many versions, and one secret has as many: each write makes the oldest fall out.
"""

import argparse
import json
import os
import re
import subprocess
import tempfile

from load import MOMENT, first_word, request, token

POLICIES = [f"team{number}" for number in range(100, 105)]
NEEDED = {
    "secret/data/team/*": ["create", "read", "update"],
    "auth/token/create": ["update"],
    "auth/token/lookup-self": ["read"],
}


def policy(place):
    """The text of a policy of ten patterns; the last one has those that the requests need."""
    team, needed = POLICIES[place], NEEDED if place == len(POLICIES) - 1 else {}
    others = [f"secret/data/{team}/key{key:03}" + "*" * (key % 2) for key in range(10 - len(needed))]
    paths = {path: ["create", "read"] for path in others} | needed
    return json.dumps({"path": {path: {"capabilities": granted} for path, granted in paths.items()}})


def by(caller, text):
    """A request of the root token, made one of another token."""
    return text.replace(token(0), caller)


def write(number):
    return request("POST", f"secret/data/team/key{number:06}", {"data": {"password": "correct horse"}})


KINDS = {
    "read": lambda number: request("GET", f"secret/data/team/key{number:06}"),
    "write": write,
    "create": lambda _: request("POST", "auth/token/create", {"policies": POLICIES[:1]}),
    "look_up_self": lambda _: request("GET", "auth/token/lookup-self"),
}


def made(many):
    """The requests that make the policies, a token that has them, and the tokens and secrets."""
    policies = [request("PUT", f"sys/policies/acl/{name}", {"policy": policy(place)})
                for place, name in enumerate(POLICIES)]
    caller = request("POST", "auth/token/create", {"policies": POLICIES, "no_default_policy": True})
    tokens = [request("POST", "auth/token/create", {"policies": ["default"]}) for _ in range(many)]
    return [*policies, caller, *tokens, *(write(number) for number in range(many))]


def replay(texts):
    """The bytes of a replay of requests on one connection."""
    lines = [{"moment": MOMENT, "words": f"{first_word(0):032x}"}]
    for event, text in enumerate(texts, start=1):
        lines.append({"conn": 1, "moment": MOMENT, "words": f"{first_word(event):032x}", "piece": text})
    return "".join(json.dumps(line, separators=(",", ":")) + "\n" for line in lines).encode()


def counted(program, texts):
    """The instructions of a replay, in which each request has to be answered 200 or 204."""
    command = ["valgrind", "--tool=callgrind", "--callgrind-out-file=/dev/null", program, "replay"]
    with tempfile.TemporaryFile() as lines:
        lines.write(replay(texts))
        lines.seek(0)
        ran = subprocess.run(command, stdin=lines, capture_output=True, check=True)
    answered = len(re.findall(rb"HTTP/1\.1 20[04] ", ran.stdout))
    if answered != len(texts):
        raise SystemExit(f"{len(texts)} requests, and {answered} replies are 200 or 204")
    return int(re.search(rb"Collected : (\d+)", ran.stderr)[1])


def tell(what, program, first, without, requests):
    """Prints what each of the requests costs that come after the first ones, which cost so many."""
    cost = (counted(program, first + requests) - without) / len(requests)
    print(f"{what}: {cost / 1e6:.3f} million instructions each, of {len(requests)} requests", flush=True)


def tell_kinds(program, callers, kinds, many, requests):
    first = made(many)
    without = counted(program, first)
    # The caller is the token that the event after those of the policies made.
    tokens = {"root": token(0), "policies": token(len(POLICIES) + 1)}
    for caller in callers:
        for kind in kinds:
            count = min(requests, many) if kind == "write" else requests
            texts = [by(tokens[caller], KINDS[kind](place * 7919 % many)) for place in range(count)]
            tell(f"{many} secrets and tokens, {caller}, {kind}", program, first, without, texts)


def tell_kept(program, kept, requests):
    first = [request("POST", "secret/config", {"max_versions": kept})] + [write(0)] * kept
    without = counted(program, first)
    tell(f"a write with {kept} versions kept", program, first, without, [write(0)] * requests)


def main():
    parser = argparse.ArgumentParser(description="counts the instructions of requests")
    parser.add_argument("program", type=os.path.abspath)
    parser.add_argument("--many", type=int, default=100)
    parser.add_argument("--requests", type=int, default=100)
    parser.add_argument("--callers", choices=["root", "policies"], nargs="+", default=["root", "policies"])
    parser.add_argument("--kinds", choices=KINDS, nargs="+", default=list(KINDS))
    parser.add_argument("--kept", type=int, nargs="+")
    arguments = parser.parse_args()
    if arguments.kept:
        for kept in arguments.kept:
            tell_kept(arguments.program, kept, arguments.requests)
    else:
        tell_kinds(arguments.program, arguments.callers, arguments.kinds, arguments.many, arguments.requests)


if __name__ == "__main__":
    main()
