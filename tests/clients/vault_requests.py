#!/usr/bin/env python3
"""The requests that the program `vault` sends for its commands, sent to a running broker.

    python3 tests/clients/vault_requests.py PORT ROOT_TOKEN

They are written down from what is known of its source; the program itself is not needed. Each has the status that it
has to get, and those that are served a member of the reply, which `vault` shows. The commands that are not served have
to be those that docs/CLIENTS.md names. The last line is 'N passed, M failed'.
"""

import json
import re
import sys
from pathlib import Path

sys.path.insert(0, str(Path(__file__).resolve().parent.parent / "served"))
from broker import connect, exchange, request  # noqa: E402

PAGE = Path(__file__).resolve().parent.parent.parent / "docs/CLIENTS.md"
POLICY = '{"path":{"vault-kv/data/*":{"capabilities":["read"]}}}'
MOUNT = {"description": "", "local": False, "seal_wrap": False, "external_entropy_access": False,
         "config": {"default_lease_ttl": "0s", "max_lease_ttl": "0s", "force_no_cache": False, "options": None}}
TOKEN = {"policies": ["vault"], "ttl": "1h0m0s", "explicit_max_ttl": "0s", "period": "0s", "display_name": "", "id": "",
         "num_uses": 0, "renewable": True, "type": "service", "entity_alias": "", "no_parent": False,
         "no_default_policy": False}

# A command, its request, the body, the status of the reply, and the place of a member in it. In later bodies the place
# stands for what was there; a command with `(self)` is sent with the token that was created last.
COMMANDS = """
secrets enable -version=2 | POST sys/mounts/vault-kv | {"type": "kv", "options": {"version": "2"}, MOUNT} | 204
secrets enable | POST sys/mounts/vault-db | {"type": "issued", MOUNT} | 204
secrets list | GET sys/mounts | | 200 data.vault-kv/.type
write | PUT vault-kv/data/app | {"data": {"user": "app"}} | 200 data.version
read | GET vault-kv/data/app | | 200 data.data.user
list | GET vault-kv/metadata?list=true | | 200 data.keys
policy write | PUT sys/policies/acl/vault | {"policy": POLICY} | 204
policy read | GET sys/policies/acl/vault | | 200 data.policy
policy list | GET sys/policies/acl?list=true | | 200 data.keys
token create | POST auth/token/create | {TOKEN} | 200 auth.client_token
token lookup | POST auth/token/lookup | {"token": "auth.client_token"} | 200 data.accessor
token lookup -accessor | POST auth/token/lookup-accessor | {"accessor": "data.accessor"} | 200 data.creation_ttl
token renew | PUT auth/token/renew | {"token": "auth.client_token", "increment": 3600} | 200 auth.lease_duration
token renew (self) | PUT auth/token/renew-self | {"increment": 0} | 200 auth.lease_duration
token lookup (self) | GET auth/token/lookup-self | | 200 data.ttl
token revoke -mode=orphan | PUT auth/token/revoke-orphan | {"token": "auth.client_token"} | 204
token create | POST auth/token/create | {TOKEN} | 200 auth.client_token
token lookup | POST auth/token/lookup | {"token": "auth.client_token"} | 200 data.accessor
token revoke -accessor | POST auth/token/revoke-accessor | {"accessor": "data.accessor"} | 204
token create | POST auth/token/create | {TOKEN} | 200 auth.client_token
token revoke | PUT auth/token/revoke | {"token": "auth.client_token"} | 204
token create | POST auth/token/create | {TOKEN} | 200 auth.client_token
token revoke -self (self) | PUT auth/token/revoke-self | | 204
read -wrap-ttl=5m | GET vault-kv/data/app | | 200 wrap_info.token
unwrap | PUT sys/wrapping/unwrap | {"token": "wrap_info.token"} | 200 data.data.user
write | PUT vault-db/roles/app | {"ttl": "1h", "max_ttl": "24h"} | 204
read | GET vault-db/creds/app | | 200 lease_id
lease lookup | PUT sys/leases/lookup | {"lease_id": "lease_id"} | 200 data.ttl
lease renew -increment=30m | PUT sys/leases/renew | {"lease_id": "lease_id", "increment": 1800} | 200 lease_duration
lease revoke | PUT sys/leases/revoke | {"lease_id": "lease_id", "sync": false} | 204
lease revoke -prefix | PUT sys/leases/revoke-prefix/vault-db/creds | {"sync": false} | 204
delete | DELETE vault-kv/data/app | | 204
policy delete | DELETE sys/policies/acl/vault | | 204
secrets disable | DELETE sys/mounts/vault-kv | | 204
secrets disable | DELETE sys/mounts/vault-db | | 204
status | GET sys/seal-status | | 404
kv | GET sys/internal/ui/mounts/secret | | 404
token capabilities | POST sys/capabilities-self | {"paths": ["secret/data/app"]} | 404
"""


def lines():
    """The commands, each with its method and path, the text of its body, the status, and the place of the member."""
    for line in COMMANDS.strip().splitlines():
        command, words, body, wanted = (part.strip() for part in line.split("|"))
        status, _, place = wanted.partition(" ")
        yield command, words.split(), body, int(status), place


def body_of(text, known):
    """The body, with what is known in the place of names."""
    for name, value in (("MOUNT", MOUNT), ("TOKEN", TOKEN)):
        text = text.replace(name, json.dumps(value)[1:-1])
    text = text.replace("POLICY", json.dumps(POLICY))
    return re.sub(r'"([a-z_.]+)"(?=[,}])', lambda it: json.dumps(known.get(it[1], it[1])), text)


def member(reply, place):
    """What a reply has at a place, or None."""
    for name in place.split("."):
        reply = reply.get(name) if isinstance(reply, dict) else None
    return reply


def main():
    connection, root, known, wrong, refused = connect(int(sys.argv[1])), sys.argv[2], {}, [], set()
    asked = list(lines())
    for command, (method, path), text, wanted, place in asked:
        token = known["auth.client_token"] if command.endswith("(self)") else root
        wrap = "5m" if "-wrap-ttl" in command else ""
        status, reply, _ = exchange(connection, request(method, path, token, body_of(text, known), wrap))
        found = member(json.loads(reply), place) if place and reply else None
        known[place] = found
        if status != wanted or (place and not found):
            wrong.append(f"{command}: status {status} in place of {wanted}, {place or 'no member'}: {reply[:200]}")
        if wanted == 404:
            refused.add(command)
    item = re.search(r"^- the program `vault`:.*(?:\n  .*)*", PAGE.read_text(encoding="utf-8"), re.MULTILINE)[0]
    served = {command.split()[0] for command, *_, wanted, _ in asked if wanted != 404}
    named = set(re.findall(r"`([a-z ]+)`", item)) - {"vault"}
    if named != served | refused:
        wrong.append(f"{PAGE.name} names {sorted(named)}, not {sorted(served | refused)}")
    print("".join(f"vault, {text}\n" for text in wrong), end="")
    print(f"{len(asked) + 1 - len(wrong)} passed, {len(wrong)} failed")
    return len(wrong) > 0


if __name__ == "__main__":
    sys.exit(main())
