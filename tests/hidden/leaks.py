"""Changes of the reference broker, each of which tells a caller something that it should be blind to."""

import functools
from dataclasses import replace
from unittest.mock import patch

from broker import leases, permissions, requests, routes, tokens, wrapping
from broker.answers import Refusal, bad_request, not_found
from broker.bodies import read_body, read_secret
from broker.calls import children, data_reply, keys_reply
from broker.secrets import change_versions, delete_metadata, key_of, list_metadata, soft_delete, write_secret
from broker.state import with_token

from .drawing import KV

LEAKS, RARE = {}, set()


def leak(name: str, is_rare: bool = False):
    """A leak with its name: a function that returns the change, to be made while it is asked. One that is rare takes
    some thousand requests."""
    def note(function):
        LEAKS[name] = function
        RARE.update({name} if is_rare else ())
        return function
    return note


# ------------------------------------------------------------------------------------------ how to change

def denied(tell):
    """What policies deny is answered as `tell` says, if it says something."""
    def permit(b, caller, ask, parts):
        try:
            permissions.permit(b, caller, ask, parts)
        except Refusal as refusal:
            raise tell(b, ask) or refusal from None
    return patch.object(requests, "permit", permit)


def before(check):
    """A check comes before policies."""
    def permit(b, caller, ask, parts):
        check(b, ask)
        permissions.permit(b, caller, ask, parts)
    return patch.object(requests, "permit", permit)


def route(verb: str, *patterns: str, does):
    """A route does something else: `does` is called with what it did, and the call."""
    changed = [replace(it, run=functools.partial(does, it.run)) if it.verb == verb and it.pattern in patterns else it
               for it in routes.ROUTES]
    return patch.object(routes, "ROUTES", tuple(changed))


def adding(**members):
    """A route adds members to its data: each is made of the call."""
    def does(run, call):
        done = run(call)
        more = {name: make(call) for name, make in members.items()}
        return replace(done, reply=replace(done.reply, data={**(done.reply.data or {}), **more}))
    return does


def refusing(test, text: str):
    """A route refuses what passes the test."""
    def does(run, call):
        if test(call):
            raise bad_request(text)
        return run(call)
    return does


def place(path: str) -> tuple:
    """The mount and the path of a secret that a path names."""
    mount, _, rest = path.partition("/")
    return mount, rest.partition("/")[2]


def key(b, ask):
    """The secret that a request names, or None."""
    return b.secrets.get(place(ask.path))


def names_secret(ask, *below: str) -> bool:
    """Whether a request is about a path below one of the words, in a mount of secrets."""
    mount, _, rest = ask.path.partition("/")
    return mount in KV and rest.partition("/")[0] in below


def all_leases(b) -> list:
    """The ids of all leases."""
    return [it for token in b.tokens.values() for it in token.leases]


def cas_of(ask):
    """The version that a write's check-and-set names, or None."""
    try:
        return read_secret(read_body(ask.body), frozenset())[1]
    except Refusal:
        return None


# -------------------------------------------------------------------------------------------- secrets

@leak("a refusal counts versions")
def counted_versions():
    return denied(lambda b, ask: key(b, ask) and Refusal(403, f"permission denied: {len(key(b, ask).versions)}"))


@leak("404 in place of 403 where there is no secret")
def not_found_if_not_there():
    return denied(lambda b, ask: not_found() if names_secret(ask, "data") and key(b, ask) is None else None)


@leak("404 in place of 403 for the list of an empty folder", is_rare=True)
def not_found_if_empty():
    def tell(b, ask):
        mount, path = place(ask.path)
        paths = [it for name, it in b.secrets if name == mount]
        empty = not children(paths, path + "/" if path else "")
        return not_found() if ask.verb == "LIST" and names_secret(ask, "metadata") and empty else None
    return denied(tell)


@leak("an error depends on a hidden `cas`")
def hidden_cas():
    def check(b, ask):
        cas = cas_of(ask) if ask.verb == "WRITE" and names_secret(ask, "data") and key(b, ask) else None
        if cas is not None and cas != key(b, ask).current:
            raise bad_request("check-and-set parameter did not match the current version")
    return before(check)


@leak("a body is read before policies where the secret is there")
def body_first():
    return before(lambda b, ask: ask.verb == "WRITE" and key(b, ask) and read_body(ask.body))


@leak("a list names folders of other mounts")
def other_mounts():
    def does(_run, call):
        folder = call.rest + "/" if call.rest else ""
        return keys_reply(call, children([path for _, path in call.b.secrets], folder))
    return route("LIST", "metadata", "metadata/PATH", does=does)


@leak("a list names the secret of the folder's own name", is_rare=True)
def own_name():
    def does(_run, call):
        paths = [path for mount, path in call.b.secrets if mount == call.mount and path.startswith(call.rest)]
        return keys_reply(call, children(paths, call.rest + "/") | {it for it in paths if it == call.rest})
    return route("LIST", "metadata/PATH", does=does)


@leak("a list leaves out secrets without a version that can be read", is_rare=True)
def live_secrets():
    def does(_run, call):
        alive = {it: key for it, key in call.b.secrets.items()
                 if any(v.deleted is None and not v.destroyed for v in key.versions.values())}
        return replace(list_metadata(replace(call, b=replace(call.b, secrets=alive))), b=call.b)
    return route("LIST", "metadata", "metadata/PATH", does=does)


@leak("a write below `destroy/` needs `create` where there is no secret", is_rare=True)
def create_to_destroy():
    def needed(b, caller, ask):
        if ask.verb == "WRITE" and names_secret(ask, "delete", "undelete", "destroy"):
            return "update" if key(b, ask) else "create"
        return asked(b, caller, ask)
    asked = permissions.needed_capability
    return patch.object(permissions, "needed_capability", needed)


@leak("a change of versions is 404 where there is no secret", is_rare=True)
def changed_if_there():
    def does(run, call):
        if key_of(call) is None:
            raise not_found()
        return run(call)
    return route("WRITE", "delete/PATH", "undelete/PATH", "destroy/PATH", does=does)


@leak("a deletion of a secret that is not there is 404", is_rare=True)
def deleted_if_there():
    def does(_run, call):
        if key_of(call) is None:
            raise not_found()
        if call.ask.path.startswith(f"{call.mount}/metadata/"):
            return delete_metadata(call)
        return change_versions(call, [key_of(call).current], soft_delete(call))
    return route("DELETE", "data/PATH", "metadata/PATH", does=does)


@leak("a new secret has the custom metadata of another one", is_rare=True)
def custom_of_another():
    def does(_run, call):
        done, here = write_secret(call), (call.mount, call.rest)
        others = sorted(it for it in call.b.secrets if it[0] == call.mount)
        if key_of(call) is not None or not others:
            return done
        made = replace(done.b.secrets[here], custom_metadata=call.b.secrets[others[0]].custom_metadata)
        return replace(done, b=replace(done.b, secrets={**done.b.secrets, here: made}))
    return route("WRITE", "data/PATH", does=does)


@leak("the settings of a mount tell the greatest version in it")
def greatest_version():
    greatest = adding(greatest=lambda call: max((k.current for (m, _), k in call.b.secrets.items() if m == call.mount),
                                                default=0))
    return route("GET", "config", does=greatest)


@leak("the list of mounts counts their secrets")
def counted_secrets():
    return route("GET", "mounts", does=adding(secrets=lambda call: len(call.b.secrets)))


@leak("a mount that has secrets is not disabled", is_rare=True)
def kept_mount():
    has_secrets = refusing(lambda call: any(m == call.rest for m, _ in call.b.secrets), "the mount is not empty")
    return route("DELETE", "mounts/NAME", does=has_secrets)


@leak("a mount is full with four secrets", is_rare=True)
def full_mount():
    full = refusing(lambda call: sum(m == call.mount for m, _ in call.b.secrets) >= 4, "the mount is full")
    return route("WRITE", "data/PATH", "metadata/PATH", does=full)


@leak("a read counts the secrets beside it", is_rare=True)
def counted_beside():
    return route("GET", "metadata/PATH", does=adding(beside=lambda call: len(children(
        [path for mount, path in call.b.secrets if mount == call.mount],
        call.rest.rpartition("/")[0] + "/" if "/" in call.rest else ""))))


# ----------------------------------------------------------------------------------------- cubbyholes

@leak("a read finds another token's object")
def other_object():
    def does(_run, call):
        found = [it.cubbyhole[call.rest] for it in call.b.tokens.values() if call.rest in it.cubbyhole]
        if not found:
            raise not_found()
        return data_reply(call, call.token().cubbyhole.get(call.rest, found[0]))
    return route("GET", "PATH", does=does)


@leak("the list of a cubbyhole names what is in all")
def all_cubbyholes():
    def does(_run, call):
        paths = {path for token in call.b.tokens.values() for path in token.cubbyhole}
        return keys_reply(call, children(paths, call.rest + "/" if call.rest else ""))
    return route("LIST", "", "PATH", does=does)


@leak("a write of an object needs `update` if another token has it", is_rare=True)
def other_object_updated():
    def needed(b, caller, ask):
        if ask.verb == "WRITE" and ask.path.startswith("cubbyhole/"):
            return "update" if any(ask.path[10:] in it.cubbyhole for it in b.tokens.values()) else "create"
        return asked(b, caller, ask)
    asked = permissions.needed_capability
    return patch.object(permissions, "needed_capability", needed)


# ----------------------------------------------------------------------------- leases and responses

@leak("a refusal counts leases")
def counted_leases():
    def known(call, lease_id):
        try:
            return found(call, lease_id)
        except Refusal:
            raise bad_request(f"invalid lease: there are {len(all_leases(call.b))}") from None
    found = leases.known_lease
    return patch.object(leases, "known_lease", known)


@leak("`verify` counts leases")
def counted_by_verify():
    return route("WRITE", "verify", does=adding(leases=lambda call: len(all_leases(call.b))))


@leak("a credential is refused if there are eight", is_rare=True)
def full_role():
    full = refusing(lambda call: len(all_leases(call.b)) >= 8, "too many leases")
    return route("GET", "creds/NAME", does=full)


@leak("a revocation below a prefix counts leases")
def counted_below():
    def does(run, call):
        done = run(call)
        count = sum(it.startswith(call.rest + "/") for it in all_leases(call.b))
        return replace(done, reply=replace(done.reply, status=200, data={"revoked": count}))
    return route("WRITE", "leases/revoke-prefix/PATH", does=does)


@leak("a look-up of a token counts its leases")
def counted_of_token():
    count = adding(leases=lambda call: len(call.token().leases))
    return route("GET", "token/lookup-self", does=count)


@leak("a refusal counts the responses that wait")
def counted_responses():
    def meant(call):
        try:
            return found(call)
        except Refusal:
            raise bad_request(f"wrapping token is not valid: {len(call.b.waiting)} wait") from None
    found = wrapping.waiting_token
    return patch.object(wrapping, "waiting_token", meant)


@leak("a response waits a second less for each that waits")
def shorter_ttl():
    def kept(b, ask, reply, words):
        return wrapped(b, replace(ask, wrap_ttl=max(1, ask.wrap_ttl - len(b.waiting))), reply, words)
    wrapped = requests.wrapped
    return patch.object(requests, "wrapped", kept)


@leak("the clock goes a second further while more than eight leases stand", is_rare=True)
def further_clock():
    def later(b, moment):
        return at(b, moment + (moment > b.clock and len(all_leases(b)) > 8))
    at = requests.at
    return patch.object(requests, "at", later)


# ------------------------------------------------------------------------------------------ tokens

@leak("an unknown accessor is told how many there are")
def counted_accessors():
    def does(run, call):
        try:
            return run(call)
        except Refusal:
            raise bad_request(f"invalid accessor: {len(call.b.tokens)} tokens") from None
    return route("WRITE", "token/lookup-accessor", does=does)


@leak("no token is made if there are eight")
def full_tokens():
    return route("WRITE", "token/create", "token/create-orphan",
                 does=refusing(lambda call: len(call.b.tokens) >= 8, "too many tokens"))


@leak("a token with a child is not renewed", is_rare=True)
def kept_parent():
    has_child = refusing(lambda call: any(it.parent == call.caller for it in call.b.tokens.values()), "it has a child")
    return route("WRITE", "token/renew-self", does=has_child)


@leak("a token tells how many are below it")
def counted_below_token():
    def shown(b, text):
        return {**token_object(b, text), "children": sum(it.parent == text for it in b.tokens.values())}
    token_object = tokens.token_object
    return patch.object(tokens, "token_object", shown)


@leak("a request costs two uses while the number of secrets is odd")
def two_uses():
    def dearer(b, caller):
        token = b.tokens[caller]
        if not token.uses or token.uses < 2 or len(b.secrets) % 2 == 0:
            return spent(b, caller)
        return with_token(b, caller, replace(token, uses=token.uses - 2))
    spent = requests.spent
    return patch.object(requests, "spent", dearer)
