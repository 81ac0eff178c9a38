"""Response wrapping: a reply that waits for its wrapping token, and is handed out once."""

from dataclasses import replace

from .answers import bad_request
from .calls import Call, Done, Reply, data_reply
from .http import Ask
from .state import Broker, Waiting, having, without, without_response
from .texts import identifier, time_text, token_text


def wrap_info(text: str, entry: Waiting) -> dict:
    """What the caller gets in place of a wrapped reply."""
    return {"accessor": entry.accessor, "creation_path": entry.path,
            "creation_time": time_text(entry.created), "token": text, "ttl": entry.ttl}


def wrapped(b: Broker, ask: Ask, reply: Reply, words: list) -> Done:
    """The reply waits under a new wrapping token, and the caller gets that."""
    text = token_text(words[5])
    entry = Waiting(identifier(words[6]), b.clock, ask.wrap_ttl, ask.path, reply.text(words), identifier(words[5]))
    info = wrap_info(text, entry)
    if reply.made_accessor is not None:
        info["wrapped_accessor"] = reply.made_accessor
    return Done(Reply(wrap_info=info), replace(b, waiting=having(b.waiting, text, entry)),
                (identifier(words[5]), identifier(words[6])))


def wrap(call: Call) -> Done:
    """The body of the request as a reply, which is then wrapped."""
    return data_reply(call, call.members)


def waiting_token(call: Call) -> str:
    """The wrapping token that is meant: the body's, or the client token if it names none. Raises Refusal."""
    text = call.members or call.ask.token
    if text not in call.b.waiting:
        raise bad_request("wrapping token is not valid or does not exist")
    return text


def lookup_wrapping(call: Call) -> Done:
    """When and where a response was wrapped."""
    entry = call.b.waiting[waiting_token(call)]
    return data_reply(call, {"creation_path": entry.path, "creation_time": time_text(entry.created),
                             "creation_ttl": entry.ttl})


def unwrap(call: Call) -> Done:
    """The kept reply, byte for byte; it no longer waits."""
    text = waiting_token(call)
    return Done(Reply(kept_text=call.b.waiting[text].text), without_response(call.b, text))


def rewrap(call: Call) -> Done:
    """The kept reply waits under a new wrapping token, for its whole ttl again."""
    old = waiting_token(call)
    new = token_text(call.words[5])
    entry = replace(call.b.waiting[old], accessor=identifier(call.words[6]), created=call.b.clock)
    moved = having(without(call.b.waiting, old), new, entry)
    return Done(Reply(wrap_info=wrap_info(new, entry)), replace(call.b, waiting=moved),
                (identifier(call.words[5]), identifier(call.words[6])))
