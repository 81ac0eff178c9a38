"""Which statuses and which texts of refusals docs/API.md promises, and at which route."""

import re
from dataclasses import dataclass

from broker.http import PHRASES

from . import TOP

STATUSES = frozenset(PHRASES)
WRITES = ("POST", "PUT")

# No run gets so far: the current version of a secret would have to be 999,999,999,999,999,999.
OUT_OF_REACH = {("WRITE secret/data/PATH", "invalid field: version")}

ROUTE = re.compile(r"`([A-Z]+) ([^`]+)`")
TEXT = re.compile(r"[45]\d\d\s+`([a-z][^`]*)`|or\s+`(invalid field: [^`]*)`")
MEMBER = re.compile(r"^\| `(\w+)`", re.MULTILINE)


@dataclass(frozen=True)
class Section:
    """What a section of the page says of its routes."""
    routes: tuple  # verb and path, as `route_name` writes them
    members: tuple  # of the body
    texts: frozenset  # of refusals


def route_name(verb, path):
    """A route in one line. POST and PUT are one verb."""
    return f"{'WRITE' if verb in WRITES else verb} {path}"


def texts_in(body):
    """The texts of refusals in a part of the page."""
    return [first or second for first, second in TEXT.findall(body)]


def expanded(text, members):
    """A text that stands for one of each member, as such texts."""
    return [text.replace("NAME", member) for member in members] if "NAME" in text else [text]


def section(heading, body):
    """What a section says, whose heading names routes."""
    routes = tuple(dict.fromkeys(route_name(*found) for found in ROUTE.findall(heading)))
    members = tuple(MEMBER.findall(body.partition("Errors")[0])) if any("WRITE" in it for it in routes) else ()
    texts = frozenset(one for text in texts_in(body.partition("Errors")[2]) for one in expanded(text, members))
    named = tuple(text.partition(": ")[2] for text in sorted(texts) if text.startswith("invalid field: "))
    return Section(routes, members or named, texts)


def sections(page):
    """The sections of all routes."""
    parts = re.split(r"^##+ (.*)\n", page, flags=re.MULTILINE)
    found = [section(heading, body) for heading, body in zip(parts[1::2], parts[2::2]) if ROUTE.search(heading)]
    if len(found) < 30:
        raise AssertionError(f"docs/API.md has {len(found)} sections of routes")
    return found


def texts_of_every_request(page):
    """The texts of the refusals that any request may get."""
    body = page.partition("### Errors of every request\n")[2].partition("\n#")[0]
    found = set(texts_in(body)) | {"identifier already used"}
    if len(found) < 8:
        raise AssertionError(f"docs/API.md has {len(found)} texts of refusals of every request")
    return found


class Promised:
    """What the page promises."""

    def __init__(self):
        page = (TOP / "docs/API.md").read_text(encoding="utf-8")
        self.members = {route: it.members for it in sections(page) for route in it.routes}
        at_routes = {(route, text) for it in sections(page) for route in it.routes for text in it.texts}
        # The section of another route has these, or another check comes before them.
        creation = {text for route, text in at_routes if route == "WRITE auth/token/create"}
        at_routes |= {("WRITE auth/token/create-orphan", text) for text in creation if "orphan token" not in text}
        self.refusals = frozenset(at_routes - OUT_OF_REACH)
        self.texts = frozenset(texts_of_every_request(page))
