"""The rows of `tests/rows`, and those that will be there when further parts are served.

Each row is a function that sends requests through the reference broker and states by hand what the replies must be.
So a reference broker that answers otherwise makes no row.
"""

from . import asking, bodies, cubbyholes, lines, mounts, policies, requests, secrets, tokens, unserved, wrapping
from .tools import ROWS, Row, Run

SUBJECTS = {
    "Requests as bytes": requests,
    "What a request asks": asking,
    "Bodies": bodies,
    "Cubbyholes": cubbyholes,
    "Tokens": tokens,
    "Policies": policies,
    "Secrets": secrets,
    "Mounts and leases": mounts,
    "Response wrapping": wrapping,
    "Lines of a replay": lines,
    "What is not served so far": unserved,
}


def rows_of(subject: str) -> list:
    """The rows of a subject, in their order."""
    return [row for row in ROWS if row.tell.__module__ == SUBJECTS[subject].__name__]


__all__ = ["ROWS", "SUBJECTS", "Row", "Run", "rows_of"]
