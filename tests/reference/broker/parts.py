"""The parts of the API, and which of them the repository serves today.

The reference broker knows the whole API. A set of parts says how much of it is served: a route of a part that is not
in the set is 404 or 405, a field of one is ignored, and so on, exactly as `brokerd` answers before it serves the part.
"""

import argparse

PARTS = {
    "cubbyholes": "an object is written to `cubbyhole/PATH` and read there",
    "tokens": "the routes of `auth/token`",
    "secrets": "versioned secrets of the mount `secret`",
    "queries": "the query of a target: `list=true` and `version=`",
    "limits": "limits of requests: statuses 413, 431 and 501 in place of 400, and HTTP/1.0",
    "policies": "the routes of `sys/policies/acl`, and what policies allow",
    "decoding": "percent-encoded bytes in a path, and the client token in an Authorization field",
    "lines": "replay lines with the member `hex`, or with a list of words",
    "cubbyhole-lists": "lists and deletions in a cubbyhole",
    "mounts": "mounts beside `secret`, roles, issued credentials and their leases",
    "wrapping": "the field X-Vault-Wrap-TTL and the routes of `sys/wrapping`",
    "periods": "tokens with a period",
    "key-settings": "settings and custom metadata of a single secret",
}

ALL = frozenset(PARTS)

# What `brokerd` serves today. This is the one place that says so: whoever lets it serve a further part adds its name.
TODAY = frozenset({"cubbyholes", "tokens", "secrets", "queries", "limits", "policies", "decoding", "lines",
                   "cubbyhole-lists", "mounts", "wrapping", "periods", "key-settings"})


def parts_of(text: str) -> frozenset:
    """The parts named in a text, with commas between them; `today` and `all` are names of sets of parts."""
    found: set = set()
    for name in text.split(","):
        found |= {"today": TODAY, "all": ALL}.get(name, {name})
    unknown = found - ALL
    if unknown:
        raise argparse.ArgumentTypeError(f"no part is named {', '.join(sorted(unknown))}")
    return frozenset(found)


def add_parts_option(parser: argparse.ArgumentParser) -> None:
    """Gives a command line the option `--parts`, which is the parts of today if it is left out."""
    parser.add_argument("--parts", type=parts_of, default=TODAY, metavar="PARTS",
                        help="names of parts with commas between them, `today` (the default) and `all` among them; "
                             "the parts are: " + ", ".join(PARTS))
