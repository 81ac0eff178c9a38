#!/usr/bin/env python3
"""Draws runs of `brokerd replay`, and has their outputs computed by the reference broker.

    python3 draw.py --check                         # compares the stored runs with what is drawn and computed
    python3 draw.py --write [--parts PARTS]         # draws the stored runs anew
    python3 draw.py --seed N [--answer] > runs      # the runs of another seed, with their outputs or without

Every run is drawn by a generator of its own, seeded by the seed and the run's name, so that a theme that is changed or
added leaves the inputs of the others as they were. `THEMES` names the themes, with how many runs each has.

An input is a start line and 3 to 12 events, up to 16 in the themes that are not about requests and lines, but for some
runs of the theme `lines`, in which a line is bad at once. A run is a JSON object on a line, with `name` and `stdin`.
With `--answer` it also has `stdout`, `stderr` and `status` of a broker that serves the parts, today's if none are
named. The last line of `--check` is `N passed, M failed`; the status is 0 if nothing failed.
"""

import argparse
import base64
import json
import pathlib
import sys

from drawing import Run
from lease_themes import (credentials, ends_of_leases, lease_routes, lives_of_leases, mixed_leases, mounts_enabled,
                          mounts_of_secrets, roles)
from policy_themes import (changing_policies, creating_or_updating, cubbyhole_permissions, denials, exact_and_prefix,
                           list_patterns, mixed_policies, permissions, policies_by_callers, policies_not_there,
                           policies_of_children, policy_names, policy_routes, policy_texts, refusals_in_order,
                           stars_in_paths, sudo_permissions)
from request_themes import (authorizations, bodies, body_lengths, changed_heads, changed_lines, closing, connections,
                            cuts, depths, escapes, heads, hex_and_lists, large, limits, line_ends, lines, many_fields,
                            methods, mixed, moments, numbers, paths, pipelines, queries, refused_bodies,
                            replaced_members, single_bytes, spellings, tokens, unserved_routes)
from run import data_of
from secret_themes import (asked_versions, check_and_set, deletions, folders, forgotten_secrets, key_settings,
                           mixed_secrets, old_versions, refused_secrets, secret_callers, secret_moments, secret_routes,
                           secret_writes, settings, version_lists)
from token_themes import (accessors, children, creations, cubbyhole_lists, ends, families, given_twice,
                          lenient_creations, look_ups, mixed_tokens, other_cubbyholes, periods, refused_creations,
                          renewals, revocations, sudo_paths, token_routes, uses)
from wrapping_themes import (mixed_wrapping, open_requests, revoked_responses, rewraps, spent_wrapping_tokens,
                             times_of_responses, wrap_ttls, wrapped_creations, wrapped_credentials, wrapped_replies,
                             wrapping_callers, wrapping_routes, wrapping_words)

HERE = pathlib.Path(__file__).resolve().parent
sys.path.append(str(HERE.parent / "reference"))

from broker.lines import replay  # noqa: E402  the reference broker is in the folder beside this one
from broker.parts import add_parts_option  # noqa: E402

STORED = {"runs.jsonl": 1, "more_runs.jsonl": 2}  # the seed of each file of runs

THEMES = {
    bodies: 2, refused_bodies: 3, numbers: 2, replaced_members: 2, depths: 1, paths: 3, tokens: 2, methods: 2, heads: 4,
    changed_heads: 2, line_ends: 2, many_fields: 1, body_lengths: 2, cuts: 2, single_bytes: 1, pipelines: 2,
    connections: 2, closing: 2, moments: 2, spellings: 2, lines: 4, changed_lines: 2, large: 1, mixed: 4, queries: 2,
    limits: 2, escapes: 4, authorizations: 3, hex_and_lists: 2,
    creations: 2, lenient_creations: 4, refused_creations: 4, children: 4, families: 4, look_ups: 4, accessors: 2,
    renewals: 4, periods: 8, ends: 4, uses: 4, revocations: 4, sudo_paths: 4, given_twice: 2, other_cubbyholes: 2,
    cubbyhole_lists: 4, token_routes: 2, mixed_tokens: 4,
    secret_writes: 2, check_and_set: 4, old_versions: 3, asked_versions: 4, deletions: 4, version_lists: 3,
    refused_secrets: 4, settings: 4, key_settings: 8, folders: 4, forgotten_secrets: 2, secret_callers: 5,
    secret_routes: 4, secret_moments: 1, mixed_secrets: 4,
    permissions: 7, exact_and_prefix: 7, denials: 7, list_patterns: 7, creating_or_updating: 7,
    cubbyhole_permissions: 5, stars_in_paths: 5, sudo_permissions: 7, policy_texts: 5, policy_names: 4,
    changing_policies: 7, policies_of_children: 5, policies_not_there: 4, policies_by_callers: 4,
    refusals_in_order: 5, policy_routes: 3, mixed_policies: 4,
    mounts_enabled: 4, mounts_of_secrets: 4, roles: 4, credentials: 6, lives_of_leases: 6, ends_of_leases: 7,
    lease_routes: 4, mixed_leases: 5,
    wrapped_replies: 20, wrap_ttls: 12, times_of_responses: 14, rewraps: 12, open_requests: 20,
    spent_wrapping_tokens: 12, revoked_responses: 14, wrapped_creations: 14, wrapping_callers: 14, wrapping_words: 12,
    wrapped_credentials: 12, wrapping_routes: 8, mixed_wrapping: 14,
    unserved_routes: 2,
}


def inputs(seed):
    """The names and inputs of all runs."""
    for theme, count in THEMES.items():
        for number in range(1, count + 1):
            name = f"{theme.__name__}_{number:02}"
            run = Run(f"{seed} {name}")
            theme(run)
            stdin = run.stdin()
            yield name, stdin[:-1] if run.chance(10) and stdin else stdin


def text_or_base64(data):
    """Bytes as a text if they are UTF-8, else as an object with their base64."""
    try:
        return data.decode()
    except UnicodeDecodeError:
        return {"base64": base64.b64encode(data).decode()}


def line_of(members):
    """A run as a line of JSON."""
    return json.dumps(members, ensure_ascii=False, separators=(",", ":")).encode() + b"\n"


def with_outputs(name, stdin, parts):
    """The line of a run, with the outputs of a broker that serves the parts."""
    replies, status, told = replay(stdin, parts)
    return line_of({"name": name, "stdin": text_or_base64(stdin), "stdout": text_or_base64(b"".join(replies)),
                    "stderr": f"{told}\n" if told else "", "status": status})


def runs(seed, parts):
    """The lines of all runs of a seed, with outputs."""
    return [with_outputs(name, stdin, parts) for name, stdin in inputs(seed)]


def check_outputs(parts):
    """Compares the outputs of the stored runs, and prints which of them differ. Returns how many passed and failed."""
    passed = failed = 0
    for file in STORED:
        for line in (HERE / file).read_bytes().splitlines(keepends=True):
            run = json.loads(line)
            if line == with_outputs(run["name"], data_of(run["stdin"]), parts):
                passed += 1
            else:
                failed += 1
                print(f"tests/differential/{file}: {run['name']} has other outputs than those that are computed")
    return passed, failed


def check(parts):
    """Compares the outputs of the stored runs, and for each file its inputs with what is drawn."""
    passed, failed = check_outputs(parts)
    for file, seed in STORED.items():
        if (HERE / file).read_bytes() == b"".join(runs(seed, parts)):
            passed += 1
        else:
            failed += 1
            print(f"tests/differential/{file} is not what is drawn by the seed {seed}")
    return passed, failed


def write(parts):
    """Draws the stored runs anew."""
    for file, seed in STORED.items():
        (HERE / file).write_bytes(b"".join(runs(seed, parts)))


def main():
    parser = argparse.ArgumentParser(description="draws runs of `brokerd replay`")
    commands = parser.add_mutually_exclusive_group(required=True)
    commands.add_argument("--check", action="store_true", help="compare the stored runs")
    commands.add_argument("--write", action="store_true", help="draw the stored runs anew")
    commands.add_argument("--seed", type=int, help="print the runs of a seed")
    parser.add_argument("--answer", action="store_true", help="with their outputs")
    add_parts_option(parser)
    arguments = parser.parse_args()
    if arguments.write:
        write(arguments.parts)
        return 0
    if arguments.check:
        passed, failed = check(arguments.parts)
        print(f"{passed} passed, {failed} failed")
        return 1 if failed else 0
    for name, stdin in inputs(arguments.seed):
        line = line_of({"name": name, "stdin": text_or_base64(stdin)})
        sys.stdout.buffer.write(with_outputs(name, stdin, arguments.parts) if arguments.answer else line)
    return 0


if __name__ == "__main__":
    sys.exit(main())
