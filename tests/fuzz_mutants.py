#!/usr/bin/env python3
"""Turns one rule of the reference broker after another, and asks whether the runs of `tests/fuzz.py` tell.

    python3 tests/fuzz_mutants.py [--events N] [--seed S] [NAME..]

Each change is made in a copy of tests/reference. The copy is given the runs that `tests/fuzz.py` makes with the same
seed and number of events, and has to differ from the unchanged reference on one of them; the unchanged copy must not.
With names, only these changes are tried. For each change it prints in which run the first difference was. The last line
is `N passed, M failed`; the status is 0 if nothing failed.
"""

import argparse
import concurrent.futures
import os
import shutil
import subprocess
import sys
import tempfile
from pathlib import Path

from fuzz import EVENTS, LENGTH, SHARES
from fuzzing import TESTS
from fuzzing.events import Share, bytes_of

# A name, the file of tests/reference/broker, a text that is there once, and what stands in its place.
CHANGES = (
    ("a head of 16,385 bytes", "http.py", "LONGEST_HEAD = 16_384", "LONGEST_HEAD = 16_385"),
    ("a head of 16,383 bytes", "http.py", "LONGEST_HEAD = 16_384", "LONGEST_HEAD = 16_383"),
    ("65 fields", "http.py", "MOST_FIELDS = 64", "MOST_FIELDS = 65"),
    ("a body of 1,048,577 bytes", "http.py", "LONGEST_BODY = 1_048_576", "LONGEST_BODY = 1_048_577"),
    ("a path of 513 bytes", "http.py", "LONGEST_PATH = 512", "LONGEST_PATH = 513"),
    ("two Hosts", "http.py", "if hosts > 1 or", "if hosts > 2 or"),
    ("no Host", "http.py", "(hosts == 0 and head.minor == 1)", "False"),
    ("Host before Transfer-Encoding", "http.py", 'if head.values(b"transfer-encoding"):',
     'if head.values(b"transfer-encoding") and head.values(b"host"):'),
    ("two lengths, the first counts", "http.py", "if len(lengths) > 1 or not", "if not"),
    ("a length with a sign", "http.py", 'rb"[0-9]+", lengths[0]', 'rb"[+]?[0-9]+", lengths[0]'),
    ("no line that ends in LF alone", "http.py", r'rb"((?:" + TOKEN + rb":[\t\x20-\x7e\x80-\xff]*\r?\n)*)\r?\n")',
     r'rb"((?:" + TOKEN + rb":[\t\x20-\x7e\x80-\xff]*\r\n)*)\r?\n")'),
    ("`close` in lower case alone", "http.py", 'e.strip(b" \\t").lower()', 'e.strip(b" \\t")'),
    ("HTTP/1.0 stays open", "http.py", "return self.minor == 0 or", "return"),
    ("DEL in a path", "http.py", "any(b < 0x20 or b == 0x7F for b in decoded)", "any(b < 0x20 for b in decoded)"),
    ("an empty segment", "http.py", 'segment in ("", ".", "..")', 'segment in (".", "..")'),
    ("lower-case hexadecimal digits are no escape", "http.py", "%([0-9A-Fa-f]{2})", "%([0-9A-F]{2})"),
    ("`Bearer` as it is written alone", "http.py", "[Bb][Ee][Aa][Rr][Ee][Rr] +", "Bearer +"),
    ("the last version of a query", "http.py", "versions[0].decode", "versions[-1].decode"),
    ("a wrap TTL that is no duration is none", "http.py", 'raise bad_request("invalid duration")', "wrap_ttl = 0"),
    ("128 levels", "json_text.py", "DEEPEST = 127", "DEEPEST = 128"),
    ("-0 is 0", "json_text.py", "0 < value <= 2**63", "value <= 2**63"),
    ("half of a surrogate pair", "json_text.py", "if 0xDC00 <= unit <= 0xDFFF:", "if 0xDC00 <= unit <= 0xDBFF:"),
    ("19 digits are a count", "bodies.py", "[0-9]{1,18}", "[0-9]{1,19}"),
    ("`null` is no object", "bodies.py", "    if value is None:\n        return {}\n    if not isinstance(value, dict)",
     "    if not isinstance(value, dict)"),
    ("2^32 seconds", "texts.py", "GREATEST_SECONDS = 4_294_967_295", "GREATEST_SECONDS = 4_294_967_296"),
    ("a second more than 32 days", "texts.py", "LONGEST_LIFE = 2_764_800", "LONGEST_LIFE = 2_764_801"),
    ("names of 129 characters", "texts.py", "{1,128}", "{1,129}"),
    ("what is due now stays", "state.py", "end <= clock", "end < clock"),
    ("a period that needs no `sudo`", "tokens.py", "not privileged and asked_for.period > 0", "False"),
    ("a period within 32 days of the issue", "tokens.py", "least(now + token.period, latest)",
     "least(now + token.period, latest, token.issued + LONGEST_LIFE)"),
    ("an increment beside a period", "tokens.py", "least(now + token.period, latest)",
     "least(now + (increment or token.period), latest)"),
    ("one policy of the caller's is enough", "tokens.py", "not set(asked_for.policies) <= set(caller.policies)",
     "asked_for.policies and not set(asked_for.policies) & set(caller.policies)"),
    ("`sudo` on `create` counts on `create-orphan`", "calls.py", 'self.ask.path, "sudo"',
     '"auth/token/create", "sudo"'),
    ("`root2` is `root`", "state.py", '"root" in self.policies',
     'any(name.startswith("root") for name in self.policies)'),
    ("the clock goes back", "state.py", "clock = max(b.clock, moment)", "clock = moment"),
    ("a token stays after its last use", "state.py", "        return revoked(b, caller)", "        return b"),
    ("eleven versions", "secrets.py", "KEPT_VERSIONS = 10", "KEPT_VERSIONS = 11"),
    ("custom metadata that stay beside new ones", "secrets.py",
     "custom_metadata=key.custom_metadata if custom is None else custom",
     "custom_metadata=custom or key.custom_metadata"),
    ("versions of a secret by its mount's number alone", "secrets.py", "kept = key.max_versions or", "kept ="),
    ("check-and-set as the mount says alone", "secrets.py", "(mount.cas_required or key.cas_required)",
     "mount.cas_required"),
    ("settings that take a version", "secrets.py",
     "    return silent(with_key(call, replace(\n        key, updated=now,",
     "    return silent(with_key(call, replace(\n        key, updated=now, current=key.current + 1,"),
    ("undelete of a destroyed version", "secrets.py", "lambda v: v if v.destroyed else", "lambda v:"),
    ("`deny` does not win", "permissions.py", ' and "deny" not in granted', ""),
    ("the shortest prefix", "permissions.py", "max(prefixes", "min(prefixes"),
    ("a prefix without its slash", "leases.py", 'startswith(call.rest + "/")', "startswith(call.rest)"),
    ("an unwrapped response stays", "wrapping.py", "without_response(call.b, text))", "call.b)"),
    ("a wrapping token keeps its response", "requests.py", "without_response(b, ask.token)", "b"),
    ("a used identifier once more", "requests.py", " or any(each in b.used for each in needed)", ""),
)


def write_runs(folder, seed, number, events):
    """Writes the runs of a share, each with the replies to it."""
    for name, run in Share(seed, number, SHARES).runs(events // SHARES, LENGTH):
        (folder / f"{name}.replay").write_bytes(bytes_of(run.lines()))
        (folder / f"{name}.out").write_bytes(b"".join(run.replies))


def copy_with(folder, change):
    """A copy of the reference broker with a change, or as it is."""
    copy = Path(tempfile.mkdtemp(dir=folder))
    shutil.copytree(TESTS / "reference/broker", copy / "broker", ignore=shutil.ignore_patterns("__pycache__"))
    if change is not None:
        name, file, old, new = change
        text = (copy / "broker" / file).read_text(encoding="utf-8")
        if text.count(old) != 1:
            raise SystemExit(f"{name}: {old!r} is {text.count(old)} times in {file}")
        (copy / "broker" / file).write_text(text.replace(old, new), encoding="utf-8")
    return copy


def first_difference(copy, folder):
    """The first run on which a copy of the reference broker differs, or None."""
    program = TESTS / "fuzzing/comparing.py"
    done = subprocess.run([sys.executable, program, copy, folder], capture_output=True, text=True)
    if done.returncode not in (0, 1):
        raise SystemExit(f"a copy of the reference broker fails: {done.stderr[-2000:]}")
    return done.stdout.strip() or None


def main():
    parser = argparse.ArgumentParser(description="turns the rules of the reference broker")
    parser.add_argument("--events", type=int, default=EVENTS)
    parser.add_argument("--seed", default="1")
    parser.add_argument("names", nargs="*", metavar="NAME")
    arguments = parser.parse_args()
    if not {*arguments.names} <= {name for name, *_ in CHANGES}:
        parser.error("a name is that of no change")
    changes = [change for change in CHANGES if not arguments.names or change[0] in arguments.names]
    passed = failed = 0
    with tempfile.TemporaryDirectory() as name, concurrent.futures.ThreadPoolExecutor(os.cpu_count()) as pool:
        runs = Path(name) / "runs"
        runs.mkdir()
        with concurrent.futures.ProcessPoolExecutor(min(SHARES, os.cpu_count())) as makers:
            shares = [(runs, arguments.seed, number, arguments.events) for number in range(SHARES)]
            list(makers.map(write_runs, *zip(*shares)))
        copies = [copy_with(name, change) for change in (None, *changes)]
        found = list(pool.map(first_difference, copies, [runs] * len(copies)))
    for (what, *_), run in zip((("nothing changed",), *changes), found):
        is_right = (run is None) == (what == "nothing changed")
        passed, failed = passed + is_right, failed + (not is_right)
        print(f"{what}: {'no difference' if run is None else f'run {run}'}" + ("" if is_right else ", which is wrong"))
    told = sum(run is not None for run in found[1:])
    print(f"{told} of {len(changes)} changes were told in {arguments.events} events, seed {arguments.seed}")
    print(f"{passed} passed, {failed} failed")
    return 1 if failed else 0


if __name__ == "__main__":
    sys.exit(main())
