"""Calls that fail, and calls that are cut short.

Three runs are repeated for each call of the program on its files: one from nothing, one over a log that is so long that
it is moved into the database, and one over keys in format 1, which are rewritten at the start. The call fails, by EIO
or by ENOSPC, alone or with all such calls after it; or a read or a write moves one byte, or all but one. Then the
program ends with `fault 2`, or it has answered as usual. After a start without faults the broker has all that was
answered.
"""

import random

from program import Wrong, expect
from scenes import all_scenes
from trial import FAULT_OF_STORAGE, Tally, check_found, side_by_side

FAILED = ("pread", "pwrite", "fsync", "fdatasync", "ftruncate")
SHORTENED = ("pread", "pwrite")
ALWAYS = ("short=-1", "short=512", "short=100")
READS = 10  # reads that are tried in the gate, where there are thousands
LEAST = {"calls of pread": 1000, "calls of pwrite": 100, "calls of fsync": 8, "calls of fdatasync": 40,
         "calls of ftruncate": 1, "failed": 500, "fault 2": 500, "short": 120, "short and answered as usual": 120,
         "before any broker": 50, "a broker whose token was not printed": 1, "request taken": 30,
         "request not taken": 100}


def usual_calls(trial, scene):
    """How often a run makes each call, if none fails. Raises Wrong."""
    run, file, report = scene.run(trial)
    expect(run.all_answered, f"with no fault the program ends: {run.end}")
    expect(check_found(trial, file, run.story) is False, "with no fault another broker is found")
    expect(sum(report.changed[name] for name in FAILED) == 0, "with no fault a call is changed")
    return {name: report.made[name] for name in FAILED}


def all_rules(calls, draw, reads, is_half):
    """The rules of each run, for so many drawn reads. `is_half`: each call fails by one error alone, and by the other
    with all later ones, by turns."""
    for name in FAILED:
        numbers = range(1, calls[name] + 1)
        for number in sorted(draw.sample(numbers, min(reads, len(numbers)))) if name == "pread" else numbers:
            ways = [f"{number}:EIO", f"{number}+:ENOSPC", f"{number}:ENOSPC", f"{number}+:EIO"]
            if name in SHORTENED:
                ways += [f"{number}:short=1", f"{number}:short=-1"]
            for way in ways[number % 2 * 2:][:2] + ways[4:][number % 2:][:1] if is_half else ways:
                yield f"{name}:{way}"
    for name in SHORTENED:
        for length in ALWAYS:
            yield f"{name}:1+:{length}"


def try_rule(trial, scene, rule):
    """One run, and what it has left: what came of it. Raises Wrong."""
    run, file, report = scene.run(trial, None, rule)
    changed = report.rules[1].changed
    is_short, is_alone = "short" in rule, "+" not in rule
    if changed == 0:
        expect(run.all_answered, f"no call was changed, but {run.end}")
        return ["not met"]
    expect(changed == 1 or not is_alone, f"{changed} calls were changed")
    expect(run.all_answered or run.end.is_fault(FAULT_OF_STORAGE), f"in place of fault 2: {run.end}")
    expect(not run.all_answered or is_short or rule.startswith("pread"), "a failed write or sync was passed over")
    has_more = check_found(trial, file, run.story)
    if is_short:
        return ["short", "short and answered as usual" if run.all_answered else "short and fault 2"]
    if run.all_answered:
        return ["failed", "failed and answered as usual"]
    if run.story is None:
        met = "before any broker" if has_more is None else "a broker whose token was not printed"
        return ["failed", "fault 2", met]
    return ["failed", "fault 2", "request taken" if has_more else "request not taken"]


def try_calls(trial, jobs, seed=1, reads=READS, is_gate=True):
    """All runs, with so many drawn reads; in the gate half of those that do not begin from nothing."""
    tally, draw = Tally("calls"), random.Random(seed)
    try:
        for scene in all_scenes(trial):
            calls = usual_calls(trial, scene)
            tally.counts.update({f"calls of {name}": count for name, count in calls.items()})
            rules = list(all_rules(calls, draw, reads, is_gate and scene.story is not None))
            for rule, found, wrong in side_by_side(lambda rule: try_rule(trial, scene, rule), rules, jobs):
                if wrong is None:
                    tally.passes(*found)
                else:
                    tally.fails(f"{scene.name}, {rule}: {wrong}")
    except Wrong as error:
        tally.fails(f"{error}")
    for name, least in LEAST.items():
        tally.has(name, least)
    return tally
