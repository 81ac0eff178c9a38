"""A disk that is full.

A run from nothing is repeated while no file may be longer than a limit, from no byte up to more than the run needs. It
ends with `fault 2`, or it has answered as usual; a start under the same limit ends so too, or serves; and after a start
without a limit the broker has all that was answered. Beside the gate the same is done on a small file system in memory.
"""

import contextlib
import random
import subprocess

from asking import LOOK
from program import Running, Wrong, expect
from scenes import OLD_KEYS, all_scenes
from trial import FAULT_OF_STORAGE, MOMENT, NOBODY, Run, Tally, check_found, side_by_side

PAGE = 4096
STEP = 2 * PAGE
BEYOND = 16384  # bytes beyond what the run needs, up to which the limits go
MOST_ROOM = {"start": 700_000, "long log": 250_000, OLD_KEYS: 250_000}  # bytes of a small disk beyond the first files
LEAST = {"limits": 100, "limits that were met": 90, "at a request": 30, "before any broker": 30, "served once more": 30,
         "refused once more": 30, "answered as usual": 1}


def longest_file(trial):
    """How long the longest file of a run gets. Raises Wrong."""
    place = trial.place()
    run = Run(trial, place / "broker.db", trial.at(MOMENT))
    expect(run.all_answered, f"with no limit the program ends: {run.end}")
    return max(path.stat().st_size for path in place.iterdir())


def start_again(trial, file, story, longest):
    """Starts the program over a full disk: it serves, or ends with the fault of storage. Raises Wrong."""
    with Running(trial.program, file, trial.at(MOMENT), longest) as running:
        data = running.ask(LOOK.text({"root": story.known["root"] if story else NOBODY}))
        if not data:
            running.ends()
        end = running.close()
    expect(end.is_kill() if data else end.is_fault(FAULT_OF_STORAGE), f"a start over a full disk: {end}")
    if story is None and end.root_token():
        return None
    return "served once more" if data else "refused once more"


def try_limit(trial, limit):
    """One run under a limit: what came of it. Raises Wrong."""
    file = trial.place() / "broker.db"
    return judge(trial, file, Run(trial, file, trial.at(MOMENT), limit), limit)


def judge(trial, file, run, limit):
    """What a run over a full disk has left: what came of it. Raises Wrong."""
    if run.all_answered:
        check_found(trial, file, run.story)
        return ["limits", "answered as usual"]
    expect(run.end.is_fault(FAULT_OF_STORAGE), f"in place of fault 2: {run.end}")
    again = start_again(trial, file, run.story, limit)
    if again is None:
        return ["limits", "limits that were met", "started under the limit"]
    has_more = check_found(trial, file, run.story)
    told = "at the start" if run.story is None else "at a request"
    return ["limits", "limits that were met", again, "before any broker" if has_more is None else told]


def try_full(trial, jobs, seed=1, step=STEP):
    """All limits that are so far apart, and as many that are drawn between them."""
    tally, draw = Tally("full disk"), random.Random(seed)
    try:
        longest = longest_file(trial)
    except Wrong as error:
        tally.fails(f"{error}")
        return tally
    limits = [limit + past for limit in range(0, longest + BEYOND, step) for past in (0, draw.randrange(1, step))]
    for limit, found, wrong in side_by_side(lambda limit: try_limit(trial, limit), limits, jobs):
        if wrong is None:
            tally.passes(*found)
        else:
            tally.fails(f"no file beyond {limit} bytes: {wrong}")
    for name, least in LEAST.items():
        tally.has(name, least)
    return tally


@contextlib.contextmanager
def small_disk(place, size):
    """A file system of so many bytes in memory."""
    subprocess.run(["mount", "-t", "tmpfs", "-o", f"size={size}", "tmpfs", place], check=True, capture_output=True)
    try:
        yield place
    finally:
        subprocess.run(["umount", place], check=True)


def try_disk(trial, scene, size):
    """One run on a disk of so many bytes, which is larger at the last start: what came of it. Raises Wrong."""
    with small_disk(trial.place(), size) as place:
        file = place / "broker.db"
        run = scene.begin(trial, file, trial.at(MOMENT))
        if not run.all_answered:
            expect(run.end.is_fault(FAULT_OF_STORAGE), f"in place of fault 2: {run.end}")
            start_again(trial, file, run.story, None)
        subprocess.run(["mount", "-o", "remount,size=64m", place], check=True)
        check_found(trial, file, run.story)
    return ["small disks", f"{scene.name}, " + ("answered as usual" if run.all_answered else "full disks")]


def try_disks(trial, jobs, seed, count):
    """So many small disks for each run: from nothing, over a long log, and over keys in format 1. Where nothing can be
    mounted there is none."""
    tally, draw = Tally("small disks"), random.Random(seed)
    try:
        with small_disk(trial.place(), PAGE):
            pass
    except (OSError, subprocess.CalledProcessError) as error:
        tally.counts[f"small disks, since nothing can be mounted here ({error})"] = 0
        return tally
    for scene in all_scenes(trial):
        taken = sum(len(data) for data in scene.files.values())
        sizes = [taken + draw.randrange(PAGE, MOST_ROOM[scene.name]) for _ in range(count)]
        for size, found, wrong in side_by_side(lambda size: try_disk(trial, scene, size), sizes, jobs):
            if wrong is None:
                tally.passes(*found)
            else:
                tally.fails(f"{scene.name}, a disk of {size} bytes: {wrong}")
    return tally
