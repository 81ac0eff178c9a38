"""What the parts share: a run, the look at what it has left, and many of them side by side."""

import concurrent.futures
import multiprocessing
import os
import shutil
import tempfile
import traceback
from collections import Counter
from pathlib import Path

from asking import LOOK, REQUESTS, Reply, Story, found_broker, looked, rows_of, started
from hostile import build, environment
from program import Running, Wrong, expect
from rows import whole_rows_in

MOMENT = 1_790_000_000  # of all requests of a run: the clock stands still, so that the calls are the same each time
NOBODY = "hvs.00000000-0000-0000-0000-000000000000"
FAULT_OF_STORAGE = 2


class Trial:
    """The program that is tried, the library that is preloaded into it, and a folder for files."""

    def __init__(self, program, folder):
        self.program = os.path.abspath(program)
        self.folder = Path(folder)
        self.library = build(self.folder)

    def at(self, moment, *rules, **named):
        """The variables of a run whose clock stands at a moment."""
        return environment(self.library, " ".join([f"clock_gettime:1+:set={moment}", *rules]), **named)

    def place(self):
        """An empty folder of this process."""
        place = self.folder / f"work-{os.getpid()}"
        shutil.rmtree(place, ignore_errors=True)
        place.mkdir()
        return place


class Run:
    """A run of the program: from nothing, or from where a story has come to. It is asked a look and requests, until all
    are answered or it ends."""

    def __init__(self, trial, file, variables, longest=None, story=None, requests=REQUESTS):
        self.story = story and story.going_on()
        self.all_answered = False
        with Running(trial.program, file, variables, longest) as running:
            if self.story is None:
                root = running.told_root()
                self.story = root and Story(root)
            if self.story is not None:
                self.all_answered = self.story.run(running, requests)
            if not self.all_answered:
                running.ends()
            self.end = running.close()
        if self.all_answered:
            expect(self.end.is_kill(), f"after all replies: {self.end}")


def check_found(trial, file, story, moment=MOMENT + 1):
    """Starts the program over what a run has left, and looks at it, at a moment. The broker that is found has all that
    was answered, and the request that was not answered as a whole or not at all. Whether it has that one; None if the
    run had not told of a start, and there is another one now. Raises Wrong."""
    with Running(trial.program, file, trial.at(moment)) as running:
        known = {"root": story.known["root"] if story else NOBODY}
        look = LOOK.text(known)
        data = running.ask(look)
        end = running.close()
    expect(end.is_kill(), f"it does not serve what it has left: {end}")
    rows = whole_rows_in(file)
    first, root = started(rows) if story is None or not story.brokers else (None, None)
    if story is None:
        expect(looked(first, moment, look) == rows, "another broker than a new one is found")
        expect(end.root_token() in (None, root), "another root token was printed")
        return None if end.root_token() else False
    expect(end.root_token() is None, "a broker that was there is started anew")
    expect(Reply(data).status == 200, f"the root token is answered {Reply(data).status}")
    before = story.brokers[-1] if story.brokers else first
    found = found_broker(rows, before, story.asked, moment, look)
    if found is None:
        raise Wrong(f"after {len(story.replies)} replies {differing(rows, before, moment, look)}")
    return rows_of(found) != rows_of(before)


def differing(rows, broker, moment, look):
    """That other rows than those of a broker are found, and the first of them, in words."""
    known = looked(broker, moment, look)
    places = sorted(key for key in {*rows, *known} if rows.get(key) != known.get(key))
    return f"another broker is found, with {len(places)} other rows: {places[:3]}"


# ---------------------------------------------------------------------------------------- side by side

_task = None


def call_task(argument):
    """Runs a task in another process, and answers its outcome, or what is wrong."""
    try:
        return argument, _task(argument), None
    except Wrong as error:
        return argument, None, f"{error}"
    except Exception as error:
        place = traceback.extract_tb(error.__traceback__)[-1]
        return argument, None, f"{type(error).__name__} in {place.name}, line {place.lineno}: {error}"


def side_by_side(task, arguments, jobs):
    """The outcomes of a task for each argument: the argument, the outcome, and what is wrong, or None."""
    global _task
    _task = task
    if jobs == 1:
        yield from map(call_task, arguments)
        return
    with concurrent.futures.ProcessPoolExecutor(jobs, multiprocessing.get_context("fork")) as pool:
        yield from pool.map(call_task, arguments, chunksize=4)


class Tally:
    """What was tried, what came of it, and what was wrong."""

    def __init__(self, part):
        self.part = part
        self.passed = 0
        self.failed = 0
        self.counts = Counter()

    def passes(self, *counted):
        """Something was right: what is counted of it, and the most of something, by its name and a number."""
        self.passed += 1
        self.counts.update(each for each in counted if isinstance(each, str))
        for name, number in (each for each in counted if not isinstance(each, str)):
            self.counts[name] = max(self.counts[name], number)

    def fails(self, what):
        self.failed += 1
        print(f"{self.part}: {what}", flush=True)

    def has(self, name, least):
        """Something has to be counted so often at least: a part that meets nothing shows nothing."""
        if self.counts[name] >= least:
            self.passed += 1
        else:
            self.fails(f"{self.counts[name]} {name}, where {least} are the least")

    def told(self):
        """The counts in words."""
        return ", ".join(f"{count} {name}" for name, count in self.counts.items())


def temporary_folder():
    """A folder in memory, if there is such a place."""
    return tempfile.TemporaryDirectory(prefix="disk-", dir="/dev/shm" if os.access("/dev/shm", os.W_OK) else None)
