"""Crash images: what the two files may have after a crash at each instant of a recorded run.

The program opens each image, and its rows have to be those of the reference broker after the requests that had been
answered by then, or after one more. Where the root token had not been printed there may be no broker. Where keys in
format 1 are rewritten SQLite has to find them all in one format in the image, before the program opens it.
"""

import random
from dataclasses import dataclass

from asking import Reply, Story, looked
from history import NAMES, instants_of
from program import Running, Wrong, expect
from rows import put, rows_in, whole_rows_in
from scenes import KEYS, OLD_KEYS, all_scenes
from trial import MOMENT, Tally, check_found, side_by_side

ALL, NONE = ("all",), ("none",)
SECRET = 8  # the kind of a key's row
MIXES = 6  # drawn mixes of a stretch in the gate
TEARS = 3  # places in the gate at which a write is torn
FORGOTTEN = 40  # synced writes that are left out
RECOVERED = 12  # images of the recovery of an image
MOST = 1500  # images of a run beside the gate, drawn among all
LEAST = {"images": 500, "stretches": 30, "before": 300, "after": 20, "of the database": 80, "no broker": 50,
         "told without a synced write": 25, "images of keys in format 1": 20, "images of keys in format 2": 20}


@dataclass
class History:
    """A recorded run: its story, its instants, and how many bytes the first replies have."""
    name: str
    story: Story
    instants: list

    def __post_init__(self):
        self.look = self.story.look()
        self.rows = [looked(broker, MOMENT + 1, self.look) for broker in self.story.brokers]
        self.ends = []
        for reply in self.story.replies:
            self.ends.append((self.ends[-1] if self.ends else 0) + len(reply))

    def answered(self, instant):
        """How many requests were answered by then."""
        return sum(end <= instant.sent for end in self.ends)


def record_run(trial, scene):
    """A recorded run. Raises Wrong."""
    place = trial.place()
    run, file, _ = scene.run(trial, place / "record")
    expect(run.all_answered, f"with no fault the program ends: {run.end}")
    first = {name: scene.files.get(name) for name in NAMES}
    history = History(scene.name, run.story, instants_of(place / "record", file, first))
    check_found(trial, file, run.story)
    return history


def ways_of(part, is_all, draw):
    """What may be left of a file at the end of a stretch. `is_all`: each tear, and more mixes."""
    steps = part.steps()
    for count in range(1, len(steps)):
        yield ("front", count)
    for place in range(len(steps) - 1):
        yield ("without", place)
    length = len(part.synced())
    for place, step in enumerate(steps):
        tears = list(step.tears(length))
        for end in tears if is_all else draw.sample(tears, min(TEARS, len(tears))):
            yield ("torn", place, end)
        length = max(length, step.at + len(step.data)) if step.data is not None else step.at
    for _ in range(MIXES * (8 if is_all else 1)):
        yield ("mixed", draw.getrandbits(64), draw.choice((1, 1, 512)))


def images_of(history, is_all, draw):
    """The images of a history: the place of an instant, and what is left of each file."""
    seen = set()
    for place, instant in enumerate(history.instants):
        found = [(one, two) for one in (ALL, NONE) for two in (ALL, NONE)]
        for number, part in enumerate(instant.parts):
            if instant.is_end[number] and part is not None and part.steps():
                other = draw.choice((ALL, NONE)) if not is_all else None
                for way in ways_of(part, is_all, draw):
                    for rest in (ALL, NONE) if other is None else (other,):
                        found.append((way, rest) if number == 0 else (rest, way))
        for ways in found:
            name = (history.answered(instant), instant.is_told,
                    *(content_name(part, way) for part, way in zip(instant.parts, ways)))
            if name not in seen:
                seen.add(name)
                yield place, ways


def content_name(part, way):
    """A name of what is left of a file: one content may have two, but no two have one."""
    if part is None:
        return None
    count = {"all": len(part.steps()), "none": 0, "front": way[-1]}.get(way[0])
    if count is None:
        return len(part.stretches), len(part.steps()), way
    return sum(map(len, part.stretches[:-1])) + count


def files_of(instant, ways):
    """What is left of the files after a crash."""
    return {name: part and part.left(*way) for name, part, way in zip(NAMES, instant.parts, ways)}


def open_image(trial, file, instant, ways, look, moment, record=None):
    """Makes an image, and lets the program open it: its rows, or None if it has started a new broker. Raises Wrong."""
    put(file, files_of(instant, ways))
    with Running(trial.program, file, trial.at(moment, record=record)) as running:
        data = running.ask(look)
        end = running.close()
    expect(end.is_kill(), f"it is not served: {end}")
    if end.root_token() is not None:
        expect(not instant.is_told, "a new broker in place of the one that was there")
        return None
    rows = whole_rows_in(file)
    expect(Reply(data).status == 200, f"the root token is answered {Reply(data).status}")
    return rows


def format_in(trial, instant, ways):
    """The one format of all keys in an image, as SQLite finds them, in words. Raises Wrong."""
    file = trial.place() / "read.db"
    put(file, files_of(instant, ways))
    keys = [body for (kind, _), (_, _, body) in rows_in(file).items() if kind == SECRET]
    formats = {body[0] for body in keys}
    expect(len(keys) >= KEYS and len(formats) == 1, f"{len(keys)} keys are of the formats {formats}")
    return f"images of keys in format {formats.pop()}"


def judge(trial, history, place, ways):
    """Opens an image: which broker is there. Raises Wrong."""
    instant = history.instants[place]
    answered = history.answered(instant)
    told = [format_in(trial, instant, ways)] if history.name == OLD_KEYS else []
    rows = open_image(trial, trial.place() / "broker.db", instant, ways, history.look, MOMENT + 1)
    if rows is None:
        return ["no broker"]
    is_after = rows != history.rows[answered]
    expect(not is_after or rows in history.rows[answered + 1:answered + 2],
           f"after {answered} answers another broker is found")
    return [*told, "after" if is_after else "before"] + ["of the database"] * (ways[0] not in (ALL, NONE))


def judge_recovery(trial, history, place, ways, seed):
    """Records how an image is opened, and cuts that in turn: what came of it. Raises Wrong."""
    instant, draw = history.instants[place], random.Random(seed)
    answered, folder = history.answered(instant), trial.place()
    file, record = folder / "broker.db", folder / "record"
    first = files_of(instant, ways)
    rows = open_image(trial, file, instant, ways, history.look, MOMENT + 1, record)
    if rows is None:
        return ["recoveries without a broker"]
    known = [looked(broker, MOMENT + 2, history.look) for broker in history.story.brokers[answered:answered + 2]]
    found = [looked(broker, MOMENT + 1, history.look) for broker in history.story.brokers[answered:answered + 2]]
    expect(rows in found, f"after {answered} answers another broker is found")
    chosen, counts = known[found.index(rows)], ["recoveries"]
    inner = History("recovery", history.story, instants_of(record, file, first))
    images = list(images_of(inner, False, draw))
    for at, inner_ways in draw.sample(images, min(RECOVERED, len(images))):
        rows = open_image(trial, file, inner.instants[at], inner_ways, history.look, MOMENT + 2)
        allowed = [chosen] if inner.instants[at].sent else known
        expect(rows in allowed, f"recovery, call {at}, {inner_ways}: another broker is found")
        counts.append("images of recoveries")
    return counts


def forgotten_of(history, draw):
    """Images at the end without a write that was synced."""
    place, found = len(history.instants) - 1, []
    for number, part in enumerate(history.instants[-1].parts):
        for stretch, steps in enumerate(part.stretches[:-1]):
            for at in range(len(steps)):
                way = ("forgotten", stretch, at)
                found.append((place, (way, ALL) if number == 0 else (ALL, way)))
    return draw.sample(found, min(FORGOTTEN, len(found)))


def tell_forgotten(trial, history, jobs, draw, tally):
    """Some of the images without a synced write have to be told as wrong."""
    images = forgotten_of(history, draw)
    for _, _, wrong in side_by_side(lambda image: judge(trial, history, *image), images, jobs):
        tally.counts["told without a synced write" if wrong else "without one that is of no use any more"] += 1


def histories_of(trial, tally):
    """The recorded runs."""
    try:
        for scene in all_scenes(trial):
            yield record_run(trial, scene)
    except Wrong as error:
        tally.fails(f"a recorded run: {error}")


def try_recoveries(trial, jobs, seed, count):
    """So many images of each run, and images of how they are opened."""
    tally, draw = Tally("recoveries"), random.Random(seed)
    for history in histories_of(trial, tally):
        images = list(images_of(history, False, draw))
        drawn = [(*image, draw.getrandbits(64)) for image in draw.sample(images, min(count, len(images)))]
        task = side_by_side(lambda image: judge_recovery(trial, history, *image), drawn, jobs)
        for (place, ways, _), found, wrong in task:
            if wrong is None:
                tally.passes(*found)
            else:
                tally.fails(f"{history.name}, call {place}, {ways}: {wrong}")
    return tally


def try_images(trial, jobs, seed=1, is_all=False):
    """The images of all runs. `is_all`: some of those with each tear, more mixes, and both states of the other file."""
    tally, draw = Tally("images"), random.Random(seed)
    for history in histories_of(trial, tally):
        images = list(images_of(history, is_all, draw))
        tally.counts["possible images"] += len(images)
        images = draw.sample(images, min(MOST, len(images))) if is_all else images
        tally.counts["stretches"] += sum(instant.is_end[number] and part is not None and part.steps() != ()
                                         for instant in history.instants for number, part in enumerate(instant.parts))
        for (place, ways), found, wrong in side_by_side(lambda image: judge(trial, history, *image), images, jobs):
            tally.counts["images"] += 1
            if wrong is None:
                tally.passes(*found)
            else:
                tally.fails(f"{history.name}, call {place}, {ways}: {wrong}")
        tell_forgotten(trial, history, jobs, draw, tally)
    for name, least in LEAST.items():
        tally.has(name, least)
    return tally
