"""What the gate costs: the processor time of the provers and compilers, by crate, read from /proc while they run."""

import os
import threading
import time

TICKS = os.sysconf("SC_CLK_TCK")
PAUSE = 0.5  # of what a process does after it was last read, nothing is counted
KINDS = ("proof", "tests", "machine code", "edits")


def processes():
    """Each process by number: its parent, when it began, and its processor time with that of the children that it has
    waited for, in seconds."""
    found = {}
    for number in filter(str.isdigit, os.listdir("/proc")):
        try:
            with open(f"/proc/{number}/stat", encoding="utf-8", errors="replace") as file:
                fields = file.read().rpartition(")")[2].split()
        except OSError:
            continue
        found[int(number)] = (int(fields[1]), fields[19], sum(map(int, fields[11:15])) / TICKS)
    return found


def words_of(process):
    """The command line of a process."""
    try:
        with open(f"/proc/{process}/cmdline", encoding="utf-8", errors="replace") as file:
            return file.read().split("\0")
    except OSError:
        return []


def work_of(words):
    """The crate that a prover or compiler of the kit is at, and what it does for it; none if it is no such command."""
    is_of_kit = any(os.path.basename(it).startswith("rattle") for it in words[:2])
    if not is_of_kit or "--crate-name" not in words[:-1]:
        return None
    kind = "machine code" if "--crate-checked" in words else "tests" if "--test" in words else "proof"
    return words[words.index("--crate-name") + 1], kind


class Minutes(threading.Thread):
    """Reads the processor time of the provers below some processes until it is told to stop.

    `rt ci` runs the provers of all crates, and tells none of their times: so the system is asked, twice a second.
    """

    def __init__(self):
        super().__init__(daemon=True)
        self.below, self.seconds, self.is_over = {}, {}, threading.Event()

    def add(self, process, kind=None):
        """Counts what is below a process from now on; all of it as of one kind, if that is given."""
        self.below[process] = kind

    def run(self):
        while not self.is_over.wait(PAUSE):
            self.read()

    def read(self):
        """Takes what each prover has used so far."""
        found = processes()
        children = {}
        for number, (parent, _, _) in found.items():
            children.setdefault(parent, []).append(number)
        for top, kind in [*self.below.items()]:
            wanted = [top]
            while wanted:
                number = wanted.pop()
                work = work_of(words_of(number)) if number in found else None
                if not work:
                    wanted += children.get(number, [])
                    continue
                used = sum(found[it][2] for it in tree(number, children) if it in found)
                key = (number, found[number][1], work[0], kind or work[1])
                self.seconds[key] = max(used, self.seconds.get(key, 0.0))

    def by_crate(self):
        """The seconds of each kind of work, by crate."""
        sums = {}
        for (_, _, crate, kind), used in self.seconds.items():
            of = sums.setdefault(crate, dict.fromkeys(KINDS, 0.0))
            of[kind] += used
        return sums

    def stop(self):
        self.is_over.set()
        self.join()


def tree(top, children):
    """A process and all that are below it."""
    found = [top]
    for number in found:
        found += children.get(number, [])
    return found


def in_minutes(seconds):
    """A cell of the tables: none if it is hardly anything."""
    return f"{seconds / 60:.1f}" if seconds >= 3 else ""


def row(cells):
    return f"| {' | '.join(cells)} |".replace("|  |", "| |").replace("|  |", "| |")


def table_of_crates(sums, crates, kept):
    """Minutes of processor time by crate, as docs/GATE.md has them. What an earlier run has proved is named kept."""
    lines = [row(["Crate", *KINDS]), "|---" * (len(KINDS) + 1) + "|"]
    for crate in (it for it in crates if it in sums or it in kept):
        cells = [in_minutes(sums.get(crate, {}).get(kind, 0.0)) for kind in KINDS]
        lines.append(row([f"`{crate}`", "kept" if crate in kept else cells[0], *cells[1:]]))
    whole = [in_minutes(sum(it[kind] for it in sums.values())) for kind in KINDS]
    return "\n".join([*lines, row(["all", *whole])])


def table_of_scripts(ran):
    """Minutes of processor time, and of the clock, by script: from its name to the seconds of each."""
    lines = [row(["Script", "processor", "clock"]), "|---|---|---|"]
    lines += [row([f"`{name}`", f"{used / 60:.1f}", f"{took / 60:.1f}"]) for name, (used, took) in ran.items()]
    return "\n".join(lines)
