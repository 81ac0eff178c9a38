"""Commands that run side by side, each in a session of its own, and the counts that they end with."""

import contextlib
import os
import re
import signal
import subprocess
import time
from dataclasses import dataclass

LAST = re.compile(r"^(\d+) passed, (\d+) failed(?:, (\d+) skipped)?$", re.MULTILINE)
SECONDS_TO_END = 10  # until what was asked to end is killed

# Linux divides the processors among sessions first, and only the share of each by `nice` (sched(7), "The autogroup
# feature"): so the session has to be nice too. Where there are no such shares, `nice` is enough.
GIVING_WAY = ("sh", "-c", '{ echo "$0" > /proc/self/autogroup; } 2> /dev/null; exec nice -n "$0" "$@"')


class Stopped(Exception):
    """Somebody stops the gate."""


@dataclass
class Counts:
    passed: int = 0
    failed: int = 0
    skipped: int = 0

    def add(self, other):
        self.passed += other.passed
        self.failed += other.failed
        self.skipped += other.skipped

    def __str__(self):
        skipped = f", {self.skipped} skipped" if self.skipped else ""
        return f"{self.passed} passed, {self.failed} failed{skipped}"


def counts_of(said, status):
    """The counts of a command, by its last line. One that has none has failed, and so has one that fails and counts no
    failure."""
    last = LAST.match(said.rstrip("\n").rpartition("\n")[2])
    if not last:
        return Counts(failed=1)
    passed, failed, skipped = (int(it or 0) for it in last.groups())
    return Counts(passed, failed + (status != 0 and failed == 0), skipped)


class Command:
    """A command in a session of its own, whose output goes to a file, and what it says on standard error too, or to
    another file. The nicer it is, the more it gives way to others."""

    def __init__(self, words, log, errors=None, niceness=0, **how):
        self.log, self.began = log, time.monotonic()
        words = [*GIVING_WAY, str(niceness), *words] if niceness else words
        with open(log, "wb") as output, open(errors or os.devnull, "wb") as apart:
            self.process = subprocess.Popen(words, stdin=subprocess.DEVNULL, stdout=output, start_new_session=True,
                                            stderr=apart if errors else subprocess.STDOUT, **how)
        self.status, self.used, self.took = None, 0.0, 0.0

    @property
    def said(self):
        return text_of(self.log)

    def has_ended(self, how=os.WNOHANG):
        """Whether it has ended: then its status and its times are known. One thread asks for it."""
        if self.status is None:
            number, status, used = os.wait4(self.process.pid, how)
            if number:
                self.used, self.took = used.ru_utime + used.ru_stime, time.monotonic() - self.began
                self.status = self.process.returncode = os.waitstatus_to_exitcode(status)
        return self.status is not None

    def wait(self):
        self.has_ended(how=0)

    def signal(self, number):
        """Sends a signal to the command and all that it has started in its session."""
        with contextlib.suppress(ProcessLookupError):
            os.killpg(self.process.pid, number)


def text_of(file):
    return file.read_text(encoding="utf-8", errors="replace") if file.is_file() else ""


def end_all(commands):
    """Ends commands that still run, and all that they have started."""
    for number in (signal.SIGTERM, signal.SIGKILL):
        left = [it for it in commands if it.status is None]
        for command in left:
            command.signal(number)
        until = time.monotonic() + SECONDS_TO_END
        while any(it.status is None for it in left) and time.monotonic() < until:
            time.sleep(0.1)
