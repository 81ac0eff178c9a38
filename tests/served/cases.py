"""Cases that measure how long a program takes. One that fails where other work kept the machine busy is tried again."""

import threading
import time

DISTURBED = 0.05  # seconds for which a process does not run, though it could, while others do
LONGEST = 60  # seconds in which a case is tried again


class Watch(threading.Thread):
    """Finds out for how long this process is kept from running at most."""

    def __init__(self):
        super().__init__(daemon=True)
        self.longest = 0.0
        self.is_over = False

    def run(self):
        while not self.is_over:
            begin = time.monotonic()
            time.sleep(0.005)
            self.longest = max(self.longest, time.monotonic() - begin - 0.005)


def expect(condition, what):
    if not condition:
        raise AssertionError(what)


def between(least, seconds, most, what):
    expect(seconds is not None and least <= seconds <= most, f"{what} after {seconds} s, not {least} to {most} s")


def tried(function, *arguments):
    """What a case has met, and what is wrong with it, if anything is."""
    until = time.monotonic() + LONGEST
    while True:
        watch = Watch()
        watch.start()
        try:
            return function(*arguments), None
        except (AssertionError, OSError, SystemExit) as error:
            wrong = f"{error} (it was kept from running for {watch.longest * 1000:.0f} ms at most)"
        finally:
            watch.is_over = True
        if watch.longest < DISTURBED or time.monotonic() > until:
            return None, wrong


def report(title, outcomes):
    """Prints what each case has met or what is wrong with it, and the counts. The status of the script."""
    failed = 0
    for case, (met, wrong) in outcomes:
        print(f"{title}, {case.__name__.replace('_', ' ')}: {wrong or met}", flush=True)
        failed += wrong is not None
    print(f"{len(outcomes) - failed} passed, {failed} failed")
    return failed > 0
