"""Prints the first run of a folder on which a copy of the reference broker differs from what stands beside it.

    python3 tests/fuzzing/comparing.py COPY FOLDER

COPY is a folder with the package `broker`. This is a program of its own, since that package is another one elsewhere.
"""

import signal
import sys
from pathlib import Path

SECONDS = 10  # of processor time for one run


def end_run(*_):
    raise TimeoutError


def main():
    copy, folder = map(Path, sys.argv[1:])
    sys.path[0] = str(copy)
    from broker.lines import replay

    signal.signal(signal.SIGVTALRM, end_run)
    for file in sorted(folder.glob("*.replay")):
        signal.setitimer(signal.ITIMER_VIRTUAL, SECONDS)
        try:
            replies, status, told = replay(file.read_bytes())
            found = (b"".join(replies), status, told)
        except Exception as error:  # a change may make it fail, or never end
            found = (repr(error), 1, "")
        if found != (file.with_suffix(".out").read_bytes(), 0, ""):
            print(file.stem)
            return 1
    return 0


if __name__ == "__main__":
    sys.exit(main())
