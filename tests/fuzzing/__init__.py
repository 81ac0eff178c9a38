"""What `tests/fuzz.py` is made of.

`promised` reads from docs/API.md which refusals there are; `changes` changes requests; `events` makes runs of changed
requests, each event answered by the reference broker as it is made; `shrinking` makes a run that shows a difference
short.
"""

import sys
from pathlib import Path

TESTS = Path(__file__).resolve().parent.parent
TOP = TESTS.parent

for folder in ("reference", "differential", "."):
    sys.path.insert(0, str(TESTS / folder))
