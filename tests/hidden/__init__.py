"""What `tests/unseen.py` is made of.

`blind` says what a caller is blind to, and when two brokers are alike; `drawing` draws brokers and requests, and
`pairs` makes two brokers that are alike; `leaks` has changes of the reference broker that tell what they should not;
`clauses` leaves out of `blind` one clause after another.
"""

import sys
from pathlib import Path

sys.path.insert(0, str(Path(__file__).resolve().parent.parent / "reference"))
