#!/usr/bin/env python3
"""Makes the rows of `tests/rows` by the reference broker.

    python3 make_rows.py --check [NAME...]                      # compares tests/rows with what this makes
    python3 make_rows.py --write                                # writes tests/rows anew
    python3 make_rows.py --write [--parts PARTS] [--out DIR]    # for other parts, or into another folder

A row is a function of `stated_rows`, which states what each reply must be: if the reference broker answers otherwise,
the row is not made. `--write` writes the rows that hold for the parts, today's if none are named: `NAME.replay`,
`NAME.out` and `INDEX.md`. It removes rows of `tests/rows` that are no longer made.

`--check` writes nothing and says what differs. It also tries each row, served today or not, with exactly the parts that
it needs and with all for which it holds. Its last line is `N passed, M failed`; the status is 0 if nothing failed.
"""

import argparse
import pathlib
import sys
import traceback
from dataclasses import dataclass

from broker.lines import replay
from broker.parts import ALL, add_parts_option
from stated_rows import ROWS, SUBJECTS, Row, Run, rows_of

HERE = pathlib.Path(__file__).resolve().parent
FOLDER = HERE.parent / "rows"

INDEX_HEAD = """# Rows

Each row is a pair of files: `NAME.replay`, the lines that `brokerd replay` reads on standard input, and `NAME.out`, the
exact bytes that it writes to standard output. `tests/rows.sh` runs every row and compares its output byte for byte, its
exit status, and what it writes to standard error: one line with the words of the last column, or nothing.

All files of this folder, this one too, are made by the reference broker of `tests/reference`:
`python3 tests/reference/make_rows.py --write`. Its README says how a row is added.
"""
TABLE_HEAD = """
## {subject}

| Name | What it shows | Status | Standard error |
|---|---|---|---|
"""


@dataclass(frozen=True)
class Made:
    """What came of a row: its lines and its replies, the exit status and the words on standard error."""
    lines: bytes
    out: bytes
    status: int
    told: str


class Unmade(Exception):
    """A row whose statements do not hold."""


def run_of(row: Row, parts: frozenset) -> Made:
    """A row as a broker answers it that serves these parts, with its statements tried."""
    run = Run(row.start, parts)
    status, told = row.tell(run) or (0, "")
    lines = b"".join(run.lines)
    replies, *end = replay(lines, parts)
    assert end == [status, told], f"its lines end with status {end[0]} and '{end[1]}'"
    assert replies == run.replies, "its lines are replied to otherwise"
    return Made(lines, b"".join(replies), status, told)


def made(row: Row, parts: frozenset) -> Made:
    """The same; raises Unmade if a statement does not hold."""
    try:
        return run_of(row, parts)
    except Exception as error:  # a statement may fail in any way, such as by a member that is not there
        stated = [frame for frame in traceback.extract_tb(error.__traceback__) if "stated_rows" in frame.filename]
        place = f"{pathlib.Path(stated[0].filename).name}:{stated[0].lineno}: " if stated else ""
        raise Unmade(f"row {row.name}: {place}{type(error).__name__}: {error}") from error


def index_text(found: dict) -> str:
    """The text of `INDEX.md` for rows as they were made: Made by Row."""
    text = INDEX_HEAD
    for subject in SUBJECTS:
        rows = [row for row in rows_of(subject) if row in found]
        if rows:
            text += TABLE_HEAD.format(subject=subject)
        for row in rows:
            told = f"`{found[row].told}`" if found[row].told else ""
            text += f"| `{row.name}` | {row.title} | {found[row].status} | {told} |\n"
    return text


def files_of(row: Row, each: Made) -> dict:
    """The two files of a row: bytes by name."""
    return {f"{row.name}.replay": each.lines, f"{row.name}.out": each.out}


def strays(files: dict) -> list:
    """Files of `tests/rows` that are not among these."""
    return sorted(file for file in FOLDER.iterdir() if file.name not in files)


def folder_files(found: dict) -> dict:
    """The files of a folder of rows: bytes by name."""
    files = {"INDEX.md": index_text(found).encode()}
    for row, each in found.items():
        files |= files_of(row, each)
    return files


# ------------------------------------------------------------------------------------- commands

def write(parts: frozenset, folder: pathlib.Path) -> int:
    """Writes a folder of rows. Returns the exit status."""
    try:
        files = folder_files({row: made(row, parts) for row in ROWS if row.holds(parts)})
    except Unmade as unmade:
        print(unmade, file=sys.stderr)
        return 1
    folder.mkdir(parents=True, exist_ok=True)
    if folder == FOLDER:
        for file in strays(files):
            file.unlink()
            print(f"removed {file.name}")
    for name, data in files.items():
        (folder / name).write_bytes(data)
    print(f"{(len(files) - 1) // 2} rows")
    return 0


def tried(row: Row, parts: frozenset) -> tuple:
    """A row tried in every way: what is wrong, as lines of text; and what came of it, if it holds for the parts."""
    wrong, each = [], None
    ways = [("the parts it needs", row.needs), ("all parts it holds for", ALL - row.until)]
    if row.holds(parts):
        ways.append(("the parts that are served", parts))
    for what, some in ways:
        try:
            each = made(row, some)
        except Unmade as unmade:
            wrong.append(f"{unmade} (with {what})")
            each = None
    return wrong, each if row.holds(parts) else None


def check(parts: frozenset, names: list) -> tuple:
    """Compares `tests/rows` with what is made, and prints what differs. Returns how many passed and failed."""
    passed = failed = 0
    found = {}
    for row in ROWS:
        if names and row.name not in names:
            continue
        wrong, each = tried(row, parts)
        if each is not None:
            found[row] = each
            wrong += [f"tests/rows/{name} is not what is made" for name, data in files_of(row, each).items()
                      if not is_stored(name, data)]
        for line in wrong:
            print(line)
        passed, failed = passed + (not wrong), failed + bool(wrong)
    if not names:
        wrong = folder_differences(found)
        for line in wrong:
            print(line)
        passed, failed = passed + (not wrong), failed + len(wrong)
    return passed, failed


def is_stored(name: str, data: bytes) -> bool:
    """Whether a file of `tests/rows` has these bytes."""
    file = FOLDER / name
    return file.exists() and file.read_bytes() == data


def folder_differences(found: dict) -> list:
    """What is wrong with the folder beside its rows: files that are not made, and the index."""
    wrong = [f"tests/rows/{file.name} is not made" for file in strays(folder_files(found))]
    if not is_stored("INDEX.md", index_text(found).encode()):
        wrong.append("tests/rows/INDEX.md is not what is made")
    return wrong


def main() -> int:
    parser = argparse.ArgumentParser(description="makes the rows of tests/rows by the reference broker")
    commands = parser.add_mutually_exclusive_group(required=True)
    commands.add_argument("--check", action="store_true", help="compare tests/rows with what is made")
    commands.add_argument("--write", action="store_true", help="write the rows")
    add_parts_option(parser)
    parser.add_argument("--out", type=pathlib.Path, default=FOLDER, metavar="DIR", help="the folder to write")
    parser.add_argument("names", nargs="*", metavar="NAME", help="check these rows alone")
    arguments = parser.parse_args()
    unknown = set(arguments.names) - {row.name for row in ROWS}
    if unknown:
        parser.error(f"no row is named {', '.join(sorted(unknown))}")
    if arguments.write:
        return write(arguments.parts, arguments.out.resolve())
    passed, failed = check(arguments.parts, arguments.names)
    print(f"{passed} passed, {failed} failed")
    return 1 if failed else 0


if __name__ == "__main__":
    sys.exit(main())
