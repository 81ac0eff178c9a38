"""What the scripts of this folder know of the repository: crates, routes, and how a must-fail edit is applied."""

import os
import re
import shutil
from dataclasses import dataclass
from pathlib import Path

TOP = Path(__file__).resolve().parent.parent

# The mounts of the table of routes, as docs/API.md writes them; the methods and the capability of each verb.
MOUNTS = {"TOKEN": "auth", "SYSTEM": "sys", "CUBBYHOLE": "cubbyhole", "KV": "secret", "ISSUED": "MOUNT"}
VERBS = {"Get": (("GET",), "read"), "List": (("LIST",), "list"), "Write": (("POST", "PUT"), "update"),
         "Delete": (("DELETE",), "delete")}


def read_crates():
    """The crates of crates.txt, from the lowest on, each with the libraries that it names."""
    crates = {}
    for line in (TOP / "crates.txt").read_text(encoding="utf-8").splitlines():
        head, colon, libraries = line.split("#")[0].partition(":")
        if colon:
            crates[head.split()[0]] = libraries.split()
    return crates


def libraries_below(crate, crates):
    """All libraries that a crate is built with, those of the toolchain too."""
    found, wanted = {"core", "std"}, list(crates.get(crate, []))
    while wanted:
        library = wanted.pop()
        if library not in found:
            found.add(library)
            wanted.extend(crates.get(library, []))
    return found


def crates_of_tests():
    """The crates that have tests alone, and are no programs."""
    return [name for name in read_crates() if name.startswith("tests_")]


def copy_with_tests(to):
    """Copies the crates of tests, and those below them, as `copy_crates` does."""
    crates, tests = read_crates(), crates_of_tests()
    below = set().union(*(libraries_below(name, crates) for name in tests))
    return copy_crates(to, [name for name in crates if name in below or name in tests])


def crates_of(program):
    """The crates that a program is built from, itself the last."""
    crates = read_crates()
    return [name for name in crates if name in libraries_below(program, crates)] + [program]


def is_built(program):
    """Whether the program of a crate is there, and no source that it is built from is newer."""
    made = TOP / f"crates/{program}/out/{program}"
    if not made.is_file():
        return False
    read = [TOP / "crates.txt", TOP / "HANDLES"]
    for crate in crates_of(program):
        for part in ("src", "specs", "proofs"):
            read += (TOP / "crates" / crate / part).rglob("*")
    return max(path.stat().st_mtime for path in read) <= made.stat().st_mtime


def take(program, copy, copied_at):
    """Puts the program that was built in a copy in its place, also while an older one runs; and beside it the one that
    Rattle's own compiler has built, if it has.

    They are as old as the copy: a source that was changed since then is newer.
    """
    for name in (f"{program}.by-rattle", program):
        built, made = copy / f"crates/{program}/out/{name}", TOP / f"crates/{program}/out/{name}"
        if built.is_file():
            made.parent.mkdir(exist_ok=True)
            shutil.copy(built, f"{made}.new")
            os.utime(f"{made}.new", (copied_at, copied_at))
            os.replace(f"{made}.new", made)


def copy_crates(to, names):
    """Copies crates to a new folder that is the top of a repository, without what was built and without their edits."""
    lines = (TOP / "crates.txt").read_text(encoding="utf-8").splitlines(keepends=True)
    for name in names:
        skipped = shutil.ignore_patterns("out", "must-fail", "more-edits", "more.edits")
        shutil.copytree(TOP / "crates" / name, to / "crates" / name, ignore=skipped)
    (to / "crates.txt").write_text("".join(it for it in lines if it.split(":")[0] in names), encoding="utf-8")
    shutil.copy(TOP / "HANDLES", to)
    (to / ".git").mkdir()
    return to


@dataclass(frozen=True)
class Route:
    """A verb of a path, as docs/API.md writes both, and what a caller needs for it: one of the capabilities."""
    path: str
    methods: tuple
    capabilities: tuple
    needs_sudo: bool


def read_facts(text):
    """What operations ask for, from the text of `Operation::facts`: for each field the operations that have it."""
    having = {}
    arms = text.partition("pub fn facts(")[2].partition("\n}")[0]
    for pattern, fields in re.findall(r"((?:\|?\s*Operation::\w+\([^)]*\)\s*)+)=> Facts \{(.*?)\}", arms, re.DOTALL):
        for part, variants in re.findall(r"Operation::(\w+)\(([^)]*)\)", pattern):
            for field in re.findall(r"(\w+):[^:]", fields):
                having.setdefault(field, set()).update(f"{part}({it.strip()})" for it in variants.split("|"))
    return having


def read_routes():
    """The routes of the code, in the order of its table."""
    files = ("mounts/src/table.rt", "mounts/src/operation.rt")
    table, operations = ((TOP / "crates" / file).read_text(encoding="utf-8") for file in files)
    facts = read_facts(operations)
    row = re.compile(r'RouteRow\(\s*(\w+),\s*"([^"]*)",\s*(\w+\(\w+::\w+\)),?\s*\)')
    routes = []
    for mount, rows in re.findall(r"^const (\w+): &\[RouteRow\](.*?)^\];", table, re.MULTILINE | re.DOTALL):
        for verb, pattern, operation in row.findall(rows):
            path = f"{MOUNTS[mount]}/{pattern}".rstrip("/").replace("{name}", "NAME").replace("{*path}", "PATH")
            methods, capability = VERBS[verb]
            capabilities = ("create", capability) if operation in facts["stores"] else (capability,)
            routes.append(Route(path, methods, capabilities, operation in facts["sudo"]))
    if len(routes) != len(re.findall(r"(?<!struct )RouteRow\(", table)):
        raise AssertionError("crates/mounts/src/table.rt has a row of another form")
    return routes


class NotApplied(Exception):
    """An edit that cannot be applied, or no edit; its text says why."""


def edits_in(place):
    """The texts of edits by name: of a folder with a file NAME.edit for each, or of a file of blocks (docs/GATE.md)."""
    if not place.is_file():
        return {path.stem: path.read_text(encoding="utf-8") for path in sorted(place.glob("*.edit"))}
    edits, name = {}, ""
    for number, line in enumerate(place.read_text(encoding="utf-8").split("\n"), start=1):
        if not name and line.startswith("edit: "):
            name = line[6:].strip()
            if name in edits:
                raise NotApplied(f"{place}:{number}: there are two edits {name}")
            edits[name] = ""
        elif name and line.startswith(("file: ", "old: ", "new:")):
            edits[name] += f"{line}\n"
        elif not line:
            name = ""
        elif name or not line.startswith("#"):
            raise NotApplied(f"{place}:{number}: it is no line of an edit")
    return edits


def changes_of(edit):
    """The changes that the text of an edit lists: the path of a file in the crate, the old text and the new one."""
    path, old, changes = "", None, []
    for line in edit.split("\n"):
        if line.startswith("file: "):
            path = line[6:].strip()
        elif line.startswith("old: "):
            old = line[5:]
        elif line.startswith("new:") and old is not None:
            changes.append((path, old, line[4:].removeprefix(" ")))
            old = None
    if not changes:
        raise NotApplied("it has no old and new text")
    return changes


def applied(changes, texts, folder):
    """The texts of files by path, with the changes: those that `texts` lacks are read from the crate's folder."""
    made = dict(texts)
    for path, old, new in changes:
        if path not in made:
            if not (folder / path).is_file():
                raise NotApplied(f"there is no file {path}")
            made[path] = (folder / path).read_text(encoding="utf-8")
        if made[path].count(old) != 1:
            raise NotApplied(f"an old text occurs {made[path].count(old)} times in {path}")
        made[path] = made[path].replace(old, new)
    return made


def side_by_side(memory=4_000_000):
    """How many checks run at once: RT_JOBS, or one for each processor that has so much memory, in KB."""
    jobs = os.environ.get("RT_JOBS", "")
    if jobs.isdigit() and int(jobs) > 0:
        return int(jobs)
    return max(1, min(len(os.sched_getaffinity(0)), memory_available() // memory))


def memory_available():
    """The memory that is free or can be freed, in KB."""
    lines = Path("/proc/meminfo").read_text(encoding="utf-8").splitlines()
    return next(int(line.split()[1]) for line in lines if line.startswith("MemAvailable:"))
