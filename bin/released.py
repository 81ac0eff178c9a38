"""What the scripts know of the release: the programs in release/, and what they were built from."""

import hashlib
import re
import subprocess
from dataclasses import dataclass

from repository import TOP

PROGRAMS = ("brokerd", "client")
VERSION_FILE = "crates/endpoints/src/version.rt"


@dataclass(frozen=True)
class Release:
    """What release/BUILT_FROM says: for each program the digest of what decides its bytes, and its SHA-256."""
    version: str
    date: str
    commit: str
    kit: str
    programs: dict

    def __str__(self):
        programs = [(name, " ".join(digests)) for name, digests in sorted(self.programs.items())]
        said = [("version", self.version), ("date", self.date), ("commit", self.commit), ("kit", self.kit), *programs]
        return "".join(f"{key} {value}\n" for key, value in said)


def read_release(top=TOP):
    """The release of a checkout, or None."""
    file = top / "release/BUILT_FROM"
    if not file.is_file():
        return None
    said = dict(line.split(" ", 1) for line in file.read_text(encoding="utf-8").splitlines())
    facts = [said.pop(key) for key in ("version", "date", "commit", "kit")]
    return Release(*facts, {name: tuple(digests.split()) for name, digests in said.items()})


def output_of(*words):
    """What a command prints, without the end of its last line."""
    return subprocess.run(words, cwd=TOP, capture_output=True, text=True, check=True).stdout.strip()


def version_of_sources():
    """The version of the programs, from the one place that has it."""
    source = (TOP / VERSION_FILE).read_text(encoding="utf-8")
    return re.search(r'VERSION: &str = "([^"]+)"', source)[1]


def digest_of(program, top=TOP):
    """The digest of what decides a program's bytes: bin/run-program says of what."""
    return output_of(top / "bin/run-program", "--digest", program)


def is_of(release, program, top=TOP):
    """Whether a release has the program of the code of a checkout."""
    return release is not None and release.programs.get(program, ("",))[0] == digest_of(program, top)


def sum_of(data):
    return hashlib.sha256(data).hexdigest()


def stripped(made):
    """The bytes of a program without its symbols."""
    to = made.with_suffix(".stripped")
    subprocess.run(["strip", "--strip-all", "-o", to, made], check=True)
    return to.read_bytes()


def whole(release, program, top=TOP):
    """The bytes of a program in release/, or None where they are not those that the release has."""
    file = top / f"release/{program}"
    data = file.read_bytes() if file.is_file() else b""
    return data if sum_of(data) == release.programs[program][1] else None


def compared(program, made, top=TOP):
    """Whether a program that was proved and built from the code of a checkout is the one of the release, byte for byte,
    and what there is to say. None where there is no release of this code."""
    release = read_release(top)
    if release is None:
        return None, f"{program}: there is no release to compare it with"
    if not is_of(release, program, top):
        return None, f"{program}: not compared, since its sources are not those of release {release.version}"
    data, lies_there = stripped(made), whole(release, program, top)
    if lies_there is None:
        return False, f"{program}: release/{program} is not what release/BUILT_FROM says"
    if data != lies_there:
        return False, (f"{program}: {len(data)} bytes, and not the {len(lies_there)} of release/{program}, though its"
                       f" sources are those of release {release.version}, built by {release.kit}")
    return True, f"{program}: the same {len(data)} bytes as release/{program}"


def age():
    """How old the release is, in a line, or None where there is none."""
    release = read_release()
    if release is None:
        return None
    if all(is_of(release, program) for program in PROGRAMS):
        return f"release {release.version} is of these sources"
    try:
        behind = output_of("git", "rev-list", "--count", f"{release.commit}..HEAD")
    except subprocess.CalledProcessError:
        behind = "unknown"  # a clone without this commit
    return f"release {release.version} is of other sources, and {behind} commits behind: bin/release makes the next one"
