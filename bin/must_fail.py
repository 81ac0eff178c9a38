"""Must-fail edits: the function that each changes, and whether the prover refuses it. `bin/edits` tries them."""

import os
import re
import resource
import shutil
import subprocess
import tempfile
import time
from dataclasses import dataclass
from itertools import zip_longest
from pathlib import Path

from repository import NotApplied, applied, changes_of, libraries_below, read_crates

CONSTANT = re.compile(r"^(?:pub(?:\([^)]*\))? )?(?:const|static) (?!fn\b)\w+\s*:", re.MULTILINE)
FUNCTION = re.compile(r"^\s*(?:pub(?:\([^)]*\))? )?(?:const |unsafe )*fn (\w+)", re.MULTILINE)
BLOCK = re.compile(r"^(?:impl\b|(?:pub(?:\([^)]*\))? )?trait\b)[^\n{]*", re.MULTILINE)
TYPE = re.compile(r"^(?:pub(?:\([^)]*\))? )?(?:struct|enum) (\w+)", re.MULTILINE)
ATTRIBUTES = re.compile(r"(?:^[ \t]*(?:#\[|//)[^\n]*\n)*\Z", re.MULTILINE)
WORD = re.compile(r"(?<!')\b[A-Za-z_]\w*\b(?!\s*::)")
JUDGED = re.compile(r"^fn (\S+): (.*)$")
CHECKED = re.compile(r"^checked (\S+), \d+ of \d+$")
PLACED = re.compile(r"^(?:note: )?(?:\./)?(\S+?\.(?:rt|antt)):(\d+):\d+: (.*)$")
BY_NAME = re.compile(r"has no field|is not in scope|has no `|was not admitted|\(nearest: |declarations? that depend")
NO_FUNCTION = re.compile(r"has no function .* for this file to be the proof of")
AT_A_CALL_ALONE = re.compile(r"(?:no proof|not proved)[:;] (?:it calls|it passes|a call of) [^;]*not proved$")

# The proof of a function that is taken by its contract.
HOLE = """use Rattle.{crate}.proofs.{path}.Statement.{{statement}}

pub {name}_spec : {{M : Type 1}} → statement M
{name}_spec = ?
"""


@dataclass(frozen=True)
class Function:
    """A function of a source, which ends where the next one begins."""
    file: str
    block: str  # the head of the `impl` or `trait` that it is in, if any
    name: str
    begin: int
    first_line: int
    last_line: int
    is_in_cycle: bool

    def paths(self, homes):
        """The names that the prover may have for the function, but for the crate: none where a trait declares it, or
        for a type without a name, as `()`. A method stands in the module of its type, which `homes` has by type, or
        that of a trait where it is written."""
        owner = block_name(self.block)
        if self.block and not (owner and self.block.startswith("impl")):
            return []
        here = module_of(self.file)
        modules = {here, homes.get(owner_of(self.block), here)}
        return ["::".join(it for it in (module, owner, self.name) if it) for module in sorted(modules)]


def module_of(file):
    """The module of a source, as the prover names it; empty for the root."""
    parts = file.removesuffix(".rt").split("/")[1:]
    return "::".join(part for part in parts if part not in ("lib", "main", "mod"))


def functions_in(file, text):
    """The functions of a source file, in its order."""
    found = list(FUNCTION.finditer(text))
    for match, after in zip_longest(found, found[1:]):
        at = match.start(1)
        above = ATTRIBUTES.search(text[: text.rfind("\n", 0, at) + 1])[0]
        first, last = (text.count("\n", 0, it) for it in (at, after.start(1) if after else len(text)))
        yield Function(file, block_at(text, at), match[1], match.start(), first + 1, last, "#[cycle(" in above)


def block_at(text, at):
    """The head of the `impl` or `trait` that a place is in; empty if it is in none."""
    blocks = [match for match in BLOCK.finditer(text) if match.start() < at]
    if not blocks or re.search(r"^}", text[blocks[-1].start() : at], re.MULTILINE):
        return ""
    return blocks[-1][0]


def block_name(head):
    """An `impl` block as the prover names it: the type, and the trait with the types that it is given. What the block
    is generic in has no name there, but in a type that is given others too, as in `SqlStore+FileStore+FileFrom+S`."""
    generic, rest = generics_of(head.removeprefix("impl"))
    trait, _, type_given = re.sub(r"\bwhere\b.*", "", rest).rpartition(" for ")
    of_type, of_trait = WORD.findall(type_given), [it for it in WORD.findall(trait) if it not in generic]
    if not of_type:
        return ""
    if all(it in generic for it in of_type[1:]):
        of_type = of_type[:1]
    return "+".join(of_type) + "".join(of_trait)


def generics_of(text):
    """The names that `<..>` at the beginning of a text declares, and the rest of the text."""
    depth, names = 0, set()
    for at, sign in enumerate(text):
        depth += {"<": 1, ">": -1}.get(sign, 0)
        if depth == 1 and sign in "<,":
            declared = re.match(r"\s*(?:const )?(\w+)", text[at + 1 :])
            names.update(declared.groups() if declared else ())
        if depth == 0:
            return names, text[at + 1 :] if at else text
    return names, text


def owner_of(block):
    """The type whose `impl` block it is; empty for none."""
    found = re.match(r"impl(?:<.*>)? (?:[\w:]+(?:<.*>)? for )?(\w+)", block)
    return found[1] if found else ""


class Edit:
    """A must-fail edit of a crate, and the function that it changes."""

    def __init__(self, name, text, folder):
        self.own_name, self.text, self.folder = name, text, folder
        self.changes = changes_of(text)
        self.verdict = ""
        texts = applied(self.changes, {}, folder)
        self.file = self.changes[-1][0]
        at = place_of(self.changes[-1], self.changes[:-1], folder)
        text = texts[self.file]
        begun = [it for it in functions_in(self.file, text) if it.begin <= at]
        constants = [match.start() for match in CONSTANT.finditer(text) if match.start() <= at]
        if not begun or (constants and begun[-1].begin < constants[-1]):
            # A constant or a type is proved with the function that uses it, which the name of the edit tells.
            self.function, self.block = name.split("-")[1], ""
            self.lines = (1, text.count("\n") + 1)
        else:
            self.function, self.block = begun[-1].name, block_at(text, at)
            # A change is one line for one line, so the lines keep their numbers.
            self.lines = (begun[-1].first_line, begun[-1].last_line)

    @property
    def name(self):
        return f"{self.folder.name}/{self.own_name}"

    @property
    def module(self):
        return module_of(self.file)

    @property
    def owner(self):
        """The type whose `impl` block the change is in, if any."""
        return owner_of(self.block)

    @property
    def asked(self):
        """What the prover is asked for: the end of the function's name."""
        if " for " in self.block:
            return f"{block_name(self.block)}::{self.function}"
        return "::".join(it for it in (self.owner or self.module, self.function) if it)

    def is_in(self, symbol):
        """Whether the prover's name of a function is that of the changed one, or of a closure in it.

        A method of a type of another module has the name of that module.
        """
        parts = re.split(r"::|\+", symbol)[1:]
        modules = self.module.split("::") if self.module else []
        if parts[: len(modules)] == modules:
            return self.function in parts[len(modules) :]
        return bool(self.owner) and self.owner in parts and self.function in parts

    def has(self, path, line):
        """Whether a place is in the changed function, or in the proof of it."""
        if path.startswith("proofs/"):
            return path.startswith("proofs/" + self.module.replace("::", "/")) and f"/{self.function}/" in path
        return path == self.file and self.lines[0] <= line <= self.lines[1]


def place_of(change, others, folder):
    """Where a change begins in its file, once those before it are made."""
    path, old, _ = change
    texts = applied(others, {}, folder)
    return (texts.get(path) or (folder / path).read_text(encoding="utf-8")).find(old)


def sources_of(folder):
    """The texts of a crate's sources, by path."""
    return {str(path.relative_to(folder)): path.read_text(encoding="utf-8") for path in (folder / "src").rglob("*.rt")}


def body_of(function, lines):
    """The lines between the braces of a function's body, as `rt fmt` lays them out, from one to before another."""
    at = function.first_line - 1
    indent = re.match(" *", lines[at])[0]
    begins = re.compile(rf"{indent}(?:\{{|\).* \{{)")
    if not lines[at].endswith(" {"):
        at = next((it for it in range(at, function.last_line) if begins.fullmatch(lines[it])), function.last_line)
    end = next((it for it in range(at, min(function.last_line, len(lines))) if lines[it] == f"{indent}}}"), at)
    return at + 1, end


def leave_open(folder, crate, edits):
    """Leaves each function of a copy open that no edit changes: its proof is a hole, and its body a loop. Then a caller
    is judged by its contract alone, and the prover does not prove it again, nor what only it calls."""
    sources = sources_of(folder)
    homes = {match[1]: module_of(file) for file, text in sources.items() for match in TYPE.finditer(text)}
    for file, text in sources.items():
        lines = text.split("\n")
        for function in functions_in(file, text):
            paths = [] if function.is_in_cycle else function.paths(homes)
            if not paths or any(edit.is_in(f"{crate}::{path}") for edit in edits for path in paths):
                continue
            for path in paths:
                leave_hole(folder, crate, path)
            begin, end = body_of(function, lines)
            lines[begin:end] = ["loop {}", *[""] * (end - begin - 1)][: end - begin]  # each line keeps its number
        (folder / file).write_text("\n".join(lines), encoding="utf-8")


def leave_hole(folder, crate, path):
    """Puts a hole in place of the proof that a function may have."""
    proof = folder / "proofs" / path.replace("::", "/")
    proof.mkdir(parents=True, exist_ok=True)
    for part in ("Invariants.antt", "Answers.antt"):
        (proof / part).unlink(missing_ok=True)
    hole = HOLE.format(crate=crate, path=path.replace("::", "."), name=path.split("::")[-1])
    (proof / "Proof.antt").write_text(hole, encoding="utf-8")


class Run:
    """What the prover said of a copy of the crate, and its seconds of processor time by function."""

    def __init__(self, status, lines, seconds):
        self.status, self.lines, self.seconds = status, lines, seconds
        self.judged = [match.groups() for match in map(JUDGED.match, lines) if match]
        self.has_verdict = any(line.startswith("only=") for line in lines)

    @property
    def placed(self):
        """The messages that have a place: its path and its line, and what is said, also on the lines below."""
        found = []
        for line in self.lines:
            match = PLACED.match(line)
            if match:
                found.append(list(match.groups()))
            elif line.startswith("  ") and found:
                found[-1][2] += f"\n{line}"
        return [(path, int(line), said) for path, line, said in found if not said.startswith("note: ")]

    def verdict(self, edit):
        """Whether the prover refuses the function of an edit, and why."""
        judged = [why for symbol, why in self.judged if edit.is_in(symbol)]
        refused = [why for why in judged if why.startswith(("no proof", "not proved"))]
        if not refused:
            others = [why for why in judged if not why.startswith(("no holes", "depends on a hole"))]
            proved = "the function is proved with this edit" if judged else "the prover names no such function"
            return False, (others or [proved])[0]
        placed = [(path, line, said) for path, line, said in self.placed if edit.has(path, line)]
        telling = [it for it in placed if not (it[0].startswith("proofs/") and BY_NAME.search(it[2]))]
        if placed and not telling:
            path, line, said = placed[0]
            return False, f"only by a name in a proof: {path}:{line}: {reason_by_name(said)}"
        told = [f"{path}:{line}: {said}".split("\n", maxsplit=1)[0] for path, line, said in telling]
        own = told or [why for why in refused if not AT_A_CALL_ALONE.match(why)]
        return bool(own), (own or refused)[0]

    def seconds_of(self, edit):
        """What the proof of the edit's function took, with what it was the first to need."""
        return sum(seconds for symbol, seconds in self.seconds.items() if edit.is_in(symbol))

    @property
    def first_error(self):
        errors = [line for line in self.lines if ": error" in line and not NO_FUNCTION.search(line)]
        return (errors or self.lines)[0]


def reason_by_name(said):
    """The line of a message that says which name is wrong."""
    return next(line.strip() for line in said.split("\n") if BY_NAME.search(line))


def processor_time(process):
    """The seconds of processor time that a process has taken."""
    try:
        fields = Path(f"/proc/{process.pid}/stat").read_text(encoding="utf-8").rpartition(")")[2].split()
    except OSError:
        return 0.0
    return sum(map(int, fields[11:15])) / os.sysconf("SC_CLK_TCK")


def followed(words, folder):
    """Runs a check in a folder, and takes the time between the lines that it prints as it ends with each function."""
    said, seconds, before = [], {}, 0.0
    with subprocess.Popen(words, cwd=folder, stdin=subprocess.DEVNULL, stdout=subprocess.PIPE,
                          stderr=subprocess.STDOUT, text=True, errors="replace") as process:
        for line in process.stdout:
            said.append(line.rstrip("\n"))
            checked = CHECKED.match(line)
            if checked:
                now = processor_time(process)
                seconds[checked[1]] = now - before
                before = now
    return Run(process.returncode, said, seconds)


class Prover:
    """Checks copies of crates over the libraries of a checkout; until a moment, if one is given."""

    def __init__(self, libraries, until=None):
        page = subprocess.run(["rt", "doc"], capture_output=True, text=True, check=True).stdout.strip()
        self.kit, self.libraries, self.crates = Path(page).parent, libraries, read_crates()
        self.checks, self.until = 0, until

    def library(self, name):
        in_checkout = self.libraries / f"crates/{name}/out/rlib/{name}.rlib"
        return in_checkout if name in self.crates else self.kit / f"rlibs/{name}.rlib"

    def words(self, crate, root):
        """The command that checks a crate."""
        words = [str(self.kit / "bin/rattle"), "check", "--crate-name", crate, root]
        for name in ["std", *self.crates[crate]]:
            words += ["--extern", f"{name}={self.library(name)}"]
        below = sorted(libraries_below(crate, self.crates) & set(self.crates))
        for folder in [self.kit / "rlibs", *(self.library(name).parent for name in below)]:
            words += ["-L", f"dependency={folder}"]
        words += ["--antt-project", str(self.kit / "rattle/logic/antt-project.json")]
        return [*words, "--logic-built", str(self.kit / "logic_built"), "--jobs", "1", "--progress", "--allow-holes"]

    def run(self, folder, edits, asked):
        """Checks a copy of the crate in a folder with the edits, for the functions that are asked for."""
        texts = {}
        for edit in edits:
            texts = applied(edit.changes, texts, folder)
        with tempfile.TemporaryDirectory(prefix="edits-") as room:
            for part in ("src", "specs", "proofs"):
                if (folder / part).is_dir():
                    shutil.copytree(folder / part, Path(room) / part)
            for path, text in texts.items():
                (Path(room) / path).write_text(text, encoding="utf-8")
            leave_open(Path(room), folder.name, edits)
            root = "src/main.rt" if (folder / "src/main.rt").is_file() else "src/lib.rt"
            words = self.words(folder.name, root)
            for path in sorted(asked):
                words += ["--only", path]
            self.checks += 1
            return followed(words, room)

    def judge(self, folder, edits):
        """Tries edits of different functions together, and yields each as soon as it has a verdict. What is not refused
        so is tried again alone."""
        if self.until is not None and time.time() >= self.until:
            for edit in edits:
                edit.verdict = "SKIPPED: there was no time left to try it"
            return
        ran = self.run(folder, edits, {edit.asked for edit in edits})
        if ran.status == 2:
            ran = self.run(folder, edits, {edit.module or edit.function for edit in edits})
        if not ran.has_verdict and len(edits) > 1:
            half = len(edits) // 2
            yield from self.judge(folder, edits[:half])
            yield from self.judge(folder, edits[half:])
            return
        for edit in edits:
            is_refused, why = ran.verdict(edit) if ran.has_verdict else (False, "")
            if is_refused:
                edit.verdict = f"refused: {why} ({ran.seconds_of(edit):.0f} s)"
            elif len(edits) > 1:
                yield from self.judge(folder, [edit])
                continue
            else:
                edit.verdict = f"NOT REFUSED: {why}" if ran.has_verdict else f"NO VERDICT: {ran.first_error}"
            yield edit


def seconds_of_checks():
    """The processor time of the checks that this process has waited for."""
    used = resource.getrusage(resource.RUSAGE_CHILDREN)
    return used.ru_utime + used.ru_stime


def rounds_of(edits, folder):
    """The edits in rounds, in each of which every function is changed once."""
    rounds = []
    for edit in edits:
        for others in rounds:
            is_new = all((edit.file, edit.function) != (it.file, it.function) for it in others)
            if is_new and fits(edit, others, folder):
                others.append(edit)
                break
        else:
            rounds.append([edit])
    return rounds


def fits(edit, others, folder):
    """Whether the edits can be applied one after another."""
    texts = {}
    try:
        for it in [*others, edit]:
            texts = applied(it.changes, texts, folder)
    except NotApplied:
        return False
    return True
