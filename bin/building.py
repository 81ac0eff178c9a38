"""Proves and builds the program of a crate, and runs it. bin/run-program calls this where it finds no program.

usage: python3 bin/building.py CRATE [ARGUMENT..]
       python3 bin/building.py --build CRATE         does not run it

While it builds, standard error tells what is being proved: on a terminal one line that is written anew, else a line
when a crate begins or is proved, and at least one every 15 seconds. The crates below the program are proved and tested
side by side by `rt ci`, in a copy without their must-fail edits. A kit that keeps what that passes (`rattle-kit-13f`)
keeps it also if it is stopped: the next start goes on from there, and `bin/test` does not prove it again. With others
the next start begins from nothing. The log is in the crate's out/.
"""

import fcntl
import os
import re
import shutil
import signal
import subprocess
import sys
import tempfile
import time
from pathlib import Path

from repository import TOP, copy_crates, crates_of, is_built, memory_available, read_crates, side_by_side, take

PLENTY = 28_000_000  # KB of memory that are free: then `rt ci` knows best what goes side by side
SILENCE = 14
LINES_OF_AN_ERROR = 20
PROVED = re.compile(r"^rt: (\w+) (?:proved$|is kept: )", re.MULTILINE)
PROVER = re.compile(r"/rattle\0(?:check|build)\0.*?--crate-name\0(\w+)\0(.*)", re.DOTALL)


class Stopped(Exception):
    """Somebody stops the build."""


def kit_keeps():
    """Whether the kit keeps what `rt ci` passes. `rattle-kit-13b` does not."""
    said = subprocess.run(["rt", "version"], stdin=subprocess.DEVNULL, capture_output=True, text=True)
    return said.stdout.startswith("rattle-kit-13f ")


def at_once(keeps):
    """How many checks go side by side (none: `rt ci` chooses).

    Left to itself, `rt ci` keeps free up to four times the memory that a check takes. With less than PLENTY it does two
    at a time, or one, where four would do. With more it gains a little: where fewer checks are ready than there are
    processors, it gives them several. A kit that keeps nothing gives each check one.
    """
    return None if keeps and memory_available() >= PLENTY else side_by_side()


def called(program):
    """The script that people call for a program."""
    return next(it for it in (f"bin/{program}", f"tests/{program}", program) if (TOP / it).is_file() or it == program)


def children_of(process):
    """The processes below a process, by number, with their command lines."""
    parents, found, wanted = {}, {}, [process]
    for folder in Path("/proc").glob("[0-9]*"):
        try:
            parent = int((folder / "stat").read_text(encoding="utf-8", errors="replace").rpartition(")")[2].split()[1])
        except OSError:
            continue
        parents.setdefault(parent, []).append(int(folder.name))
    while wanted:
        for child in parents.get(wanted.pop(), []):
            wanted.append(child)
            try:
                found[child] = Path(f"/proc/{child}/cmdline").read_text(encoding="utf-8", errors="replace")
            except OSError:
                pass
    return found


def at_work(process):
    """What the provers below a process are at: a crate, its tests, or the building of the program."""
    found = []
    for _, words in sorted(children_of(process).items()):
        prover = PROVER.search(words)
        if prover:
            crate, flags = prover.groups()
            is_program = "--crate-checked\0" in flags
            what = f"machine code of {crate}" if is_program else crate
            found.append(f"tests of {crate}" if "--test\0" in flags else what)
    return list(dict.fromkeys(found))


class Progress:
    """Tells on standard error how far the build is."""

    def __init__(self, program, crates):
        self.called, self.crates, self.began = called(program), crates, time.monotonic()
        self.keeps = kit_keeps()
        self.proved, self.names, self.told_at = [], [], 0.0
        self.is_terminal = sys.stderr.isatty()

    def minutes(self):
        return int((time.monotonic() - self.began) // 60)

    def state(self):
        now = f"; now {', '.join(self.names)}" if self.names else ""
        return f"{len(self.proved)} of {len(self.crates)} crates proved{now}; {self.minutes()} min"

    def line(self, text):
        if self.is_terminal:
            width = shutil.get_terminal_size().columns - 1
            print(f"\r\033[K{f'{self.called}: {text}'[:width]}", end="", file=sys.stderr, flush=True)
        else:
            print(f"{self.called}: {text}", file=sys.stderr, flush=True)
        self.told_at = time.monotonic()

    def update(self, said, names):
        proved = [name for name in dict.fromkeys(PROVED.findall(said)) if name in self.crates]
        new = [name for name in proved if name not in self.proved] + [name for name in names if name not in self.names]
        self.proved, self.names = proved, names
        if self.is_terminal or new or time.monotonic() - self.told_at > SILENCE:
            self.line(self.state())

    def end(self, text):
        if self.is_terminal:
            print("\r\033[K", end="", file=sys.stderr)
        print(f"{self.called}: {text}", file=sys.stderr, flush=True)


def prove(program, copy, log, progress):
    """Proves the crates in the copy, and returns whether that built the program."""
    return run_ci(at_once(progress.keeps), copy, log, progress) and (copy / f"crates/{program}/out/{program}").is_file()


def run_ci(number, copy, log, progress):
    """Runs `rt ci` in the copy, with so many checks side by side, and returns whether it passed."""
    environment = {**({"RT_JOBS": str(number)} if number else {}), **os.environ}
    with open(log, "wb") as output:
        ran = subprocess.Popen(["rt", "ci"], cwd=copy, env=environment, stdin=subprocess.DEVNULL, stdout=output,
                               stderr=subprocess.STDOUT, start_new_session=True)
        try:
            while ran.poll() is None:
                progress.update(log.read_text(encoding="utf-8", errors="replace"), at_work(ran.pid))
                time.sleep(1)
        finally:
            # The provers end with it.
            if ran.poll() is None:
                ran.terminate()
                ran.wait()
    return ran.returncode == 0


def build(program):
    """Proves and builds a program, and returns whether that went well."""
    crates = crates_of(program)
    progress = Progress(program, crates)
    log = TOP / f"crates/{program}/out/build.log"
    print(f"{called(program)}: proves and builds {len(crates)} crates", file=sys.stderr)
    with tempfile.TemporaryDirectory(prefix="dehluvima-") as room:
        try:
            copied_at = time.time()
            copy = copy_crates(Path(room) / "copy", crates)
            if prove(program, copy, log, progress):
                take(program, copy, copied_at)
                progress.end(f"built in {progress.minutes()} min")
                return True
        except Stopped:
            progress.end("stopped; what was proved is kept, and the next start goes on from there" if progress.keeps
                         else "stopped; this kit keeps nothing, and the next start begins from nothing")
            return False
    lines = log.read_text(encoding="utf-8", errors="replace").splitlines()[-LINES_OF_AN_ERROR:]
    progress.end("\n".join(["it cannot be built. The log ends:", *lines, f"The whole log is {log}"]))
    return False


def build_once(program, anew=False):
    """Builds a program that is not built, or with `anew` any, unless another process does so: then waits for it."""
    folder = TOP / f"crates/{program}/out"
    folder.mkdir(exist_ok=True)
    with open(folder / "build.lock", "w", encoding="utf-8") as lock:
        try:
            fcntl.flock(lock, fcntl.LOCK_EX | fcntl.LOCK_NB)
        except BlockingIOError:
            print(f"{called(program)}: another process is building it; waiting for that", file=sys.stderr)
            fcntl.flock(lock, fcntl.LOCK_EX)
        return not anew and is_built(program) or build(program)


def build_unless_stopped(program, anew=False):
    """Builds a program as `build_once` does, and lets a signal end that. Returns whether it is built."""
    signals = [it for it in (signal.SIGINT, signal.SIGTERM, signal.SIGHUP) if signal.getsignal(it) != signal.SIG_IGN]
    for number in signals:
        signal.signal(number, stop)
    try:
        return build_once(program, anew)
    except Stopped:
        return False
    finally:
        for number in signals:
            signal.signal(number, signal.SIG_DFL)


def stop(*_):
    raise Stopped


def main():
    words = sys.argv[1:]
    is_run = words[:1] != ["--build"]
    words = words if is_run else words[1:]
    if not words or words[0] not in read_crates():
        sys.exit(__doc__)
    if not build_unless_stopped(words[0]):
        sys.exit(1)
    if is_run:
        # Not what is newest: a source that was changed meanwhile is built at the next use.
        runner = str(TOP / "bin/run-program")
        os.execv(runner, [runner, "--as-built", *words])


if __name__ == "__main__":
    main()
