#!/usr/bin/env python3
"""Runs bin/run-program over a repository of one program, with a command `rt` of its own, and looks at what it tells.

The last line is 'N passed, M failed'.
"""

import os
import re
import shutil
import signal
import subprocess
import sys
import tempfile
import time
from pathlib import Path

TOP = Path(__file__).resolve().parent.parent

# In place of the toolchain: it proves `below`, takes its time over `tiny`, and then builds it, or fails.
RT = """#!/bin/bash
[ "$1" = version ] && { echo "$KIT logic 0"; exit; }
[ "$1" = ci ] || exit 2
[ $# = 1 ] || { echo 'usage: rt ci'; exit 2; }
[ ! -e crates/other ] && [ ! -e crates/tiny/must-fail ] || exit 3
echo "${RT_JOBS:-any}: $*" >> "$RUNS"
echo 'rt: below proved'
touch "$BEGUN"
"$(dirname "$0")/rattle" check --crate-name tiny src/main.rt
[ -e "$FAILS" ] && { echo 'fn tiny::main: not proved'; echo '1 passed, 1 failed'; exit 1; }
echo 'rt: tiny proved'
mkdir -p crates/tiny/out
printf '#!/bin/sh\\necho "tiny $*"\\n' > crates/tiny/out/tiny
cp crates/tiny/out/tiny crates/tiny/out/tiny.by-rattle
chmod +x crates/tiny/out/tiny
echo '2 passed, 0 failed'
"""


CRATES = """# layers
below:
left: below
middle: below
right: below
other: below
tiny: left middle right below
"""


def heed_interrupts():
    """A shell lets what it runs in the background ignore SIGINT."""
    signal.signal(signal.SIGINT, signal.SIG_DFL)


class Checkout:
    """A repository with the programs `tiny`, over three crates over `below`, and `other`; and a PATH with that `rt`."""

    def __init__(self, room, seconds):
        self.top, self.begun, self.fails, self.runs = (room / name for name in ("top", "begun", "fails", "runs"))
        for name in ("below", "left", "middle", "right", "tiny", "other"):
            (self.top / f"crates/{name}/src").mkdir(parents=True)
            (self.top / f"crates/{name}/src/main.rt").write_text("// a source\n")
        (self.top / "crates/tiny/must-fail").mkdir()
        (self.top / "crates.txt").write_text(CRATES)
        (self.top / "HANDLES").write_text("Handles allowed: none.\n")
        shutil.copytree(TOP / "bin", self.top / "bin", ignore=shutil.ignore_patterns("__pycache__"))
        (room / "tools").mkdir()
        for name, text in (("rt", RT), ("rattle", f"#!/bin/bash\nsleep {seconds}\n")):
            (room / "tools" / name).write_text(text)
            (room / "tools" / name).chmod(0o755)
        self.environment = {**os.environ, "PATH": f"{room}/tools:{os.environ['PATH']}", "BEGUN": str(self.begun),
                            "FAILS": str(self.fails), "RUNS": str(self.runs), "KIT": "rattle-kit-13f"}
        self.environment.pop("RT_JOBS", None)

    def start(self, *words, environment=None):
        return subprocess.Popen([self.top / "bin/run-program", *words], stdin=subprocess.DEVNULL,
                                stdout=subprocess.PIPE, stderr=subprocess.PIPE, text=True,
                                env=environment or self.environment, preexec_fn=heed_interrupts)

    def run(self, *words, environment=None):
        ran = self.start(*words, environment=environment)
        output, told = ran.communicate(timeout=120)
        return ran.returncode, output, told


def builds_and_runs(checkout):
    """It tells what is being proved, never silent for 15 seconds, runs the program, and does not build it again."""
    ran = checkout.start("tiny", "a", "b")
    times, told = [time.monotonic()], []
    for line in ran.stderr:
        times.append(time.monotonic())
        told.append(line.rstrip("\n"))
    output = ran.stdout.read()
    silent = max(after - before for before, after in zip(times, times[1:]))
    yield "the program's output", ran.wait() == 0 and output == "tiny a b\n"
    yield "the number of crates", "5 crates" in told[0]
    yield "one run", None is not re.fullmatch(r"(any|[1-9][0-9]*): ci\n", checkout.runs.read_text())
    yield "what is being proved", any("1 of 5 crates proved; now tiny" in line for line in told)
    yield "no long silence", silent < 15 and any("now tiny" in line for line in told[3:])
    yield "the end", told[-1].startswith("tiny: built in ")
    by_rattle, made = (checkout.top / f"crates/tiny/out/{name}" for name in ("tiny.by-rattle", "tiny"))
    yield "the program of the other compiler", by_rattle.stat().st_mtime == made.stat().st_mtime
    yield "no second build", checkout.run("tiny", "c") == (0, "tiny c\n", "")
    old = time.time() + 5
    os.utime(checkout.top / "crates/other/src/main.rt", (old, old))
    yield "no build for a source that is not below", checkout.run("tiny") == (0, "tiny \n", "")


def builds_again(checkout):
    """A source that was changed, also while the program was built, is built; and of two that ask for it one builds."""
    source = checkout.top / "crates/below/src/main.rt"
    ran = checkout.start("tiny")
    while not checkout.begun.is_file() and ran.poll() is None:
        time.sleep(0.05)
    time.sleep(0.2)
    source.write_text("// changed meanwhile\n")
    yield "the first build", ran.communicate(timeout=60)[0] == "tiny \n"
    status, output, told = checkout.run("tiny")
    yield "a source that was changed meanwhile", (status, output) == (0, "tiny \n") and "proves and builds" in told
    yield "no third build", checkout.run("tiny") == (0, "tiny \n", "")
    time.sleep(0.1)
    source.write_text("// changed again\n")
    both = [checkout.start("tiny"), checkout.start("tiny")]
    said = [it.communicate(timeout=60) for it in both]
    yield "two at once", [output for output, _ in said] == ["tiny \n"] * 2
    yield "one builds", sum("proves and builds" in told for _, told in said) == 1
    yield "the other waits", sum("another process is building it" in told for _, told in said) == 1


def fails(checkout):
    """After an error it shows the end of the log and says where the log is."""
    checkout.fails.touch()
    status, output, told = checkout.run("tiny")
    yield "the status of an error", status == 1 and output == ""
    yield "the end of the log", "fn tiny::main: not proved" in told
    log = Path(told.splitlines()[-1].removeprefix("The whole log is "))
    yield "the whole log", log.is_file() and "rt: below proved" in log.read_text()


def keeps_nothing(checkout):
    """With a kit that keeps nothing there is one run, and when it is stopped it says that nothing is kept."""
    checkout.environment["KIT"] = "rattle-kit-13b"
    yield from stops(checkout, "this kit keeps nothing, and the next start begins from nothing")
    checkout.runs.write_text("")
    yield "one run: the program's output", checkout.run("tiny", "a")[:2] == (0, "tiny a\n")
    yield "so many at once", None is not re.fullmatch(r"[1-9][0-9]*: ci\n", checkout.runs.read_text())


def stops(checkout, what="what was proved is kept, and the next start goes on from there"):
    """A signal ends it, and it says whether what was proved is kept."""
    for number in (signal.SIGINT, signal.SIGTERM):
        checkout.begun.unlink(missing_ok=True)
        ran = checkout.start("tiny")
        while not checkout.begun.is_file() and ran.poll() is None:
            time.sleep(0.05)
        ran.send_signal(number)
        _, told = ran.communicate(timeout=60)
        yield f"{number.name}: what it says", ran.returncode == 1 and f"stopped; {what}\n" in told
        yield f"{number.name}: no program", not (checkout.top / "crates/tiny/out/tiny").exists()


def lacks_the_toolchain(checkout):
    """Without the toolchain one line says what to do."""
    tools = Path(checkout.environment["PATH"].partition(":")[0])
    (tools / "rt").unlink()
    for name in ("cut", "dirname", "readlink", "tac"):
        (tools / name).symlink_to(shutil.which(name))
    status, output, told = checkout.run("tiny", environment={**checkout.environment, "PATH": str(tools)})
    yield "no toolchain", status == 1 and output == "" and len(told.splitlines()) == 1 and "bin/package" in told


def main():
    passed, failed = 0, 0
    cases = ((builds_and_runs, 20), (builds_again, 2), (fails, 1), (stops, 5), (keeps_nothing, 5),
             (lacks_the_toolchain, 1))
    for case, seconds in cases:
        with tempfile.TemporaryDirectory() as room:
            for name, well in case(Checkout(Path(room), seconds)):
                passed, failed = passed + well, failed + (not well)
                if not well:
                    print(f"first build, {name}: not so")
    print(f"{passed} passed, {failed} failed")
    return 1 if failed else 0


if __name__ == "__main__":
    sys.exit(main())
