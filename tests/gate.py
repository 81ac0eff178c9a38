#!/usr/bin/env python3
"""Runs bin/test over a repository of six crates, with scripts, edits and a command `rt` of its own, and looks at what
it runs, counts and ends.

The last line is 'N passed, M failed'.
"""

import hashlib
import os
import re
import shutil
import signal
import subprocess
import sys
import tempfile
import time
from pathlib import Path

TOP = Path(__file__).resolve().parent.parent
PROGRAMS = ("brokerd", "client", "trial_stores", "trial_restarts")
SCRIPT_OF_THE_GATE = re.compile(r'^    \("(tests/[^"]+)", \(', re.MULTILINE)  # with its arguments
CRATES = "# layers\nlow:\nbrokerd: low\nclient: low\ntrial_stores: low\ntrial_restarts: low\ntests_low: low\n"

# In place of the toolchain: it proves and builds what crates.txt names, and has two tests. A file in $TOLD that is
# named after a crate, or a script and its first argument, has it do something else.
RT = """#!/bin/bash
echo "$*" >> "$TOLD/rt"
[ ! -e /proc/$$/autogroup ] || sed "s/.*nice/$1/" /proc/$$/autogroup >> "$TOLD/gives_way"
if [ "$1" = try ]; then
    [ -e "$TOLD/tests_low" ] && . "$TOLD/tests_low"
    printf 'tests: 2\\ntest a ... ok\\ntest b::c ... ok\\n'
    echo 'run=ended status=0 runners=1 proved=no' >&2
    exit
fi
[ ! -e crates/tests_low ] && [ ! -e crates/low/must-fail ] || exit 3
for crate in $(sed -n 's/^\\([a-z_]*\\):.*/\\1/p' crates.txt); do
    [ -e "$TOLD/$crate" ] && . "$TOLD/$crate"
    mkdir -p "crates/$crate/out"
    cp "${built:-/bin/true}" "crates/$crate/out/$crate"
    built=
    echo "rt: $crate proved"
done
echo '5 passed, 0 failed'
"""
RATTLE = """#!/usr/bin/env python3
import time
while time.process_time() < 5:
    pass
"""
SCRIPT = """#!/bin/bash
echo "${0#*/top/} $*" >> "$TOLD/scripts"
does="$TOLD/${0##*/}${1:+ $1}"
[ -e "$does" ] && . "$does"
echo '2 passed, 0 failed'
"""
EDITS = """#!/bin/bash
echo "$*" >> "$TOLD/edits"
[ ! -e /proc/$$/autogroup ] || sed 's/.*nice/edits/' /proc/$$/autogroup >> "$TOLD/gives_way"
echo 'low/a-b-c: refused: a goal'
[ -e "$TOLD/low_edits" ] && . "$TOLD/low_edits"
echo 'low/d-e-f: refused: a goal'
echo '2 passed, 0 failed'
"""


def heed_interrupts():
    """A shell lets what it runs in the background ignore SIGINT."""
    signal.signal(signal.SIGINT, signal.SIG_DFL)


class Checkout:
    """A repository with all scripts that bin/test names, and a PATH with that `rt`."""

    def __init__(self, room):
        self.room, self.top, self.told = room, room / "top", room / "told"
        self.told.mkdir()
        for name in ("low", "tests_low", *PROGRAMS):
            (self.top / f"crates/{name}/src").mkdir(parents=True)
            (self.top / f"crates/{name}/src/lib.rt").write_text("// a source\n#[test]\nfn a\n\n#[test]\nfn b\n")
        (self.top / "crates/low/must-fail").mkdir()
        for name in ("a-b-c", "d-e-f"):
            (self.top / f"crates/low/must-fail/{name}.edit").write_text("file: src/lib.rt\nold: a\nnew: b\n")
        (self.top / "crates.txt").write_text(CRATES)
        (self.top / "HANDLES").write_text("Handles allowed: none.\n")
        shutil.copytree(TOP / "bin", self.top / "bin", ignore=shutil.ignore_patterns("__pycache__"))
        self.scripts = SCRIPT_OF_THE_GATE.findall((TOP / "bin/test").read_text())
        for line in (*self.scripts, "bin/quick-check"):
            self.write(self.top / line.split()[0], SCRIPT)
        self.write(self.top / "bin/edits", EDITS)
        self.write(room / "tools/rt", RT)
        self.write(room / "tools/rattle", RATTLE)
        self.environment = {**os.environ, "PATH": f"{room}/tools:{os.environ['PATH']}", "TOLD": str(self.told)}

    def write(self, file, text):
        file.parent.mkdir(parents=True, exist_ok=True)
        file.write_text(text)
        file.chmod(0o755)

    def tell(self, name, text):
        """Has a crate or a script do something else."""
        (self.told / name).write_text(text + "\n")

    def release(self):
        """Makes a release of what `rt` builds."""
        (self.top / "release").mkdir()
        built_from = "version 1.2.3\ndate 2026-11-30\ncommit 0\nkit rattle-kit-13f logic 0\n"
        for name in PROGRAMS[:2]:
            file = self.top / f"release/{name}"
            subprocess.run(["strip", "--strip-all", "-o", file, "/bin/true"], check=True)
            words = [self.top / "bin/run-program", "--digest", name]
            digest = subprocess.run(words, capture_output=True, text=True, check=True).stdout.strip()
            built_from += f"{name} {digest} {hashlib.sha256(file.read_bytes()).hexdigest()}\n"
        (self.top / "release/BUILT_FROM").write_text(built_from)

    def start(self, *words):
        return subprocess.Popen([sys.executable, self.top / "bin/test", *words], stdin=subprocess.DEVNULL, text=True,
                                stdout=subprocess.PIPE, stderr=subprocess.STDOUT, env=self.environment,
                                preexec_fn=heed_interrupts)

    def run(self, *words):
        """The status of the gate, all lines and the last one."""
        ran = self.start(*words)
        said = ran.communicate(timeout=120)[0]
        return ran.returncode, said, said.rstrip("\n").rpartition("\n")[2]

    def ran(self, what):
        """What was called so far."""
        file = self.told / what
        return file.read_text().splitlines() if file.is_file() else []

    def passes(self, scripts=0, others=0):
        """The last line where all but so many scripts pass, and so much else fails."""
        return f"{2 * (len(self.scripts) + 1 - scripts) + 9 - others} passed"


def passes(checkout):
    """Everything is run once, and the counts are added."""
    checkout.tell("low", '"$(dirname "$0")/rattle" check --crate-name low src/lib.rt')
    status, said, last = checkout.run("--anew")
    yield "the last line", (status, last) == (0, f"{checkout.passes()}, 0 failed")
    scripts = sorted(it.rstrip() for it in checkout.ran("scripts"))
    yield "each script", scripts == sorted([*checkout.scripts, "bin/quick-check"])
    yield "the arguments of a script", "tests/differential/run.py bin/brokerd" in checkout.ran("scripts")
    called = sorted(it.split(" --seconds")[0] for it in checkout.ran("rt"))
    yield "proofs and tests", called == ["ci --anew", "try --test"]
    yield "no limit of the edits", re.fullmatch(r"--gate --anew --libraries \S+ --log \S+", *checkout.ran("edits"))
    gives_way = sorted(checkout.ran("gives_way"))
    yield "what gives way", gives_way in ([], ["ci 10", "edits 19", "try 15"])
    yield "the minutes of a crate", "\n| `low` | 0.1 | | | |\n" in said
    yield "the minutes of a script", "\n| `tests/rows.sh` | 0.0 | 0.0 |\n" in said
    yield "a line for each script", all(f"\n| `{it}` | 0." in said for it in checkout.scripts)
    yield "the programs", all((checkout.top / f"crates/{it}/out/{it}").is_file() for it in PROGRAMS)


def fails(checkout):
    """What fails is counted, also where it does not say so, and the rest is run."""
    for name, does in (("rows.sh", "echo 'row 3: two'; echo '1 passed, 1 failed'; exit 1"), ("run.sh disk", "exit 1")):
        checkout.tell(name, does)
    status, said, last = checkout.run()
    yield "two scripts", (status, last.split(", ")[1]) == (1, "2 failed")
    told = said[said.index("minutes, and"):]  # below the tables
    yield "what failed, at the end", "\nbin/test: failed: tests/rows.sh\n    row 3: two\n" in told
    yield "what said nothing", "\nbin/test: failed: tests/run.sh disk\n" in told
    yield "the others are run", len(checkout.ran("scripts")) == len(checkout.scripts) + 1
    checkout.tell("rows.sh", "echo '2 passed, 0 failed, 5 skipped'; exit")
    checkout.tell("run.sh disk", "echo '2 passed, 0 failed'; exit 1")
    yield "what a script skips, and a status", checkout.run()[2].endswith(" passed, 1 failed, 5 skipped")
    checkout.tell("quick-check", "echo '1 passed, 1 failed'; exit 1")
    yield "what is refused in seconds", checkout.run()[::2] == (1, "1 passed, 1 failed")


def fails_to_prove(checkout):
    """Where a program is not built, its scripts fail; where `rt ci` is killed, all ends."""
    checkout.tell("client", "kill -9 $$")
    status, said, last = checkout.run()
    of_client = ("tests/serve.sh", "tests/run.sh proxied", "tests/package.sh", "tests/fuzz_client.py",
                 "tests/stores.sh", "tests/fuzz.py")
    yield "a program that is not built", all(f"bin/test: {it}: " in said for it in of_client) and status == 1
    yield "what needs no other is run", "tests/rows.sh " in checkout.ran("scripts")
    yield "the count", last.endswith(" passed, 10 failed")


def fails_tests(checkout):
    """A test that fails, and a crate that runs none or not all of its tests."""
    told = {
        "a test that fails": "printf 'tests: 2\\ntest a ... ok\\ntest b ... FAILED\\n'; exit 101",
        "a crate without tests": "echo 'rt: this crate has no #[test] function'; exit 2",
        "a crate that is refused": "echo 'run=none proved=no'; exit 1",
        "a test that is not run": "printf 'tests: 2\\ntest a ... ok\\n'; exit 0",
        "a test that is not compiled": "printf 'tests: 1\\ntest a ... ok\\n'; exit 0",
        "a status alone": "printf 'tests: 2\\ntest a ... ok\\ntest b ... ok\\n'; exit 4",
    }
    for what, does in told.items():
        checkout.tell("tests_low", does)
        status, _, last = checkout.run()
        yield what, status == 1 and re.search(r" passed, [12] failed$", last)


def skips(checkout):
    """Edits that are not tried in the minutes that there are."""
    checkout.tell("low_edits", "echo 'low/d-e-f: SKIPPED: late'; echo '1 passed, 0 failed, 1 skipped'; exit")
    status, said, last = checkout.run("--minutes", "10")
    yield "the last line", (status, last) == (0, f"{checkout.passes(others=1)}, 0 failed, 1 skipped")
    yield "the name", "tried first the next time: low/d-e-f\n" in said
    until = int(checkout.ran("edits")[0].rpartition("--until ")[2]) - time.time()
    yield "the limit", 400 < until < 600
    checkout.tell("low_edits", "sleep 1000")
    began = time.monotonic()
    status, said, last = checkout.run("--minutes", "0.1")
    yield "what is ended", (status, last) == (0, f"{checkout.passes(others=1)}, 0 failed, 1 skipped")
    yield "its name", "low/d-e-f: SKIPPED" in said and "tried first the next time: low/d-e-f\n" in said
    yield "in time", time.monotonic() - began < 30 and not left_of(checkout)
    checkout.tell("rows.sh", "sleep 8")
    yield "no script is skipped", checkout.run("--minutes", "0.1")[2] == last


def left_of(checkout):
    """The processes that have the folder of the checkout's scripts, or what they told, in their environment."""
    found = []
    for folder in Path("/proc").glob("[0-9]*"):
        try:
            if str(checkout.told).encode() in (folder / "environ").read_bytes():
                found.append(folder.name)
        except OSError:
            pass
    return found


def stops(checkout):
    """A signal ends all that was begun."""
    for name in ("low", "low_edits", "tests_low", "first_build.py"):
        checkout.tell(name, f"touch '{checkout.told}/begun_{name}'; sleep 1000 & sleep 1000")
    for number in (signal.SIGINT, signal.SIGTERM):
        ran = checkout.start()
        while len([*checkout.told.glob("begun_*")]) < 4 and ran.poll() is None:
            time.sleep(0.05)
        ran.send_signal(number)
        said = ran.communicate(timeout=60)[0]
        yield f"{number.name}: the end", ran.returncode == 1 and re.search(r"stopped\n\d+ passed, 1 failed\n\Z", said)
        yield f"{number.name}: nothing is left", not left_of(checkout)
        for file in checkout.told.glob("begun_*"):
            file.unlink()


def runs_programs(checkout):
    """Only the scripts, over programs that are there."""
    status, said, last = checkout.run("--programs")
    yield "no program", (status, last) == (1, "0 passed, 1 failed")
    yield "what builds them", all(f"bin/run-program --build {it} " in said for it in PROGRAMS[:2])
    for name in PROGRAMS:
        checkout.write(checkout.top / f"crates/{name}/out/{name}", "#!/bin/sh\n")
    status, said, last = checkout.run("--programs")
    yield "the last line", (status, last) == (0, f"{2 * len(checkout.scripts)} passed, 0 failed")
    yield "what it says", "nothing was proved" in said and not checkout.ran("rt") and not checkout.ran("edits")
    later = time.time() + 5
    os.utime(checkout.top / "crates/low/src/lib.rt", (later, later))
    yield "older programs", "brokerd: it is older than its sources, and " in checkout.run("--programs")[1]
    yield "no other option", checkout.run("--programs", "--anew")[0] == 2


def runs_the_release(checkout):
    """Without a built program the scripts run with those of the release, but for those that call others."""
    checkout.release()
    (checkout.room / "tools/rt").unlink()
    status, said, last = checkout.run("--programs")
    yield "the last line", (status, last) == (0, f"{2 * (len(checkout.scripts) - 3)} passed, 0 failed, 3 skipped")
    skipped = ("tests/stores.sh", "tests/restarts.sh", "tests/refused.sh")
    yield "what is not run", all(f"bin/test: {it} is not run: trial_" in said for it in skipped)
    yield "what is run in part", "tests/fuzz.py crates/brokerd/out/brokerd replay" in checkout.ran("scripts")
    made, released = (checkout.top / it for it in ("crates/client/out/client", "release/client"))
    yield "the programs", made.read_bytes() == released.read_bytes()
    made.unlink()
    released.write_bytes(b"other")
    status, said, last = checkout.run("--programs")
    yield "another program", (status, last) == (1, "0 passed, 1 failed") and "what release/BUILT_FROM says" in said


def compares(checkout):
    """What was built has to be what was released, where that is of the same code."""
    checkout.release()
    status, said, last = checkout.run()
    yield "the last line", (status, last) == (0, f"{checkout.passes(others=-2)}, 0 failed")
    yield "the same bytes", all(f" bytes as release/{it}\n" in said for it in PROGRAMS[:2])
    checkout.tell("brokerd", "built=/bin/false")
    status, said, last = checkout.run()
    yield "other bytes", (status, last) == (1, f"{checkout.passes(others=-1)}, 1 failed")
    yield "what differs", "of release/brokerd, though its sources are those of release 1.2.3" in said
    (checkout.top / "crates/low/src/lib.rt").write_text("// changed\n#[test]\nfn a\n")
    status, said, last = checkout.run()
    yield "other sources", status == 0 and said.count("its sources are not those of release 1.2.3") == 2


def main():
    passed, failed = 0, 0
    cases = (passes, fails, fails_to_prove, fails_tests, skips, stops, runs_programs, runs_the_release, compares)
    for case in cases:
        with tempfile.TemporaryDirectory() as room:
            for name, well in case(Checkout(Path(room))):
                passed, failed = passed + bool(well), failed + (not well)
                if not well:
                    print(f"gate, {case.__name__}, {name}: not so")
    print(f"{passed} passed, {failed} failed")
    return 1 if failed else 0


if __name__ == "__main__":
    sys.exit(main())
