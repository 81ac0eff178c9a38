#!/usr/bin/env python3
"""Makes a release of a repository of four crates, with a command `rt` and programs of its own, and looks at which
program runs then, also without the toolchain and without Python; at what is said where it is not the one of the
release; and at what bin/prove and bin/release say.

The last line is 'N passed, M failed'.
"""

import os
import pty
import shutil
import signal
import subprocess
import sys
import tempfile
from pathlib import Path

TOP = Path(__file__).resolve().parent.parent
COREUTILS = ("chmod", "cp", "cut", "dirname", "head", "mkdir", "mkfifo", "mktemp", "mv", "readlink", "rm", "sha256sum",
             "sort", "tac", "tail", "uname")
CRATES = "# layers\nlow:\nendpoints:\nother: low\nbrokerd: endpoints low # the broker\nclient: endpoints\n"

# In place of the toolchain: it "proves" what crates.txt names, and has built the programs before.
RT = """#!/bin/sh
[ "$1" = version ] && { echo 'rattle-kit-13f logic 0123456789abcdef'; exit; }
echo "$*" >> "$ROOM/runs"
while IFS=: read -r crate _; do
    if [ -f "$ROOM/$crate" ]; then mkdir -p "crates/$crate/out" && cp "$ROOM/$crate" "crates/$crate/out/"; fi
    echo "rt: $crate proved"
done < crates.txt
echo '2 passed, 0 failed'
"""

# A program that prints its version or its arguments, and with --stop-on-input waits for the end of its input first.
PROGRAM = """
#include <stdio.h>
#include <string.h>
int main(int count, char **words) {
    if (count == 2 && strcmp(words[1], "--version") == 0) return puts(NAME " 1.2.3") < 0;
    printf(NAME);
    for (int i = 1; i < count; i++) printf(" %s", words[i]);
    puts("");
    fflush(stdout);
    if (count > 1 && strcmp(words[count - 1], "--stop-on-input") == 0) {
        getchar();
        puts("finished");
        return 7;
    }
    return 0;
}
"""


def heed_signals():
    """A shell lets what it runs in the background ignore SIGINT, and `nohup` lets it ignore SIGHUP."""
    for number in (signal.SIGINT, signal.SIGHUP):
        signal.signal(number, signal.SIG_DFL)


class Checkout:
    """A repository with a release of the programs, which are not built there; and what a PATH can have."""

    def __init__(self, room):
        self.room, self.top = room, room / "top"
        for name in ("low", "endpoints", "other", "brokerd", "client"):
            for part in ("src/deep/a.rt", "specs/Lib.antt", "proofs/f/Answers.antt"):
                self.write(f"crates/{name}/{part}", f"// {name}\n")
        self.write("crates/endpoints/src/version.rt", 'pub const VERSION: &str = "1.2.3";\n')
        self.write("crates.txt", CRATES)
        self.write("HANDLES", "Handles allowed: none.\n")
        self.write(".gitignore", "out/\n__pycache__/\n")
        self.write("docs/PAGE.md", "A page.\n")
        shutil.copytree(TOP / "bin", self.top / "bin", ignore=shutil.ignore_patterns("__pycache__"))
        for folder, tools in (("coreutils", COREUTILS), ("python", ("python3",)), ("rt", ())):
            (room / folder).mkdir()
            for name in tools:
                (room / folder / name).symlink_to(shutil.which(name))
        self.write("../rt/rt", RT, 0o755)
        for name in ("brokerd", "client"):
            self.compile(name)
        self.git("init", "-q")
        self.commit()

    def write(self, path, text, mode=0o644):
        file = self.top / path
        file.parent.mkdir(parents=True, exist_ok=True)
        file.write_text(text)
        file.chmod(mode)

    def compile(self, name, *words):
        """Makes the program that `rt` builds."""
        command = ["cc", f'-DNAME="{name}"', *words, "-x", "c", "-o", self.room / name, "-"]
        subprocess.run(command, input=PROGRAM, text=True, check=True)

    def git(self, *words):
        who = ["-c", "user.name=a", "-c", "user.email=a@b.example"]
        return subprocess.run(["git", *who, *words], cwd=self.top, capture_output=True, text=True, check=True).stdout

    def commit(self):
        self.git("add", "-A")
        self.git("commit", "-q", "-m", "a change")

    def build(self):
        """Puts the programs where `rt` leaves them."""
        for name in ("brokerd", "client"):
            (self.top / f"crates/{name}/out").mkdir(exist_ok=True)
            shutil.copy(self.room / name, self.top / f"crates/{name}/out")

    def clean(self):
        for folder in self.top.glob("crates/*/out"):
            shutil.rmtree(folder)

    def release(self):
        """Makes the release and leaves nothing built."""
        self.build()
        said = self.run("bin/release", "1.2.3", path=None)
        self.clean()
        return said

    def environment(self, path):
        """An environment with some of the folders on the PATH, or with all that there is and `rt`."""
        folders = ":".join(str(self.room / it) for it in path) if path else f"{self.room}/rt:{os.environ['PATH']}"
        return {"PATH": folders, "ROOM": str(self.room), "HOME": str(self.room)}

    def start(self, *words, path=("coreutils",), **how):
        return subprocess.Popen([self.top / words[0], *words[1:]], stdout=subprocess.PIPE, text=True,
                                env=self.environment(path), preexec_fn=heed_signals, **how)

    def run(self, *words, path=("coreutils",)):
        """The status of a script, what it printed, and what it told on standard error."""
        ran = self.start(*words, path=path, stdin=subprocess.DEVNULL, stderr=subprocess.PIPE)
        output, told = ran.communicate(timeout=60)
        return ran.returncode, output, told

    def runs_released(self, path=("coreutils",)):
        return self.run("bin/brokerd", "a", "b c", path=path) == (0, "brokerd a b c\n", "")


def runs_the_release(checkout):
    """A shell and coreutils run the programs of the release, and nothing is said but on a terminal."""
    status, said, _ = checkout.release()
    sizes = [f"release/{it}: {(checkout.top / f'release/{it}').stat().st_size:,} bytes" for it in ("brokerd", "client")]
    yield "the release", status == 0 and said.splitlines() == [*sizes, "release 1.2.3: commit release/"]
    built_from = (checkout.top / "release/BUILT_FROM").read_text()
    yield "what it was built from", f"commit {checkout.git('rev-parse', 'HEAD')}" in built_from
    yield "the broker", checkout.runs_released()
    yield "the client", checkout.run("bin/client") == (0, "client\n", "")
    yield "with the toolchain", checkout.runs_released(None) and not (checkout.room / "runs").exists()
    (checkout.room / "link").symlink_to(checkout.top / "bin/brokerd")
    yield "by a link", checkout.run("../link") == (0, "brokerd\n", "")
    ours, theirs = pty.openpty()
    ran = checkout.start("bin/brokerd", "a", stderr=theirs)
    os.close(theirs)
    ran.communicate(timeout=60)
    told = os.read(ours, 1000).decode()
    os.close(ours)
    yield "what a terminal shows", told == "bin/brokerd: release 1.2.3, proved; bin/prove proves it here\r\n"
    of_the_crate = ("crates/low/specs/Lib.antt", "crates/low/proofs/f/Answers.antt")
    for change in (*of_the_crate, "docs/PAGE.md", "crates/other/src/a.rt"):
        checkout.write(change, "// changed\n")
        yield f"the release after a change of {change}", checkout.runs_released()


def runs_no_other(checkout):
    """What is not of the release is not run in its place: without a toolchain one line says what to do."""
    checkout.release()
    changed = {
        "crates/low/src/deep/a.rt": ("// changed\n", "the sources are not those of release 1.2.3."),
        "crates/low/src/deep/b.rt": ("// new\n", "the sources are not those of release 1.2.3."),
        "HANDLES": ("Handles allowed: Net.\n", "the sources are not those of release 1.2.3."),
        "crates.txt": (CRATES.replace("low #", "low json #"), "the sources are not those of release 1.2.3."),
        "release/client": ("x", "release/brokerd is not what release/BUILT_FROM says"),
    }
    for file, (text, why) in changed.items():
        path = checkout.top / file.replace("client", "brokerd")
        before = path.read_bytes() if path.exists() else None
        path.write_bytes(before[:-1] + text.encode() if text == "x" else text.encode())
        status, output, told = checkout.run("bin/brokerd", "a")
        yield f"one line after a change of {file}", (status, output, told.count("\n")) == (1, "", 1) and why in told
        yield f"what to do after a change of {file}", "no command 'rt'" in told and "README.md" in told
        path.write_bytes(before) if before is not None else path.unlink()
    yield "the release again", checkout.runs_released()
    status, output, told = checkout.run("bin/run-program", "other")
    yield "what is not released", (status, output) == (1, "") and "release 1.2.3 does not have it" in told
    shutil.rmtree(checkout.top / "release")
    status, output, told = checkout.run("bin/brokerd", "a")
    yield "no release", (status, output, told.count("\n")) == (1, "", 1) and "there is no release. There is no" in told
    status, output, told = checkout.run("bin/brokerd", "a", path=("coreutils", "rt"))
    yield "no Python", (status, output, told.count("\n")) == (1, "", 1) and "It takes Python 3.9" in told


def builds_others(checkout):
    """With the toolchain it says why the release does not run, builds, and runs that until the sources are older."""
    checkout.release()
    checkout.write("crates/low/src/deep/a.rt", "// changed\n")
    status, output, told = checkout.run("bin/brokerd", "a", "b c", path=None)
    yield "the program", (status, output) == (0, "brokerd a b c\n")
    yield "why", told.startswith("bin/brokerd: it is not built here, and the sources are not those of release 1.2.3\n")
    yield "what was built", checkout.runs_released() and len((checkout.room / "runs").read_text().splitlines()) == 1
    checkout.clean()
    checkout.git("checkout", "-q", ".")
    with open(checkout.top / "release/brokerd", "ab") as file:
        file.write(b"x")
    status, output, told = checkout.run("bin/brokerd", path=None)
    yield "in place of another program", (status, output) == (0, "brokerd\n") and "'git restore release'" in told
    checkout.clean()
    (checkout.room / "runs").unlink()
    checkout.release()
    put = checkout.run("bin/run-program", "--build", "brokerd")
    made, released = (checkout.top / it for it in ("crates/brokerd/out/brokerd", "release/brokerd"))
    yield "the release put in its place", put == (0, "", "") and made.read_bytes() == released.read_bytes()
    yield "nothing was built", not (checkout.room / "runs").exists()
    yield "nothing to put", checkout.run("bin/run-program", "--put", "other")[0] == 1


def stops(checkout):
    """With --stop-on-input a signal ends the input of the program, and its status is that of the script."""
    checkout.release()
    to_all = [(number, True) for number in (signal.SIGINT, signal.SIGHUP, signal.SIGTERM)]
    for number, is_group in ((signal.SIGTERM, False), *to_all):
        ran = checkout.start("bin/brokerd", "--stop-on-input", start_new_session=True)
        ran.stdout.readline()
        for _ in range(2):
            (os.killpg if is_group else os.kill)(ran.pid, number)
        output = ran.communicate(timeout=60)[0]
        whom = "to all" if is_group else "to the script"
        yield f"{number.name} {whom}", (ran.returncode, output) == (7, "finished\n")
    ran = checkout.start("bin/brokerd", "--stop-on-input")
    ran.stdout.readline()
    ran.kill()
    yield "the script is killed", ran.communicate(timeout=60)[0] == "finished\n"


def proves(checkout):
    """bin/prove builds both, though they are built, and compares."""
    checkout.release()
    checkout.build()
    status, output, _ = checkout.run("bin/prove", path=None)
    yield "the same bytes", status == 0 and output.count(" as release/") == 2 == output.count("bin/prove: proved; ")
    yield "both are built", len((checkout.room / "runs").read_text().splitlines()) == 2
    checkout.compile("client", "-DOTHER", "-O3")
    status, output, _ = checkout.run("bin/prove", path=None)
    yield "other bytes", status == 1 and "of release/client, though its sources are those of release 1.2.3" in output
    checkout.write("crates/endpoints/src/deep/a.rt", "// changed\n")
    status, output, _ = checkout.run("bin/prove", path=None)
    yield "other sources", status == 0 and output.count("not compared, since its sources are not those of release") == 2
    shutil.rmtree(checkout.top / "release")
    status, output, _ = checkout.run("bin/prove", path=None)
    yield "no release", status == 0 and output.count("there is no release") == 2


def refuses_to_release(checkout):
    """A release is made of what is committed and built, of the version that the sources have."""
    status, _, told = checkout.run("bin/release", "1.2.3", path=None)
    yield "not built", status == 1 and "brokerd is not built, or older than its sources" in told
    checkout.build()
    yield "another version", "/version.rt has 1.2.3" in checkout.run("bin/release", "1.2.4", path=None)[2]
    checkout.write("docs/PAGE.md", "Changed.\n")
    yield "not committed", "docs/PAGE.md" in checkout.run("bin/release", "1.2.3", path=None)[2]
    yield "nothing was made", not (checkout.top / "release").exists()
    checkout.commit()
    checkout.run("bin/release", "1.2.3", path=None)
    files = sorted(it.name for it in (checkout.top / "release").iterdir())
    yield "the files", files == ["BUILT_FROM", "brokerd", "client"]
    status, said, _ = checkout.run("bin/release", "1.2.3", path=None)
    yield "once more", status == 0 and " bytes, +0\n" in said and "after 1.2.3 of " in said
    checkout.commit()
    yield "its age", age(checkout) == "release 1.2.3 is of these sources"
    checkout.write("crates/endpoints/src/deep/a.rt", "// changed\n")
    checkout.commit()
    yield "its age later", age(checkout).startswith("release 1.2.3 is of other sources, and 2 commits behind: ")


def age(checkout):
    """The line that bin/quick-check prints."""
    words = ["-c", "import released; print(released.age())"]
    environment = {**checkout.environment(None), "PYTHONPATH": str(checkout.top / "bin")}
    return subprocess.run([sys.executable, *words], env=environment, capture_output=True, text=True).stdout.strip()


def main():
    passed, failed = 0, 0
    for case in (runs_the_release, runs_no_other, builds_others, stops, proves, refuses_to_release):
        with tempfile.TemporaryDirectory() as room:
            for name, well in case(Checkout(Path(room))):
                passed, failed = passed + bool(well), failed + (not well)
                if not well:
                    print(f"release, {case.__name__}, {name}: not so")
    print(f"{passed} passed, {failed} failed")
    return 1 if failed else 0


if __name__ == "__main__":
    sys.exit(main())
