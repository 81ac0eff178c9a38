#!/usr/bin/env python3
"""Backs up the database of a running broker by `brokerd backup`, while secrets are written to it.

    python3 tests/served/backups.py PROGRAM [TIMES] [--plain]

The broker has 1,000 secrets, and a client goes on to write one after another. Meanwhile the database is backed up so
many times, or 20, which takes some ten seconds. A broker that is started from a backup has each secret whose write was
answered before it began, and none without all before it. No reply may take a second. `brokerd check` says `ok` of each,
and only the newest stay where that is asked for. Then the head of a log is changed during each copy: the program has to
notice, and gives up. It is killed in the midst, finds no room, or a folder that it cannot write: then nothing is left,
or the next one removes it. At last a backup is restored as docs/STORAGE.md says. The last line is 'N passed, M failed'.
With --plain the files are copied by cp alone, so many times in either order, and it is only told how many copies are
wrong.
"""

import contextlib
import json
import os
import random
import re
import resource
import shutil
import signal
import sqlite3
import subprocess
import sys
import tempfile
import threading
import time
from pathlib import Path

from broker import Broker, connect, exchange, request

SECRETS = 1_000
TIMES = 20
PAUSE = 0.004  # seconds between two writes
LEAST = 5  # secrets that are written during a backup, on average
KEPT = 5
MOVED = 50_000_000  # bytes of a database whose copy takes so long that its log changes meanwhile
NAME = re.compile(r"broker-\d{8}T\d{6}Z\.db")
LINE = re.compile(r"(\S+): (\d+) bytes, ok, 1 token, 0 cubbyhole objects, (\d+) secrets with \3 versions, .*\n")
PROGRESS = re.compile(r"(?:(?:copying|checking the copy of) \S+: \d+ MB\n)*")  # of a large file, or one that takes long
SAMPLES = 20
SHOWN = 3
BETWEEN = 0.2  # seconds between the plain copies of the two files
LONGEST = 1.0  # seconds without a reply

class Writer:
    """Writes one secret after another, until the block ends; after the first ones not so fast that the database grows
    much while it is backed up."""

    def __init__(self, broker):
        self.broker, self.answered, self.longest, self.error = broker, -1, 0.0, None
        self.is_over, self.may_write = threading.Event(), threading.Event()
        self.may_write.set()
        self.thread = threading.Thread(target=self.run)

    def __enter__(self):
        self.thread.start()
        while self.answered < SECRETS and self.error is None:
            time.sleep(0.01)
        self.longest = 0.0
        return self

    def __exit__(self, *_):
        self.is_over.set()
        self.thread.join()

    def run(self):
        try:
            with connect(self.broker.port) as connection:
                while self.may_write.wait() and not self.is_over.is_set():
                    number = self.answered + 1
                    text = request("POST", f"secret/data/k{number}", self.broker.token, f'{{"data":{{"n":{number}}}}}')
                    status, _, seconds = exchange(connection, text)
                    if status != 200:
                        raise AssertionError(f"the write of secret {number} has status {status}")
                    self.answered, self.longest = number, max(self.longest, seconds)
                    if number > SECRETS:
                        time.sleep(PAUSE)
        except (AssertionError, OSError) as error:
            self.error = error


def ask(broker, method, path, token=None, wrap_ttl=""):
    """The status and the object of a reply."""
    with connect(broker.port) as connection:
        text = request(method, path, token or broker.token, wrap_ttl=wrap_ttl)
        status, body, _ = exchange(connection, text)
    return status, json.loads(body) if body else None


def wrap(broker):
    """A wrapping token for a secret."""
    return ask(broker, "GET", "secret/data/k0", wrap_ttl="1h")[1]["wrap_info"]["token"]


def unwrap(broker, wrapping):
    """The status of an unwrap."""
    return ask(broker, "POST", "sys/wrapping/unwrap", wrapping)[0]


def what_is_wrong(program, copy, token, answered):
    """What is wrong with a copy, which has to have the secrets up to a number. None if nothing is."""
    try:
        with Broker(program, "--db", copy, token=token) as broker:
            numbers = {int(key[1:]) for key in ask(broker, "LIST", "secret/metadata")[1]["data"]["keys"]}
            last = max(numbers)
            if last < answered:
                return f"secret {answered} was answered, and the last one is {last}"
            if len(numbers) != last + 1:
                return f"{last + 1 - len(numbers)} secrets before the last one are not there"
            for number in [last, *random.sample(range(last), SAMPLES)]:
                status, found = ask(broker, "GET", f"secret/data/k{number}")
                if status != 200 or found["data"]["data"] != {"n": number}:
                    return f"secret {number}: status {status}"
    except (SystemExit, OSError, ValueError) as error:
        return f"it is not served: {error}"
    return None


def backed_up(program, file, to, *words, **options):
    """A backup that is made: its process, with what it has said."""
    return subprocess.run([program, "backup", "--db", file, "--to", to, *words], capture_output=True, text=True,
                          check=False, **options)


def names_in(folder):
    """The names in a folder, in order; none if it is not there."""
    return sorted(os.listdir(folder)) if os.path.isdir(folder) else []


def no_longer_than(size):
    """No file of the process may be longer, as on a full disk: a longer write fails, and no signal ends it."""
    signal.signal(signal.SIGXFSZ, signal.SIG_IGN)
    resource.setrlimit(resource.RLIMIT_FSIZE, (size, size))


def copy_by_cp(program, file, folder, writer, times):
    """Tells how many copies are wrong that cp has made, in either order. Nothing is written while they are judged."""
    for endings in (("", "-wal"), ("-wal", "")):
        wrong = []
        for turn in range(times):
            to, answered = folder / f"plain{turn}", writer.answered
            to.mkdir()
            for ending in endings:
                subprocess.run(["cp", f"{file}{ending}", to], check=True)
                time.sleep(BETWEEN)
            writer.may_write.clear()
            wrong.append(what_is_wrong(program, to / file.name, writer.broker.token, answered))
            writer.may_write.set()
            shutil.rmtree(to)
        wrong = [why for why in wrong if why]
        print(f"backup: {', then '.join(f'FILE{it}' for it in endings)}: {len(wrong)} of {times} copies are wrong")
        print("".join(f"    {why}\n" for why in wrong[:SHOWN]), end="")


class Trial:
    """A program, a folder for its files, and what was found out."""

    def __init__(self, program, folder):
        self.program, self.folder = program, folder
        self.file, self.to = folder / "broker.db", folder / "backups"
        self.backups = []  # each with the last secret that was answered before it began
        self.passed = self.failed = 0

    def check(self, name, condition, what):
        if condition:
            self.passed += 1
        else:
            self.failed += 1
            print(f"backup, {name}: {what}")

    def back_up(self, writer, times):
        """Backs up the database so many times, and tells how long a reply took then."""
        before = writer.answered
        for turn in range(times):
            answered = writer.answered
            done = backed_up(self.program, self.file, self.to)
            found = LINE.fullmatch(done.stdout)
            self.check(f"backup {turn}", done.returncode == 0 and found and PROGRESS.fullmatch(done.stderr),
                       f"status {done.returncode}: {done.stdout}{done.stderr}")
            if found:
                path, size = Path(found[1]), int(found[2])
                self.backups.append((path, answered))
                self.check(path.name, NAME.fullmatch(path.name) and path.parent == self.to, "another name")
                modes = [it.stat().st_mode & 0o777 for it in (path, self.to)]
                self.check(path.name, path.stat().st_size == size and modes == [0o600, 0o700], f"modes {modes}")
                self.check(path.name, int(found[3]) > answered, f"it has {found[3]} secrets")
            time.sleep(1)  # the name of the next one has another second
        written = writer.answered - before
        print(f"backup: {times} backups, while {written} secrets were written; the longest wait for a reply was "
              f"{1000 * writer.longest:.0f} ms")
        self.check("the load", written >= LEAST * times, f"only {written} secrets were written during {times} backups")
        self.check("the wait for a reply", writer.longest < LONGEST, f"{writer.longest:.3f} s")
        self.check("the folder", names_in(self.to) == [path.name for path, _ in self.backups], names_in(self.to))

    def kill(self, writer):
        """One that is killed leaves no backup, and the next removes what it has left."""
        to = self.folder / "killed"
        for turn in range(10):
            process = subprocess.Popen([self.program, "backup", "--db", self.file, "--to", to],
                                       stdout=subprocess.DEVNULL, stderr=subprocess.DEVNULL)
            until = time.monotonic() + 10
            while process.poll() is None and not names_in(to) and time.monotonic() < until:
                pass
            time.sleep(0.002 * turn)
            process.kill()
            process.wait()
            left = [name for name in names_in(to) if not name.startswith(".broker.part")]
            self.check("a kill", all(NAME.fullmatch(name) for name in left), names_in(to))
            for name in left:
                os.remove(to / name)
        answered = writer.answered
        done = backed_up(self.program, self.file, to)
        names = names_in(to)
        self.check("after a kill", done.returncode == 0 and len(names) == 1, f"{names}: {done.stderr}")
        self.backups += [(to / name, answered) for name in names]

    def refuse(self):
        """What a backup that fails says; it leaves nothing."""
        plain, empty, none, other = (self.folder / it for it in ("plain", "empty.db", "none.db", "other.db"))
        plain.write_text("not a database" * 100, encoding="ascii")
        empty.touch()
        with contextlib.closing(sqlite3.connect(other)) as database:
            database.executescript("PRAGMA journal_mode = wal; CREATE TABLE a (b)")
        with contextlib.closing(sqlite3.connect(none)) as database:
            database.executescript("PRAGMA journal_mode = wal; CREATE TABLE a (b); DROP TABLE a")
        size = self.file.stat().st_size
        full = {"preexec_fn": lambda: no_longer_than(size // 2)}
        for name, file, words, options in (
                ("no file", self.folder / "missing.db", "there is no such file", {}),
                ("a folder", self.folder, "no regular file", {}),
                ("an empty file", empty, "no regular file", {}),
                ("no database", plain, "not a database", {}),
                ("another program's", other, "the database of another program", {}),
                ("no broker", none, "there is no row of kind clock", {}),
                ("no room", self.file, "it would be larger than a file may be", full)):
            to = self.folder / "refused"
            done = backed_up(self.program, file, to, **options)
            self.check(name, done.returncode == 1 and words in done.stderr and not done.stdout and not names_in(to),
                       f"status {done.returncode}, {names_in(to)}: {done.stdout}{done.stderr}")
        done = backed_up(self.program, self.file, plain)
        self.check("no folder", (done.returncode, done.stderr) == (1, f"{plain}: no folder\n"), done.stderr)
        done = backed_up(self.program, self.file, self.folder / "no/folder")
        self.check("no parent", done.returncode == 1 and "no such folder" in done.stderr, done.stderr)
        done = subprocess.run([self.program, "backup", "--db", self.file], capture_output=True, text=True, check=False)
        self.check("no --to", done.returncode == 2 and "--to <FOLDER>" in done.stderr, done.stderr)

    def find_small_disk(self):
        """A full disk, in memory. Where nothing can be mounted it is not tried."""
        to = self.folder / "small"
        to.mkdir()
        size = self.file.stat().st_size
        mounted = subprocess.run(["mount", "-t", "tmpfs", "-o", f"size={size // 2}", "tmpfs", to], check=False,
                                 capture_output=True)
        if mounted.returncode != 0:
            print("backup: no small disk, since nothing can be mounted here")
            return
        try:
            done = backed_up(self.program, self.file, to)
            self.check("a full disk", done.returncode == 1 and done.stderr.endswith("no space left on the disk\n"),
                       f"status {done.returncode}: {done.stderr}")
            self.check("what a full disk leaves", names_in(to) == [], names_in(to))
        finally:
            subprocess.run(["umount", to], check=True)

    def find_other_user(self):
        """A folder that the program may not write, and a database that it may not read. Root may do all."""
        if os.getuid() != 0:
            print("backup: only root can start a program as another user")
            return
        to = self.folder / "others"
        to.mkdir(mode=0o700)
        self.folder.chmod(0o755)
        program = shutil.copy(self.program, self.folder)
        for file, name in ((self.backups[0][0], self.backups[0][0]), (self.file, to)):
            if name == to:
                self.file.chmod(0o644)
                Path(f"{self.file}-wal").chmod(0o644)
            done = backed_up(program, file, to, user=65534, group=65534, extra_groups=[])
            self.check("another user", done.returncode == 1 and done.stderr == f"{name}: permission denied\n",
                       done.stderr)

    def keep(self):
        """Only the newest stay, and other files do."""
        others = ["broker-20200101T000000Z.db.bak", "broker-2020.db", "other-20200101T000000Z.db", "broker.db"]
        for name in others:
            (self.to / name).touch()
        old = [self.to / f"broker-20200101T00000{number}Z.db" for number in range(3)]
        for path in old:
            path.touch()
        Path(f"{old[0]}-wal").touch()
        before = {name for name in names_in(self.to) if NAME.fullmatch(name)}
        done = backed_up(self.program, self.file, self.to, "--keep", str(KEPT))
        now = names_in(self.to)
        kept = [name for name in now if NAME.fullmatch(name)]
        newest = sorted(before | set(kept))[-KEPT:]
        self.check("--keep", done.returncode == 0 and kept == newest, f"{now}: {done.stdout}{done.stderr}")
        self.check("other files", set(now) - set(kept) == set(others), now)
        self.backups = [it for it in self.backups if it[0].exists()]

    def taken(self):
        """No other file is replaced: names are taken for the next seconds."""
        to, second = self.folder / "taken", int(time.time())
        to.mkdir()
        for number in range(second, second + 20):
            (to / time.strftime("broker-%Y%m%dT%H%M%SZ.db", time.gmtime(number))).write_text("mine", encoding="ascii")
        done = backed_up(self.program, self.file, to)
        self.check("a name that is taken", done.returncode == 1 and "there is a file of this name" in done.stderr,
                   done.stderr)
        texts = {(to / name).read_text(encoding="ascii") for name in names_in(to)}
        self.check("what had the name", texts == {"mine"}, texts)

    def move(self):
        """The log gets another head all the time, as where it is moved into the database during each copy."""
        file, to, is_over = self.folder / "moved.db", self.folder / "moved", threading.Event()
        shutil.copyfile(self.file, file)
        with open(file, "ab") as grown:
            grown.truncate(MOVED)
        log = open(f"{file}-wal", "wb", buffering=0)

        def change():
            while not is_over.wait(0.0005):
                log.seek(0)
                log.write(os.urandom(32))

        thread = threading.Thread(target=change)
        thread.start()
        done = backed_up(self.program, file, to)
        is_over.set()
        thread.join()
        log.close()
        # Under load the log may rest for as long as a copy takes; then the check refuses what it has.
        gave_up = "each of 20 copies" in done.stderr or "its copy cannot be opened" in done.stderr
        self.check("a log that is moved each time", done.returncode == 1 and gave_up and not names_in(to),
                   f"status {done.returncode}, {names_in(to)}: {done.stderr}")
        os.remove(file)

    def judge(self, token):
        """Checks each backup, and starts a broker from it."""
        for path, answered in self.backups:
            again = shutil.copytree(path.parent, self.folder / "judged") / path.name
            done = subprocess.run([self.program, "check", "--db", again], capture_output=True, text=True, check=False)
            self.check(path.name, done.returncode == 0 and done.stdout.startswith(f"{again}: ok, "),
                       done.stdout + done.stderr)
            why = what_is_wrong(self.program, again, token, answered)
            self.check(path.name, why is None, why)
            shutil.rmtree(again.parent)

    def restore(self, token, used, waiting):
        """A response that was unwrapped after the backup waits there again, but not once all that wait were dropped."""
        for command, wanted in ((None, [200, 400, 200]), ("after-restore", [400, 400, 400])):
            again = self.folder / "restored/broker.db"
            again.parent.mkdir()
            shutil.copyfile(self.backups[0][0], again)
            if command:
                words = [self.program, command, "--db", again]
                done = subprocess.run(words, check=False, capture_output=True, text=True)
                self.check(command, done.returncode == 0, done.stdout + done.stderr)
            with Broker(self.program, "--db", again, token=token) as broker:
                found = [unwrap(broker, used), unwrap(broker, used), unwrap(broker, waiting)]
                self.check("a restored backup", found == wanted, f"unwraps have {found} in place of {wanted}")
                self.check("a new response", unwrap(broker, wrap(broker)) == 200, "it is not handed out")
            shutil.rmtree(again.parent)

    def find_no_log(self, token):
        """A database that sqlite3 has closed has no log, and is copied alone."""
        earlier, answered = self.backups[0]
        file = shutil.copyfile(earlier, self.folder / "closed.db")
        self.check("the log of a closed database", not Path(f"{file}-wal").exists(), "it is there")
        done = backed_up(self.program, file, self.folder / "no log")
        names = names_in(self.folder / "no log")
        self.check("no log", done.returncode == 0 and len(names) == 1, f"{names}: {done.stderr}")
        why = what_is_wrong(self.program, self.folder / "no log" / names[0], token, answered)
        self.check("a backup without a log", why is None, why)


def main():
    program, *words = [word for word in sys.argv[1:] if word != "--plain"]
    program, times = Path(program).resolve(), int(words[0] if words else TIMES)
    with tempfile.TemporaryDirectory() as folder:
        trial = Trial(program, Path(folder))
        with Broker(program, "--db", trial.file) as broker, Writer(broker) as writer:
            if "--plain" in sys.argv:
                copy_by_cp(program, trial.file, trial.folder, writer, times)
                return 0
            used, waiting = wrap(broker), wrap(broker)
            trial.back_up(writer, times)
            trial.check("an unwrap", unwrap(broker, used) == 200, "it is refused")
            trial.kill(writer)
            trial.taken()
            trial.refuse()
            trial.find_small_disk()
            trial.move()
            token = broker.token
        trial.check("the writes", writer.error is None, writer.error)
        trial.judge(token)
        trial.restore(token, used, waiting)
        trial.find_no_log(token)
        trial.find_other_user()
        trial.keep()
    print(f"{trial.passed} passed, {trial.failed} failed")
    return trial.failed != 0


if __name__ == "__main__":
    sys.exit(main())
