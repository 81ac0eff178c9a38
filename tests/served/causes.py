#!/usr/bin/env python3
"""Why `brokerd serve` and `brokerd check` end by a fault: each cause is brought about once, and the line before the
fault has to say which it is, with the name of the file or the address.

    python3 tests/served/causes.py PROGRAM

A full disk and one that fails are those of tests/hostile, at a start and while the program serves; where there is no
compiler for it, these are left out. What a user may not read is tried as another user, as root alone. The last line is
'N passed, M failed'.
"""

import contextlib
import os
import resource
import shutil
import socket
import sqlite3
import subprocess
import sys
from pathlib import Path

HOSTILE = Path(__file__).resolve().parent.parent / "hostile"
sys.path.append(str(HOSTILE))

from broker import FAULT, Broker, free_port  # noqa: E402  after the path of the next
from cases import expect, report, tried  # noqa: E402
from hostile import Report, aim, build, environment, scratch  # noqa: E402

NOBODY = 65534
MEGABYTE = 1_000_000
STORAGE, NO_CLOCK, READING, WRITING = "fault 2", "fault 4", "fault 5", "fault 6"
DAMAGED_ROW = "fault 3"
WRITES = "pwrite,ftruncate:0:ENOSPC"
SYNCS = "fsync,fdatasync:0:EIO"
READS = "pread:0:EIO"


class Place:
    """A program, a folder, and a database that a broker was started in and closed."""

    def __init__(self, program, folder, library):
        self.folder, self.library, self.count = Path(folder), library, 0
        self.folder.chmod(0o755)
        self.program = str(self.folder / "brokerd")  # where another user can call it
        shutil.copy(program, self.program)
        os.chmod(self.program, 0o755)
        self.made = self.folder / "made.db"
        with Broker(program, "--db", str(self.made)) as broker:
            self.token = broker.token
            expect(broker.ask("POST", "secret/data/a", '{"data":{"k":"v"}}')[0] == 200, "it is not written")
        with contextlib.closing(sqlite3.connect(self.made)) as database:
            database.execute("PRAGMA wal_checkpoint(TRUNCATE)")

    def new(self, name="broker"):
        """A path in a folder of its own."""
        self.count += 1
        folder = self.folder / f"{self.count}"
        folder.mkdir()
        return folder / f"{name}.db"

    def copy(self, statements=""):
        """A copy of the database, changed by these statements."""
        file = self.new()
        shutil.copy(self.made, file)
        with contextlib.closing(sqlite3.connect(file)) as database, database:
            database.executescript(statements)
        return file

    def is_limited(self):
        """Whether the program can be started with a limit on its memory: one with the address sanitizer cannot."""
        return b"__asan_" not in Path(self.program).read_bytes()

    def served(self, file, *words, **options):
        """How a program ends that is to serve a file."""
        return self.run("serve", "--listen", "127.0.0.1:0", "--connections", "1", "--db", str(file), *words, **options)

    def checked(self, file, **options):
        """How a check of a file ends."""
        return self.run("check", "--db", str(file), **options)

    def run(self, *words, **options):
        """What a program prints on standard error until it ends, with status 1."""
        standard = {"stdin": subprocess.DEVNULL, "stdout": subprocess.PIPE, "stderr": subprocess.PIPE}
        try:
            ended = subprocess.run([self.program, *words], **{**standard, **options}, timeout=30, check=False)
        except subprocess.TimeoutExpired:
            raise AssertionError("it does not end") from None
        expect(ended.returncode == 1, f"status {ended.returncode}: {ended.stderr}")
        return ended.stderr.decode()


def told(said, name, text, fault):
    """Whether a line with this name and this text comes before the fault, and nothing else."""
    found = FAULT.fullmatch(said)
    expect(found is not None, f"it says {said!r}")
    expect((found[1], found[2]) == (f"{name}: {text}", fault), f"it says {said!r}, not {name}: {text}, {fault}")
    return text.partition(":")[0]


def begins(said, name, text, fault):
    """The same, where the line only begins so."""
    found = FAULT.fullmatch(said)
    expect(found is not None and found[1].startswith(f"{name}: {text}") and found[2] == fault,
           f"it says {said!r}, not {name}: {text}.., {fault}")
    return found[1].removeprefix(f"{name}: ")


# ------------------------------------------------------------------------------------------ what is there

def both(place, file, text, fault=STORAGE):
    """A start and a check of a file say the same."""
    begins(place.served(file), file, text, fault)
    return begins(place.checked(file), file, text, fault)


def no_folder(place):
    return both(place, place.folder / "none" / "broker.db", "there is no such file, or no such folder")


def no_file(place):
    file = place.new()
    met = begins(place.checked(file), file, "there is no such file", STORAGE)
    expect(not file.exists(), "a check has made it")
    return met


def an_empty_file(place):
    file = place.new()
    file.touch()
    return told(place.checked(file), file, "an empty file", STORAGE)


def a_folder(place):
    file = place.new()
    file.mkdir()
    return both(place, file, "it, or its log (-wal), is no regular file, or has a second name")


def a_second_name(place):
    file = place.copy()
    os.link(file, file.with_name("other.db"))
    return both(place, file, "it, or its log (-wal), is no regular file, or has a second name")


def no_name(place):
    return told(place.served(":memory:"), ":memory:", "no name of a file", STORAGE)


def not_a_database(place):
    file = place.new()
    file.write_bytes(b"x" * 5000)
    return both(place, file, "not a database")


def other_tables(place):
    file = place.copy("CREATE TABLE other (a INTEGER)")
    return both(place, file, "the database of another program, or of another version")


def a_damaged_page(place):
    """Each page of the tables is changed in its middle, or its first bytes are."""
    data, met = place.made.read_bytes(), set()
    for page in range(1, len(data) // 4096):
        file = place.new()
        file.write_bytes(data[:page * 4096] + b"\xff" * 16 + data[page * 4096 + 16:])
        met.add(both(place, file, "damaged, or its log (-wal) is"))
    expect(len(met) == 1, f"{met}")
    return met.pop()


def a_damaged_header(place):
    data, file = place.made.read_bytes(), place.new()
    file.write_bytes(data[:16] + b"\xff" * 84 + data[100:])
    return both(place, file, "damaged, or its log (-wal) is")


def a_row_of_another(place):
    """A row of a kind that there is not, as another program may have put it."""
    file = place.copy("INSERT INTO broker_rows (kind, key, owner, body) VALUES (99, 'a', '', x'00')")
    return both(place, file, "damaged, or its log (-wal) is")


def a_journal(place):
    file = place.copy()
    Path(f"{file}-journal").write_bytes(b"\xd9\xd5\x05\xf9" * 200)
    return both(place, file, "a journal (-journal) lies beside it")


def in_use(place):
    file = place.copy()
    with Broker(place.program, "--db", str(file), token=place.token):
        return both(place, file, "in use by another program")


def without_permission(place):
    if os.geteuid() != 0:
        return "not tried: it takes root"
    file = place.copy()
    os.chmod(file.parent, 0o755)
    os.chmod(file, 0o600)
    for said in (place.served(file, user=NOBODY), place.checked(file, user=NOBODY)):
        met = begins(said, file, "permission denied", STORAGE)
    os.chmod(file, 0o666)
    begins(place.served(file, user=NOBODY), file, "permission denied", STORAGE)
    return f"{met}; the same of its folder"


def is_mounted(folder, size):
    """Mounts a file system in memory, where that can be done."""
    return subprocess.run(["mount", "-t", "tmpfs", "-o", f"size={size}", "tmpfs", folder], capture_output=True,
                          check=False).returncode == 0


def read_only(place):
    """A file system that cannot be written, where one can be mounted."""
    file = place.copy()
    folder = file.parent
    if not is_mounted(folder, "4m"):
        return "not tried: nothing can be mounted"
    try:
        shutil.copy(place.made, file)
        subprocess.run(["mount", "-o", "remount,ro", folder], check=True)
        return begins(place.served(file), file, "it is on a file system that is read-only", STORAGE)
    finally:
        subprocess.run(["umount", folder], check=True)


# ------------------------------------------------------------------------------------------ rows

def no_clock(place):
    file = place.copy("DELETE FROM broker_rows WHERE kind = 1")
    return begins(place.served(file), file, "it has rows, but not that of the clock", NO_CLOCK)


def a_damaged_row(place):
    file = place.copy("UPDATE broker_rows SET body = x'02' WHERE kind = 9")
    with Broker(place.program, "--unchecked", "--db", str(file), token=place.token) as broker:
        expect(broker.ask("GET", "secret/data/a")[0] == 0, "the damaged row is answered")
        status, said = broker.ended()
    expect(status == 1, f"status {status}")
    return begins(said, file, "a row is damaged", DAMAGED_ROW)


# ------------------------------------------------------------------------------------------ the disk

def ask_until_ended(broker, bodies):
    """Writes a secret for each body, until the program has ended."""
    for number, body in enumerate(bodies):
        if broker.process.poll() is not None:
            break
        with contextlib.suppress(OSError):
            broker.ask("POST", f"secret/data/{number}", body)


def at_a_start(place, rule, text):
    """A start ends by the rule from its first call of that kind on, over a new file and over one that is there."""
    for file in (place.new(), place.copy()):
        variables = environment(place.library, rule.replace(":0:", ":1+:"), report=file.parent / "report")
        met = told(place.served(file, env=variables), file, text, STORAGE)
    return met


def at_a_request(place, rule, text, *words):
    """While the program serves, the rule holds from now on: the next write is not answered."""
    file, counts = place.copy(), place.new("report")
    variables = environment(place.library, rule, report=counts)
    with Broker(place.program, "--db", str(file), *words, token=place.token, env=variables) as broker:
        expect(broker.ask("POST", "secret/data/a", '{"data":{"k":"w"}}')[0] == 200, "it is not written")
        aim(counts, 0, Report(counts).rules[0].made + 1, 1 << 60)
        expect(broker.ask("POST", "secret/data/a", '{"data":{"k":"x"}}')[0] == 0, "it is answered")
        status, said = broker.ended()
    expect(status == 1, f"status {status}: {said}")
    return file, said


def a_full_disk(place):
    met = at_a_start(place, WRITES, "no space left on the disk")
    file, said = at_a_request(place, WRITES, met)
    return f"{told(said, file, met, STORAGE)}, at a start and at a request"


def a_disk_that_fails(place):
    text = "a read, a write or a sync failed: the disk, or a limit on the size of files"
    at_a_start(place, READS, text)
    file, said = at_a_request(place, SYNCS, text)
    return f"{told(said, file, text, STORAGE)}, by reads at a start and by a sync at a request"


def in_the_log(place):
    """With --log the line is one of the log."""
    file, said = at_a_request(place, WRITES, "", "--log")
    lines = said.strip().splitlines()
    found = lines[-2].partition(" ")[2]
    expect((found, lines[-1]) == (f"{file}: no space left on the disk", STORAGE), f"{lines[-3:]}")
    return "the line before the fault is one of the log"


def a_full_small_disk(place):
    """A file system in memory that gets full, where one can be mounted."""
    file = place.new()
    folder = file.parent
    if not is_mounted(folder, "600k"):
        return "not tried: nothing can be mounted"
    try:
        with Broker(place.program, "--db", str(file)) as broker:
            body = '{"data":{"k":"%s"}}' % ("x" * 50_000)
            ask_until_ended(broker, [body] * 9)
            status, said = broker.ended()
        expect(status == 1, f"status {status}: {said}")
        return told(said, file, "no space left on the disk", STORAGE)
    finally:
        subprocess.run(["umount", folder], check=True)


# ------------------------------------------------------------------------------------------ memory, and the rest

def with_memory(place, megabytes):
    """What a program says that ends by a fault with so little memory in all, while secrets of a megabyte are written;
    None if it does not start, or serves on."""
    file = place.copy()

    def limited():
        resource.setrlimit(resource.RLIMIT_AS, (megabytes * MEGABYTE, megabytes * MEGABYTE))

    body = '{"data":{"k":"%s"}}' % ("x" * 1_000_000)
    try:
        with Broker(place.program, "--db", str(file), token=place.token, preexec_fn=limited) as broker:
            ask_until_ended(broker, [body] * 20)
            status, said = broker.ended(0.2)
    except SystemExit as error:
        said = str(error).partition(": ")[2]
        return (file, said) if FAULT.fullmatch(said) else None
    return (file, said) if status == 1 else None


def memory(place):
    """With the least memory it does not start, with more it ends at a request, and then it serves."""
    met = {}
    for megabytes in range(14, 46, 2):
        found = with_memory(place, megabytes)
        if found is not None:
            file, said = found
            words = FAULT.fullmatch(said)
            expect(words is not None and words[1].startswith(f"{file}: not enough memory"),
                   f"with {megabytes} MB it says {said!r}")
            met[words[2]] = words[1].removeprefix(f"{file}: ")
    expect(STORAGE in met or not place.is_limited(), f"{met}")
    return met.get(STORAGE, "not tried: this program does not start with a limit on its memory")


def randomness(place):
    """The server asks first; then the opening, and there is no telling whether for the files or for randomness; then
    the database."""
    file, met = place.new(), []
    for number, fault in ((3, STORAGE), (1, READING)):
        variables = environment(place.library, f"getentropy:{number}+:EIO", report=file.parent / "report")
        said = place.served(file, env=variables)
        found = FAULT.fullmatch(said)
        expect(found is not None and found[1].endswith("the system gave no random numbers") and found[2] == fault,
               f"call {number}: it says {said!r}")
        met.append(found[1].removeprefix(f"{file}: "))
    return met[0]


def an_address_in_use(place):
    with socket.socket() as taken:
        taken.bind(("127.0.0.1", 0))
        taken.listen()
        address = "127.0.0.1:{}".format(taken.getsockname()[1])
        return told(place.run("serve", "--listen", address), address, "the address is in use by another program",
                    READING)


def an_address_of_another(place):
    address = f"192.0.2.1:{free_port()}"
    return told(place.run("serve", "--listen", address), address, "no address of this machine", READING)


def no_address(place):
    return begins(place.run("serve", "--listen", "nowhere"), "nowhere", "it cannot be listened on", READING)


def a_port_of_root(place):
    if os.geteuid() != 0 or Path("/proc/sys/net/ipv4/ip_unprivileged_port_start").read_text().strip() == "0":
        return "not tried: it takes root, and ports that are root's"
    return begins(place.run("serve", "--listen", "127.0.0.1:81", user=NOBODY), "127.0.0.1:81", "permission denied",
                  READING)


def a_file_as_input(place):
    with open(__file__, "rb") as opened:
        said = place.run("serve", "--listen", "127.0.0.1:0", "--stop-on-input", stdin=opened)
    found = FAULT.fullmatch(said)
    expect(found is not None and found[1].startswith("standard input cannot be waited for: ") and found[2] == READING,
           f"it says {said!r}")
    return found[1]


def a_full_output(place):
    with open("/dev/full", "wb") as opened:
        said = place.run("serve", "--listen", "127.0.0.1:0", stdout=opened)
    found = FAULT.fullmatch(said)
    expect(found is not None and found[1].startswith("standard output does not take the root token: ")
           and found[2] == WRITING, f"it says {said!r}")
    return found[1]


CASES = (no_folder, no_file, an_empty_file, a_folder, a_second_name, no_name, not_a_database, other_tables,
         a_damaged_page, a_damaged_header, a_row_of_another, a_journal, in_use, without_permission, read_only, no_clock,
         a_damaged_row, a_full_small_disk, memory, an_address_in_use, an_address_of_another, no_address, a_port_of_root,
         a_file_as_input, a_full_output)
HOSTILE_CASES = (a_full_disk, a_disk_that_fails, in_the_log, randomness)


def main():
    with scratch() as folder:
        try:
            library, cases = build(folder), CASES + HOSTILE_CASES
        except (OSError, subprocess.CalledProcessError) as error:
            print(f"causes: without a compiler ({error}) the disk does not fail")
            library, cases = None, CASES
        place = Place(sys.argv[1], folder, library)
        return report("causes", [(case, tried(case, place)) for case in cases])


if __name__ == "__main__":
    sys.exit(main())
