"""Runs programs over the library of hostile.c: what the scripts beside this one share. README.md says what it does."""

import collections
import os
import shutil
import struct
import subprocess
import tempfile
from pathlib import Path

HERE = Path(__file__).resolve().parent
HEAP = "malloc,realloc,calloc"
UNIT = struct.Struct("=16sQQ")  # a call in a report: its name, how often it was made, and how often it was changed
RULE = struct.Struct("=QQQQ")  # a rule in a report: first and last, and the same counts
RULES = 8
HEAD = struct.Struct("=16sQqqqqq")  # what a record has before the data of a call
CHILD = struct.Struct("=Qqqqq")  # what comes before the output and the standard error of a child process

Call = collections.namedtuple("Call", "name number fd offset length result data")
Rule = collections.namedtuple("Rule", "first last made changed")
Child = collections.namedtuple("Child", "number written output error status")


def compiler():
    """What calls a C compiler: that of the toolchain, or $CC, or cc, without a toolchain."""
    rt = shutil.which("rt")
    if rt is None:
        return [os.environ.get("CC", "cc")]
    return [Path(rt).resolve().parent.parent / "toolchain/bin/clang", "-fuse-ld=lld"]


def build(folder):
    """The library, built in a folder."""
    library = Path(folder) / "hostile.so"
    subprocess.run([*compiler(), "-O2", "-Wall", "-Wextra", "-Werror", "-ffreestanding", "-fno-builtin", "-fPIC",
                    "-shared", "-nostdlib", "-o", library, HERE / "hostile.c"], check=True)
    return library


def environment(library, rules="", report=None, record=None, each=None, **others):
    """The variables of a run under the library: rules in one text, and the files that it writes."""
    found = {"PATH": os.environ.get("PATH", ""), "LD_PRELOAD": str(library), "HOSTILE": rules}
    if report is not None:
        found["HOSTILE_REPORT"] = str(report)
    if record is not None:
        found["HOSTILE_RECORD"] = str(record)
    if each is not None:
        found["HOSTILE_EACH"] = str(each)
    return {**found, **others}


class Report:
    """What a report says, also while the program runs."""

    def __init__(self, file):
        data = Path(file).read_bytes()
        calls = len(data) - RULES * RULE.size
        if calls <= 0 or calls % UNIT.size:
            raise ValueError(f"{file} has {len(data)} bytes: the program was not run under the library")
        units = [UNIT.unpack_from(data, at) for at in range(0, calls, UNIT.size)]
        self.made = {name.rstrip(b"\0").decode(): made for name, made, _ in units}
        self.changed = {name.rstrip(b"\0").decode(): changed for name, _, changed in units}
        self.rules = [Rule(*RULE.unpack_from(data, at)) for at in range(calls, len(data), RULE.size)]


def aim(file, rule, first, last):
    """Gives a rule of a running program another first and last call. They count from its start, as `made` does."""
    with open(file, "r+b") as report:
        report.seek(-(RULES - rule) * RULE.size, os.SEEK_END)
        report.write(struct.pack("=QQ", first, last))


def recorded(file):
    """The calls of a record, in their order."""
    with open(file, "rb") as record:
        while head := record.read(HEAD.size):
            name, number, fd, offset, length, result, size = HEAD.unpack(head)
            yield Call(name.rstrip(b"\0").decode(), number, fd, offset, length, result, record.read(size))


def children(file):
    """What came of the child processes, in the order of the calls that were changed. The status is negative after a
    signal."""
    with open(file, "rb") as each:
        while head := each.read(CHILD.size):
            number, written, status, output, error = CHILD.unpack(head)
            yield Child(number, written, each.read(output), each.read(error), os.waitstatus_to_exitcode(status))


def scratch():
    """A folder for the files of runs, in memory if there is a place for that."""
    place = "/dev/shm"
    return tempfile.TemporaryDirectory(dir=place if os.access(place, os.W_OK) else None)


def replies_of(output):
    """The replies that an output is made of. A reply ends with its head, or with the body of its length."""
    replies = []
    while output:
        end = output.index(b"\r\n\r\n") + 4
        for line in output[:end].split(b"\r\n"):
            name, _, value = line.partition(b":")
            if name == b"Content-Length":
                end += int(value)
        replies.append(output[:end])
        output = output[end:]
    return replies


class Tally:
    """Counts what passed and failed, and prints the first failures, unless it has no title."""

    SHOWN = 20

    def __init__(self, title):
        self.title, self.passed, self.failed = title, 0, 0

    def expect(self, is_right, what):
        """Counts one thing, and says what it is if it is wrong."""
        if is_right:
            self.passed += 1
        else:
            self.failed += 1
            if self.failed <= self.SHOWN:
                self.tell(what)
        return is_right

    def tell(self, what):
        """Prints a line."""
        if self.title is not None:
            print(f"{self.title}: {what}", flush=True)

    def end(self):
        """Prints the last line, and answers the status."""
        print(f"{self.passed} passed, {self.failed} failed")
        return 1 if self.failed else 0
