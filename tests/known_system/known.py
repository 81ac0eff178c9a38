"""Runs a program to which the system tells what a test knows: random bytes, the wall clock, how fast time goes.

known.c is what is preloaded for that, and says what it does.
"""

import os
import shutil
import struct
import subprocess
from pathlib import Path

SOURCE = Path(__file__).with_name("known.c")
RECORD = struct.Struct("<iiq")
ACCEPTED, RECEIVED, TOLD, SENDING = 1, 2, 3, 4  # kinds of records


def compiler():
    """What calls a C compiler: that of the toolchain, or $CC, or cc."""
    rt = shutil.which("rt")
    own = Path(rt).resolve().parents[1] / "toolchain/bin/clang" if rt else None
    return [str(own), "-fuse-ld=lld"] if own and own.exists() else [os.environ.get("CC", "cc")]


def library(folder):
    """The library that is preloaded, built in a folder."""
    file = Path(folder) / "known.so"
    done = subprocess.run([*compiler(), "-O1", "-shared", "-fPIC", "-nostdlib", "-o", file, SOURCE],
                          stderr=subprocess.PIPE, text=True, check=False)
    if done.returncode != 0:
        raise SystemExit(f"{SOURCE.name} cannot be built: {done.stderr}")
    return file


class Known:
    """What is known to a program, and what it did: `environment` is that of its process."""

    def __init__(self, folder, seed=None, clock=None, speed=None, moment=None, preloaded=None):
        """`preloaded` is the library, if it is built already."""
        self.log = Path(folder) / "log"
        told = {"ENTROPY": seed and seed.hex(), "CLOCK": clock, "SPEED": speed, "MOMENT": moment, "LOG": self.log}
        self.environment = {**os.environ, "LD_PRELOAD": str(preloaded or library(folder)),
                            **{f"KNOWN_{name}": str(value) for name, value in told.items() if value is not None}}

    def records(self, first=0):
        """What the program did so far, from this record on, in its order: what kind of deed, the port of the peer, and
        how many bytes, or the second that was told."""
        with open(self.log, "rb") as log:
            log.seek(first * RECORD.size)
            return list(RECORD.iter_unpack(log.read()))
