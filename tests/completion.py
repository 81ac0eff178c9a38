#!/usr/bin/env python3
"""Types command lines of `client` in an interactive bash that has read a file with its completion, and looks at the
words that the program is called with.

    python3 tests/completion.py FILE

A tab completes what stands before it, if there is one way to. The last line is 'N passed, M failed'.
"""

import os
import pty
import re
import select
import subprocess
import sys
import tempfile
import time
from pathlib import Path

SECONDS = 20
PROGRAM = "#!/bin/sh\nfor word; do printf '<%s>' \"$word\"; done\necho '|'\n"
CALL = re.compile(r"((?:<[^<>]*>)*)\|\r?\n")

# What is typed, and the words that the program has.
CASES = (
    ("client rea\ta", "read a"),
    ("client unw\t", "unwrap"),
    ("client k\tp\tsecret/a a=b", "kv put secret/a a=b"),
    ("client tok\tcr\t--po\tapp", "token create --policy app"),
    ("client lea\tren\t1 --inc\t1h", "lease renew 1 --increment 1h"),
    ("client kv get a/b --vers\t2", "kv get a/b --version 2"),
    ("client read a --vers\t2", "read a --vers2"),
    ("client --field x --timeout=5 --exit-codes pol\tli\t", "--field x --timeout=5 --exit-codes policy list"),
    ("client -field x kv li\ta", "-field x kv list a"),
    ("client --field re\t", "--field re"),
    ("client --to\tx", "--token-file x"),
    ("client --token-file sec\t", "--token-file secret.json"),
    ("client --token-file=sec\t", "--token-file=secret.json"),
    ("client kv put a/b c=d p=@sec\t", "kv put a/b c=d p=@secret.json"),
    ("client write a @fold\tin\t", "write a @folder/inner"),
    ("client write a p=@folder/i\t", "write a p=@folder/inner"),
    ("client kv put a/b p=@te\t", "kv put a/b p=@text of two words"),
    ("client policy write app sec\t", "policy write app secret.json"),
    ("client policy write app fo\tin\t", "policy write app folder/inner"),
    ("client policy write sec\t", "policy write sec"),
    ("client read sec\t", "read sec"),
    ("client kv put a/b p=sec\t", "kv put a/b p=sec"),
    ("dehluvima-client tok\tloo\t--acc\t1", "token lookup --accessor 1"),
    ("bin/client kv del\ta/b", "kv delete a/b"),
)


class Bash:
    """An interactive shell on a terminal, in a folder."""

    def __init__(self, folder):
        ours, theirs = pty.openpty()
        variables = {"PATH": f"{folder}/bin:{os.environ['PATH']}", "HOME": str(folder), "TERM": "dumb", "PS1": "",
                     "INPUTRC": "/dev/null", "LC_ALL": "C.UTF-8", "HISTFILE": ""}
        self.process = subprocess.Popen(["bash", "--noprofile", "--norc", "-i"], cwd=folder, env=variables,
                                        stdin=theirs, stdout=theirs, stderr=theirs, start_new_session=True)
        os.close(theirs)
        self.terminal, self.said = ours, ""

    def type(self, text):
        os.write(self.terminal, text.encode())

    def call(self, text):
        """The words of the call that a line makes."""
        self.said = ""
        self.type(f"{text}\n")
        until = time.monotonic() + SECONDS
        while not CALL.search(self.said) and time.monotonic() < until:
            if select.select([self.terminal], [], [], 0.1)[0]:
                self.said += os.read(self.terminal, 65536).decode(errors="replace")
        found = CALL.search(self.said)
        return " ".join(re.findall("<([^<>]*)>", found[1])) if found else f"no call: {self.said!r}"

    def end(self):
        self.process.kill()
        self.process.wait()
        os.close(self.terminal)


def make_folder(folder):
    """A folder with programs that tell their words, and with files."""
    for path in ("bin", "folder"):
        (folder / path).mkdir()
    for name in ("client", "dehluvima-client"):
        (folder / "bin" / name).write_text(PROGRAM, encoding="ascii")
        (folder / "bin" / name).chmod(0o755)
    for name in ("secret.json", "text of two words", "folder/inner"):
        (folder / name).write_text("", encoding="ascii")


def main():
    file, failed = Path(sys.argv[1]).resolve(), 0
    with tempfile.TemporaryDirectory() as folder:
        make_folder(Path(folder))
        bash = Bash(folder)
        try:
            bash.type(f". {file}\n")
            for typed, wanted in CASES:
                found = bash.call(typed)
                if found != wanted:
                    failed += 1
                    print(f"completion, {typed!r}: {found} in place of {wanted}")
        finally:
            bash.end()
    print(f"{len(CASES) - failed} passed, {failed} failed")
    return failed > 0


if __name__ == "__main__":
    sys.exit(main())
