#!/usr/bin/env python3
"""`dehluvima-run` turns SIGTERM, SIGINT and SIGHUP into the stop of `brokerd serve` that loses no reply.

    python3 tests/served/signalled.py PROGRAM

Requests of 64 clients are on their way when a signal comes, and comes again: to the script; to all processes, as from a
terminal; to what the unit of examples/ starts; and to what the Containerfile there starts, as the first process of a
namespace. The replies and the file have to be as in stopping.py. Other cases: other shells, and the script within the
script, as in a checkout; a signal while it starts; a program that ends by itself. What is not installed, or not
permitted, is skipped and told. The last line is 'N passed, M failed'.
"""

import contextlib
import json
import os
import re
import shlex
import shutil
import signal
import subprocess
import sys
import tempfile
import time
from pathlib import Path

from broker import Broker, fault_in
from cases import between, expect, report, tried
from stopping import in_flight, served

TOP = Path(__file__).resolve().parent.parent.parent
SCRIPT = str(TOP / "bin/dehluvima-run")
SIGNALS = (signal.SIGTERM, signal.SIGINT, signal.SIGHUP)
MANY = {"clients": 64, "requests": 25}
FEW = {"clients": 8, "requests": 125}
MOMENTS = 15  # of a start
SHELLS = (("dash",), ("bash", "--posix"), ("busybox", "sh"))
LARGE = 22  # secrets of a million bytes, with which the opening of a file is told


def heed_signals():
    """A shell lets what it runs in the background ignore SIGINT, and `nohup` lets it ignore SIGHUP."""
    for number in SIGNALS:
        signal.signal(number, signal.SIG_DFL)


def to_the_script(process, number):
    process.send_signal(number)


def to_all(process, number):
    os.killpg(process.pid, number)


def children(process_id):
    return [int(word) for word in Path(f"/proc/{process_id}/task/{process_id}/children").read_text("ascii").split()]


def to_the_first(process, number):
    """To the first process of the namespace, which `unshare` waits for."""
    for first in children(process.pid):
        os.kill(first, number)


def again_and_again(number, send):
    """Sends a signal twice at once, and once more when the stop goes on, or is over."""
    def stop(process):
        for pause in (0, 0, 0.02):
            time.sleep(pause)
            with contextlib.suppress(ProcessLookupError, FileNotFoundError):
                send(process, number)
    return stop


def signalled(program, number, start, send=to_the_script, **how):
    how = {**MANY, "stdin": subprocess.DEVNULL, "preexec_fn": heed_signals, **how}
    return in_flight(program, again_and_again(number, send), start, **how)


def by_script(program, *before):
    """How the script starts the program, with words before it."""
    return lambda folder, port: [*before, SCRIPT, *served(program)(folder, port)]


def sigterm(program):
    return signalled(program, signal.SIGTERM, by_script(program))


def sigint(program):
    return signalled(program, signal.SIGINT, by_script(program))


def sighup(program):
    return signalled(program, signal.SIGHUP, by_script(program))


def from_a_terminal(program):
    """Ctrl-C, and the end of the terminal, are sent to all processes, the program too."""
    return "; ".join(signalled(program, number, by_script(program), to_all, start_new_session=True)
                     for number in (signal.SIGINT, signal.SIGHUP))


def put_by(_, folder):
    """The root token, which the first start puts into a file."""
    file, until = Path(folder) / "root-token", time.monotonic() + 20
    while not (file.exists() and file.read_text(encoding="ascii").endswith("\n")):
        expect(time.monotonic() < until, "no root token was put by")
        time.sleep(0.01)
    expect(file.stat().st_mode & 0o77 == 0, "others can read the root token")
    return file.read_text(encoding="ascii").split()[-1]


def by_the_unit(program):
    """The command of the unit, with other paths and another port, is stopped by SIGTERM, as systemd does it."""
    unit = (TOP / "examples/dehluvima.service").read_text(encoding="utf-8").replace("\\\n", "")
    settings = dict(re.findall(r"^(\w+)=(.*)$", unit, re.MULTILINE))
    expect("ExecStop" not in settings and settings["KillMode"] == "mixed", "the unit is stopped otherwise")

    def start(folder, port):
        words = settings["ExecStart"]
        for old, new in (("/usr/local/bin/brokerd", str(Path(program).resolve())),
                         ("/usr/local/bin/dehluvima-run", SCRIPT), ("/var/lib/dehluvima", folder),
                         ("127.0.0.1:8200", f"127.0.0.1:{port}")):
            expect(old in words, f"the unit lacks {old}")
            words = words.replace(old, new)
        return shlex.split(words)

    return signalled(program, signal.SIGTERM, start, token_of=put_by, umask=int(settings["UMask"], 8))


def namespace():
    """The words that make a command the first process of a namespace, or None."""
    for more in ((), ("--map-root-user",)):
        words = ["unshare", *more, "--pid", "--fork", "--mount-proc", "--kill-child"]
        if shutil.which("unshare") and subprocess.run([*words, "true"], capture_output=True).returncode == 0:
            return words
    return None


def in_a_container(program):
    """The command of the Containerfile, on another port and in another folder."""
    text = (TOP / "examples/Containerfile").read_text(encoding="utf-8").replace("\\\n", "")
    command = [word for name in ("ENTRYPOINT", "CMD")
               for word in json.loads(re.search(rf"^{name} (\[.*\])$", text, re.MULTILINE)[1])]
    expect("0.0.0.0:8200" in command, "the container listens on another address")

    def start(folder, port):
        tools = Path(folder) / "bin"
        tools.mkdir()
        (tools / "brokerd").symlink_to(Path(program).resolve())
        (tools / "dehluvima-run").symlink_to(SCRIPT)
        words = [word.replace("0.0.0.0:8200", f"127.0.0.1:{port}") for word in command]
        return [*namespace(), "env", "--chdir", folder, f"PATH={tools}:{os.environ['PATH']}", *words]

    return signalled(program, signal.SIGTERM, start, to_the_first, token_of=put_by)


def as_the_first_process(program):
    """There the other signals do the same, and processes that others have left are reaped."""
    words = namespace()
    met = "; ".join(signalled(program, number, by_script(program, *words), to_the_first)
                    for number in (signal.SIGINT, signal.SIGHUP))
    leaving = ["sh", "-c", '(sleep 0.1 & sleep 0.2 &); exec "$@"', "sh"]
    command = [*words, SCRIPT, *leaving, program, "serve", "--listen", "127.0.0.1:0", "--stop-on-input"]
    with subprocess.Popen(command, stdout=subprocess.PIPE, preexec_fn=heed_signals) as process:
        try:
            process.stdout.readline()
            first, until = children(process.pid)[0], time.monotonic() + 20
            while len(children(first)) != 1:
                expect(time.monotonic() < until, f"it has {len(children(first))} children")
                time.sleep(0.05)
            to_the_first(process, signal.SIGTERM)
            expect(process.wait(20) == 0, f"the status is {process.returncode}")
        finally:
            process.kill()
    return met


def other_shells(program):
    found = [words for words in SHELLS if shutil.which(words[0])]
    for words in found:
        signalled(program, signal.SIGTERM, by_script(program, *words), **FEW)
    return ", ".join(words[0] for words in found)


def within_itself(program):
    return signalled(program, signal.SIGTERM, by_script(program, SCRIPT), **FEW)


def ended(words, folder, number=None, seconds=0.0, send=to_the_script):
    """The status of the script, and what it has printed and told. A signal is sent to it after so many seconds. It
    leaves no process, which would have its standard output, and, but where all got the signal, no temporary file."""
    room = Path(folder) / "room"
    room.mkdir()
    with subprocess.Popen([SCRIPT, *words], stdin=subprocess.DEVNULL, stdout=subprocess.PIPE, stderr=subprocess.PIPE,
                          text=True, env={**os.environ, "TMPDIR": str(room)}, preexec_fn=heed_signals,
                          start_new_session=True) as process:
        try:
            if number:
                time.sleep(seconds)
                send(process, number)
            output, told = process.communicate(timeout=20)
        finally:
            process.kill()
    expect(send is to_all or not os.listdir(room), f"it leaves {os.listdir(room)}")
    shutil.rmtree(room)
    return process.returncode, output, told


def while_it_starts(program):
    """A signal at any moment of a start is heeded, or ends the script before it has begun."""
    met = 0
    for turn in range(MOMENTS * len(SIGNALS)):
        number, send = SIGNALS[turn % 3], (to_the_script, to_all)[turn % 2]
        with tempfile.TemporaryDirectory() as folder:
            words = served(program)(folder, 0)
            status, output, told = ended(words, folder, number, turn // 3 * 0.003, send)
        is_heeded = status == 0 and (not told or send is to_all)
        is_early = not output and status in ((-number, 128 + number, 1) if send is to_all else (-number,))
        expect(is_heeded or is_early, f"{number.name} in turn {turn}: the status {status}, {output!r}, {told!r}")
        met += status == 0
    expect(met >= MOMENTS, f"{met} were heeded")
    return f"{met} of {MOMENTS * len(SIGNALS)} signals were heeded"


def while_it_opens(program):
    """A signal while a large file is opened: the program ends once it has read it."""
    with tempfile.TemporaryDirectory() as folder:
        file = f"{folder}/broker.db"
        with Broker(program, "--db", file) as broker:
            for place in range(LARGE):
                status, _ = broker.ask("POST", f"secret/data/{place}", '{"data":{"a":"%s"}}' % ("x" * 1_000_000))
                expect(status == 200, f"a write is answered {status}")
        with subprocess.Popen([SCRIPT, *served(program)(folder, 0)], stdin=subprocess.DEVNULL, stdout=subprocess.PIPE,
                              stderr=subprocess.PIPE, text=True, preexec_fn=heed_signals) as process:
            try:
                said = process.stderr.readline()
                process.send_signal(signal.SIGTERM)
                rest = process.communicate(timeout=60)
            finally:
                process.kill()
    expect(said.startswith("opening "), f"it says {said!r}")
    expect((process.returncode, *rest) == (0, "", ""), f"the status is {process.returncode}, and it says {rest}")
    return said.strip().rpartition(": ")[2]


def by_itself(program):
    """The script ends with the status of the program."""
    serve = [program, "serve", "--listen", "127.0.0.1:0", "--stop-on-input"]
    with tempfile.TemporaryDirectory() as folder:
        status, output, told = ended([*serve, "--nonsense"], folder)
        expect((status, output) == (2, "") and "--nonsense" in told, f"a wrong option: {status}, {told}")
        status, output, told = ended([program, "serve", "--listen", "nowhere", "--stop-on-input"], folder)
        expect((status, fault_in(told)) == (1, "fault 5"), f"a fault: {status}, {told}")
        status, output, told = ended([f"{folder}/brokerd", "--stop-on-input"], folder)
        expect((status, output) == (127, ""), f"no program: {status}, {told}")
        status, output, told = ended(serve[:-1], folder)
        expect((status, output) == (2, "") and told.startswith("usage: dehluvima-run "), f"no option: {status}, {told}")
    return "a wrong option, a fault, no program, and no option"


def killed(program):
    """If the program is killed the script ends at once; if the script is, the program does what it has begun."""
    words = [SCRIPT, program, "serve", "--listen", "127.0.0.1:0", "--stop-on-input"]
    for is_program in (True, False):
        with subprocess.Popen(words, stdout=subprocess.PIPE, stderr=subprocess.PIPE) as process:
            try:
                process.stdout.readline()
                begin = time.monotonic()
                os.kill(children(process.pid)[0] if is_program else process.pid, signal.SIGKILL)
                rest = process.communicate(timeout=20)
                between(0, time.monotonic() - begin, 2, "they end")
            finally:
                process.kill()
        wanted = 128 + signal.SIGKILL if is_program else -signal.SIGKILL
        expect(process.returncode == wanted, f"the status is {process.returncode}: {rest}")
    return "no process is left"


def main():
    program = sys.argv[1]
    cases = [sigterm, sigint, sighup, from_a_terminal, by_the_unit, other_shells, within_itself, while_it_starts,
             while_it_opens, by_itself, killed]
    if namespace():
        cases += [in_a_container, as_the_first_process]
    else:
        print("signalled, as the first process: no namespace can be made by unshare, not tried")
    return report("signalled", [(case, tried(case, program)) for case in cases])


if __name__ == "__main__":
    sys.exit(main())
