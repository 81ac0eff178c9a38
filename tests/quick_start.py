#!/usr/bin/env python3
"""Types the quick start of README.md in a folder, and compares what the commands print with what the page shows. Then
it types how SERVE.md makes a token for an app, and hands on the password that this token can read, as CLIENT.md does.

usage: tests/quick_start.py FOLDER

The first command of the section "Run it" is started, and stopped by Ctrl-C at the end and started once more; the other
commands of the shell are run as they stand, but for the port, which is a free one, and the token, which is the one that
was printed. In what the page shows, `..` is any text, and a time is any time. The last line is 'N passed, M failed'.
"""

import os
import re
import select
import signal
import subprocess
import sys
from pathlib import Path

TOP = Path(__file__).resolve().parent.parent
sys.path.insert(0, str(TOP / "tests/served"))
import broker  # noqa: E402

PORT = "8200"
TOKEN = re.compile(r"hvs\.[0-9a-f-]{36}")
TIME = re.compile(r"\d{4}-\d\d-\d\dT\d\d\\:\d\d\\:\d\dZ|\d{4}\\-\d\d\\-\d\dT\d\d:\d\d:\d\dZ")
IDENTIFIER = re.compile(r"[0-9a-f]{8}(?:\\?-[0-9a-f]{4}){3}\\?-[0-9a-f]{12}")
BLOCK = re.compile(r"(?:^    .*\n)+", re.MULTILINE)
COMMANDS = ("bin/", "curl ", "export ")
SHOWN = re.compile(r"    (?:\{|root token: |\w+$)")
PASSWORD = "correct horse"
SECONDS = 30


def steps():
    """The commands of the section, each with the lines that it prints, in order."""
    text = (TOP / "README.md").read_text(encoding="utf-8")
    section = re.search(r"^## Run it\n(.*?)^## ", text, re.MULTILINE | re.DOTALL)[1]
    found = []
    for line in section.splitlines():
        is_command = line.startswith("    ") and line.strip().startswith(COMMANDS)
        if is_command and not line.split()[0].endswith(":"):
            found.append((line.strip(), []))
        elif SHOWN.match(line):
            found[-1][1].append(line.strip())
    return found


def pattern_of(shown):
    """What a shown line allows."""
    pattern = ".*".join(re.escape(part.strip()) for part in re.split(r"\s\.\.\s", shown))
    return IDENTIFIER.sub("[0-9a-f-]{36}", TIME.sub(r"[0-9TZ:-]+", pattern))


def heed_interrupts():
    """A shell lets what it runs in the background ignore SIGINT."""
    signal.signal(signal.SIGINT, signal.SIG_DFL)


class Broker:
    """The program that the first command starts."""

    def __init__(self, command, folder):
        self.ran = subprocess.Popen(["bash", "-c", f"exec {command}"], cwd=folder, stdin=subprocess.DEVNULL,
                                    stdout=subprocess.PIPE, stderr=subprocess.PIPE, text=True,
                                    preexec_fn=heed_interrupts)

    def line(self):
        """The next line of its standard output."""
        ready, _, _ = select.select([self.ran.stdout], [], [], SECONDS)
        return self.ran.stdout.readline().strip() if ready else ""

    def stop(self):
        self.ran.send_signal(signal.SIGINT)
        self.ran.wait(SECONDS)


def run(command, folder, token, port):
    """What a shell prints for a command, after the exports of the page."""
    exports = f"export VAULT_ADDR=http://127.0.0.1:{port} VAULT_TOKEN={token}; "
    done = subprocess.run(["bash", "-c", exports + command], cwd=folder, stdin=subprocess.DEVNULL, capture_output=True,
                          text=True, timeout=SECONDS, check=False)
    return done.stdout.strip() if done.returncode == 0 else f"status {done.returncode}: {done.stderr.strip()}"


def section(page, title):
    """The commands of a section, each with the lines that it prints, if any are shown, and its status. Lines that are
    shown without a command are what the last one prints the next time, when it fails. A loop is left out, and so is
    what names an identifier of the page."""
    text = (TOP / page).read_text(encoding="utf-8").partition(f"\n## {title}\n")[2].partition("\n## ")[0]
    for block in BLOCK.findall(text):
        lines = [line[4:] for line in block.splitlines()]
        shown = [line for line in lines if line.startswith("{")]
        command = "\n".join(line for line in lines if line not in shown)
        if not command.startswith("while ") and not IDENTIFIER.search(command):
            last = command or last
            yield last, shown, 0 if command else 1


def typed(page, title, folder, token, port, compare):
    """Types a section in one shell, and answers what each command printed."""
    commands = list(section(page, title))
    if len(commands) < 3:
        raise SystemExit(f"{page} has few commands in {title}")
    exports = f"export VAULT_ADDR=http://127.0.0.1:{port} VAULT_TOKEN={token}\n"
    script = "".join(f"{command}\nprintf '\\036%s\\036' $?\n" for command, _, _ in commands)
    done = subprocess.run(["bash"], cwd=folder, input=exports + script, capture_output=True, text=True, timeout=SECONDS,
                          check=False)
    *said, _ = done.stdout.split("\036")
    for (command, shown, status), printed, found in zip(commands, said[::2], said[1::2]):
        compare(f"{page}, the status of {command}", found, str(status))
        if shown:
            compare(f"{page}, {command}", printed.strip(), "\n".join(shown))
    compare(f"{page}, its commands", str(len(said) // 2), str(len(commands)))
    return said[::2]


def hand_on(folder, token, port, compare):
    """Makes a token for an app, and hands on a password with it."""
    typed("docs/SERVE.md", "Tokens for apps", folder, token, port, compare)
    made = [folder / "app-token", folder / "service-token"]
    app = made[0].read_text(encoding="ascii").strip()
    run(f"printf %s '{PASSWORD}' | bin/client kv put secret/app user=app password=-", folder, token, port)
    command = "PATH=$PWD/bin:$PATH examples/once.sh secret/app sh -c 'echo \"$PASSWORD\"'"
    compare(command, run(command, folder, app, port), PASSWORD)
    for file in made:
        file.unlink()


def main():
    folder = Path(sys.argv[1])
    first, *others = steps()
    port = str(broker.free_port())
    results = []

    def compare(name, found, shown):
        well = re.fullmatch(pattern_of(shown), found) is not None
        results.append(well)
        if not well:
            print(f"quick start, {name}: {found[:300]} in place of {shown}")

    server = Broker(first[0].replace(PORT, port), folder)
    said = server.line()
    compare("start", TOKEN.sub("TOKEN", said), TOKEN.sub("TOKEN", first[1][0]))
    token = (TOKEN.findall(said) or [""])[0]
    broker.connect(int(port)).close()
    asked = [(command, shown) for command, shown in others if not command.startswith("export ")]
    for command, shown in asked:
        compare(command, run(command.replace(PORT, port), folder, token, port), "\n".join(shown))
    hand_on(folder, token, port, compare)
    server.stop()
    server = Broker(first[0].replace(PORT, port), folder)
    broker.connect(int(port)).close()
    command, shown = asked[-1]
    compare(f"after a restart, {command}", run(command.replace(PORT, port), folder, token, port), "\n".join(shown))
    server.stop()
    compare("the restart prints no token", server.ran.stdout.read(), "")
    is_whole = len(asked) >= 2 and all(shown for _, shown in asked)
    if not is_whole:
        print("quick start: the page lacks commands, or what they print")
    results.append(is_whole)
    print(f"{sum(results)} passed, {len(results) - sum(results)} failed")
    return 0 if all(results) else 1


if __name__ == "__main__":
    os.environ.pop("VAULT_ADDR", None)
    os.environ.pop("VAULT_TOKEN", None)
    sys.exit(main())
