#!/usr/bin/env python3
"""Runs the scripts of examples/ that call `client`, which docs/CLIENT.md links, against a running `brokerd serve`.

    python3 tests/served/client_scripts.py PROGRAM

PROGRAM is `brokerd`; CLIENT names another client. On the PATH are a shell and a few tools, and neither jq nor Python.
Each script is run as its user would, and where it has to notice something: a response that was taken or is another's, a
token that has ended, a secret that was changed meanwhile. No command line of `client` has a token or a password. The
last line is 'N passed, M failed'.
"""

import os
import re
import shutil
import signal
import subprocess
import sys
import tempfile
import time
from pathlib import Path

from broker import Broker
from calling import TOP, Checks, Client, client_program

SCRIPTS = ("once.sh", "agent.sh", "rotate.sh", "leaked.sh")
PAGE = TOP / "docs/CLIENT.md"
MOST_LINES = 10
TOOLS = ("sh", "cat", "rm", "head", "base64", "env", "sleep")
SECONDS = 30
POLICY = '{"path": {"secret/data/app": {"capabilities": ["read"]}}}'
PASSWORD = "correct horse"

# What the scripts call: it takes down its process and its words, and before a call that begins with certain words it
# does something else.
CLIENT = """#!/bin/sh
echo "$$ $*" >> {folder}/calls
case "$*" in
    "{words}"*) {first} ;;
esac
exec {program} "$@"
"""


def heed_interrupts():
    """What a shell runs in the background may have been told to ignore SIGINT."""
    signal.signal(signal.SIGINT, signal.SIG_DFL)


def runs(process):
    """Whether a process runs; one that has ended may still be listed."""
    try:
        return Path(f"/proc/{process}/stat").read_text(encoding="ascii").rpartition(")")[2].split()[0] != "Z"
    except OSError:
        return False


class Tried(Checks):
    """A broker, the scripts, and a folder that they run in."""

    def __init__(self, folder, broker, program):
        super().__init__("client scripts")
        self.folder, self.program = folder, program
        self.url = f"http://127.0.0.1:{broker.port}"
        self.client = Client(program, folder, VAULT_ADDR=self.url, VAULT_TOKEN=broker.token)
        self.root, self.known = broker.token, ["hvs.", PASSWORD]
        (folder / "tools").mkdir()
        for tool in TOOLS:
            (folder / "tools" / tool).symlink_to(shutil.which(tool))
        self.on_call()

    def on_call(self, words="nothing", first=":"):
        """From here on a call of the client that begins with these words does something else first."""
        text = CLIENT.format(folder=self.folder, words=words, first=first, program=self.program)
        self.client.file("tools/client", text, 0o755)

    def ask(self, *words, **more):
        """What the client prints, without its LF."""
        said = self.client(*words, **more)
        self.holds(" ".join(words), said.status == 0, str(said))
        return said.out.decode().removesuffix("\n")

    def start(self, script, *words, **variables):
        """A script that runs, in a session of its own."""
        given = {"PATH": str(self.folder / "tools"), "VAULT_ADDR": self.url, "VAULT_TOKEN": self.root, **variables}
        given = {name: value for name, value in given.items() if value is not None}
        return subprocess.Popen([TOP / "examples" / script, *words], cwd=self.folder, env=given, text=True,
                                start_new_session=True, stdout=subprocess.PIPE, stderr=subprocess.PIPE,
                                preexec_fn=heed_interrupts)

    def run(self, script, *words, **variables):
        """The status of a script, and what it prints on both streams."""
        with self.start(script, *words, **variables) as process:
            out, err = process.communicate(timeout=SECONDS)
        return process.returncode, out, err

    def ends(self, what, found, status, out, err=""):
        """A script has ended so: its output is what patterns allow."""
        is_right = found[0] == status and re.fullmatch(out, found[1]) and re.fullmatch(err, found[2])
        self.holds(what, is_right, f"{found} in place of {(status, out, err)}")

    def calls(self):
        """The processes of the client and their words, so far."""
        lines = (self.folder / "calls").read_text(encoding="utf-8").splitlines()
        return [(int(process), words) for process, _, words in (line.partition(" ") for line in lines)]

    def put(self, *members, path="secret/app"):
        self.ask("kv", "put", path, *members)


def pages(tried):
    """The page links each script; they are short."""
    linked = re.findall(r"\]\(\.\./examples/(\w+\.sh)\)", PAGE.read_text(encoding="utf-8"))
    tried.same("the scripts of the page", linked, list(SCRIPTS))
    scripts = [(TOP / "examples" / name).read_text(encoding="utf-8") for name in SCRIPTS]
    for name, script in zip(SCRIPTS, scripts):
        lines = script.splitlines()
        head = next(place for place, line in enumerate(lines) if not line.startswith("#"))
        tried.holds(f"the lines of {name}", 0 < head and len(lines) - head <= MOST_LINES, f"{len(lines) - head} lines")
        named = re.findall(r"^#.*?: (\S+\.sh)", script, re.MULTILINE)
        tried.same(f"the usage of {name}", named, [name])


def once(tried):
    """The app has the password, and no token."""
    tried.put("user=app", f"password={PASSWORD}")
    app = ("secret/app", "sh", "-c", 'echo "$PASSWORD, ${VAULT_TOKEN-none}, $*"', "sh", "a  b")
    tried.ends("once.sh", tried.run("once.sh", *app), 0, f"{PASSWORD}, none, a  b\n")
    tried.holds("its file", not (tried.folder / "wrapping-token").exists(), "it is left")
    refused = "client: 400 wrapping token is not valid or does not exist\n"
    tried.on_call("unwrap", f"{tried.program} unwrap > {tried.folder}/stolen")
    tried.ends("once.sh, too late", tried.run("once.sh", *app), 1, "", refused)
    tried.holds("what was stolen", PASSWORD in (tried.folder / "stolen").read_text(encoding="utf-8"), "no password")
    tried.ask("write", "cubbyhole/a", "a=b")
    by_root = f"VAULT_TOKEN={tried.root} {tried.program}"
    tried.on_call("write sys/wrapping", f"VAULT_TOKEN=$({by_root} --wrap-ttl 5m read cubbyhole/a --field token)")
    other = tried.run("once.sh", *app)
    tried.ends("once.sh, of something else", other, 1, "", r".*/once\.sh: what is wrapped is cubbyhole/a\n")
    tried.on_call()
    none = tried.run("once.sh", "secret/none", *app[1:])
    tried.ends("once.sh, of no secret", none, 1, "", "client: 404 .*\n")
    stranger = tried.run("once.sh", *app, VAULT_TOKEN="hvs.none")
    tried.ends("once.sh, of a stranger", stranger, 1, "", "client: 403 permission denied\n")


def keepers(tried):
    """The processes that keep a token, and run."""
    found = [process for process, words in tried.calls() if words == "token renew --keep"]
    return [it for it in found if runs(it)]


def none_is_left(tried, what):
    """No process that keeps a token runs on."""
    until = time.monotonic() + 5
    while keepers(tried) and time.monotonic() < until:
        time.sleep(0.05)
    tried.same(f"what is left of {what}", keepers(tried), [])


def agent(tried):
    """The program has a token that is renewed; the second start makes none."""
    tried.client.file("app.json", POLICY)
    tried.ask("policy", "write", "app", "app.json")
    program = ("sh", "-c", 'client kv get secret/app --field user; echo "${VAULT_TOKEN-none}"; sleep 1; exit 7')
    for variables in ({}, {"VAULT_TOKEN": None}):
        tried.ends(f"agent.sh {variables}", tried.run("agent.sh", *program, **variables), 7, "app\nnone\n")
        none_is_left(tried, "agent.sh")
    file = tried.folder / "app-token"
    tried.same("the mode of its file", f"{file.stat().st_mode & 0o777:o}", "600")
    token = file.read_text(encoding="ascii").strip()
    tried.same("its token", tried.ask("token", "lookup", "--field", "orphan", VAULT_TOKEN=token), "true")
    tried.same("its period", tried.ask("token", "lookup", "--field", "period", VAULT_TOKEN=token), "86400")
    made = [words for _, words in tried.calls() if words.startswith("token create")]
    tried.same("the tokens that were made", len(made), 1)
    stopped(tried)
    tried.ask("token", "revoke", VAULT_TOKEN=token)
    ended = tried.run("agent.sh", *program, VAULT_TOKEN=None)
    tried.ends("agent.sh, whose token has ended", ended, 1, "", "client: 403 permission denied\n")
    file.unlink()
    stranger = tried.run("agent.sh", *program, VAULT_TOKEN="hvs.none")
    tried.ends("agent.sh, of a stranger", stranger, 1, "", "client: 403 permission denied\n")
    tried.ends("agent.sh, started again", tried.run("agent.sh", "true"), 0, "")


def stopped(tried):
    """A signal ends the script, and what renews its token."""
    for number in (signal.SIGINT, signal.SIGTERM):
        process = tried.start("agent.sh", "sleep", "20")
        until = time.monotonic() + 10
        while not keepers(tried) and time.monotonic() < until:
            time.sleep(0.05)
        tried.holds(f"agent.sh, before signal {number}", keepers(tried), "nothing renews its token")
        time.sleep(0.3)
        os.killpg(process.pid, number)
        process.communicate(timeout=SECONDS)
        tried.holds(f"agent.sh, after signal {number}", process.returncode != 0, "its status is 0")
        none_is_left(tried, f"agent.sh after signal {number}")


def rotate(tried):
    """The secret and the command get the same password; whoever comes later changes nothing."""
    tried.put("user=db", f"password={PASSWORD}", path="secret/db")
    command = ("secret/db", "sh", "-c", 'cat > "$1"', "sh", "set")
    tried.ends("rotate.sh", tried.run("rotate.sh", *command), 0, "2\n")
    password = (tried.folder / "set").read_text(encoding="ascii").removesuffix("\n")
    tried.holds("the new password", re.fullmatch(r"[A-Za-z0-9+/]{32}", password), password)
    tried.known.append(password)
    tried.same("that of the secret", tried.ask("kv", "get", "secret/db", "--field", "password"), password)
    tried.same("its other member", tried.ask("kv", "get", "secret/db", "--field", "user"), "db")
    before = tried.ask("kv", "get", "secret/db", "--version", "1", "--field", "password")
    tried.same("the password before", before, PASSWORD)
    (tried.folder / "set").unlink()
    tried.on_call("kv put", f"{tried.program} kv put secret/db user=db password=other > /dev/null")
    lost = "client: 400 check-and-set parameter did not match the current version\n"
    tried.ends("rotate.sh, too late", tried.run("rotate.sh", *command), 1, "", lost)
    tried.holds("its command", not (tried.folder / "set").exists(), "it was run")
    tried.same("the secret", tried.ask("kv", "get", "secret/db", "--field", "password"), "other")
    tried.on_call()
    failed = tried.run("rotate.sh", "secret/db", "sh", "-c", "exit 3")
    tried.ends("rotate.sh, whose command fails", failed, 3, "4\n")
    tried.ends("rotate.sh, of no secret", tried.run("rotate.sh", "secret/none", "true"), 1, "", "client: 404 .*\n")


def leaked(tried):
    """What a token has made is ended, but for orphans, which are listed, and for responses."""
    tried.ask("write", "sys/mounts/db", "type=issued")
    tried.ask("write", "db/roles/app", "ttl=1h")
    before = tried.ask("token", "create", "--orphan", "--policy", "app", "--field", "accessor")
    time.sleep(1.1)
    token = tried.ask("token", "create", "--policy", "root", "--ttl", "1h", "--field", "client_token")
    by = {"VAULT_TOKEN": token}
    accessor = tried.ask("token", "lookup", "--field", "accessor", **by)
    child = tried.ask("token", "create", "--policy", "app", "--field", "accessor", **by)
    orphan = tried.ask("token", "create", "--orphan", "--policy", "app", "--field", "accessor", **by)
    credential = tried.ask("read", "db/creds/app", "--field", "credential", **by)
    response = tried.ask("--wrap-ttl", "5m", "kv", "get", "secret/app", "--field", "wrap_info.token", **by)
    tried.ask("write", "cubbyhole/a", "a=b", **by)
    found = tried.run("leaked.sh", accessor)
    tried.ends("leaked.sh", found, 0, rf"not ended, since they are orphans:\n{orphan}  app,default  20\S+Z\n")
    tried.holds("an orphan before", before not in found[1], found[1])
    for one, is_there in ((accessor, False), (child, False), (orphan, True), (before, True)):
        said = tried.client("token", "lookup", "--accessor", one)
        tried.same(f"a token is there: {is_there}", said.status == 0, is_there)
    valid = tried.ask("write", "db/verify", f"credential={credential}", "--field", "valid")
    tried.same("the credential", valid, "false")
    tried.same("the response", tried.ask("unwrap", "--field", "user", VAULT_TOKEN=response), "app")
    again = tried.run("leaked.sh", accessor)
    tried.ends("leaked.sh, once more", again, 1, "", "client: 400 invalid accessor\n")


def root(tried):
    """The commands of the page for a root token that leaked: its children stay."""
    block = re.search(r"(?:^    .*\n)*^    .*revoke-orphan.*\n", PAGE.read_text(encoding="utf-8"), re.MULTILINE)
    child = tried.ask("token", "create", "--policy", "app", "--field", "client_token")
    variables = {"PATH": str(tried.folder / "tools"), "VAULT_ADDR": tried.url, "VAULT_TOKEN": tried.root}
    done = subprocess.run(["sh", "-e"], input=block[0], cwd=tried.folder, env=variables, capture_output=True, text=True,
                          timeout=SECONDS, check=False)
    tried.same("the commands", (done.returncode, done.stdout, done.stderr), (0, "", ""))
    tried.same("the old root token", tried.client("token", "lookup").err, b"client: 403 permission denied\n")
    tried.ask("kv", "get", "secret/app", VAULT_TOKEN=child)
    tried.root = (tried.folder / "new-root").read_text(encoding="ascii").strip()
    tried.client.variables["VAULT_TOKEN"] = tried.root
    tried.same("the new one", tried.ask("token", "lookup", "--field", "policies"), '["root"]')
    tried.same("the mode of its file", f"{(tried.folder / 'new-root').stat().st_mode & 0o777:o}", "600")


def command_lines(tried):
    """What other users of the machine see."""
    calls = [words for _, words in tried.calls()]
    tried.holds("the calls", len(calls) > 30, f"{len(calls)} only")
    for words in calls:
        tried.holds(f"the call {words}", not any(it in words for it in (*tried.known, "--token ")), "it tells a secret")


def main():
    with tempfile.TemporaryDirectory() as folder, Broker(sys.argv[1]) as broker:
        tried = Tried(Path(folder), broker, client_program())
        for part in (pages, once, agent, rotate, leaked, root, command_lines):
            part(tried)
    return tried.end()


if __name__ == "__main__":
    sys.exit(main())
