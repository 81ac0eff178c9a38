"""The client on the machine of an app, as docs/TLS.md has it: plain HTTP to a near end there, stunnel or socat; TLS to
a proxy, and plain HTTP to a broker. proxied.py calls it."""

import concurrent.futures
import contextlib
import os
import re
import subprocess
import tempfile
from pathlib import Path

from broker import Broker, free_port
from proxy import TOP, Listener, Proxy, make_authority, make_signed

NEAR_ENDS = ("stunnel", "socat")
LEAST = 20  # checks of a near end that is installed
AT_ONCE = 20  # clients
SECONDS = 60  # for one client
HOST = "vault.example.org"  # whom the published configurations expect
SECRET = '{"data":{"user":"app"}}'
LONGEST = '{"data":{"k":"' + "x" * (1_048_576 - len('{"data":{"k":""}}')) + '"}}'
WRAPPING = re.compile(rb'"token":"(hvs\.[0-9a-f-]+)"')
MADE = re.compile(rb"[0-9a-f]{8}-[0-9a-f]{4}-[0-9a-f]{4}-[0-9a-f]{4}-[0-9a-f]{12}|\d{4}-\d\d-\d\dT[\d:.]+Z")
# What the client says if the connection is closed: mostly the first, and another if that was before it has written.
CLOSED = [(1, b"", text) for text in (b"bad reply\n", b"fault 6\n", b"fault 5\n")]

# Certificates of a proxy: the host, the CA that signs it, and after how many days it expires.
RIGHT = (HOST, "ours", 2)
WRONG = {
    "another-name": ("vault.example.com", "ours", 2),
    "another-CA": (HOST, "others", 2),
    "expired": (HOST, "ours", -1),
}


def client_program():
    """The program that CLIENT names; else the one of the release, or one that is built."""
    if os.environ.get("CLIENT"):
        return os.environ["CLIENT"]
    subprocess.run([TOP / "bin/run-program", "--build", "client"], check=True)
    return TOP / "crates/client/out/client"


class Client:
    """The program `client` whose server is a port of the loopback address."""

    def __init__(self, program, port, token):
        self.program, self.token = program, token
        self.variables = {name: text for name, text in os.environ.items() if not name.startswith("VAULT_")}
        self.variables["VAULT_ADDR"] = f"http://127.0.0.1:{port}"

    def run(self, *words, token=None, body=""):
        """The status, standard output and standard error of a command."""
        variables = {**self.variables, "VAULT_TOKEN": token or self.token}
        done = subprocess.run([self.program, *words], env=variables, input=body.encode(), capture_output=True,
                              timeout=SECONDS, check=False)
        return done.returncode, done.stdout, done.stderr


def said_by(client, folder):
    """What a client says of a secret in a folder: each status, and what is printed but for times, identifiers and the
    folder."""
    path = f"secret/data/{folder}"
    said = {
        "a write": client.run("write", f"{path}/app", SECRET),
        "a read": client.run("read", f"{path}/app"),
        "a wrapped read": client.run("--wrap-ttl", "5m", "read", f"{path}/app"),
    }
    found = WRAPPING.search(said["a wrapped read"][1])
    wrapping = found[1].decode() if found else "none"
    said |= {
        "an unwrap": client.run("unwrap", token=wrapping),
        "another unwrap": client.run("unwrap", token=wrapping),
        "the greatest body": client.run("write", f"{path}/long", "-", body=LONGEST),
        "what it wrote": client.run("read", f"{path}/long"),
        "a list": client.run("list", f"secret/metadata/{folder}"),
        "a deletion": client.run("delete", f"{path}/app"),
        "a read of what was deleted": client.run("read", f"{path}/app"),
    }
    return {name: (status, MADE.sub(b"", text.replace(folder.encode(), b"")), error)
            for name, (status, text, error) in said.items()}


def same_output(check, direct, through):
    """What the client says through the near end, the proxy and TLS is what it says without them."""
    wanted, found = said_by(direct, "direct"), said_by(through, "through")
    refused = {name for name, (status, _, _) in wanted.items() if status != 0}
    check("what is refused", refused == {"another unwrap", "a read of what was deleted"}, f"{sorted(refused)}")
    for name, said in wanted.items():
        check(name, found[name] == said, f"{found[name]} in place of {said}"[:500])


def at_once(check, direct, through):
    """Many clients at once."""
    path = "secret/data/at-once"
    direct.run("write", path, SECRET)
    with concurrent.futures.ThreadPoolExecutor(AT_ONCE) as pool:
        said = [*pool.map(lambda _: through.run("read", path), range(AT_ONCE))]
    wrong = [it for it in said if it[0] != 0 or b'"data":{"user":"app"}' not in it[1]]
    check(f"{AT_ONCE} clients at once", not wrong, f"{wrong[:1]}")


@contextlib.contextmanager
def passed_on(near, far, folder, certificate, port):
    """A near end whose proxy has one of the certificates, and passes on to the port."""
    with Proxy(far, folder / certificate, port) as proxy, Proxy(near, folder / "ours", proxy.port) as end:
        yield end


def make_certificates(folder):
    """Two CAs, and the certificates of the proxies, each in a folder of its own."""
    for name in ("ours", "others"):
        (folder / name).mkdir()
        make_authority(folder / name)
    for name, (host, authority, days) in {"right": RIGHT, **WRONG}.items():
        (folder / name).mkdir()
        make_signed(folder / name, folder / authority, host, days)


def refusals(check, near, far, folder, program):
    """With the right certificate a request arrives. With a wrong one, or where no proxy listens, nothing arrives, and
    the client says so. The log has why, and no path or token."""
    for name in ("right", *WRONG):
        with Listener() as behind, passed_on(near, far, folder, name, behind.port) as end:
            said = Client(program, end.port, "hvs.token").run("read", "secret/data/app")
            arrived = behind.connections, len(behind.requests)
        if name == "right":
            check("what arrives", (said, arrived) == ((0, b"", b""), (1, 1)), f"{said}, {arrived}")
        else:
            check(name, said in CLOSED and arrived == (0, 0), f"{said}, {arrived}")
    with Proxy(near, folder / "ours", free_port()) as end:
        said = Client(program, end.port, "hvs.token").run("read", "secret/data/app")
    check("no proxy", said in CLOSED, f"{said}")
    log = end.logged()
    check("the log", "certificate verify failed" in log, log[-300:])
    for text in ("hvs.", "secret"):
        check("the log", text not in log, f"it has {text}")


def try_near_end(near, far, program, client):
    """The checks that passed and failed of a near end in front of a proxy."""
    outcomes = []

    def check(name, condition, what):
        outcomes.append(bool(condition))
        if not condition:
            print(f"proxy, {near} and {far}, {name}: {what}")

    with tempfile.TemporaryDirectory() as folder:
        folder = Path(folder)
        make_certificates(folder)
        with Broker(program) as broker, passed_on(near, far, folder, "right", broker.port) as end:
            direct, through = (Client(client, it.port, broker.token) for it in (broker, end))
            same_output(check, direct, through)
            at_once(check, direct, through)
        refusals(check, near, far, folder, client)
    if len(outcomes) < LEAST:
        check("all", False, f"{len(outcomes)} checks, which are too few")
    return sum(outcomes), len(outcomes) - sum(outcomes)
