#!/usr/bin/env python3
"""Asks a running `brokerd serve` by each command of `client`, and lets it wait, time out, and keep a token alive.

    python3 tests/served/client_asks.py PROGRAM

PROGRAM is `brokerd`; CLIENT names another client. A token is renewed while the broker is killed and started again, up
to the end that the token has; a server does not answer for longer than the client waits. That takes forty seconds,
side by side. The last line is 'N passed, M failed'.
"""

import concurrent.futures
import json
import re
import shlex
import socket
import subprocess
import sys
import tempfile
import threading
import time
from pathlib import Path

from broker import Broker, connect, exchange, free_port, request
from calling import Checks, Client, Listener, client_program, reply

TOKEN = r"hvs\.[0-9a-f-]{36}\n"
UUID = r"[0-9a-f]{8}(?:-[0-9a-f]{4}){3}-[0-9a-f]{12}"
TIME = r"\d{4}-\d\d-\d\dT\d\d:\d\d:\d\dZ"
NOT_FOUND = "404 Not Found"
POLICY = '{"path": {"secret/data/app": {"capabilities": ["read"]}}}\n'
DEFAULT_TIMEOUT = 30

# Texts that are policies, and texts that are none.
FORMS = (
    '{"path":{}}', ' {"path" : {} }\r\n', '{"name":"x","path":{"a":{"capabilities":[]}}}', '{"name":[5],"path":{}}',
    '{"path":{"a":{"capabilities":["create","read","update","delete","list","sudo","deny","patch"]}}}',
    '{"path":{"":{"capabilities":["read"]}}}', '{"path":{"a+/+b/*":{"capabilities":["read"]}}}',
    '{"path":{"a":{"capabilities":["r\\u0065ad"]}}}',
    '{"path":{"a":{"capabilities":["x"]}},"path":{}}', '{"path":{"a":{"capabilities":["x"],"capabilities":["read"]}}}',
    "", "null", "[]", "{}", '{"path":null}', '{"path":[]}', '{"path":{"a":null}}', '{"path":{"a":{}}}',
    '{"path":{"a":{"capabilities":null}}}', '{"path":{"a":{"capabilities":"read"}}}', '{"path":{}}{}', '{"path":{},}',
    '{"path":{"a":{"capabilities":["Read"]}}}', '{"path":{"a":{"capabilities":[5]}}}', '{"path":{},"more":1}',
    '{"path":{"a":{"capabilities":["read"],"min_wrapping_ttl":"1s"}}}', '{"path":{"+":{"capabilities":["read"]}}}',
    '{"path":{"a/\\u002b/b":{"capabilities":["read"]}}}', '{"path":{"a/+*":{"capabilities":["read"]}}}',
    '{"name":1.5,"path":{}}', '{"name":-0,"path":{}}', '{"name":1e3,"path":{}}', '{"name":"\\ud800","path":{}}',
    '{"name":18446744073709551615,"path":{}}', '{"name":18446744073709551616,"path":{}}', '\ufeff{"path":{}}',
    f'{{"name":{"[" * 126}{"]" * 126},"path":{{}}}}', f'{{"name":{"[" * 127}{"]" * 127},"path":{{}}}}',
    'path "secret/data/app" {\n  capabilities = ["read"]\n}\n',
)
TTL, DOWN, LONGEST = 24, (14, 18), 34  # seconds of a token: its ttl, while the broker is away, its explicit maximum
LATE = 3  # seconds that a client may be late, on a machine that does much else


class Asked(Checks):
    """A broker, and the client in a folder."""

    def __init__(self, broker, client):
        super().__init__("client asks")
        self.broker, self.client = broker, client

    def call(self, line, given="", **variables):
        return self.client(*shlex.split(line), given=given.encode(), **variables)

    def prints(self, line, wanted, **more):
        """The command prints what the pattern allows, and nothing else; what it prints is answered, without its LF."""
        said = self.call(line, **more)
        is_right = said.status == 0 and said.err == b"" and re.fullmatch(wanted, said.out.decode(), re.DOTALL)
        self.holds(line, is_right, f"{said} in place of {wanted}")
        return said.out.decode().removesuffix("\n")

    def refused(self, line, told, status=1, **more):
        """The command is refused, and says why in one line."""
        said = self.call(line, **more)
        self.same(line, (said.status, said.out, said.err), (status, b"", f"client: {told}\n".encode()))


def secrets(asked):
    """Versions of a secret."""
    asked.prints("kv put secret/app user=app", r'\{"auth":null,"data":\{.*"version":1\}.*\}\n')
    asked.prints("kv put secret/app user=app password=- --cas 1 --field version", "2\n", given="p  w")
    asked.refused("kv put secret/app user=x --cas 1", "400 check-and-set parameter did not match the current version")
    asked.refused("kv put secret/app user=x --cas 0 --exit-codes",
                  "400 check-and-set parameter did not match the current version")
    asked.prints("kv get secret/app --field password", "p  w\n")
    asked.prints("kv get secret/app --version 1 --field data.data", r'\{"user":"app"\}\n')
    asked.prints("kv get secret/app --version 0 --field data.metadata.version", "2\n")
    asked.prints("kv get secret/app", r'\{"auth":null,"data":\{"data":\{"password":"p  w","user":"app"\},.*\}\n')
    asked.refused("kv get secret/app --version 9", NOT_FOUND)
    asked.refused("kv get secret/app --field pass", "no field pass")
    asked.prints("kv put secret/team/a.b n:=5 'o:={\"k\": [1]}'", r".*\n")
    asked.prints("read secret/data/team/a.b --field o", r'\{"k":\[1\]\}\n')
    asked.prints("kv list secret --field keys", r'\["app","team/"\]\n')
    asked.prints("kv list secret/team", r'.*"keys":\["a\.b"\].*\n')
    asked.refused("kv list secret/none", NOT_FOUND)
    asked.prints("kv delete secret/app", "")
    asked.refused("kv get secret/app", NOT_FOUND)
    asked.prints("read secret/metadata/app --field current_version", "2\n")
    asked.prints("write secret/undelete/app versions:=[2]", "")
    asked.prints("kv get secret/app --field user", "app\n")
    asked.prints("delete secret/metadata/team/a.b", "")
    asked.prints("list secret/metadata", r'.*"keys":\["app"\].*\n')


def old_form(asked):
    """The body of a refusal is printed, without a word."""
    said = asked.call("read secret/data/none")
    asked.same("a refusal in the old form", (said.status, said.out, said.err), (1, b'{"errors":[]}\n', b""))
    said = asked.call("write cubbyhole/a @nothing")
    asked.holds("a file that is not there", said.status in (1, 2) and b"nothing" in said.err, str(said))
    asked.prints("write cubbyhole/a k=v", "")
    asked.prints("read cubbyhole/a", r'.*"data":\{"k":"v"\}.*\n')


def tokens(asked):
    """Tokens made, looked up, renewed and revoked. No renewal and no list has a token."""
    child = asked.prints("token create --policy default --ttl 1h --field client_token", TOKEN)
    asked.prints("token create --policy default --orphan --period 24h --use-limit 5",
                 r'\{"auth":\{.*"lease_duration":86400,.*"num_uses":5,"orphan":true,"policies":\["default"\].*\n')
    asked.prints("token lookup --field policies", r'\["root"\]\n')
    asked.prints("token lookup", r'.*"data":\{"accessor":.*\n')
    accessor = asked.prints("token lookup --field accessor", f"{UUID}\n", VAULT_TOKEN=child)
    asked.prints(f"token lookup --accessor {accessor} --field creation_ttl", "3600\n")
    asked.prints("token renew", "", VAULT_TOKEN=child)
    asked.prints("token renew --field lease_duration", "3600\n", VAULT_TOKEN=child)
    asked.refused("token renew", "400 lease is not renewable")
    asked.refused("token renew --keep", "400 lease is not renewable")
    lines = asked.prints("token list", f"(?:{UUID}  [a-z,]+  (?:never|{TIME})\n)+").splitlines()
    asked.holds("the root token in the list", sum(it.endswith("  root  never") for it in lines) == 1, str(lines))
    mine = [it for it in lines if it.startswith(f"{accessor}  default  20")]
    asked.holds("a token in the list", len(mine) == 1, str(lines))
    asked.refused("token list", "403 permission denied", VAULT_TOKEN=child)
    asked.prints(f"token revoke --accessor {accessor}", "")
    asked.refused(f"token revoke --accessor {accessor}", "400 invalid accessor")
    asked.refused("token lookup", "403 permission denied", VAULT_TOKEN=child)
    other = asked.prints("token create --policy default --field client_token", TOKEN)
    asked.prints("token revoke", "", VAULT_TOKEN=other)
    asked.refused("token renew", "403 permission denied", VAULT_TOKEN=other)
    limited = asked.prints("token create --policy default --use-limit 2 --field client_token", TOKEN)
    for _ in range(2):
        asked.prints("token lookup --field num_uses", r"[01]\n", VAULT_TOKEN=limited)
    asked.refused("token lookup", "403 permission denied", VAULT_TOKEN=limited)


def policies(asked):
    """A policy comes back as it was written."""
    asked.client.file("app.json", POLICY)
    asked.prints("policy write app app.json", "")
    asked.prints("policy read app --field policy", re.escape(POLICY) + "\n")
    asked.prints("policy write input -", "", given=POLICY)
    asked.prints("policy list --field keys", r'\["app","default","input","root"\]\n')
    child = asked.prints("token create --policy app --field client_token", TOKEN)
    asked.prints("kv get secret/app --field user", "app\n", VAULT_TOKEN=child)
    asked.refused("kv put secret/app user=x", "403 permission denied", VAULT_TOKEN=child)
    asked.prints("policy delete app", "")
    asked.refused("policy read app", NOT_FOUND)
    asked.refused("policy delete root", "400 policy cannot be changed")


def forms(asked):
    """The client sends a policy exactly if a broker takes it."""
    taken = []
    for text in FORMS:
        body = json.dumps({"policy": text})
        with connect(asked.broker.port) as connection:
            status, _, _ = exchange(connection, request("POST", "sys/policies/acl/form", asked.broker.token, body))
        said, is_policy = asked.call("policy write form -", given=text), status == 204
        taken.append(is_policy)
        asked.holds(f"the policy {text[:80]!r}", said.status == (0 if is_policy else 2), f"{status}, and {said}")
    asked.holds("policies and others", 5 < sum(taken) < len(taken) - 5, f"{sum(taken)} of {len(taken)} are policies")


def leases(asked):
    """A credential, and its lease."""
    asked.prints("write sys/mounts/db type=issued", "")
    asked.prints("write db/roles/app ttl=1h max_ttl=24h", "")
    issued = asked.call("read db/creds/app")
    lease = json.loads(issued.out)["lease_id"]
    asked.prints(f"lease renew {lease} --increment 30m --field lease_duration", "1800\n")
    asked.prints(f"lease renew {lease}", r'.*"lease_duration":3600,.*\n')
    asked.prints(f"lease revoke {lease}", "")
    asked.refused(f"lease renew {lease}", "400 invalid lease")


def responses(asked):
    """Replies that are wrapped, and taken once."""
    wrapping = asked.prints("--wrap-ttl 5m kv get secret/app --field wrap_info.token", TOKEN)
    asked.prints("write sys/wrapping/lookup --field creation_path", "secret/data/app\n", VAULT_TOKEN=wrapping)
    asked.prints("unwrap --field user", "app\n", VAULT_TOKEN=wrapping)
    asked.refused("unwrap --field user", "400 wrapping token is not valid or does not exist", VAULT_TOKEN=wrapping)
    wrapping = asked.prints("token create --policy default --wrap-ttl 60 --field token", TOKEN)
    asked.prints(f"unwrap {wrapping} --field client_token", TOKEN)
    asked.refused(f"unwrap {wrapping} --wait 1", "400 wrapping token is not valid or does not exist")
    accessor = asked.prints("-wrap-ttl=5m kv get secret/app -field=wrap_info.accessor", f"{UUID}\n")
    asked.prints(f"token revoke --accessor {accessor}", "")
    wrapping = asked.prints("kv get secret/app --wrap-ttl 5m --field wrap_info.token", TOKEN)
    asked.refused("kv get secret/app", "403 permission denied", VAULT_TOKEN=wrapping)
    asked.refused("unwrap --wait 1", "400 wrapping token is not valid or does not exist", VAULT_TOKEN=wrapping)


def codes(asked):
    """Statuses that tell failures apart, for a script that asks for them."""
    nobody = {"VAULT_ADDR": f"http://127.0.0.1:{free_port()}"}
    wanted = (("kv get secret/app", {}, 0), ("kv get secret/none", {}, 5), ("read secret/data/none", {}, 5),
              ("kv get secret/app", {"VAULT_TOKEN": "x"}, 4), ("kv get secret/app", {"VAULT_TOKEN": None}, 4),
              ("kv put secret/app user=x --cas 0", {}, 1), ("kv get secret/app --field x", {}, 1),
              ("kv get secret", {}, 2), ("kv get secret/app", nobody, 3), ("read secret/data/app", nobody, 3))
    for line, variables, status in wanted:
        said = asked.call(f"{line} --exit-codes", **variables)
        asked.same(f"--exit-codes, {line} {variables}", said.status, status)
        asked.holds(f"what {line} {variables} prints", (said.out == b"") == (status != 0), str(said))
        said = asked.call(f"{line} --timeout 30", **variables)
        asked.same(f"without it, {line} {variables}", said.status, min(status, 1) if status != 2 else 2)


def took(asked, line, least, most, **variables):
    """What came of a call that takes so many seconds."""
    begin = time.monotonic()
    said = asked.call(line, **variables)
    seconds = time.monotonic() - begin
    is_right = least <= seconds <= most
    asked.holds(f"{line}, its seconds", is_right, f"it took {seconds:.1f}, not {least} to {most}: {said}")
    return said


def waiting(asked):
    """A server that comes later is waited for, and one that does not come is not, for longer."""
    port = free_port()
    nobody = f"http://127.0.0.1:{port}"
    for line, least, status in (("kv get a/b --wait 1", 1, 1), ("read a --exit-codes --wait 2", 2, 3),
                                ("token list", 0, 1), ("token renew --keep --exit-codes", 0, 3)):
        said = took(asked, line, least - 0.2, least + LATE, VAULT_ADDR=nobody)
        told = re.fullmatch(rf"client: 127\.0\.0\.1:{port} is not reached: .*\S.*\nfault 5\n", said.err.decode())
        asked.holds(f"{line}, without a server", (said.status, said.out) == (status, b"") and told, str(said))
    said = took(asked, "read a", 0, LATE, VAULT_ADDR=nobody)
    asked.same("no server, in the old form", (said.status, said.out, said.err), (1, b"", b"fault 5\n"))
    servers = []
    timer = threading.Timer(1.0, lambda: servers.append(Listener(reply(), port=port).__enter__()))
    timer.start()
    said = took(asked, "kv get a/b --wait 20 --field a", 0.9, 1 + LATE, VAULT_ADDR=nobody)
    timer.join()
    asked.same("a server that comes", (said.status, said.out, said.err), (0, b"1\n", b""))
    asked.same("how often it is asked", len(servers[0].sent), 1)
    servers[0].__exit__()
    with Listener(b"") as server:
        said = took(asked, "kv get a/b --wait 3", 0, LATE, VAULT_ADDR=server.url)
        asked.same("a server that closes", (said.status, said.out, said.err), (1, b"", b"bad reply\n"))
        asked.same("how often it is asked", len(server.sent), 1)


class Slow:
    """A server that takes connections, and does with each what a function says; it keeps them open."""

    def __init__(self, handle):
        self.listener = socket.create_server(("127.0.0.1", 0))
        self.url = f"http://127.0.0.1:{self.listener.getsockname()[1]}"
        self.handle, self.taken = handle, []

    def __enter__(self):
        threading.Thread(target=self.serve, daemon=True).start()
        return self

    def __exit__(self, *_):
        self.listener.shutdown(socket.SHUT_RDWR)
        self.listener.close()
        for connection in self.taken:
            connection.close()

    def serve(self):
        try:
            while True:
                self.taken.append(self.listener.accept()[0])
                self.handle(self.taken[-1])
        except OSError:
            pass


def in_drops(connection):
    """A reply that takes two seconds and a half, with a byte each half of a second at last."""
    for piece in (reply()[:-4], *(bytes([it]) for it in reply()[-4:])):
        time.sleep(0.5)
        connection.sendall(piece)


def late(seconds):
    """What is told of a reply that does not come in time."""
    return f"bad reply\nclient: no reply within {seconds} seconds (--timeout)\n"


def timing_out(asked):
    """A server that takes connections and does not answer is given up, and one that answers slowly is not."""
    with Slow(lambda connection: None) as silent:
        for line, seconds in (("kv get a/b --timeout 1", 1), ("read a --timeout 2 --exit-codes", 2)):
            said = took(asked, line, seconds - 0.1, seconds + LATE, VAULT_ADDR=silent.url)
            asked.same(line, (said.status, said.out, said.err.decode()), (1, b"", late(seconds)))
    with Slow(lambda connection: connection.sendall(reply()[:-4])) as silent:
        said = took(asked, "read a --timeout 1", 0.9, 1 + LATE, VAULT_ADDR=silent.url)
        asked.same("a reply that stops", (said.status, said.out, said.err.decode()), (1, b"", late(1)))
    with Slow(in_drops) as slow:
        said = took(asked, "read a --timeout 1", 2, 4 + LATE, VAULT_ADDR=slow.url)
        asked.same("a slow reply", (said.status, said.out, said.err), (0, b'{"a":1}\n', b""))
    with Slow(lambda connection: connection.close()) as closing:
        said = took(asked, "kv get a/b --timeout 9", 0, LATE, VAULT_ADDR=closing.url)
        is_right = (said.status, said.out) == (1, b"") and said.err in (b"bad reply\n", b"fault 6\n")
        asked.holds("a server that closes at once", is_right, str(said))


def full_queue(asked):
    """A server that does not take connections."""
    with socket.socket() as listener:
        listener.bind(("127.0.0.1", 0))
        listener.listen(0)
        before = []
        for _ in range(4):  # as many as the system keeps for it, and more
            before.append(socket.socket())
            before[-1].setblocking(False)
            before[-1].connect_ex(listener.getsockname())
        url = f"http://127.0.0.1:{listener.getsockname()[1]}"
        said = took(asked, "kv get a/b --timeout 2", 1.8, 2 + LATE, VAULT_ADDR=url)
        is_right = (said.status, said.out) == (1, b"") and said.err.endswith(b"fault 5\n")
        asked.holds("a server that takes no connections", is_right, str(said))
        for one in before:
            one.close()


def the_default(asked):
    """Without --timeout it is half a minute."""
    with Slow(lambda connection: None) as silent:
        said = took(asked, "read a", DEFAULT_TIMEOUT - 1, DEFAULT_TIMEOUT + LATE, VAULT_ADDR=silent.url)
        told = (1, b"", late(DEFAULT_TIMEOUT))
        asked.same("a server that does not answer", (said.status, said.out, said.err.decode()), told)


class Kept:
    """A broker in a file, which is killed and started again on the same port."""

    def __init__(self, program, folder):
        self.words = [program, "serve", "--listen", f"127.0.0.1:{free_port()}", "--db", f"{folder}/broker.db",
                      "--until-stopped"]
        self.url = f"http://{self.words[3]}"

    def start(self):
        self.process = subprocess.Popen(self.words, stdout=subprocess.PIPE)
        connect(int(self.url.rpartition(":")[2]), patience=20).close()

    def kill(self):
        self.process.kill()
        self.process.communicate()


def renewing(asked):
    """A token is renewed while the broker is away for a moment, up to its explicit maximum."""
    with tempfile.TemporaryDirectory() as folder:
        kept = Kept(asked.broker.program, folder)
        kept.start()
        root = kept.process.stdout.readline().decode().split()[-1]
        variables = {"VAULT_ADDR": kept.url, "VAULT_TOKEN": root}
        line = f"write auth/token/create policies=default ttl={TTL}s explicit_max_ttl={LONGEST}s --field client_token"
        token = asked.prints(line, TOKEN, **variables)
        begin = time.monotonic()
        variables["VAULT_TOKEN"] = token
        keeping = asked.client.start("token", "renew", "--keep", **variables)
        try:
            for moment, do in ((DOWN[0], kept.kill), (DOWN[1], kept.start)):
                time.sleep(max(0, begin + moment - time.monotonic()))
                do()
            time.sleep(max(0, begin + TTL + 2 - time.monotonic()))
            asked.prints("token lookup --field policies", r'\["default"\]\n', **variables)
            asked.holds("token renew --keep", keeping.poll() is None, "it has ended")
            out, err = keeping.communicate(timeout=LONGEST)
            seconds = time.monotonic() - begin
            asked.holds("its end", LONGEST - 3 <= seconds <= LONGEST + 10, f"after {seconds:.1f} seconds: {err}")
            asked.same("what it prints", (keeping.returncode, out), (1, b""))
            asked.same("what it tells", err.splitlines()[-1:], [b"client: 403 permission denied"])
            asked.holds("what it tells", b"hvs." not in err, str(err))
        except subprocess.TimeoutExpired:
            asked.holds("its end", False, "it goes on")
        finally:
            keeping.kill()
            kept.kill()


def main():
    with tempfile.TemporaryDirectory() as folder, Broker(sys.argv[1]) as broker:
        url = f"http://127.0.0.1:{broker.port}"
        asked = Asked(broker, Client(client_program(), Path(folder), VAULT_ADDR=url, VAULT_TOKEN=broker.token))

        def commands(asked):
            for part in (secrets, old_form, tokens, policies, forms, leases, responses, codes):
                part(asked)

        with concurrent.futures.ThreadPoolExecutor() as pool:
            parts = (commands, waiting, timing_out, full_queue, the_default, renewing)
            for done in [pool.submit(part, asked) for part in parts]:
                done.result()
    return asked.end()


if __name__ == "__main__":
    sys.exit(main())
