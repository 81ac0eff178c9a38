#!/usr/bin/env python3
"""Asks a running `brokerd serve` over TLS, through HAProxy and nginx as examples/ configures them; and by the client,
through stunnel and socat before these.

    python3 tests/served/proxied.py PROGRAM [--idle] [PROXY..]

Without the name of a proxy, `haproxy` or `nginx`, both are tried (docs/TLS.md), in some ten seconds. What is not
installed is not tried, and it says so: apt-get install haproxy nginx stunnel4 socat. CLIENT names another client. With
--idle it also waits until the proxy closes a connection to the broker that nobody uses, which takes a minute. The last
line is 'N passed, M failed'.
"""

import concurrent.futures
import json
import os
import re
import socket
import ssl
import subprocess
import sys
import tempfile
import time
import warnings
from pathlib import Path

from broker import Broker, connect
from near_end import NEAR_ENDS, client_program, try_near_end
from proxy import Listener, Proxy, installed, length_of, make_certificate

LEAST = 80  # checks of a proxy that is installed
MOST_BYTES = 1_048_576  # of a body
MOST_OF_A_HEAD = 16_384
MANY = 100
BROKER_WAITS = 90.0  # seconds, for the next request
METHODS = ("GET", "LIST", "POST", "PUT", "DELETE")
UUID = re.compile(rb"[0-9a-f]{8}-[0-9a-f]{4}-[0-9a-f]{4}-[0-9a-f]{4}-[0-9a-f]{12}")
DATE = re.compile(rb"(?i)^(date:) .*")
NAME = re.compile(rb"^[^:]+:")

# Requests with the same reply each time, but for its date and its identifiers. TOKEN stands for the root token.
REPEATED = {
    "a read": ("GET", "secret/data/app", "X-Vault-Token: TOKEN", ""),
    "a version that was deleted": ("GET", "secret/data/app?version=1", "X-Vault-Token: TOKEN", ""),
    "a list": ("LIST", "secret/metadata", "X-Vault-Token: TOKEN", ""),
    "a list by query": ("GET", "secret/metadata?list=true", "X-Vault-Token: TOKEN", ""),
    "another field for the token": ("GET", "secret/data/app", "Authorization: Bearer TOKEN", ""),
    "a namespace": ("GET", "secret/data/app", "X-Vault-Namespace: team/\r\nX-Vault-Token: TOKEN", ""),
    "no token": ("GET", "secret/data/app", "X-Vault-Request: true", ""),
    "a token in two fields": ("GET", "secret/data/app", "X-Vault-Token: TOKEN\r\nX-Vault-Token: TOKEN", ""),
    "a secret that is absent": ("GET", "secret/data/none", "X-Vault-Token: TOKEN", ""),
    "no route": ("GET", "sys/health", "X-Vault-Token: TOKEN", ""),
    "another method": ("DELETE", "secret/config", "X-Vault-Token: TOKEN", ""),
    "a method that the broker lacks": ("PATCH", "secret/data/app", "X-Vault-Token: TOKEN", "{}"),
    "no body": ("HEAD", "secret/data/app", "X-Vault-Token: TOKEN", ""),
    "a body that is no JSON": ("POST", "cubbyhole/a", "X-Vault-Token: TOKEN", "{"),
    "an object": ("PUT", "cubbyhole/a", "X-Vault-Token: TOKEN", '{"k":"v"}'),
    "the object": ("GET", "cubbyhole/a", "X-Vault-Token: TOKEN", ""),
    "an escaped slash": ("GET", "cubbyhole%2Fa", "X-Vault-Token: TOKEN", ""),
    "an escaped letter": ("PUT", "cubbyhole/caf%C3%A9", "X-Vault-Token: TOKEN", '{"k":"v"}'),
    "a list of both": ("LIST", "cubbyhole", "X-Vault-Token: TOKEN", ""),
    "an empty segment": ("GET", "cubbyhole//a", "X-Vault-Token: TOKEN", ""),
    "a segment of dots": ("GET", "cubbyhole/b/../a", "X-Vault-Token: TOKEN", ""),
    "a deletion": ("DELETE", "cubbyhole/a", "X-Vault-Token: TOKEN", ""),
    "a wrap TTL that is none": ("GET", "secret/data/app", "X-Vault-Wrap-TTL: x\r\nX-Vault-Token: TOKEN", ""),
    "no wrapping token": ("POST", "sys/wrapping/unwrap", "X-Vault-Token: TOKEN", '{"token":"hvs.none"}'),
}

# The fields of a request that have to arrive as they were sent.
FIELDS = ("X-Vault-Token: hvs.Token", "X-Vault-Wrap-TTL: 5m", "X-Vault-Namespace: Team/", "X-Vault-Request: true",
          "Authorization: Bearer Token", "Accept-Encoding: gzip", "User-Agent: test")


def message(method, path, fields="", body=""):
    """The bytes of a request."""
    length = f"Content-Length: {len(body)}\r\n" if body else ""
    fields = f"{fields}\r\n" if fields else ""
    return f"{method} /v1/{path} HTTP/1.1\r\nHost: vault.example.org\r\n{fields}{length}\r\n{body}".encode()


def exchange(connection, text):
    """Sends a request, and answers the status, the lines of the head and the body of its reply. Status 0 if the
    connection is closed without one."""
    try:
        connection.sendall(text)
    except OSError:
        pass  # a refused body need not be taken as a whole
    rest = b""
    try:
        while b"\r\n\r\n" not in rest.replace(b"HTTP/1.1 100 Continue\r\n\r\n", b""):
            more = connection.recv(65536)
            if not more:
                return 0, [], rest
            rest += more
        head, _, rest = rest.replace(b"HTTP/1.1 100 Continue\r\n\r\n", b"").partition(b"\r\n\r\n")
        lines = head.split(b"\r\n")
        length = 0 if text.startswith(b"HEAD ") else length_of(lines)
        while len(rest) < length:
            more = connection.recv(65536)
            if not more:
                return 0, lines, rest
            rest += more
    except OSError:
        return 0, [], rest
    return int(lines[0].split()[1]), lines, rest


class Tried:
    """A proxy in front of a broker, and what was found out about it."""

    def __init__(self, proxy, broker):
        self.proxy, self.broker, self.name = proxy, broker, proxy.name
        self.token = broker.token
        self.passed = self.failed = 0

    def check(self, name, condition, what):
        if condition:
            self.passed += 1
        else:
            self.failed += 1
            print(f"proxy, {self.name}, {name}: {what}")

    def ask(self, name, wanted, text, method, path, body="", fields="", token=None):
        """Sends a request on a connection of its own, compares the status and a text of the reply, and answers its
        body."""
        fields = f"X-Vault-Token: {token or self.token}" + (f"\r\n{fields}" if fields else "")
        with self.proxy.connect() as connection:
            status, _, found = exchange(connection, message(method, path, fields, body))
        is_right = status == wanted and text.encode() in found
        self.check(name, is_right, f"status {status} in place of {wanted}: {found[:200]}")
        return found


def requests(tried):
    """What users ask."""
    tried.ask("a write", 200, '"version":1', "POST", "secret/data/app", '{"data":{"user":"app"}}')
    tried.ask("a read", 200, '"data":{"user":"app"}', "GET", "secret/data/app")
    tried.ask("a list", 200, '"keys":["app"]', "LIST", "secret/metadata")
    made = tried.ask("a wrapped read", 200, '"creation_path":"secret/data/app"', "GET", "secret/data/app",
                     fields="X-Vault-Wrap-TTL: 60")
    wrapping = json.loads(made)["wrap_info"]["token"]
    tried.ask("an unwrap", 200, '"data":{"user":"app"}', "POST", "sys/wrapping/unwrap", token=wrapping)
    tried.ask("another unwrap", 400, "wrapping token is not valid", "POST", "sys/wrapping/unwrap", token=wrapping)
    tried.ask("a deletion", 204, "", "DELETE", "secret/data/app")
    tried.ask("a second version", 200, '"version":2', "PUT", "secret/data/app", '{"data":{"user":"app"}}')


def sizes(tried):
    """Bodies and heads as long as the broker takes them, and longer ones, which the broker itself refuses."""
    around = len('{"data":{"k":""}}')
    body = '{"data":{"k":"' + "x" * (MOST_BYTES - around) + '"}}'
    tried.ask("the greatest body", 200, '"version":1', "POST", "secret/data/long", body)
    tried.ask("what it wrote", 200, body[1:-1], "GET", "secret/data/long")
    tried.ask("one byte more", 413, '{"errors":["request body too large"]}\n', "POST", "secret/data/long", f" {body}")
    head = len(message("GET", "secret/data/app", f"X-Vault-Token: {tried.token}\r\nX-Long: "))
    for more, status, text in ((-100, 200, '"user"'), (100, 431, '{"errors":["request head too large"]}\n')):
        tried.ask(f"a head of {MOST_OF_A_HEAD + more} bytes", status, text, "GET", "secret/data/app",
                  fields="X-Long: " + "x" * (MOST_OF_A_HEAD + more - head))


def bodies(tried):
    """A chunked body, which the broker refuses and nginx turns into one with a length; and one that waits to be asked
    for, which the broker takes as any other."""
    chunked = "17\r\n" + '{"data":{"user":"app"}}' + "\r\n0\r\n\r\n"
    with tried.proxy.connect() as connection:
        text = message("POST", "secret/data/chunked", f"X-Vault-Token: {tried.token}\r\nTransfer-Encoding: chunked")
        status, _, found = exchange(connection, text + chunked.encode())
    wanted = {"haproxy": 501, "nginx": 200}[tried.name]
    tried.check("a chunked body", status == wanted, f"status {status} in place of {wanted}: {found[:200]}")
    tried.ask("a body that waits", 204, "", "POST", "cubbyhole/waits", '{"k":"v"}', "Expect: 100-continue")


def told(lines):
    """The lines of a head, with one date for all, but for those of its connection."""
    return [DATE.sub(rb"\1 X", line) for line in lines if not line.lower().startswith(b"connection:")]


def in_lower_case(lines):
    """The lines of a head as HAProxy passes them on."""
    return lines[:1] + [NAME.sub(lambda it: it[0].lower(), line) for line in lines[1:]]


def same_replies(tried):
    """The replies are those of the broker, byte for byte, but for dates and identifiers, and for the heads: nginx
    orders the fields anew, and names itself."""
    for name, (method, path, fields, body) in REPEATED.items():
        text = message(method, path, fields.replace("TOKEN", tried.token), body)
        with connect(tried.broker.port) as direct, tried.proxy.connect() as through:
            (status, lines, body), (_, found, found_body) = exchange(direct, text), exchange(through, text)
        lines, found = told(lines), told(found)
        if tried.name == "haproxy":
            lines = in_lower_case(lines)
        else:
            lines, found = lines[:1] + sorted([*lines[1:], b"Server: nginx"]), found[:1] + sorted(found[1:])
        tried.check(f"the reply to {name}", status and found == lines, f"{found} in place of {lines}")
        is_same = UUID.sub(b"", found_body) == UUID.sub(b"", body)
        tried.check(f"the body of {name}", is_same, f"{found_body[:200]} in place of {body[:200]}")


def kept_connection(tried):
    """Many requests on one connection."""
    text = message("GET", "auth/token/lookup-self", f"X-Vault-Token: {tried.token}")
    with tried.proxy.connect() as connection:
        statuses = [exchange(connection, text)[0] for _ in range(MANY)]
    tried.check(f"{MANY} requests on one connection", statuses == [200] * MANY, f"statuses {sorted(set(statuses))}")


def plain(tried):
    """A request without TLS is refused, and does not reach the broker."""
    text = message("POST", "secret/data/plain", f"X-Vault-Token: {tried.token}", '{"data":{}}')
    with connect(tried.proxy.port) as connection:
        status, _, _ = exchange(connection, text)
    tried.check("plain HTTP", status in (0, 400), f"status {status}")
    tried.ask("what it wrote", 404, '{"errors":[]}', "GET", "secret/data/plain")


def of_version(context, version):
    """The same context for one version of TLS alone, also with what is too weak by now."""
    context.set_ciphers("ALL:@SECLEVEL=0")
    context.minimum_version = context.maximum_version = version
    return context


def offers(version, folder):
    """Whether this machine's library speaks a version of TLS with itself."""
    served = of_version(ssl.SSLContext(ssl.PROTOCOL_TLS_SERVER), version)
    served.load_cert_chain(folder / "both.pem")
    asking = of_version(ssl.create_default_context(cafile=folder / "certificate.pem"), version)
    ours, theirs = socket.socketpair()
    with ours, theirs, concurrent.futures.ThreadPoolExecutor() as pool:
        other = pool.submit(served.wrap_socket, theirs, server_side=True)
        try:
            asking.wrap_socket(ours, server_hostname="127.0.0.1").close()
            other.result().close()
        except (ssl.SSLError, OSError):
            ours.close()
            return False
    return True


def versions(tried):
    """TLS 1.2 and 1.3 are spoken, and 1.1 is not."""
    for version in (ssl.TLSVersion.TLSv1_1, ssl.TLSVersion.TLSv1_2, ssl.TLSVersion.TLSv1_3):
        if not offers(version, tried.proxy.folder):
            print(f"proxy, {tried.name}: {version.name} is not offered here, and not tried")
            continue
        context = of_version(ssl.create_default_context(cafile=tried.proxy.folder / "certificate.pem"), version)
        with connect(tried.proxy.port) as connection:
            try:
                with context.wrap_socket(connection, server_hostname="127.0.0.1") as secured:
                    status = exchange(secured, message("GET", "sys/health"))[0]
            except (ssl.SSLError, OSError):
                status = None
        is_right = (status is None) == (version == ssl.TLSVersion.TLSv1_1)
        tried.check(version.name, is_right, "it is refused" if status is None else "it is spoken")


def clients(tried):
    """curl and hvac, as docs/TLS.md has them use the certificate."""
    url, certificate = f"https://127.0.0.1:{tried.proxy.port}", tried.proxy.folder / "certificate.pem"
    for arguments, wanted in (["--cacert", certificate], b"200"), ([], b"000"):
        done = subprocess.run(["curl", "-s", "-o", os.devnull, "-w", "%{http_code}", *arguments,
                               "-H", f"X-Vault-Token: {tried.token}", f"{url}/v1/secret/data/app"], capture_output=True)
        tried.check("curl", done.stdout == wanted, f"{done.stdout} with {arguments}")
    code = "import hvac; found = hvac.Client().secrets.kv.v2.read_secret_version('app'); print(found['data']['data'])"
    for python in ("python3", "/usr/bin/python3"):
        if subprocess.run([python, "-c", "import hvac"], capture_output=True).returncode == 0:
            variables = {**os.environ, "VAULT_ADDR": url, "VAULT_TOKEN": tried.token, "VAULT_CACERT": str(certificate)}
            done = subprocess.run([python, "-c", code], env=variables, capture_output=True)
            tried.check("hvac", b"{'user': 'app'}" in done.stdout, f"{done.stdout} {done.stderr[-200:]}")
            return
    print(f"proxy, {tried.name}: hvac: not installed, not tried")


def logs(tried):
    """The logs have requests, and no path or token of one. nginx has written no body or reply to a file."""
    found = tried.proxy.logged()
    tried.check("the log", found.count(" LIST 200") > 0, f"no request is in {found[-200:]!r}")
    for text in (tried.token, "secret", "v1/"):
        tried.check("the log", text not in found, f"it has {text}")
    if tried.name == "nginx":
        warned = (tried.proxy.folder / "nginx-warned.log").read_text(encoding="utf-8")
        tried.check("files of bodies", "temporary file" not in warned, warned[-300:])


def fields_kept(tried, listener):
    """A request arrives as it was sent. HAProxy writes names in lower case; nginx names its upstream as the host."""
    text = message("LIST", "secret/metadata/a%2Fb?x=y", "\r\n".join(FIELDS))
    sent = text.partition(b"\r\n\r\n")[0].split(b"\r\n")
    with tried.proxy.connect() as connection:
        exchange(connection, text)
    arrived = listener.requests[-1]
    if tried.name == "haproxy":
        sent = in_lower_case(sent)
    else:
        sent[1] = b"Host: dehluvima"
    tried.check("a request", arrived[0] == sent[0], f"{arrived[0]} in place of {sent[0]}")
    tried.check("the fields of a request", sorted(arrived[1:]) == sorted(sent[1:]), f"{arrived} in place of {sent}")


def sent_once(tried, listener):
    """A request is not sent again if the connection is closed before its reply: neither the first one on it, nor one on
    a connection that was kept, which the other side may just have closed since nobody used it."""
    for method in METHODS:
        for before in (0, 1, 2):
            path = f"lost/{method}/{before}"
            with tried.proxy.connect() as connection:
                for _ in range(before):
                    exchange(connection, message("GET", "kept"))
                status = exchange(connection, message(method, path))[0]
            arrived = sum(path.encode() in lines[0] for lines in listener.requests)
            tried.check(f"{method} that is lost after {before} requests", arrived == 1 and status in (0, 502),
                        f"it was sent {arrived} times, and has status {status}")


def idle(tried, listener):
    """The proxy closes a connection to the broker before the broker would."""
    listener.closed_after = None
    with tried.proxy.connect() as connection:
        exchange(connection, message("GET", "idle"))
        until = time.monotonic() + BROKER_WAITS + 10
        while listener.closed_after is None and time.monotonic() < until:
            time.sleep(0.1)
    seconds = listener.closed_after or BROKER_WAITS
    print(f"proxy, {tried.name}: an idle connection is closed after {seconds:.0f} seconds")
    tried.check("an idle connection", seconds < BROKER_WAITS, "the broker closes it first")


def try_proxy(name, program, is_patient):
    """The checks that passed and failed of a proxy."""
    with tempfile.TemporaryDirectory() as folder:
        folder = Path(folder)
        make_certificate(folder)
        with Broker(program) as broker, Proxy(name, folder, broker.port) as proxy:
            tried = Tried(proxy, broker)
            for part in (requests, sizes, bodies, same_replies, kept_connection, plain, versions, clients, logs):
                part(tried)
        with Listener() as listener, Proxy(name, folder, listener.port) as tried.proxy:
            for part in (fields_kept, sent_once, idle)[:3 if is_patient else 2]:
                part(tried, listener)
    return tried.passed, tried.failed


def main():
    warnings.simplefilter("ignore", DeprecationWarning)  # of TLS 1.1
    program, *names = [word for word in sys.argv[1:] if word != "--idle"]
    names = names or ["haproxy", "nginx"]
    for name in (*names, *NEAR_ENDS):
        if not installed(name):
            print(f"proxy: {name}: not installed, not tried")
    names, near_ends = ([*filter(installed, some)] for some in (names, NEAR_ENDS))
    client = client_program() if names and near_ends else None
    passed = failed = 0
    for name in names:
        more, wrong = try_proxy(name, program, "--idle" in sys.argv)
        if more + wrong < LEAST:
            print(f"proxy: {name}: {more + wrong} checks, which are too few")
            wrong += 1
        outcomes = [(more, wrong), *(try_near_end(near, name, program, client) for near in near_ends)]
        passed, failed = (count + sum(some) for count, some in zip((passed, failed), zip(*outcomes)))
    print(f"{passed} passed, {failed} failed")
    return failed != 0


if __name__ == "__main__":
    sys.exit(main())
