"""A program of the distribution that passes on what comes to a port of the loopback address, as examples/ or
docs/TLS.md have it: a proxy in front of a broker, or the near end of TLS on a client's machine. And the certificates of
both, and what stands in place of a broker. proxied.py and near_end.py have the checks."""

import contextlib
import os
import re
import shlex
import shutil
import socket
import ssl
import subprocess
import threading
import time
from pathlib import Path

from broker import connect, free_port

TOP = Path(__file__).resolve().parent.parent.parent
PATIENCE = 20.0  # seconds until a proxy listens

# What a configuration is given in place of its ports, folders and users: each text occurs once in it. The name that a
# near end looks for in a certificate stays.
CHANGES = {
    "haproxy": {
        ":443 ssl": "127.0.0.1:{outside} ssl",
        "127.0.0.1:8200": "127.0.0.1:{inside}",
        "/etc/haproxy/dehluvima.pem": "{folder}/both.pem",
        "    user haproxy\n    group haproxy\n    chroot /var/lib/haproxy\n": "",
    },
    "nginx": {
        "listen 443 ssl": "listen 127.0.0.1:{outside} ssl",
        "127.0.0.1:8200": "127.0.0.1:{inside}",
        "/etc/nginx/dehluvima.crt": "{folder}/certificate.pem",
        "/etc/nginx/dehluvima.key": "{folder}/key.pem",
        "access_log /var/log/nginx/dehluvima.log": "access_log {folder}/nginx.log",
        # The second log would have a line for each body and reply that is written to a file.
        "error_log /var/log/nginx/dehluvima-error.log crit;":
            "error_log {folder}/nginx-error.log crit; error_log {folder}/nginx-warned.log warn;",
    },
    "stunnel": {
        "accept = 127.0.0.1:8200": "accept = 127.0.0.1:{outside}",
        "connect = vault.example.org:443": "connect = 127.0.0.1:{inside}",
        "/etc/dehluvima/ca.pem": "{folder}/ca.pem",
    },
    "socat": {
        "TCP4-LISTEN:8200,": "TCP4-LISTEN:{outside},",
        "OPENSSL:vault.example.org:443,": "OPENSSL:127.0.0.1:{inside},",
        "cafile=ca.pem": "cafile={folder}/ca.pem",
    },
}

# The words of openssl for a new key.
NEW_KEY = ("-newkey", "ec", "-pkeyopt", "ec_paramgen_curve:prime256v1", "-nodes")

# The configuration of nginx that reads the example, where Debian has its own.
AROUND = """daemon off;
master_process off;
pid {folder}/nginx.pid;
error_log {folder}/nginx-start.log;
events {{}}
http {{
    client_body_temp_path {folder}/body;
    proxy_temp_path {folder}/proxy;
    fastcgi_temp_path {folder}/fastcgi;
    uwsgi_temp_path {folder}/uwsgi;
    scgi_temp_path {folder}/scgi;
    include {folder}/example;
}}
"""

FILES = {"haproxy": "haproxy.cfg", "nginx": "nginx.conf", "stunnel": "stunnel.conf"}
LOGS = {"haproxy": ("haproxy.out",), "nginx": ("nginx.log", "nginx-error.log"), "stunnel": ("stunnel.out",),
        "socat": ("socat.out",)}


def installed(name):
    """The path of a proxy, or None. Debian has them where others than root may not look."""
    return shutil.which(name, path=f"{os.environ['PATH']}:/usr/sbin")


def openssl(*words):
    subprocess.run(["openssl", *words], check=True, stdout=subprocess.DEVNULL, stderr=subprocess.DEVNULL)


def write_both(folder):
    """Writes a certificate and its key into one file, as HAProxy wants them."""
    both = (folder / "certificate.pem").read_bytes() + (folder / "key.pem").read_bytes()
    (folder / "both.pem").write_bytes(both)


def make_certificate(folder):
    """A certificate of the loopback address that signs itself, its key, and a file with both."""
    openssl("req", "-x509", *NEW_KEY, "-subj", "/CN=127.0.0.1", "-addext", "subjectAltName=IP:127.0.0.1", "-days", "2",
            "-keyout", folder / "key.pem", "-out", folder / "certificate.pem")
    write_both(folder)


def make_authority(folder):
    """The certificate of a CA, and its key."""
    openssl("req", "-x509", *NEW_KEY, "-subj", "/CN=CA", "-days", "2", "-keyout", folder / "ca.key",
            "-out", folder / "ca.pem")


def make_signed(folder, authority, host, days):
    """A certificate of a host that is signed by the CA of another folder, its key, and a file with both. It expires
    after so many days; -1 was yesterday."""
    openssl("req", "-new", *NEW_KEY, "-subj", "/CN=proxy", "-addext", f"subjectAltName=DNS:{host}",
            "-keyout", folder / "key.pem", "-out", folder / "request.pem")
    openssl("x509", "-req", "-in", folder / "request.pem", "-copy_extensions", "copy", "-days", str(days),
            "-CA", authority / "ca.pem", "-CAkey", authority / "ca.key", "-CAcreateserial",
            "-out", folder / "certificate.pem")
    write_both(folder)


def published(name):
    """The configuration of examples/, or the command of docs/TLS.md."""
    if name == "socat":
        page = (TOP / "docs/TLS.md").read_text(encoding="utf-8").replace("\\\n", " ")
        return re.search(r"^    (socat .*)$", page, re.MULTILINE)[1]
    return (TOP / "examples" / FILES[name]).read_text(encoding="utf-8")


class Proxy:
    """A proxy or a near end that runs in the foreground until the block ends, in front of the port `inside`. Its files
    are in a folder, which has the certificate of a proxy, or the CA of a near end."""

    def __init__(self, name, folder, inside):
        self.name, self.folder, self.inside = name, folder, inside

    def configuration(self):
        """The published configuration, with the ports and folders of this run."""
        text = published(self.name)
        for old, new in CHANGES[self.name].items():
            if text.count(old) != 1:
                raise SystemExit(f"the configuration of {self.name}: there is not one {old!r}")
            text = text.replace(old, new.format(outside=self.port, inside=self.inside, folder=self.folder))
        return text

    def command(self):
        if self.name == "socat":
            return shlex.split(self.configuration())
        (self.folder / "example").write_text(self.configuration(), encoding="utf-8")
        if self.name == "stunnel":
            return [installed("stunnel"), self.folder / "example"]
        if self.name == "haproxy":
            return [installed("haproxy"), "-db", "-f", self.folder / "example"]
        (self.folder / "around").write_text(AROUND.format(folder=self.folder), encoding="utf-8")
        return [installed("nginx"), "-e", self.folder / "nginx-start.log", "-c", self.folder / "around"]

    def __enter__(self):
        for _ in range(5):
            self.port = free_port()
            with open(self.folder / f"{self.name}.out", "ab") as said:
                self.process = subprocess.Popen(self.command(), stdin=subprocess.DEVNULL, stdout=said, stderr=said)
            if self.listens():
                return self
            self.__exit__()
        said = (self.folder / f"{self.name}.out").read_text(encoding="utf-8", errors="replace")
        raise SystemExit(f"{self.name}: it does not listen: {said[-500:]}")

    def listens(self):
        """Whether the proxy can be connected to. It is waited for, unless it ends."""
        until = time.monotonic() + PATIENCE
        while self.process.poll() is None and time.monotonic() < until:
            try:
                with contextlib.suppress(ConnectionResetError):  # by a near end that reaches no proxy
                    connect(self.port, 0.0).close()
                return True
            except ConnectionRefusedError:
                time.sleep(0.02)
        return False

    def __exit__(self, *_):
        self.process.terminate()
        self.process.wait(PATIENCE)

    def connect(self):
        """A connection over TLS, whose certificate is checked."""
        context = ssl.create_default_context(cafile=self.folder / "certificate.pem")
        return context.wrap_socket(connect(self.port), server_hostname="127.0.0.1")

    def logged(self):
        """All that is in its logs."""
        found = [self.folder / name for name in LOGS[self.name] if (self.folder / name).exists()]
        return "".join(path.read_text(encoding="utf-8", errors="replace") for path in found)


def length_of(lines):
    """What the field Content-Length of a head says, or 0."""
    return next((int(line[15:]) for line in lines if line.lower().startswith(b"content-length:")), 0)


def next_request(stream):
    """The lines of the head of the next request, whose body is read over. None at the end."""
    lines = []
    for line in stream:
        if line == b"\r\n":
            stream.read(length_of(lines))
            return lines
        lines.append(line.removesuffix(b"\r\n"))
    return None


class Listener:
    """Stands in place of a broker until the block ends: it keeps what it is sent, and answers each request by 204, but
    for one whose path has `lost`, after which it closes the connection without a reply. The checks of HAProxy are
    answered, and neither they nor their connections are kept or counted."""

    def __enter__(self):
        self.connections, self.requests = 0, []
        self.closed_after = None  # seconds from the last request on a connection until the other side closed it
        self.listening = socket.create_server(("127.0.0.1", 0))
        self.port = self.listening.getsockname()[1]
        threading.Thread(target=self.accept, daemon=True).start()
        return self

    def __exit__(self, *_):
        self.listening.close()

    def accept(self):
        while True:
            try:
                connection, _ = self.listening.accept()
            except OSError:
                return
            self.connections += 1
            threading.Thread(target=self.serve, args=(connection,), daemon=True).start()

    def serve(self, connection):
        """Serves a connection until it is closed."""
        last = time.monotonic()
        with connection, contextlib.suppress(ConnectionError), connection.makefile("rb") as stream:
            while lines := next_request(stream):
                if lines[0].startswith(b"GET / "):
                    self.connections -= 1
                    connection.sendall(b"HTTP/1.1 404 Not Found\r\nConnection: close\r\nContent-Length: 0\r\n\r\n")
                    return
                self.requests.append(lines)
                last = time.monotonic()
                if b"lost" in lines[0]:
                    return
                connection.sendall(b"HTTP/1.1 204 No Content\r\n\r\n")
        self.closed_after = time.monotonic() - last
