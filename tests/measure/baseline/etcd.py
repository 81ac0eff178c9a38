"""A running etcd (Debian's etcd-server) of one member, which is asked by its HTTP gateway."""

import base64
import http.client
import json
import subprocess
import sys
from pathlib import Path

sys.path.insert(0, str(Path(__file__).resolve().parents[2] / "served"))
from broker import connect, free_port  # noqa: E402

SECRET = '{"password":"correct horse"}'
AT_ONCE = 100  # puts of a transaction that fills


def coded(text):
    return base64.b64encode(text.encode()).decode()


def put(number):
    return {"key": coded(f"secret/team/key{number:06}"), "value": coded(SECRET)}


def range_of(number):
    return {"key": coded(f"secret/team/key{number:06}")}


KINDS = {"range": range_of, "put": put}


def request(kind, number):
    """The bytes of a request: a `range` reads one key, and a `put` writes one more version of one."""
    body = json.dumps(KINDS[kind](number))
    return f"POST /v3/kv/{kind} HTTP/1.1\r\nHost: e\r\nContent-Length: {len(body)}\r\n\r\n{body}".encode()


class Etcd:
    """A program that serves until the block ends."""

    def __init__(self, folder):
        self.folder = folder

    def __enter__(self):
        self.port, peer = free_port(), free_port()
        clients, peers = f"http://127.0.0.1:{self.port}", f"http://127.0.0.1:{peer}"
        self.process = subprocess.Popen(
            ["etcd", "--data-dir", self.folder, "--listen-client-urls", clients, "--advertise-client-urls", clients,
             "--listen-peer-urls", peers, "--initial-advertise-peer-urls", peers, "--initial-cluster",
             f"default={peers}", "--log-level", "error"], stdout=subprocess.DEVNULL, stderr=subprocess.DEVNULL)
        try:
            connect(self.port, 30.0).close()
        except OSError:
            self.__exit__()
            raise
        return self

    def __exit__(self, *_):
        self.process.kill()
        self.process.wait()

    def asked(self, path, value):
        """The body of the reply to a request, which may come in chunks."""
        gateway = http.client.HTTPConnection("127.0.0.1", self.port, timeout=60)
        gateway.request("POST", f"/v3/kv/{path}", json.dumps(value))
        try:
            return gateway.getresponse().read()
        finally:
            gateway.close()

    def fill(self, many):
        """Puts the keys, many in a transaction, and sees that the last one is there."""
        for first in range(0, many, AT_ONCE):
            numbers = range(first, min(first + AT_ONCE, many))
            body = self.asked("txn", {"success": [{"requestPut": put(number)} for number in numbers]})
            if b'"succeeded":true' not in body:
                raise SystemExit(f"etcd: {body}")
        body = self.asked("range", range_of(many - 1))
        if b'"count":"1"' not in body:
            raise SystemExit(f"etcd: {body}")
