"""Calls of the program `client`, and a server that keeps what it was sent: what the scripts that test it share."""

import os
import socket
import subprocess
import threading
from dataclasses import dataclass
from pathlib import Path

TOP = Path(__file__).resolve().parent.parent.parent
SECONDS = 60  # for one call


def client_program():
    """The program that CLIENT names; or that of the release, or one that is built, which is put in its place."""
    if "CLIENT" in os.environ:
        return os.path.abspath(os.environ["CLIENT"])
    subprocess.run([TOP / "bin/run-program", "--build", "client"], check=True)
    return str(TOP / "crates/client/out/client")


@dataclass
class Said:
    """What came of a call."""
    status: int
    out: bytes
    err: bytes

    def __str__(self):
        return f"status {self.status}, {self.out[:300]!r}, {self.err[:600]!r}"


class Client:
    """The program, called in a folder that is its home, with no variables of the environment but those given here, and
    those of a call: one of None is not set."""

    def __init__(self, program, folder, **variables):
        self.program, self.folder = program, Path(folder)
        self.variables = {"PATH": os.environ["PATH"], "HOME": str(folder), **variables}

    def start(self, *words, stdout=subprocess.PIPE, **variables):
        """The program, which runs, with pipes."""
        given = {name: value for name, value in {**self.variables, **variables}.items() if value is not None}
        return subprocess.Popen([self.program, *words], cwd=self.folder, env=given, stdin=subprocess.PIPE,
                                stdout=stdout, stderr=subprocess.PIPE)

    def __call__(self, *words, given=b"", **more):
        process = self.start(*words, **more)
        try:
            out, err = process.communicate(given, timeout=SECONDS)
        except subprocess.TimeoutExpired:
            process.kill()
            out, err = process.communicate()
            err += b"(it did not end)"
        return Said(process.returncode, out or b"", err)

    def file(self, name, text, mode=0o600):
        """A file of the folder with this text."""
        path = self.folder / name
        path.write_bytes(text.encode() if isinstance(text, str) else text)
        path.chmod(mode)
        return path


def reply(body=b'{"a":1}\n', status="200 OK"):
    """The bytes of a reply."""
    body = body.encode() if isinstance(body, str) else body
    return f"HTTP/1.1 {status}\r\nContent-Length: {len(body)}\r\n\r\n".encode() + body


def sent(address, method, target, body=None, token="hvs.t", wrap_ttl=None):
    """The bytes of a request."""
    fields = [("Host", address), ("X-Vault-Token", token), ("X-Vault-Wrap-TTL", wrap_ttl), ("Connection", "close"),
              ("Content-Length", None if body is None else str(len(body.encode())))]
    lines = "".join(f"{name}: {value}\r\n" for name, value in fields if value is not None)
    return f"{method} /v1/{target} HTTP/1.1\r\n{lines}\r\n{body or ''}".encode()


def whole_request(connection):
    """The bytes of a request, as far as they come."""
    found = b""
    while True:
        head, end, body = found.partition(b"\r\n\r\n")
        length = head.lower().partition(b"content-length: ")[2].partition(b"\r\n")[0]
        if end and len(body) >= int(length or b"0"):
            return found
        more = connection.recv(65536)
        if not more:
            return found
        found += more


class Listener:
    """A server that keeps each request, and answers it with the next of the replies, and in the end with the last."""

    def __init__(self, *replies, port=0):
        self.listener = socket.create_server(("127.0.0.1", port))
        self.address = f"127.0.0.1:{self.listener.getsockname()[1]}"
        self.url = f"http://{self.address}"
        self.replies, self.sent = list(replies), []

    def __enter__(self):
        threading.Thread(target=self.serve, daemon=True).start()
        return self

    def __exit__(self, *_):
        self.listener.shutdown(socket.SHUT_RDWR)
        self.listener.close()

    def answer(self, *replies):
        """From here on it answers with these replies, and has been sent nothing."""
        self.replies, self.sent = list(replies), []

    def serve(self):
        while True:
            try:
                connection, _ = self.listener.accept()
                with connection:
                    self.sent.append(whole_request(connection))
                    connection.sendall(self.replies[min(len(self.sent), len(self.replies)) - 1])
            except ConnectionError:
                continue
            except OSError:
                return


class Checks:
    """What was found out, check by check."""

    def __init__(self, title):
        self.title, self.passed, self.wrong = title, [], []

    def same(self, what, found, wanted):
        self.holds(what, found == wanted, f"{found!r} in place of {wanted!r}")

    def holds(self, what, condition, why):
        if condition:
            self.passed.append(what)
        else:
            self.wrong.append(what)
            print(f"{self.title}, {what}: {why}", flush=True)

    def end(self):
        """Prints the counts, and answers the status of the script."""
        print(f"{len(self.passed)} passed, {len(self.wrong)} failed")
        return bool(self.wrong)
