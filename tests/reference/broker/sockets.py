"""Real clients, answered on a TCP port with the system's clock and random words."""

import secrets as random_source
import socket
import sys
import threading
import time

from .connections import Server
from .parts import TODAY
from .texts import GREATEST_MOMENT


def random_words() -> list:
    """Eight random words."""
    return [random_source.randbits(128) for _ in range(8)]


def system_moment() -> int:
    """The moment now."""
    return min(max(int(time.time()), 0), GREATEST_MOMENT)


def serve_connection(server: Server, lock: threading.Lock, stream: socket.socket, conn: int) -> None:
    """Answers one client until it leaves, or the connection closes."""
    try:
        with stream:
            while not server.is_closed(conn):
                piece = stream.recv(8192)
                if not piece:
                    return
                while True:  # the piece, then empty ones while replies come
                    with lock:
                        reply = server.feed(conn, piece, system_moment(), random_words())
                    if not reply:
                        break
                    stream.sendall(reply)
                    piece = b""
    except OSError:
        pass  # a broken connection is skipped


def serve(address: str, parts: frozenset = TODAY) -> int:
    """Answers clients at HOST:PORT. It prints the root token first, and ends only if it cannot listen."""
    host, _, port = address.rpartition(":")
    try:
        listener = socket.create_server((host.strip("[]"), int(port)))
    except (OSError, ValueError):
        print("fault 5", file=sys.stderr)
        return 1
    server = Server(system_moment(), random_words(), parts)
    print(f"root token: {server.root_token}", flush=True)
    lock = threading.Lock()
    conn = 0
    while True:
        stream, _ = listener.accept()
        threading.Thread(target=serve_connection, args=(server, lock, stream, conn), daemon=True).start()
        conn += 1
