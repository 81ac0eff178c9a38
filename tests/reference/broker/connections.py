"""A broker and its connections: pieces of bytes come in, replies go out."""

from .answers import Refusal
from .http import Need, Refused, asked, cutting_answer, front, reply_bytes
from .parts import TODAY
from .requests import step
from .rows import rows_of
from .state import first_broker
from .texts import token_text


class Server:
    """One broker and the connections seen. An event is one piece of bytes on one connection."""

    def __init__(self, moment: int, words: list, parts: frozenset = TODAY):
        self.parts = parts
        self.broker = first_broker(moment, words)
        self.root_token = token_text(words[1])
        self.unanswered: dict = {}  # connection -> its bytes after the answered requests
        self.closed: set = set()

    def step(self, moment: int, words: list, ask):
        """The answer to an ask; the broker becomes the next one."""
        answer, self.broker = step(self.broker, moment, words, ask, self.parts)
        return answer

    def feed(self, conn: int, piece: bytes, moment: int, words: list) -> bytes:
        """The bytes of this event's reply: at most one request is answered."""
        self.unanswered.setdefault(conn, b"")
        if conn in self.closed:
            return b""
        self.unanswered[conn] += piece
        found = front(self.unanswered[conn], self.parts)
        if isinstance(found, Need):
            return b""
        if isinstance(found, Refused):
            self.closed.add(conn)
            return reply_bytes(cutting_answer(found), moment, True)
        self.unanswered[conn] = self.unanswered[conn][found.length:]
        close = found.head.closes()
        try:
            ask = asked(found.head, found.body, self.parts)
        except Refusal as refusal:
            close = close or refusal.close
            answer = refusal.answer()
        else:
            answer = self.step(moment, words, ask)
        if close:
            self.closed.add(conn)
        return reply_bytes(answer, moment, close)

    def is_closed(self, conn: int) -> bool:
        """Whether nothing more is answered on a connection."""
        return conn in self.closed

    def rows(self) -> dict:
        """The rows that a store holds for this broker: (kind, key) -> (owner, due, body)."""
        return rows_of(self.broker)
