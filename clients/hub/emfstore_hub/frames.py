"""Frames of the program, and messages between a client and the hub: a head of one line, and then as many bytes as it says.

    frame of a turn       USER COUNT        and COUNT bytes, a script
    from a client         hello | hello USER, turn COUNT and COUNT bytes, watch SIZE
    from the hub          hello USER, answer COUNT and COUNT bytes, size SIZE, lost WORDS, refused WORDS
"""
import re
from dataclasses import dataclass

MOST_HEAD = 200
MOST_FRAME = 16_777_216
NAME = re.compile(rb"[A-Za-z][A-Za-z0-9_]{0,63}")
NUMBER = re.compile(rb"0|[1-9][0-9]{0,11}")


class Misspelled(Exception):
    """A message isn't of the forms above."""


@dataclass(frozen=True)
class Frame:
    """What a user sends as a whole: a turn."""
    user: str
    text: bytes

    def encoded(self) -> bytes:
        """The bytes of the frame, head first."""
        return f"{self.user} {len(self.text)}\n".encode() + self.text


@dataclass(frozen=True)
class Request:
    """A client's message without its bytes: its word, and its number or 0."""
    word: str
    number: int = 0
    user: str | None = None


def number_of(word: bytes) -> int:
    """The number that is spelled by digits without needless zeros."""
    if not NUMBER.fullmatch(word):
        raise Misspelled("a number is digits without needless zeros")
    return int(word)


def request_of(line: bytes) -> Request:
    """The request of a head, without its line feed."""
    words = line.split(b" ")
    match words:
        case [b"hello"]:
            return Request("hello")
        case [b"hello", name] if NAME.fullmatch(name):
            return Request("hello", user=name.decode())
        case [(b"turn" | b"watch") as word, count]:
            return Request(word.decode(), number_of(count))
    raise Misspelled("a head is hello, turn COUNT or watch SIZE")


class Answers:
    """Cuts what the program prints into answers. Each ends by the first empty line: no reply of any command has one, which is proved."""

    def __init__(self) -> None:
        self._bytes = bytearray()
        self._searched = 0

    def add(self, some: bytes) -> list[bytes]:
        """The answers that are whole with these bytes, without their empty lines."""
        self._bytes += some
        found = []
        while (answer := self._next()) is not None:
            found.append(answer)
        return found

    def _next(self) -> bytes | None:
        if self._bytes.startswith(b"\n"):
            return self._cut(0)
        end = self._bytes.find(b"\n\n", self._searched)
        if end < 0:
            self._searched = max(len(self._bytes) - 1, 0)
            return None
        return self._cut(end + 1)

    def _cut(self, length: int) -> bytes:
        answer = bytes(self._bytes[:length])
        del self._bytes[:length + 1]
        self._searched = 0
        return answer
