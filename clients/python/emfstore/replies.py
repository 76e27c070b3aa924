"""Commands and replies as they stand on the lines of a session."""
from __future__ import annotations

from dataclasses import dataclass

COMMANDS_WITH_BLOCKS = ("init", "evolve", "import", "load")


@dataclass(frozen=True)
class Accepted:
    """A reply that ends by `ok`: its data lines, and the words after `ok`."""

    data: tuple[str, ...]
    words: tuple[str, ...]

    @property
    def lines(self) -> list[str]:
        """The lines of the reply as they were printed."""
        return [*self.data, " ".join(("ok", *self.words))]


@dataclass(frozen=True)
class Refusal:
    """A reply that ends by `no`: its data lines, and the refusal's number, name and fields."""

    data: tuple[str, ...]
    number: int
    name: str
    fields: tuple[str, ...]

    @property
    def lines(self) -> list[str]:
        """The lines of the reply as they were printed."""
        return [*self.data, " ".join(("no", str(self.number), self.name, *self.fields))]


def first_word(line: str) -> str:
    """The first word of a line, which says whether a block follows."""
    return line.removesuffix("\r").split(" ", 1)[0]


def is_answered(line: str) -> bool:
    """Whether a line gets a reply: an empty one and a comment get none."""
    return line.removesuffix("\r") != "" and not line.startswith("#")


def ends_reply(line: str, command: str) -> bool:
    """Whether the line ends the reply to a command. One of `validate` begins with an id, which may be `ok` or `no`, and has a feature's name then."""
    words = line.split(" ")
    if command.startswith("validate "):
        return line == "ok" or words[0] == "no" and words[1].isdigit()
    return words[0] in ("ok", "no")


def reply_of(lines: list[str]) -> Accepted | Refusal:
    """The reply that has these lines, the last of which ends it."""
    *data, last = lines
    word, *rest = last.split(" ")
    if word == "ok":
        return Accepted(tuple(data), tuple(rest))
    return Refusal(tuple(data), int(rest[0]), rest[1], tuple(rest[2:]))
