"""Operations and their steps, as `changes` and `package` print them."""
from __future__ import annotations

import json
from collections.abc import Iterable
from dataclasses import dataclass
from typing import Union

Value = Union[str, bool, int]
ABSENT = "-"
INVERSE_KINDS = {"create": "delete", "delete": "create"}


@dataclass(frozen=True)
class Place:
    """Where an element stands: in a containment of a parent, or at the root, which has neither."""

    parent: str | None
    feature: str | None

    def __str__(self) -> str:
        return "/" if self.parent is None else f"{self.parent}/{self.feature}"


@dataclass(frozen=True)
class _Placed:
    """An element of a class at a place."""

    element: str
    class_name: str
    place: Place
    rank: int


class New(_Placed):
    """An element is created."""

    def inverse(self) -> Gone:
        """The step that takes this one back."""
        return Gone(self.element, self.class_name, self.place, self.rank)


class Gone(_Placed):
    """An element is deleted."""

    def inverse(self) -> New:
        """The step that takes this one back."""
        return New(self.element, self.class_name, self.place, self.rank)


@dataclass(frozen=True)
class Moved:
    """An element is moved from one place to another."""

    element: str
    old: Place
    old_rank: int
    new: Place
    new_rank: int

    def inverse(self) -> Moved:
        """The step that takes this one back."""
        return Moved(self.element, self.new, self.new_rank, self.old, self.old_rank)


@dataclass(frozen=True)
class Ranked:
    """An element gets another rank where it stands."""

    element: str
    old: int
    new: int

    def inverse(self) -> Ranked:
        """The step that takes this one back."""
        return Ranked(self.element, self.new, self.old)


@dataclass(frozen=True)
class Put:
    """A single attribute changes; None stands for no value."""

    element: str
    feature: str
    old: Value | None
    new: Value | None

    def inverse(self) -> Put:
        """The step that takes this one back."""
        return Put(self.element, self.feature, self.new, self.old)


@dataclass(frozen=True)
class _Valued:
    """A value of a many-valued attribute at an index."""

    element: str
    feature: str
    index: int
    value: Value


class Inserted(_Valued):
    """A many-valued attribute gets a value at an index."""

    def inverse(self) -> Taken:
        """The step that takes this one back."""
        return Taken(self.element, self.feature, self.index, self.value)


class Taken(_Valued):
    """A many-valued attribute loses the value at an index."""

    def inverse(self) -> Inserted:
        """The step that takes this one back."""
        return Inserted(self.element, self.feature, self.index, self.value)


@dataclass(frozen=True)
class Shifted:
    """A value of a many-valued attribute is moved to another index."""

    element: str
    feature: str
    old: int
    new: int

    def inverse(self) -> Shifted:
        """The step that takes this one back."""
        return Shifted(self.element, self.feature, self.new, self.old)


@dataclass(frozen=True)
class _Joined:
    """A link, with its rank on each side; the target's is None where the reference has no opposite."""

    element: str
    feature: str
    rank: int
    target: str
    target_rank: int | None


class Linked(_Joined):
    """A link is added."""

    def inverse(self) -> Unlinked:
        """The step that takes this one back."""
        return Unlinked(self.element, self.feature, self.rank, self.target, self.target_rank)


class Unlinked(_Joined):
    """A link is removed."""

    def inverse(self) -> Linked:
        """The step that takes this one back."""
        return Linked(self.element, self.feature, self.rank, self.target, self.target_rank)


@dataclass(frozen=True)
class Reranked:
    """An entry of a reference gets another rank."""

    element: str
    feature: str
    target: str
    old: int
    new: int

    def inverse(self) -> Reranked:
        """The step that takes this one back."""
        return Reranked(self.element, self.feature, self.target, self.new, self.old)


Step = Union[New, Gone, Moved, Ranked, Put, Inserted, Taken, Shifted, Linked, Unlinked, Reranked]


@dataclass(frozen=True)
class Operation:
    """What one edit recorded, or all edits of a composite. The open composite has no number. `lines` are as they were printed."""

    number: int | None
    kind: str
    name: str | None
    steps: tuple[Step, ...]
    lines: tuple[str, ...]

    @property
    def is_open(self) -> bool:
        """Whether it is the composite that is open."""
        return self.number is None

    def inverse_steps(self) -> tuple[Step, ...]:
        """The steps that take this operation back, in their order."""
        return tuple(step.inverse() for step in reversed(self.steps))


def operations_of(lines: Iterable[str]) -> list[Operation]:
    """The operations that are printed by these lines."""
    groups: list[list[str]] = []
    for line in lines:
        if line.startswith(" "):
            groups[-1].append(line)
        elif line.startswith(("op ", "open ")):
            groups.append([line])
    return [_operation(group) for group in groups]


def _operation(lines: list[str]) -> Operation:
    words = lines[0].split(" ")
    steps = tuple(step_of(line[1:]) for line in lines[1:])
    if words[0] == "open":
        return Operation(None, "composite", words[1], steps, tuple(lines))
    return Operation(int(words[1]), words[2], words[3] if len(words) > 3 else None, steps, tuple(lines))


def step_of(line: str) -> Step:
    """The step that a line says, without the space before it."""
    word, element, rest = line.split(" ", 2)
    if word in ("put", "ins", "del"):
        return _step_of_values(word, element, rest)
    words = rest.split(" ")
    if word in ("new", "gone"):
        made = New(element, words[0], _place(words[1]), int(words[2]))
        return made if word == "new" else made.inverse()
    if word == "move":
        return Moved(element, _place(words[0]), int(words[1]), _place(words[2]), int(words[3]))
    if word == "place":
        return Ranked(element, int(words[0]), int(words[1]))
    if word == "shift":
        return Shifted(element, words[0], int(words[1]), int(words[2]))
    if word == "rerank":
        return Reranked(element, words[0], words[1], int(words[2]), int(words[3]))
    linked = Linked(element, words[0], int(words[1]), words[2], None if words[3] == ABSENT else int(words[3]))
    return linked if word == "link" else linked.inverse()


def _step_of_values(word: str, element: str, rest: str) -> Step:
    feature, values = rest.split(" ", 1)
    if word == "put":
        old, after = _value(values)
        return Put(element, feature, old, _value(after[1:])[0])
    index, text = values.split(" ", 1)
    value: Value = json.loads(text)
    return Inserted(element, feature, int(index), value) if word == "ins" else Taken(element, feature, int(index), value)


def _value(text: str) -> tuple[Value | None, str]:
    """The value at the beginning of a text, and what stands after it. A number never begins with a minus and a space."""
    if text == ABSENT or text.startswith(ABSENT + " "):
        return None, text[1:]
    value, end = json.JSONDecoder().raw_decode(text)
    found: Value = value
    return found, text[end:]


def _place(word: str) -> Place:
    if word == "/":
        return Place(None, None)
    parent, feature = word.rsplit("/", 1)
    return Place(parent, feature)
