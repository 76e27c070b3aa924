"""Conflicts in words that a dialogue can show: of each side the operations, by element, feature and values."""
from __future__ import annotations

import enum
import json
from collections.abc import Iterable, Iterator, Mapping
from dataclasses import dataclass

from emfstore.operations import (Gone, Inserted, Linked, Moved, New, Operation, Put, Ranked, Reranked, Shifted, Step, Taken, Unlinked, Value)


NAMES = ("name", "label", "title")


class Choice(enum.Enum):
    """Which side of a conflict is kept."""

    MINE = "m"
    THEIRS = "t"


Cell = tuple[str, ...]
# The value before all operations of a side, and the one after them.
Cells = dict[Cell, "tuple[Value | None, Value | None]"]
# Operations with their numbers, those of theirs with their versions.
Side = list["tuple[int, Operation, int | None]"]


@dataclass(frozen=True)
class Bucket:
    """A conflict as the program prints it: the numbers of the operations of each side."""

    number: int
    theirs: tuple[int, ...]
    mine: tuple[int, ...]


@dataclass(frozen=True)
class Change:
    """What one step of an operation changes.

    `old` is the value before, `theirs` and `mine` what each side makes of it; a side that leaves it alone has the old one. None stands for no value.
    Of `link` and `unlink` a value is the target's id. Of `create`, `delete` and `move` it is the place, as `door/states` or `/`; of `order` a rank,
    and of `shift` an index. `label` and `path` are for people. `version` is the number of the version that an operation of theirs is of.
    """

    operation: int
    version: int | None
    kind: str
    element: str
    label: str
    path: str
    feature: str | None
    old: Value | None
    theirs: Value | None
    mine: Value | None

    def __str__(self) -> str:
        place = f"{self.kind} {self.feature} of {self.label}" if self.feature else f"{self.kind} {self.label}"
        return f"{place} ({self.path}): was {_word(self.old)}, theirs {_word(self.theirs)}, mine {_word(self.mine)}"


@dataclass(frozen=True)
class Conflict:
    """A bucket: operations of both sides of which one side is kept.

    `theirs` and `mine` have a change for each step of the operations of that side. `changes` has one for each feature, value or place that some step
    changes, with what it was before all of them and what each side makes of it in the end: the lines of a table that is shown to a user.
    """

    number: int
    theirs: tuple[Change, ...]
    mine: tuple[Change, ...]
    changes: tuple[Change, ...]

    def __str__(self) -> str:
        return "\n".join([f"conflict {self.number}", *(f"  theirs: {it}" for it in self.theirs), *(f"  mine: {it}" for it in self.mine)])


class Labels:
    """The labels and paths of the elements of some models, the first of which that has an element tells."""

    def __init__(self, models: Iterable[list[dict[str, object]]]) -> None:
        self._found: dict[str, tuple[str, str]] = {}
        for roots in models:
            stack = [(root, "") for root in roots]
            while stack:
                element, above = stack.pop()
                label = label_of(element)
                self._found.setdefault(str(element["_id"]), (label, above + label))
                stack += [(child, f"{above}{label}/") for child in _children(element)]

    def of(self, element: str) -> tuple[str, str]:
        """The label and the path of an element; its id stands for both where no model has it."""
        return self._found.get(element, (element, element))


def label_of(element: Mapping[str, object]) -> str:
    """What people call an element: its `name`, `label` or `title`, else another attribute that is a text, else its class."""
    texts = [*map(element.get, NAMES), *(element[key] for key in element if key not in ("_id", "eClass"))]
    return next((text for text in texts if isinstance(text, str) and text), str(element["eClass"]).rpartition("/")[2])


def conflicts_of(buckets: Iterable[Bucket], theirs: Mapping[int, tuple[Operation, int | None]], mine: Mapping[int, Operation],
                 labels: Labels) -> list[Conflict]:
    """The conflicts that these buckets are, from the operations of each side by number; those of theirs with their versions."""
    found = []
    for bucket in buckets:
        left: Side = [(number, *theirs[number]) for number in bucket.theirs]
        right: Side = [(number, mine[number], None) for number in bucket.mine]
        by_theirs = _results(operation for _, operation, _ in left)
        by_mine = _results(operation for _, operation, _ in right)
        told, own = (tuple(_changes(side, by_theirs, by_mine, labels)) for side in (left, right))
        found.append(Conflict(bucket.number, told, own, tuple(_first_of_each(left + right, told + own))))
    return found


def _results(operations: Iterable[Operation]) -> Cells:
    """What a side makes of each cell: the value before all its operations, and the one after them."""
    cells: Cells = {}
    for operation in operations:
        for step in operation.steps:
            cell, _, _, old, new = _told(step)
            cells[cell] = (cells[cell][0] if cell in cells else old, new)
            if isinstance(step, Linked):
                cells[_linked(step.element, step.feature)] = None, step.target
    return cells


def _linked(element: str, feature: str) -> Cell:
    """Where the last target is found that a side gives a reference: so two sides that link other targets see each other's."""
    return element, feature, "last", "target"


def _result(cells: Cells, step: Step) -> Value | None:
    cell, kind, feature, old, _ = _told(step)
    if kind == "link" and feature and cell not in cells:
        cell = _linked(step.element, feature)
    return cells[cell][1] if cell in cells else old


def _changes(side: Side, theirs: Cells, mine: Cells, labels: Labels) -> Iterator[Change]:
    for number, operation, version in side:
        for step in operation.steps:
            _, kind, feature, old, _ = _told(step)
            label, path = labels.of(step.element)
            yield Change(number, version, kind, step.element, label, path, feature, old, _result(theirs, step), _result(mine, step))


def _first_of_each(side: Side, changes: Iterable[Change]) -> Iterator[Change]:
    """Of the changes of these operations, in the order of their steps, the first of each cell: its old value is that before all of them."""
    seen: set[Cell] = set()
    steps = (step for _, operation, _ in side for step in operation.steps)
    for step, change in zip(steps, changes):
        cell = _told(step)[0]
        if cell not in seen:
            seen.add(cell)
            yield change


def _told(step: Step) -> tuple[Cell, str, str | None, Value | None, Value | None]:
    """Of a step the cell that it changes, its kind, its feature, and the values before and after."""
    at = step.element
    if isinstance(step, (New, Gone)):
        place = str(step.place)
        kind, old, new = ("create", None, place) if isinstance(step, New) else ("delete", place, None)
        return (at, "", "place"), kind, None, old, new
    if isinstance(step, Moved):
        return (at, "", "place"), "move", None, str(step.old), str(step.new)
    if isinstance(step, Ranked):
        return (at, "", "rank"), "order", None, step.old, step.new
    return _told_of_feature(step)


def _told_of_feature(step: Put | Inserted | Taken | Shifted | Linked | Unlinked | Reranked) -> tuple[Cell, str, str, Value | None, Value | None]:
    at, feature = step.element, step.feature
    if isinstance(step, Put):
        return (at, feature), "set", feature, step.old, step.new
    if isinstance(step, Inserted):
        return (at, feature, json.dumps(step.value)), "add", feature, None, step.value
    if isinstance(step, Taken):
        return (at, feature, json.dumps(step.value)), "remove", feature, step.value, None
    if isinstance(step, Shifted):
        return (at, feature, "index", str(step.old)), "shift", feature, step.old, step.new
    if isinstance(step, Linked):
        return (at, feature, step.target), "link", feature, None, step.target
    if isinstance(step, Unlinked):
        return (at, feature, step.target), "unlink", feature, step.target, None
    return (at, feature, step.target, "rank"), "order", feature, step.old, step.new


def _children(element: Mapping[str, object]) -> list[dict[str, object]]:
    """The elements inside another. A reference is an object too, but has no id of its own."""
    found: list[dict[str, object]] = []
    for value in element.values():
        items = value if isinstance(value, list) else [value]
        found += [item for item in items if isinstance(item, dict) and "_id" in item]
    return found


def _word(value: Value | None) -> str:
    return "nothing" if value is None else json.dumps(value, ensure_ascii=False)
