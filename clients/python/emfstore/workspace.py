"""A workspace: its number, and each command that is about it."""
from __future__ import annotations

import json
from collections.abc import Callable, Iterator, Sequence
from contextlib import contextmanager, suppress
from dataclasses import dataclass
from typing import TYPE_CHECKING, Union

from emfstore.conflicts import Choice, Conflict
from emfstore.faults import Ended, Refused
from emfstore.lines import Document, Element, line_of, roots_of, text_of, with_rest
from emfstore.operations import Operation, Value, operations_of
from emfstore.replies import Refusal
from emfstore.sides import conflicts_of_merge, conflicts_of_update, count_of

if TYPE_CHECKING:
    from emfstore.store import Store

ROOT = "/"
CONFLICTS = 25
Choices = Union[Choice, Sequence[Choice], Callable[[Conflict], Choice]]


@dataclass(frozen=True)
class Missing:
    """A feature of an element that holds less than its lower bound asks."""

    element: str
    feature: str
    count: int
    lower: int


class Workspace:
    """A workspace of a store, by its number. Each method is one command, and raises Refused where that is refused."""

    def __init__(self, store: Store, number: int) -> None:
        self.store = store
        self.number = number

    def __repr__(self) -> str:
        return f"Workspace({self.number})"

    def create(self, class_name: str, parent: str | None = None, feature: str | None = None, element: str | None = None) -> str:
        """Makes an element, last at the root or in a containment of a parent, and returns its id, which is given here or by the program."""
        return self.store.send(line_of("create", self.number, class_name, *_place(parent, feature), element)).words[0]

    def move(self, element: str, parent: str | None = None, feature: str | None = None, index: int | None = None) -> None:
        """Moves an element to the root or into a containment of a parent: last, or to stand before the other element at an index."""
        self._send("move", element, *_place(parent, feature), index)

    def delete(self, element: str) -> None:
        """Deletes an element, with what it contains and all links from and to that."""
        self._send("delete", element)

    def set(self, element: str, feature: str, value: Value) -> None:
        """Gives a single attribute a value, or a single reference the element whose id the value is."""
        self._send_value(line_of("set", self.number, element, feature), value)

    def unset(self, element: str, feature: str) -> None:
        """Takes all values of an attribute away, or all targets of a reference."""
        self._send("unset", element, feature)

    def add(self, element: str, feature: str, value: Value, index: int | None = None) -> None:
        """Puts a value into a many-valued attribute: last, or before the one at an index."""
        self._send_value(line_of("add", self.number, element, feature, "end" if index is None else index), value)

    def remove(self, element: str, feature: str, index: int) -> None:
        """Takes the value at an index out of a many-valued attribute."""
        self._send("remove", element, feature, index)

    def shift(self, element: str, feature: str, old: int, new: int) -> None:
        """Moves a value of a many-valued attribute to another index."""
        self._send("shift", element, feature, old, new)

    def link(self, element: str, feature: str, target: str, index: int | None = None) -> None:
        """Puts a target into a reference that may hold several: last, or before the one at an index."""
        self._send("link", element, feature, target, index)

    def unlink(self, element: str, feature: str, target: str) -> None:
        """Takes a target out of a reference that may hold several."""
        self._send("unlink", element, feature, target)

    def reorder(self, element: str, feature: str, target: str, index: int) -> None:
        """Lets a target of a reference stand at an index."""
        self._send("reorder", element, feature, target, index)

    def bring_in(self, model: Document) -> int:
        """Imports a model, a text or an object that becomes one, and returns how many elements it has."""
        return int(self.store.send(line_of("import", self.number), text_of(model)).words[0])

    def begin(self, name: str) -> None:
        """Opens a composite, which all edits join up to `end`."""
        self._send("begin", name)

    def end(self) -> None:
        """Closes the composite."""
        self._send("end")

    @contextmanager
    def composite(self, name: str) -> Iterator[Workspace]:
        """Records all edits of a `with` as one operation. Where an exception leaves it they are taken back, so that all are recorded or none."""
        self.begin(name)
        try:
            yield self
        except BaseException:
            with suppress(Ended):
                self._take_composite_back()
            raise
        self.end()

    def changes(self) -> list[Operation]:
        """The operations that are recorded, and then the open composite."""
        return operations_of(self.store.send(line_of("changes", self.number)).data)

    def undo(self) -> None:
        """Takes the last operation back."""
        self._send("undo")

    def discard(self) -> None:
        """Takes all operations back, with the open composite and the pending merges."""
        self._send("discard")

    def tidy(self) -> None:
        """Tidies the operations, to the same effect."""
        self._send("tidy")

    def apply(self, package: bytes) -> None:
        """Records the operations of a package, as `Store.package` has its bytes, of at most 524,284."""
        self._send("apply", package.hex())

    def load(self, package: bytes) -> None:
        """As `apply`, of at most 4,194,303 bytes. While a composite is open a package of one operation joins it."""
        self.store.send(line_of("load", self.number), package.hex())

    def revert(self, version: int) -> None:
        """Records what undoes a version on the way to the workspace's base."""
        self._send("revert", version)

    def commit(self, message: str = "") -> int:
        """Makes what is recorded a version, and returns its number."""
        return int(self.store.send(with_rest(line_of("commit", self.number), message)).words[0])

    def signed(self, author: str, moment: int, message: str = "") -> int:
        """As `commit`, of a store that was upgraded: with the author's name and the moment, a number of the caller's own."""
        return int(self.store.send(with_rest(line_of("signed", self.number, author, moment), message)).words[0])

    def update(self, choices: Choices | None = None) -> int:
        """Brings the workspace to its branch's head, whose number is returned.

        Conflicts are raised as Refused unless there are choices: one for all, or one for each in their order, or a function that is asked for each.
        """
        return self._choose(line_of("update", self.number), choices, self.conflicts)

    def merge(self, branch: str, choices: Choices | None = None) -> int:
        """Brings in what another branch has, with choices as those of an update. The number of that branch's head is returned."""
        return self._choose(line_of("merge", self.number, branch), choices, lambda: self.conflicts(branch))

    def conflicts(self, branch: str | None = None) -> list[Conflict]:
        """What an update would ask, or a merge of a branch: each conflict, with the changes of both sides. Nothing is changed.

        The other side's operations are those of its versions. Mine of a merge no command prints: the merge is made over a copy of the store's file,
        in a temporary folder, and read there.
        """
        if branch is None:
            return conflicts_of_update(self.store, self.number)
        return conflicts_of_merge(self.store, self.number, branch)

    def branch(self, name: str) -> None:
        """Starts a branch at the workspace's base, and puts the workspace on it, with all that is recorded in it."""
        self._send("branch", name)

    def show(self) -> list[Element]:
        """The elements at the root of the workspace's model, each with what it contains."""
        return roots_of(self.store.send(line_of("show", self.number)).data[0])

    def validate(self) -> list[Missing]:
        """The features that hold less than their lower bounds ask."""
        lines = [line.split(" ") for line in self.store.send(line_of("validate", self.number)).data]
        return [Missing(element, feature, int(count), int(lower)) for element, feature, count, lower in lines]

    def drop(self) -> None:
        """The workspace is gone, with all that was recorded in it and not committed."""
        self._send("drop")

    def _take_composite_back(self) -> None:
        has_steps = any(operation.is_open and operation.steps for operation in self.changes())
        self.end()
        if has_steps:
            self.undo()

    def _send(self, command: str, *words: str | int | None) -> None:
        self.store.send(line_of(command, self.number, *words))

    def _send_value(self, line: str, value: Value) -> None:
        self.store.send(f"{line} {json.dumps(value, ensure_ascii=False)}")

    def _choose(self, line: str, choices: Choices | None, conflicts: Callable[[], list[Conflict]]) -> int:
        reply = self.store.ask(line)
        if isinstance(reply, Refusal) and reply.number == CONFLICTS and choices is not None:
            if isinstance(choices, Choice):
                chosen: Sequence[object] = [choices] * count_of(reply)
            elif callable(choices):
                chosen = [choices(conflict) for conflict in conflicts()]
            else:
                chosen = choices
            if not all(isinstance(choice, Choice) for choice in chosen):
                raise TypeError("each conflict takes a Choice, and one got none: nothing was changed")
            reply = self.store.ask(f"{line} {''.join(Choice(choice).value for choice in chosen)}")
        if isinstance(reply, Refusal):
            raise Refused(line, reply)
        assert reply is not None
        return int(reply.words[0])


def _place(parent: str | None, feature: str | None) -> tuple[str, ...]:
    if (parent is None) != (feature is None):
        raise ValueError("a place is the root, or a parent and a containment of it")
    return (ROOT,) if parent is None or feature is None else (parent, feature)
