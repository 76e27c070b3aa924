"""Both sides of an update and of a merge, before it is chosen."""
from __future__ import annotations

from typing import TYPE_CHECKING

from emfstore.conflicts import Bucket, Conflict, Labels, conflicts_of
from emfstore.faults import Refused, StoreError
from emfstore.lines import line_of, numbers_of, roots_of
from emfstore.operations import INVERSE_KINDS, Operation, operations_of
from emfstore.replies import Accepted, Refusal

if TYPE_CHECKING:
    from emfstore.store import Store, Version

NO_CHOICE = "x"
BAD_CHOICE, STALE, UNSIGNED = 26, 24, 40


def count_of(refusal: Refusal) -> int:
    """How many buckets a refusal by Conflicts names."""
    return int(refusal.fields[0])


def buckets(store: Store, line: str) -> list[Bucket]:
    """The buckets of an update or a merge. A letter that is no choice is sent first, as what has no bucket would be done at once without letters."""
    first = store.ask(f"{line} {NO_CHOICE}")
    if not isinstance(first, Refusal) or first.number != BAD_CHOICE:
        raise _unexpected(line, first)
    if first.fields[0] == "0":
        return []
    second = store.ask(line)
    if not isinstance(second, Refusal):
        raise _unexpected(line, second)
    return [_bucket(it) for it in second.data]


def conflicts_of_update(store: Store, workspace: int) -> list[Conflict]:
    """The conflicts of an update. Theirs are the operations of the versions from the base to the head, which the refusal of a commit names."""
    found = buckets(store, line_of("update", workspace))
    if not found:
        return []
    base, head = _base_and_head(store, workspace)
    versions = _path(store.log(), head)
    after = versions[versions.index(base) + 1:]
    theirs = [(operation, version) for version in after for operation in store.package(version).operations]
    mine = operations_of(store.send(line_of("changes", workspace)).data)
    models = [roots_of(store.send(line_of("show", workspace)).data[0]), store.cat(head), store.cat(base)]
    return conflicts_of(found, dict(enumerate(theirs, 1)), dict(enumerate(mine, 1)), Labels(models))


def conflicts_of_merge(store: Store, workspace: int, branch: str) -> list[Conflict]:
    """The conflicts of a merge. It is made over a copy of the store, with theirs kept: what is recorded there then has both sides."""
    line = line_of("merge", workspace, branch)
    found = buckets(store, line)
    if not found:
        return []
    with store.over_a_copy() as copy:
        if buckets(copy, line) != found:
            raise StoreError("the store's file isn't the one that the program has open: someone moved or replaced it")
        before = len(operations_of(copy.send(line_of("changes", workspace)).data))
        head = int(copy.send(f"{line} {'t' * len(found)}").words[0])
        recorded = operations_of(copy.send(line_of("changes", workspace)).data)[before:]
    # What undoes the operations of mine that were dropped comes first, the last of them first, and then all of theirs.
    dropped = sorted((number for bucket in found for number in bucket.mine), reverse=True)
    mine = {number: _undone(operation) for number, operation in zip(dropped, recorded)}
    theirs = recorded[len(dropped):]
    of_versions = _versions_of(store.log(), head, len(theirs))
    models = [roots_of(store.send(line_of("show", workspace)).data[0]), store.cat(head)]
    return conflicts_of(found, dict(enumerate(zip(theirs, of_versions), 1)), mine, Labels(models))


def _base_and_head(store: Store, workspace: int) -> tuple[int, int]:
    """The base of a workspace and the head of its branch, where there is a later version: a commit is refused by their numbers."""
    reply = store.ask(line_of("commit", workspace))
    if isinstance(reply, Refusal) and reply.number == UNSIGNED:
        reply = store.ask(line_of("signed", workspace, "nobody", 0))
    if not isinstance(reply, Refusal) or reply.number != STALE:
        raise _unexpected("commit", reply)
    base, head = reply.fields
    return int(base), int(head)


def _path(log: list[Version], head: int) -> list[int]:
    """The numbers of the versions on the path of one, version 0 first."""
    found: list[int] = []
    at: int | None = head
    while at is not None:
        found.append(at)
        at = log[at].parent
    return found[::-1]


def _versions_of(log: list[Version], head: int, count: int) -> list[int]:
    """Of the last operations on the path of a version, so many, the version that each is of."""
    owners = [number for number in _path(log, head) for _ in range(log[number].operations)]
    return owners[len(owners) - count:]


def _undone(operation: Operation) -> Operation:
    """The operation that this one undoes."""
    return Operation(operation.number, INVERSE_KINDS.get(operation.kind, operation.kind), operation.name, operation.inverse_steps(), ())


def _bucket(line: str) -> Bucket:
    _, number, _, theirs, _, mine = line.split(" ")
    return Bucket(int(number), numbers_of(theirs), numbers_of(mine))


def _unexpected(line: str, reply: Accepted | Refusal | None) -> StoreError:
    if isinstance(reply, Refusal):
        return Refused(line, reply)
    return StoreError(f"{line!r} was accepted, which no store of this program does")
