"""The store: the program over the file of a folder, and what a store has beside its workspaces."""
from __future__ import annotations

import json
import os
import time
from collections.abc import Callable, Iterator, Sequence
from contextlib import contextmanager
from dataclasses import dataclass
from types import TracebackType

from emfstore.faults import DiskFault, InUse, Refused, StoreError
from emfstore.files import PAUSE, copy_of_store, find_program, is_in_use, take_turn
from emfstore.lines import Document, Element, line_of, numbers_of, roots_of, text_of
from emfstore.operations import Operation, operations_of
from emfstore.process import Program
from emfstore.replies import COMMANDS_WITH_BLOCKS, Accepted, Refusal, first_word, is_answered, reply_of
from emfstore.workspace import Workspace

TRIES_AFTER_A_FAULT = 3


@dataclass(frozen=True)
class Checkout:
    """A new workspace, the version and branch that it is at, and the elements at the root of its model."""

    workspace: Workspace
    version: int
    branch: str
    roots: list[Element]


@dataclass(frozen=True)
class Package:
    """The operations of a version, and their bytes, which `apply` and `load` take."""

    operations: list[Operation]
    bytes: bytes


@dataclass(frozen=True)
class Version:
    """A line of the log."""

    number: int
    branch: str
    parent: int | None
    merged: tuple[int, ...]
    operations: int
    tags: tuple[str, ...]
    author: str | None
    moment: int | None
    message: str


class Store:
    """The program, running over the store of a folder. One program at a time has a store; calls of several threads go one after another.

    `program` is its path, or a name in PATH; without it the path in the variable EMFSTORE is taken, else `emfstore` of PATH. It may be several words,
    as a guard's. With `wait` the store waits for its turn, for so many seconds at most, and `tell` is called at each look in vain. Without, the first
    call raises InUse if another program has the store.
    """

    def __init__(self, program: str | Sequence[str] | None = None, folder: str = ".", wait: float | None = None,
                 tell: Callable[[], None] = lambda: None) -> None:
        self.words = find_program(program)
        self.folder = os.path.abspath(folder)
        self._turn: int | None = None
        if wait is None:
            self._program = Program(self.words, self.folder)
        else:
            self._program = self._in_turn(time.monotonic() + wait, tell)

    def __enter__(self) -> Store:
        return self

    def __exit__(self, kind: type[BaseException] | None, fault: BaseException | None, trace: TracebackType | None) -> None:
        self.close()

    def close(self) -> tuple[int, str]:
        """Ends the input and waits for the program. Its status and what it wrote to standard error are returned; 0 and 1 are those of a whole run."""
        try:
            return self._program.close()
        finally:
            self._let_turn_go()

    def ask(self, line: str, block: str | None = None) -> Accepted | Refusal | None:
        """Sends a command, with its block where it has one, and returns the reply. A line that is empty or a comment gets none.

        Raises Ended where the program ends without a reply, as of a line that is too long, and ValueError, with nothing sent, where it is no command
        with a block just where one is due.
        """
        if "\n" in line or (block is not None) != (is_answered(line) and first_word(line) in COMMANDS_WITH_BLOCKS):
            raise ValueError("a command is one line, and has a block just where its first word takes one")
        if block and any(it.removesuffix("\r") == "." for it in block.split("\n")):
            raise ValueError("a line of the block is just a dot, which would end it")
        if block and not block.endswith("\n"):
            block += "\n"
        text = (line + "\n" + ("" if block is None else block + ".\n")).encode()
        if is_answered(line):
            return reply_of(self._program.exchange(text, line))
        self._program.feed(text, is_silent=True)
        return None

    def send(self, line: str, block: str | None = None) -> Accepted:
        """As `ask`, of a line that gets a reply; a refusal is raised, as Refused."""
        reply = self.ask(line, block)
        if isinstance(reply, Refusal):
            raise Refused(line, reply)
        if reply is None:
            raise ValueError("an empty line or a comment is no command")
        return reply

    def write(self, text: str) -> None:
        """Sends text as it stands and waits for no reply, as of a block that isn't ended. Only `write` and `close` may follow."""
        self._program.feed(text.encode(), is_silent=False)

    def init(self, metamodel: Document) -> None:
        """Gives an empty store its metamodel: a text, or an object that becomes one."""
        self.send("init", text_of(metamodel))

    def evolve(self, metamodel: Document) -> None:
        """Gives the store a metamodel that has all parts of the present one, and more: a text, or an object that becomes one."""
        self.send("evolve", text_of(metamodel))

    def upgrade(self) -> None:
        """From now on each new version is signed."""
        self.send("upgrade")

    def checkout(self, spec: str | int) -> Checkout:
        """Makes a workspace of the version, branch or tag that SPEC names."""
        reply = self.send(line_of("checkout", spec))
        number, version, branch = reply.words
        return Checkout(self.workspace(int(number)), int(version), branch, roots_of(reply.data[0]))

    def workspace(self, number: int) -> Workspace:
        """The workspace of a number, as `checkout` told it, maybe in an earlier run. Nothing is sent, so one that isn't there is refused later."""
        return Workspace(self, number)

    def tag(self, name: str, spec: str | int) -> None:
        """Gives a version a name, which is never changed."""
        self.send(line_of("tag", name, spec))

    def log(self) -> list[Version]:
        """All versions, in the order of their numbers."""
        return [_version(line) for line in self.send("log").data]

    def package(self, spec: str | int) -> Package:
        """The operations of a version, and their bytes."""
        *lines, last = self.send(line_of("package", spec)).data
        return Package(operations_of(lines), bytes.fromhex(last.removeprefix("hex ")))

    def cat(self, spec: str | int) -> list[Element]:
        """The elements at the root of a version's model, each with what it contains."""
        return roots_of(self.send(line_of("cat", spec)).data[0])

    @contextmanager
    def over_a_copy(self) -> Iterator[Store]:
        """A store over a copy of this one's file, in a temporary folder that is gone afterwards. What is done there leaves no trace here."""
        with copy_of_store(self.folder) as place, opened_copy(self.words, place) as copy:
            yield copy

    def _in_turn(self, deadline: float, tell: Callable[[], None]) -> Program:
        """The program once it has the store. It is known to have it when it answers, so nothing was sent before that could be kept."""
        self._turn = take_turn(self.folder, deadline, tell)
        if self._turn is None:
            raise InUse(5, "", "the store is in use: others wait for it too, and the turn didn't come in time")
        tries = TRIES_AFTER_A_FAULT
        try:
            while True:
                program = Program(self.words, self.folder)
                try:
                    program.exchange(b"cat 0\n", "cat 0")
                    return program
                except InUse:
                    if time.monotonic() >= deadline:
                        raise
                except DiskFault:
                    # The program that had the store may have ended before it was looked at.
                    tries -= 1
                    if not tries:
                        raise
                tell()
                time.sleep(PAUSE)
        except BaseException:
            self._let_turn_go()
            raise

    def _let_turn_go(self) -> None:
        turn, self._turn = self._turn, None
        if turn is not None and turn >= 0:
            os.close(turn)


@contextmanager
def opened_copy(program: str | Sequence[str] | None, place: str) -> Iterator[Store]:
    """A store over a copy of a file. A program that works elsewhere, as over a network, is a StoreError before anything is sent that may be kept."""
    with Store(program, place) as copy:
        copy.ask("cat 0")
        if not is_in_use(place):
            raise StoreError(f"{copy.words[0]} doesn't work on the copy of the store, so nothing was tried")
        yield copy


def _version(line: str) -> Version:
    number, branch, parent, merged, operations, tags, author, moment, message = line.split(" ", 8)
    names = () if tags == "-" else tuple(tags.split(","))
    signer = None if author == "-" else author
    return Version(int(number), branch, _number(parent), numbers_of(merged), int(operations), names, signer, _number(moment), json.loads(message))


def _number(word: str) -> int | None:
    return None if word == "-" else int(word)
