"""What a store has, read from a copy of its file: each moment of the file is a store, so its writer isn't kept waiting."""
import json
import os
import shutil
import subprocess
import tempfile
from dataclasses import dataclass
from types import TracebackType
from typing import Self

STORE = "emfstore.journal"


class Faulty(Exception):
    """What was asked can't be done; the words say why."""


@dataclass(frozen=True)
class Version:
    """A line of the log."""
    number: int
    branch: str
    parent: int | None
    merged: tuple[int, ...]
    tags: tuple[str, ...]
    author: str | None
    moment: int | None
    message: str


def version_of(line: str) -> Version:
    """The version that a line of the log has."""
    number, branch, parent, merged, _, tags, author, moment, message = line.split(" ", 8)
    return Version(
        int(number), branch, None if parent == "-" else int(parent), tuple(map(int, listed(merged))), listed(tags),
        None if author == "-" else author, None if moment == "-" else int(moment), json.loads(message))


def listed(word: str) -> tuple[str, ...]:
    """The items of a word that has commas between them, or a dash for none."""
    return () if word == "-" else tuple(word.split(","))


class Copy:
    """The program over a copy of a folder's store."""

    def __init__(self, folder: str, program: str) -> None:
        self._folder = tempfile.TemporaryDirectory(prefix="emfstore-copy-")
        try:
            shutil.copyfile(os.path.join(folder, STORE), os.path.join(self._folder.name, STORE))
        except FileNotFoundError:
            raise Faulty(f"{folder} has no store") from None
        self._process = subprocess.Popen([program], cwd=self._folder.name, stdin=subprocess.PIPE, stdout=subprocess.PIPE, stderr=subprocess.PIPE)

    def __enter__(self) -> Self:
        return self

    def __exit__(self, kind: type[BaseException] | None, fault: BaseException | None, trace: TracebackType | None) -> None:
        self._process.communicate()
        self._folder.cleanup()

    def asked(self, command: str) -> list[str]:
        """The data lines of the reply to a command that shows something."""
        assert self._process.stdin is not None and self._process.stdout is not None
        self._process.stdin.write(command.encode() + b"\n")
        self._process.stdin.flush()
        lines: list[str] = []
        while line := self._process.stdout.readline().decode():
            if line.startswith("ok") and line[2:3] in (" ", "\n"):
                return lines
            if line.startswith("no "):
                raise Faulty(f"{command}: {line.rstrip()}")
            lines.append(line.rstrip("\n"))
        _, words = self._process.communicate()
        raise Faulty(f"the store isn't opened: status {self._process.returncode}, {words.decode().strip()}")

    def versions(self) -> list[Version]:
        """All versions, by their numbers."""
        return [version_of(line) for line in self.asked("log")]

    def model(self, version: int) -> str:
        """The text of a version's model: an element, or a list of the elements at its root."""
        return "\n".join(self.asked(f"cat {version}"))
