"""The stream that `git fast-import` reads (git-fast-import(1)): one commit a version."""
import os
import subprocess
from types import TracebackType
from typing import Self

from emfstore_git.store import Faulty, Version

TRAILER = "Emfstore-Version"
AUTHOR_DOMAIN = "emfstore.invalid"


class Repository:
    """A git repository that commits go into."""

    def __init__(self, folder: str) -> None:
        self.folder = folder

    def git(self, *words: str, text: bytes | None = None) -> bytes:
        """What git prints; its fault is raised as Faulty."""
        done = subprocess.run(["git", "-C", self.folder, *words], input=text, capture_output=True)
        if done.returncode:
            raise Faulty(f"git {words[0]}: {done.stderr.decode().strip()}")
        return done.stdout

    def made(self) -> None:
        """Makes the repository where there is none."""
        if not os.path.isdir(self.folder) or subprocess.run(["git", "-C", self.folder, "rev-parse", "--git-dir"], capture_output=True).returncode:
            os.makedirs(self.folder, exist_ok=True)
            self.git("init", "-q", "-b", "trunk")

    def heads(self) -> dict[int, str]:
        """The commits of the versions at the ends of branches. Versions come in the order of their numbers, so the last that is there is one of them."""
        form = f"%(objectname) %(contents:trailers:key={TRAILER},valueonly)"
        return versions_in(self.git("for-each-ref", f"--format={form}", "refs/heads"))

    def commits(self) -> dict[int, str]:
        """The commit of each version that is there."""
        form = f"%H %(trailers:key={TRAILER},valueonly,separator=%x20)"
        return versions_in(self.git("log", "--branches", f"--format={form}"))


def versions_in(told: bytes) -> dict[int, str]:
    """Commits by their versions, of lines that have a commit and its trailer."""
    return {int(words[1]): words[0] for words in map(str.split, told.decode().splitlines()) if len(words) == 2}


def signature(version: Version) -> str:
    """Author and moment as git has them; a version that isn't signed is of nobody, at the beginning of its time."""
    name = version.author or "unsigned"
    return f"{name} <{name}@{AUTHOR_DOMAIN}> {version.moment or 0} +0000"


class Stream:
    """A run of `git fast-import`, which takes commits whole or not at all."""

    def __init__(self, repository: Repository, commits: dict[int, str], path: str) -> None:
        self._commits, self._path = commits, path
        self._process = subprocess.Popen(
            ["git", "-C", repository.folder, "fast-import", "--quiet", "--done", "--date-format=raw"], stdin=subprocess.PIPE, stderr=subprocess.PIPE)

    def __enter__(self) -> Self:
        return self

    def __exit__(self, kind: type[BaseException] | None, fault: BaseException | None, trace: TracebackType | None) -> None:
        if kind is None:
            self._write(b"done\n")
        _, words = self._process.communicate()
        if kind is None and self._process.returncode:
            raise Faulty(f"git fast-import: {words.decode().strip()}")

    def _write(self, some: bytes) -> None:
        assert self._process.stdin is not None
        self._process.stdin.write(some)

    def _named(self, version: int) -> str:
        return self._commits.get(version, f":{version + 1}")

    def commit(self, version: Version, model: bytes) -> None:
        """Adds a version: its model in the file, its parent and the versions merged into it as parents, on its branch."""
        message = f"{version.message or '(no message)'}\n\n{TRAILER}: {version.number}\n".encode()
        who = signature(version)
        lines = [f"commit refs/heads/{version.branch}", f"mark :{version.number + 1}", f"author {who}", f"committer {who}", f"data {len(message)}"]
        self._write("\n".join(lines).encode() + b"\n" + message)
        if version.parent is not None:
            self._write(f"from {self._named(version.parent)}\n".encode())
        for merged in version.merged:
            self._write(f"merge {self._named(merged)}\n".encode())
        self._write(f"M 100644 inline {self._path}\ndata {len(model)}\n".encode() + model + b"\n")

    def point(self, reference: str, version: int) -> None:
        """Has a branch without a version of its own, or a tag, name a version."""
        self._write(f"reset {reference}\nfrom {self._named(version)}\n\n".encode())
