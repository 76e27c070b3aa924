"""git2store REPO PATH STORE FILE.ecore..: a version of a store for each commit that changed a model's file.

    python3 -m emfstore_git.git2store [--by-path] [--authors FILE] [--branch NAME] REPO PATH STORE FILE.ecore ..

The first parents of the branch are followed, and renames of the file. Each commit's model is compared with the one before, here and by EMF; the store gets
the differences as operations, as one turn: `signed`, with author and moment. Metamodels are files of the repository, or of this machine where a commit
hasn't them; one that grew comes by `evolve`. A second run goes on where the first one ended.
"""
import argparse
import os
import re
import subprocess
import sys
from collections.abc import Iterator
from dataclasses import dataclass
from typing import IO

from emfstore_git.java import follower
from emfstore_git.progress import counted
from emfstore_git.store import STORE, Copy, Faulty
from emfstore_git.stream import Repository

MARK = re.compile(r" git:([0-9a-f]{40})$")
MOST_MESSAGE = 65_536


@dataclass(frozen=True)
class Commit:
    """A commit that changed the file, and the file's name there."""
    hash: str
    author: str
    email: str
    moment: int
    subject: str
    path: str


def commits_of(repository: Repository, branch: str, path: str) -> list[Commit]:
    """The commits of a branch's first parents that changed the file, the oldest first."""
    form = "%x01%H%x00%an%x00%ae%x00%at%x00%s%x00"
    told = repository.git("-c", "core.quotePath=false", "log", "--first-parent", "-m", "--follow", "--name-only", "--diff-filter=ACMRT", f"--format={form}", branch, "--", path)
    found = []
    for entry in told.decode().split("\x01")[1:]:
        number, author, email, moment, subject, names = entry.split("\x00")
        found.append(Commit(number, author, email, int(moment), subject, names.strip().splitlines()[-1]))
    return found[::-1]


def name_of(commit: Commit, names: dict[str, str]) -> str:
    """An author as the store takes one: as the file of authors has the address, or letters, digits and _ of what stands before its @."""
    if commit.email in names:
        return names[commit.email]
    plain = re.sub(r"[^A-Za-z0-9_]", "_", commit.email.partition("@")[0])[:64]
    return plain if re.match(r"[A-Za-z]", plain) else f"a{plain}"[:64]


def authors_in(path: str | None) -> dict[str, str]:
    """The names of addresses, by a file's lines 'ADDRESS NAME'."""
    if path is None:
        return {}
    with open(path, encoding="utf-8") as file:
        return dict(line.split() for line in file if line.strip())


def message_of(commit: Commit) -> str:
    """The subject in one line, and the commit's hash, by which a later run goes on."""
    subject = " ".join(commit.subject.split())
    return f"{subject.encode()[:MOST_MESSAGE].decode(errors='ignore')} git:{commit.hash}"


def done_before(store: str, program: str) -> str | None:
    """The hash of the last commit that is a version of the store, or None where the store isn't there."""
    if not os.path.exists(os.path.join(store, STORE)):
        return None
    with Copy(store, program) as copy:
        marks = [found[1] for version in copy.versions() if version.branch == "trunk" and (found := MARK.search(version.message))]
    if not marks:
        raise Faulty(f"{store} has versions that came in another way")
    return marks[-1]


class Files:
    """The files of commits, as `git cat-file --batch` gives them."""

    def __init__(self, repository: Repository) -> None:
        self._process = subprocess.Popen(["git", "-C", repository.folder, "cat-file", "--batch"], stdin=subprocess.PIPE, stdout=subprocess.PIPE)

    def read(self, commit: str, path: str) -> bytes | None:
        """A file of a commit, or None where it isn't there."""
        assert self._process.stdin is not None and self._process.stdout is not None
        self._process.stdin.write(f"{commit}:{path}\n".encode())
        self._process.stdin.flush()
        head = self._process.stdout.readline().split()
        if head[-1] == b"missing":
            return None
        content = self._process.stdout.read(int(head[2]))
        self._process.stdout.read(1)
        return content

    def close(self) -> None:
        self._process.communicate()


def metamodels_of(files: Files, commit: str, paths: list[str]) -> list[tuple[str, bytes]]:
    """The metamodels at a commit, each with its file's name."""
    found = []
    for path in paths:
        is_outside = os.path.isabs(path) or os.path.normpath(path).startswith("..")
        content = None if is_outside else files.read(commit, path)
        if content is None:
            with open(path, "rb") as file:
                content = file.read()
        found.append((os.path.basename(path), content))
    return found


def send(stream: IO[bytes], head: str, *contents: bytes) -> None:
    stream.write(head.encode() + b"\n" + b"".join(contents))


def sent_metamodels(stream: IO[bytes], metamodels: list[tuple[str, bytes]]) -> None:
    send(stream, f"metamodel {len(metamodels)}", *(f"{name}\n{len(content)}\n".encode() + content for name, content in metamodels))


def brought(given: argparse.Namespace) -> Iterator[str]:
    """Sends each commit that isn't there, and yields what became of it."""
    repository = Repository(given.repository)
    commits = commits_of(repository, given.branch, given.path)
    last = done_before(given.store, given.program)
    hashes = [commit.hash for commit in commits]
    if last is not None and last not in hashes:
        raise Faulty(f"the last commit that is in the store, {last}, isn't on {given.branch}")
    new = commits[hashes.index(last) + 1:] if last else commits
    names, files, before = authors_in(given.authors), Files(repository), None
    os.makedirs(given.store, exist_ok=True)
    process = follower(given.store, given.program, given.by_path)
    assert process.stdin is not None and process.stdout is not None
    for number, commit in enumerate(counted(new, "commits"), 1 + len(commits) - len(new)):
        metamodels = metamodels_of(files, commit.hash, given.metamodels)
        model, message = files.read(commit.hash, commit.path), message_of(commit).encode()
        try:
            if metamodels != before:
                sent_metamodels(process.stdin, metamodels)
                before = metamodels
            send(process.stdin, f"commit {name_of(commit, names)} {commit.moment} {len(message)} {len(model or b'')}", message, model or b"")
            process.stdin.flush()
        except BrokenPipeError:
            pass
        answer = process.stdout.readline().decode().strip()
        if not answer:
            _, words = process.communicate()
            raise Faulty(f"commit {number} of {len(commits)}, {commit.hash}, doesn't fit: {words.decode().strip()}")
        yield answer
    process.communicate()
    files.close()


def arguments() -> argparse.Namespace:
    parser = argparse.ArgumentParser(prog="git2store", description="A version of a store for each commit that changed a model's file.")
    parser.add_argument("repository", help="the git repository")
    parser.add_argument("path", help="the model's file in it, as the last commit names it")
    parser.add_argument("store", help="the folder of the store; it is made where there is none")
    parser.add_argument("metamodels", nargs="+", metavar="FILE.ecore", help="a file of the repository, or of this machine")
    parser.add_argument("--by-path", action="store_true", help="elements without xmi:id are matched by their places")
    parser.add_argument("--authors", metavar="FILE", help="lines 'ADDRESS NAME' for authors")
    parser.add_argument("--branch", default="HEAD", help="the branch whose first parents are followed")
    parser.add_argument("--program", default=os.environ.get("EMFSTORE", "emfstore"), help="emfstore, by its path or as PATH has it")
    return parser.parse_args()


def main() -> int:
    try:
        answers = list(brought(arguments()))
    except (Faulty, OSError) as fault:
        print(f"git2store: {fault}", file=sys.stderr)
        return 1
    print(f"{sum(answer != 'same' for answer in answers)} versions, {answers.count('same')} commits that changed nothing")
    return 0


if __name__ == "__main__":
    sys.exit(main())
