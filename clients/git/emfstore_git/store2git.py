"""store2git STORE REPO: a commit for each version of a store, with its author, moment, message, parents, branch and tags.

    python3 -m emfstore_git.store2git [--json | --metamodel FILE.ecore ..] [--path NAME] [--program emfstore] STORE REPO

A second run adds the versions that came since. The store may be in use: a copy of its file is read.
"""
import argparse
import os
import sys

from emfstore_git.java import Emf
from emfstore_git.json_lines import lines_of
from emfstore_git.progress import counted
from emfstore_git.store import Copy, Faulty, Version
from emfstore_git.stream import Repository, Stream


def arguments() -> argparse.Namespace:
    parser = argparse.ArgumentParser(prog="store2git", description="A commit for each version of a store.")
    parser.add_argument("store", help="the folder of the store")
    parser.add_argument("repository", help="the git repository; it is made where there is none")
    parser.add_argument("--metamodel", nargs="+", metavar="FILE.ecore", help="write XMI, by these metamodels; else the store's JSON, an element a line")
    parser.add_argument("--path", help="the file in the repository: model.xmi or model.json, if none is named")
    parser.add_argument("--program", default=os.environ.get("EMFSTORE", "emfstore"), help="emfstore, by its path or as PATH has it")
    return parser.parse_args()


def parents_of(version: Version) -> tuple[int, ...]:
    """The versions that a version's commit has as parents."""
    return version.merged if version.parent is None else (version.parent, *version.merged)


def missing_tags(repository: Repository, versions: list[Version]) -> dict[str, int]:
    """The tags that the repository hasn't, each with its version."""
    there = repository.git("for-each-ref", "--format=%(refname:short)", "refs/tags").decode().split()
    return {tag: version.number for version in versions for tag in version.tags if tag not in there}


def written(copy: Copy, repository: Repository, path: str, emf: Emf | None) -> int:
    """Adds the versions that the repository hasn't, and sets its tags; how many versions is returned."""
    commits, versions = repository.heads(), copy.versions()
    new = [version for version in versions if version.number > max(commits, default=-1)]
    if any(parent < new[0].number and parent not in commits for version in new for parent in parents_of(version)):
        commits = repository.commits()

    def model(number: int) -> bytes:
        text = copy.model(number)
        return emf.xmi(text) if emf else lines_of(text).encode()

    with Stream(repository, commits, path) as stream:
        for version in counted(new, "versions"):
            stream.commit(version, model(version.number))
        for tag, number in missing_tags(repository, versions).items():
            stream.point(f"refs/tags/{tag}", number)
    return len(new)


def main() -> int:
    given = arguments()
    repository = Repository(given.repository)
    path = given.path or ("model.xmi" if given.metamodel else "model.json")
    try:
        repository.made()
        with Copy(given.store, given.program) as copy:
            if given.metamodel:
                with Emf(given.metamodel) as emf:
                    written(copy, repository, path, emf)
            else:
                written(copy, repository, path, None)
    except (Faulty, OSError) as fault:
        print(f"store2git: {fault}", file=sys.stderr)
        return 1
    return 0


if __name__ == "__main__":
    sys.exit(main())
