"""EMF, in one Java process that is asked over and over."""
import os
import shutil
import subprocess
from types import TracebackType
from typing import Self

from emfstore_git.store import Faulty

TOOLS = os.path.join(os.path.dirname(os.path.abspath(__file__)), "..", "..", "emf")


def follower(store: str, program: str, by_path: bool) -> "subprocess.Popen[bytes]":
    """The process that makes versions of commits (emfstore.client.FollowCommits)."""
    words = [os.path.join(TOOLS, "follow_commits"), *(["--by-path"] if by_path else []), os.path.abspath(store)]
    environment = {**os.environ, "EMFSTORE": shutil.which(program) or program}
    return subprocess.Popen(words, stdin=subprocess.PIPE, stdout=subprocess.PIPE, stderr=subprocess.PIPE, env=environment)


class Emf:
    """The tools of clients/emf over some metamodels. `clients/emf/build` comes first."""

    def __init__(self, metamodels: list[str]) -> None:
        words = [os.path.join(TOOLS, "many_models"), *(os.path.abspath(file) for file in metamodels)]
        self._process = subprocess.Popen(words, stdin=subprocess.PIPE, stdout=subprocess.PIPE, stderr=subprocess.PIPE)

    def __enter__(self) -> Self:
        return self

    def __exit__(self, kind: type[BaseException] | None, fault: BaseException | None, trace: TracebackType | None) -> None:
        self._process.communicate()

    def xmi(self, model: str) -> bytes:
        """A model's text as XMI."""
        text = model.encode()
        assert self._process.stdin is not None and self._process.stdout is not None
        try:
            self._process.stdin.write(b"%d\n%s" % (len(text), text))
            self._process.stdin.flush()
        except BrokenPipeError:
            pass
        head = self._process.stdout.readline()
        if not head.endswith(b"\n"):
            _, words = self._process.communicate()
            raise Faulty(f"EMF: {words.decode().strip()}")
        return self._process.stdout.read(int(head))
