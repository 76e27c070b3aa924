"""A connection to a hub: turns and watches, one after the other."""
import socket
from types import TracebackType
from typing import Self


class Ended(Exception):
    """The hub closed the connection. If a turn was on its way, it may be done, or not."""


class Lost(Exception):
    """The program ended while the turn was on its way: it may be done, or not. `log` and `changes` tell."""


class Refused(Exception):
    """The hub didn't pass it on, so nothing of it is done."""


class Connection:
    """A connection to the hub at a Unix socket. A user is named only by an account that the hub trusts."""

    def __init__(self, path: str, user: str | None = None) -> None:
        self._socket = socket.socket(socket.AF_UNIX)
        self._socket.connect(path)
        self._stream = self._socket.makefile("rb")
        self.user = self._told(b"hello\n" if user is None else f"hello {user}\n".encode(), b"hello")

    def __enter__(self) -> Self:
        return self

    def __exit__(self, kind: type[BaseException] | None, fault: BaseException | None, trace: TracebackType | None) -> None:
        self.close()

    def close(self) -> None:
        """Ends the connection; calls after it raise Ended."""
        self._stream.close()
        self._socket.close()

    def turn(self, script: bytes) -> bytes:
        """The replies to a script, which no line of another user comes between."""
        count = int(self._told(b"turn %d\n%s" % (len(script), script), b"answer"))
        answer = self._stream.read(count)
        if len(answer) < count:
            raise self._over()
        return answer

    def watch(self, size: int) -> int:
        """Waits until the store has another length than this, and returns it. It grows by each event."""
        return int(self._told(b"watch %d\n" % size, b"size"))

    def _told(self, message: bytes, wanted: bytes) -> str:
        """Sends a message, and returns the words after the wanted one of the hub's head. Whatever breaks in between closes the connection."""
        try:
            self._socket.sendall(message)
            line = self._stream.readline()
        except (OSError, ValueError):
            raise self._over() from None
        except BaseException:
            self.close()
            raise
        word, _, rest = line.rstrip(b"\n").partition(b" ")
        match word:
            case b"lost":
                raise Lost(rest.decode())
            case b"refused":
                raise Refused(rest.decode())
        if word != wanted or not line.endswith(b"\n"):
            raise self._over()
        return rest.decode()

    def _over(self) -> Ended:
        self.close()
        return Ended("the hub closed the connection")
