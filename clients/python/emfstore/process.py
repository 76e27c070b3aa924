"""The running program: one command is on its way at a time, and its reply is read to the end, or the program is ended."""
from __future__ import annotations

import os
import subprocess
import threading
from collections.abc import Callable
from contextlib import suppress
from typing import TypeVar

from emfstore.faults import Closed, Ended, Interrupted, ended
from emfstore.files import cause_of_disk_fault, is_in_use
from emfstore.replies import ends_reply

Result = TypeVar("Result")


class Program:
    """The program, started over the store of a folder.

    From before a command is written until its reply was read whole the program is busy. Whatever is raised meanwhile, as by Ctrl-C, an alarm or a
    thread's end, ends the program, at the latest by the next call. So no reply is ever taken for another command's.
    """

    def __init__(self, words: list[str], folder: str) -> None:
        self.folder = folder
        self._lock = threading.RLock()
        self._is_busy = False
        self._is_fed = False
        self._has_answered = False
        self._end: tuple[int, str] | None = None
        self._fault: Ended | None = None
        # In a session of its own the program isn't ended by the Ctrl-C that interrupts its caller.
        self._process = subprocess.Popen(words, cwd=folder, stdin=subprocess.PIPE, stdout=subprocess.PIPE, stderr=subprocess.PIPE,
                                         start_new_session=True)

    def exchange(self, text: bytes, command: str) -> list[str]:
        """Writes a command and returns the lines of its reply."""
        if self._is_fed:
            raise ValueError("only `write` and `close` may follow a `write`, as its replies aren't read")
        return self._busy(lambda: self._exchange(text, command))

    def feed(self, text: bytes, is_silent: bool) -> None:
        """Writes text and waits for no reply. Unless it is silent, as text that gets none, no command may follow."""
        self._is_fed = self._is_fed or not is_silent
        self._busy(lambda: self._write(text))

    def close(self) -> tuple[int, str]:
        """Ends the input, waits for the program, and returns its status and what it wrote to standard error."""
        with self._lock:
            if self._is_busy:
                self._abandon()
            if self._end is None:
                try:
                    self._finish()
                except BaseException:
                    self._abandon()
                    raise
            assert self._end is not None
            return self._end

    def _busy(self, call: Callable[[], Result]) -> Result:
        """Makes a call while the program counts as busy. What leaves the call by an exception has ended the program, or the next call ends it."""
        with self._lock:
            if self._is_busy:
                self._abandon()
            if self._end is not None:
                raise self._broken()
            self._is_busy = True
            try:
                result = call()
            except (OSError, ValueError) as fault:
                raise self._broken() from fault
            except BaseException:
                self._abandon()
                raise
            self._is_busy = False
            return result

    def _exchange(self, text: bytes, command: str) -> list[str]:
        self._write(text)
        return self._read(command)

    def _write(self, text: bytes) -> None:
        assert self._process.stdin is not None
        rest = memoryview(text)
        try:
            while rest:
                rest = rest[os.write(self._process.stdin.fileno(), rest):]
        except BrokenPipeError:
            raise self._gone() from None

    def _read(self, command: str) -> list[str]:
        assert self._process.stdout is not None
        lines: list[str] = []
        while True:
            line = self._process.stdout.readline()
            if not line.endswith(b"\n"):
                raise self._gone()
            lines.append(line[:-1].decode())
            if ends_reply(lines[-1], command):
                self._has_answered = True
                return lines

    def _finish(self) -> tuple[int, str]:
        """Ends the input, and waits for the program to end by itself."""
        _, words = self._process.communicate()
        self._end = self._process.returncode, words.decode(errors="replace").rstrip("\n")
        return self._end

    def _gone(self) -> Ended:
        """The fault of a program that ended without a reply. Only one that never answered can have found the store in use."""
        if self._end is not None:
            return self._broken()
        status, words = self._finish()
        was_in_use = status == 5 and not self._has_answered and is_in_use(self.folder)
        self._fault = ended(status, words, was_in_use, cause_of_disk_fault(self.folder) if status == 5 else "")
        return self._fault

    def _broken(self) -> Ended:
        """The fault of a call that can't read or write, as when a call within it, of a handler of a signal, ended the program."""
        self._abandon()
        assert self._end is not None
        return self._fault or Closed(*self._end, "the store is closed")

    def _abandon(self) -> None:
        """Ends the program at once. A line of which only a part was written is never ended, so it is no command."""
        if self._end is None:
            self._process.kill()
            self._process.wait()
            for stream in (self._process.stdin, self._process.stdout, self._process.stderr):
                if stream is not None:
                    # A call that this one stands in may be reading the stream; then it finds its end, and the stream is closed with this object.
                    with suppress(RuntimeError):
                        stream.close()
            status = self._process.returncode
            self._fault = Interrupted(status, "", "a call was interrupted before its reply was read to the end, so the store is closed")
            self._end = status, ""
        self._is_busy = False
