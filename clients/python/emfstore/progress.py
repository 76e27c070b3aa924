"""How far a sender is, on a terminal. Without one nothing is shown."""
from __future__ import annotations

import contextlib
import importlib.util
import sys
import time
from collections.abc import Iterator
from typing import Protocol

PAUSE = 0.1


class Progress(Protocol):
    """What a sender tells: how many commands were answered, or that it waits."""

    def at(self, done: int) -> None:
        """So many commands were answered."""

    def waits(self) -> None:
        """Another program has the store."""


class Silent:
    """Shows nothing, as in a pipe."""

    def at(self, done: int) -> None:
        """Shows nothing."""

    def waits(self) -> None:
        """Shows nothing."""


class Plain:
    """Shows one line of text, written over again."""

    def __init__(self, whole: int) -> None:
        self._whole = whole
        self._shown = 0.0

    def at(self, done: int) -> None:
        """Shows how many commands were answered."""
        self._show(f"{done} of {self._whole} commands")

    def waits(self) -> None:
        """Shows that another program has the store."""
        self._show("another program has the store: waiting")

    def _show(self, text: str) -> None:
        now = time.monotonic()
        if now - self._shown >= PAUSE:
            self._shown = now
            sys.stderr.write(f"\r\x1b[K{text}")
            sys.stderr.flush()

    def clear(self) -> None:
        """Takes the line away."""
        sys.stderr.write("\r\x1b[K")
        sys.stderr.flush()


@contextlib.contextmanager
def progress(whole: int) -> Iterator[Progress]:
    """Shows how far a sender of so many commands is, if standard error is a terminal: by rich, where it is installed, else as a line of text."""
    if not sys.stderr.isatty():
        yield Silent()
    elif importlib.util.find_spec("rich") is not None:
        from emfstore.rich_progress import rich_progress
        with rich_progress(whole) as shown:
            yield shown
    else:
        plain = Plain(whole)
        try:
            yield plain
        finally:
            plain.clear()
