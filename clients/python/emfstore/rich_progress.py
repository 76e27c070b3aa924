"""How far a sender is, shown by rich."""
from __future__ import annotations

import contextlib
from collections.abc import Iterator

from rich.console import Console
from rich.progress import BarColumn, MofNCompleteColumn, Progress, TaskID, TextColumn, TimeRemainingColumn


class Bar:
    """A bar of the commands that were answered."""

    def __init__(self, shown: Progress, task: TaskID) -> None:
        self._shown = shown
        self._task = task

    def at(self, done: int) -> None:
        """Shows how many commands were answered."""
        self._shown.update(self._task, completed=done, description="sending")

    def waits(self) -> None:
        """Shows that another program has the store."""
        self._shown.update(self._task, description="another program has the store: waiting")


@contextlib.contextmanager
def rich_progress(whole: int) -> Iterator[Bar]:
    """Shows a bar on standard error, which is gone at the end."""
    columns = TextColumn("{task.description}"), BarColumn(), MofNCompleteColumn(), TimeRemainingColumn()
    with Progress(*columns, console=Console(stderr=True), transient=True) as shown:
        yield Bar(shown, shown.add_task("sending", total=whole))
