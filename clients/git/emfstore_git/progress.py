"""How far work is, on a terminal; nothing in a pipe."""
import sys
import time
from collections.abc import Iterable, Iterator, Sized
from typing import TypeVar

Item = TypeVar("Item")
SECONDS = 0.2


def counted(items: Iterable[Item], what: str, total: int | None = None) -> Iterator[Item]:
    """The items, while standard error tells how many of them are done, if it is a terminal."""
    if total is None and isinstance(items, Sized):
        total = len(items)
    is_shown, last, count = sys.stderr.isatty(), 0.0, 0
    for count, item in enumerate(items, 1):
        if is_shown and (now := time.monotonic()) - last > SECONDS:
            last = now
            print(f"\r{what} {count:,}" + ("" if total is None else f" of {total:,}"), end="\x1b[K", file=sys.stderr, flush=True)
        yield item
    if is_shown and count:
        print(f"\r{what} {count:,}\x1b[K", file=sys.stderr)
