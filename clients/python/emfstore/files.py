"""The store's file and its locks, and where the program is."""
from __future__ import annotations

import contextlib
import fcntl
import os
import shutil
import stat
import tempfile
import time
from collections.abc import Callable, Iterator, Sequence

from emfstore.faults import NoProgram, StoreError

JOURNAL = "emfstore.journal"
TURNS = "turns"
VARIABLE = "EMFSTORE"
PROGRAM = "emfstore"
PAUSE = 0.05


def find_program(program: str | Sequence[str] | None = None) -> list[str]:
    """The words that start the program: those given, else the path in the variable EMFSTORE, else `emfstore` of PATH.

    A word without a slash is looked for in PATH. Several words are a program and its arguments, as of `emftools guard`.
    """
    given = program or os.environ.get(VARIABLE) or PROGRAM
    name, *arguments = [given] if isinstance(given, str) else given
    found = os.path.abspath(name) if os.sep in name else shutil.which(name)
    if found is None or not os.access(found, os.X_OK) or os.path.isdir(found):
        raise NoProgram(f"there is no program {name!r}: give its path, or set the variable {VARIABLE} to it, or add its folder to PATH")
    return [found, *arguments]


def is_in_use(folder: str) -> bool:
    """Whether a program has the store of a folder. A look takes a shared lock for an instant, changes nothing, and makes no file."""
    try:
        handle = os.open(os.path.join(folder, JOURNAL), os.O_RDONLY | os.O_NONBLOCK)
    except OSError:
        return False
    try:
        fcntl.flock(handle, fcntl.LOCK_SH | fcntl.LOCK_NB)
    except BlockingIOError:
        return True
    except OSError:
        return False
    finally:
        os.close(handle)
    return False


def cause_of_disk_fault(folder: str) -> str:
    """What can be seen of a store that couldn't be used, though no other program has it."""
    path = os.path.join(folder, JOURNAL)
    try:
        mode = os.stat(path).st_mode
    except FileNotFoundError:
        return f"the store's file {path} couldn't be made"
    except OSError as fault:
        return f"the store's file {path} can't be reached: {fault.strerror}"
    if not stat.S_ISREG(mode):
        return f"{path} is no regular file, so it is no store"
    if not os.access(path, os.R_OK | os.W_OK):
        return f"this user may not read and write {path}"
    return f"a call on {path} failed: the disk may be full or faulty, or another program had the store a moment ago"


def _has_lock(handle: int, kind: int, deadline: float, tell: Callable[[], None]) -> bool:
    while True:
        with contextlib.suppress(BlockingIOError):
            fcntl.flock(handle, kind | fcntl.LOCK_NB)
            return True
        if time.monotonic() >= deadline:
            return False
        tell()
        time.sleep(PAUSE)


def take_turn(folder: str, deadline: float, tell: Callable[[], None]) -> int | None:
    """Takes the lock of the file `turns`, by which those that wait go one at a time, and returns its handle; -1 where there can't be such a file.

    None says that the moment `deadline` of the monotonic clock came first. `tell` is called at each look in vain.
    """
    try:
        handle = os.open(os.path.join(folder, TURNS), os.O_RDWR | os.O_CREAT, 0o666)
    except OSError:
        return -1
    try:
        if _has_lock(handle, fcntl.LOCK_EX, deadline, tell):
            return handle
    except OSError:
        os.close(handle)
        return -1
    except BaseException:
        os.close(handle)
        raise
    os.close(handle)
    return None


@contextlib.contextmanager
def copy_of_store(folder: str) -> Iterator[str]:
    """A temporary folder that has a copy of the store's file. Make it while no command is on its way, as each such moment of the file is a store.

    Where the folder has no such file, as where the program works over a network, a StoreError is raised.
    """
    with tempfile.TemporaryDirectory(prefix="emfstore-") as place:
        try:
            shutil.copyfile(os.path.join(folder, JOURNAL), os.path.join(place, JOURNAL))
        except FileNotFoundError:
            raise StoreError(f"the store's file isn't in {folder}, so no copy of it can be made") from None
        yield place


@contextlib.contextmanager
def copy_in_turn(folder: str, deadline: float, tell: Callable[[], None]) -> Iterator[str]:
    """As `copy_of_store`, of a store that no program has: the copy is made in turn, under the locks of both files.

    A TimeoutError says that the store stayed in use.
    """
    with tempfile.TemporaryDirectory(prefix="emfstore-") as place:
        if os.path.exists(os.path.join(folder, JOURNAL)):
            turn = take_turn(folder, deadline, tell)
            if turn is None:
                raise TimeoutError
            try:
                _copy_alone(folder, place, deadline, tell)
            finally:
                if turn >= 0:
                    os.close(turn)
        yield place


def _copy_alone(folder: str, place: str, deadline: float, tell: Callable[[], None]) -> None:
    handle = os.open(os.path.join(folder, JOURNAL), os.O_RDONLY | os.O_NONBLOCK)
    try:
        if not _has_lock(handle, fcntl.LOCK_SH, deadline, tell):
            raise TimeoutError
        shutil.copyfile(os.path.join(folder, JOURNAL), os.path.join(place, JOURNAL))
    finally:
        os.close(handle)
