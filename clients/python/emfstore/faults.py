"""What is raised: a refused command, and a program that has ended, with its cause in a type and in words."""
from __future__ import annotations

import re
import signal

from emfstore.replies import Refusal

STATUSES = {
    0: "all was read, and no command was refused",
    1: "all was read, and some command was refused",
    2: "the program was started with words of no form; nothing was touched",
    3: "the program couldn't read its input",
    4: "the program couldn't print a reply; the command on its way is kept if it was accepted",
    5: "the store's file couldn't be used",
    6: "the store is damaged",
    7: "there was not enough memory; all that was answered is kept",
    8: "the input broke the rules of lines",
}
INPUT_FAULTS = {
    1: "a line is too long",
    2: "a block is too long",
    3: "a byte is no UTF-8",
    4: "a block isn't ended",
    5: "the input is too long",
}


class StoreError(Exception):
    """What this package raises, but for arguments that are no command, which are a ValueError."""


class NoProgram(StoreError):
    """The program isn't where it was looked for."""


class Refused(StoreError):
    """A command was refused, and changed nothing."""

    def __init__(self, command: str, refusal: Refusal) -> None:
        super().__init__(f"{refusal.lines[-1]}, of: {command[:200]}")
        self.command = command
        self.refusal = refusal


class Ended(StoreError):
    """The program has ended: its exit status, what it wrote to standard error, and in words what happened."""

    def __init__(self, status: int, words: str, sentence: str | None = None) -> None:
        self.status = status
        self.words = words
        self.sentence = sentence or in_words(status)
        super().__init__(f"{self.sentence} (status {status}{f', {words!r}' if words else ''})")


class Closed(Ended):
    """The store was closed before this call."""


class Interrupted(Ended):
    """A call was interrupted before its reply was read to the end, so the store was closed. Its command is kept whole or not at all."""


class InUse(Ended):
    """Another program has the store open. Nothing was changed: wait, and try again."""


class DiskFault(Ended):
    """The store's file couldn't be opened, read or written, and no other program has it. The command on its way is kept whole or not at all."""


class Damaged(Ended):
    """The file holds no store from byte `at` on. It was left as it was."""

    def __init__(self, status: int, words: str, at: int) -> None:
        super().__init__(status, words, f"the store is damaged at byte {at}; its file was left as it was")
        self.at = at


class OutOfMemory(Ended):
    """There was not enough memory. All that was answered is kept."""


class InputFault(Ended):
    """What was sent breaks the rules of lines at byte `at`, counted over all that was sent."""

    def __init__(self, status: int, words: str, fault: int, at: int) -> None:
        super().__init__(status, words, f"{INPUT_FAULTS.get(fault, STATUSES[8])}, at byte {at} of what was sent")
        self.fault = fault
        self.at = at


def in_words(status: int) -> str:
    """What a status of the program means."""
    if status < 0:
        return f"the program was ended by {signal.Signals(-status).name}"
    return STATUSES.get(status, "the program ended in a way of its own")


def ended(status: int, words: str, is_in_use: bool, cause: str) -> Ended:
    """The fault of a program that ended without a reply. `cause` says of status 5 what was found of the file."""
    numbers = [int(word) for word in re.findall(r"\b[0-9]+\b", words)]
    if status == 5 and is_in_use:
        return InUse(status, words, "the store is in use by another program")
    if status == 5:
        return DiskFault(status, words, cause)
    if status == 6 and len(numbers) == 1:
        return Damaged(status, words, numbers[0])
    if status == 7:
        return OutOfMemory(status, words)
    if status == 8 and len(numbers) == 2:
        return InputFault(status, words, *numbers)
    return Ended(status, words)
