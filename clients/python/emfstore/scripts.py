"""Scripts: files of lines, as they are cut into commands before any is sent."""
from __future__ import annotations

from dataclasses import dataclass

from emfstore.replies import COMMANDS_WITH_BLOCKS, first_word, is_answered

LONGEST_LINE, LONGEST_BLOCK = 1 << 20, 1 << 23


class BadScript(ValueError):
    """A script breaks the rules of lines, so that the program would end at this line."""

    def __init__(self, line: int, what: str) -> None:
        super().__init__(f"line {line}: {what}")
        self.line = line


@dataclass(frozen=True)
class Command:
    """A command of a script: the number of its line, from 1, the line, and its block if it has one."""

    number: int
    line: str
    block: str | None


def commands_of(script: bytes) -> list[Command]:
    """The commands of a script, in their order. Lines that get no reply are left out."""
    lines = script.split(b"\n")
    if not lines[-1]:
        lines.pop()
    found: list[Command] = []
    at = 0
    while at < len(lines):
        line = _text(lines[at], at + 1)
        start = at
        at += 1
        if not is_answered(line):
            continue
        block = None
        if first_word(line) in COMMANDS_WITH_BLOCKS:
            size = next((n for n, it in enumerate(lines[at:]) if it.removesuffix(b"\r") == b"."), None)
            if size is None:
                raise BadScript(start + 1, f"the block of `{first_word(line)}` isn't ended by a line that is just a dot")
            block = _block(lines[at:at + size], start + 1)
            at += size + 1
        found.append(Command(start + 1, line, block))
    return found


def _text(line: bytes, number: int) -> str:
    if len(line) > LONGEST_LINE:
        raise BadScript(number, f"the line has more than {LONGEST_LINE} bytes")
    return _decoded(line, number)


def _block(lines: list[bytes], number: int) -> str:
    if sum(len(line) + 1 for line in lines) > LONGEST_BLOCK:
        raise BadScript(number, f"the block has more than {LONGEST_BLOCK} bytes")
    return "".join(_decoded(line, number + 1 + at) + "\n" for at, line in enumerate(lines))


def _decoded(line: bytes, number: int) -> str:
    try:
        return line.decode()
    except UnicodeDecodeError as fault:
        raise BadScript(number, f"byte {fault.start + 1} of the line is no UTF-8") from None
