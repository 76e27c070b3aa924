"""Sends a script over a store in turn, and stops at the first command that is refused."""
from __future__ import annotations

import argparse
import contextlib
import os
import signal
import sys
import tempfile
import time
from collections.abc import Iterator, Sequence
from dataclasses import dataclass, field
from typing import IO, NoReturn

from emfstore.faults import Ended, InUse, StoreError
from emfstore.files import copy_in_turn
from emfstore.progress import Progress, progress
from emfstore.refusals import sentence_of
from emfstore.replies import Refusal, first_word
from emfstore.scripts import BadScript, Command, commands_of
from emfstore.store import Store, opened_copy

ALL_ACCEPTED, REFUSED, BAD_WORDS, UNPRINTED, BAD_SCRIPT, IN_USE, INTERRUPTED = 0, 1, 2, 4, 8, 75, 130
HOUR = 3600.0
SHOWN = 100
FOR_MANY = 1 << 20
EPILOG = """The script is read whole before the store is opened, and the replies are printed once it is closed. So nobody waits for a reader or
a writer of this command. They are those that the program prints, up to the first that begins with `no`. What they mean stands on standard error.
Status: 0 all commands were accepted; 1 one was refused, and none after it was sent; 2 these words are wrong, or a file can't be read;
4 the replies couldn't be printed; 8 the script breaks
the rules of lines, and nothing was sent; 75 the store stayed in use, and nothing was sent; 130 interrupted; any other is the program's own."""


class _Stopped(BaseException):
    """The system asked the sender to end."""


@dataclass
class Report:
    """What came of a script: the commands that were accepted, the versions made, and what ended it."""

    accepted: list[Command] = field(default_factory=list)
    versions: list[str] = field(default_factory=list)
    at: Command | None = None
    refusal: Refusal | None = None
    fault: BaseException | None = None


def send(store: Store, commands: Sequence[Command], replies: IO[str], shown: Progress) -> Report:
    """Sends the commands up to the first that is refused, and writes each reply."""
    report = Report()
    try:
        for command in commands:
            report.at = command
            reply = store.ask(command.line, command.block)
            assert reply is not None
            replies.writelines(line + "\n" for line in reply.lines)
            if isinstance(reply, Refusal):
                report.refusal = reply
                break
            report.accepted.append(command)
            if first_word(command.line) in ("commit", "signed"):
                report.versions += reply.words
            shown.at(len(report.accepted))
    except (Ended, KeyboardInterrupt, _Stopped) as fault:
        report.fault = fault
    return report


def told(report: Report, commands: Sequence[Command], name: str, is_dry: bool) -> Iterator[str]:
    """The lines that say what came of a script that wasn't accepted whole; of one that was there is none, but for a dry one."""
    kept = "would be kept" if is_dry else "is kept"
    if report.at is None or report.refusal is None and report.fault is None:
        if is_dry:
            yield f"{name} would be accepted: {_count(len(commands))}; nothing was kept"
        return
    line = report.at.line if len(report.at.line) <= SHOWN else report.at.line[:SHOWN] + "..."
    if report.refusal is not None:
        yield f"line {report.at.number} of {name} is refused: {line}"
        yield f"  {report.refusal.lines[-1]}: {sentence_of(report.refusal)}"
    elif isinstance(report.fault, Ended):
        yield f"the program ended at line {report.at.number} of {name}: {line}"
        yield f"  {report.fault}"
    else:
        yield f"interrupted at line {report.at.number} of {name}: {line}"
        yield "  whether it was accepted isn't known: look at `log` or `changes`"
    after = len(commands) - len(report.accepted) - 1
    yield f"  accepted before it: {_lines(report.accepted)}{_versions(report.versions)}" + (f"; this {kept}" if report.accepted else "")
    yield f"  not sent: {_count(after)} after it" if after else "  it was the last command"


def _lines(commands: Sequence[Command]) -> str:
    if not commands:
        return "nothing"
    if len(commands) == 1:
        return f"{_count(1)}, on line {commands[0].number}"
    return f"{_count(len(commands))}, on lines {commands[0].number} to {commands[-1].number}"


def _count(number: int) -> str:
    return "1 command" if number == 1 else f"{number} commands"


def _versions(numbers: Sequence[str]) -> str:
    if not numbers:
        return ""
    return f", among them version{'s' if len(numbers) > 1 else ''} {', '.join(numbers)}"


def status_of(report: Report) -> int:
    """The status that says what came of a script."""
    if isinstance(report.fault, InUse):
        return IN_USE
    if isinstance(report.fault, Ended):
        return report.fault.status if report.fault.status > 0 else 128 - report.fault.status
    if report.fault is not None:
        return INTERRUPTED
    return ALL_ACCEPTED if report.refusal is None else REFUSED


def words_of(arguments: Sequence[str] | None) -> argparse.Namespace:
    """The words of the command line."""
    parser = argparse.ArgumentParser(prog="emfstore-send", description=__doc__, epilog=EPILOG, formatter_class=argparse.RawDescriptionHelpFormatter)
    parser.add_argument("script", metavar="SCRIPT", help="a file of lines; - stands for the standard input")
    parser.add_argument("--folder", default=".", help="the folder of the store; without it the working folder")
    parser.add_argument("--wait", type=float, default=HOUR, metavar="SECONDS", help="how long to wait for the store at most; without it an hour")
    parser.add_argument("--dry", action="store_true", help="send the script over a copy of the store, of which nothing is kept")
    parser.add_argument("--program", metavar="PATH", help="the program; without it that of the variable EMFSTORE, else emfstore of PATH")
    return parser.parse_args(arguments)


def read(name: str) -> bytes:
    """The whole script."""
    if name == "-":
        return sys.stdin.buffer.read()
    with open(name, "rb") as file:
        return file.read()


@contextlib.contextmanager
def opened(words: argparse.Namespace, tell: Progress) -> Iterator[Store]:
    """The store in its turn, or a store over a copy of it, which is made in the turn."""
    if not words.dry:
        with Store(words.program, words.folder, words.wait, tell.waits) as store:
            yield store
        return
    with copy_in_turn(words.folder, time.monotonic() + words.wait, tell.waits) as place, opened_copy(words.program, place) as copy:
        yield copy


def main(arguments: Sequence[str] | None = None) -> int:
    """Sends a script, as the command line says, and returns the status."""
    words = words_of(arguments)
    try:
        commands = commands_of(read(words.script))
    except OSError as fault:
        return _say([f"{words.script} can't be read: {fault.strerror}"], BAD_WORDS)
    except BadScript as fault:
        return _say([f"{words.script}, {fault}", "  nothing was sent"], BAD_SCRIPT)
    signal.signal(signal.SIGTERM, _stop)
    with tempfile.SpooledTemporaryFile(FOR_MANY, "w+", encoding="utf-8", newline="") as replies:
        try:
            with progress(len(commands)) as shown, opened(words, shown) as store:
                report = send(store, commands, replies, shown)
        except TimeoutError:
            return _say(["nothing was sent: the store is in use by another program"], IN_USE)
        except (Ended, KeyboardInterrupt, _Stopped) as fault:
            return _say([f"nothing was sent: {str(fault) or 'interrupted'}"], status_of(Report(fault=fault)))
        except (StoreError, OSError) as fault:
            return _say([f"nothing was sent: {fault}"], BAD_WORDS)
        signal.signal(signal.SIGTERM, signal.SIG_DFL)
        is_printed = _print(replies)
    status = _say(told(report, commands, words.script, words.dry), status_of(report))
    return status if is_printed else _say(["the replies couldn't be printed; what was accepted is kept"], UNPRINTED)


def _stop(number: int, frame: object) -> NoReturn:
    raise _Stopped(f"ended by {signal.Signals(number).name}")


def _print(replies: IO[str]) -> bool:
    """Prints the replies, and says whether that could be done."""
    replies.seek(0)
    try:
        for line in replies:
            sys.stdout.write(line)
        sys.stdout.flush()
    except OSError:
        # What is still to be written would fail once more as Python ends.
        os.dup2(os.open(os.devnull, os.O_WRONLY), sys.stdout.fileno())
        return False
    return True


def _say(lines: Iterator[str] | list[str], status: int) -> int:
    for line in lines:
        print(f"emfstore-send: {line}" if not line.startswith(" ") else line, file=sys.stderr)
    return status
