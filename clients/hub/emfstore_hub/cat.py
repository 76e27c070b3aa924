"""Speaks to a hub as a program speaks over a store: python3 -m emfstore_hub.cat [--socket PATH] [--turn] [USER].

Each command of the standard input, with its block, is a turn, and its reply is printed before the next is read: so a client that starts `emfstore` starts
this in its place. With --turn the whole input is one turn. A user is named where a forced command of sshd does so for each key.
"""
import argparse
import os
import sys
from collections.abc import Iterator
from typing import BinaryIO

from emfstore_hub.client import Connection, Ended, Lost, Refused

WITH_BLOCKS = (b"init", b"evolve", b"import", b"load")
ACCEPTED, SOME_REFUSED, LOST = 0, 1, 5


def commands(source: BinaryIO) -> Iterator[bytes]:
    """The commands of a script, each with its block."""
    for line in source:
        command = [line]
        if line.rstrip(b"\r\n").partition(b" ")[0] in WITH_BLOCKS:
            for line in source:
                command.append(line)
                if line.removesuffix(b"\n").removesuffix(b"\r") == b".":
                    break
        yield b"".join(command)


def main() -> int:
    parser = argparse.ArgumentParser(prog="emfstore_hub.cat", description="Speaks to a hub as a program speaks over a store.")
    parser.add_argument("--socket", default=os.environ.get("EMFSTORE_HUB", "/run/emfstore/hub"))
    parser.add_argument("--turn", action="store_true", help="the whole input is one turn")
    parser.add_argument("user", nargs="?", help="for whom it speaks, where the account may say so")
    given = parser.parse_args()
    status = ACCEPTED
    try:
        with Connection(given.socket, given.user) as hub:
            source = sys.stdin.buffer
            for command in [source.read()] if given.turn else commands(source):
                answer = hub.turn(command)
                sys.stdout.buffer.write(answer)
                sys.stdout.buffer.flush()
                if any(line.startswith(b"no ") for line in answer.split(b"\n")):
                    status = SOME_REFUSED
    except (OSError, Ended, Lost, Refused) as fault:
        print(f"emfstore_hub.cat: {fault}", file=sys.stderr)
        return LOST
    return status


if __name__ == "__main__":
    sys.exit(main())
