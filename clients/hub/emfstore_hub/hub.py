"""The hub: who a connection is, which frames go to the program, and bounds on all that a client can make it hold."""
import asyncio
import hashlib
import json
import logging
import os
import pwd
import socket
import struct
import time
from dataclasses import dataclass, field

from emfstore_hub.counters import Counters
from emfstore_hub.frames import MOST_FRAME, MOST_HEAD, Frame, Misspelled, Request, request_of
from emfstore_hub.program import Lost, Program, Refused

STORE = "emfstore.journal"
log = logging.getLogger("emfstore_hub")


@dataclass(frozen=True)
class Bounds:
    """What a client may make the hub hold, and how long it may take."""
    frame: int = MOST_FRAME
    waiting: int = 4 * MOST_FRAME
    connections: int = 200
    send_seconds: float = 60.0
    read_seconds: float = 60.0


class Room:
    """Bytes that may be held at once; whoever would pass the bound waits in turn."""

    def __init__(self, most: int) -> None:
        self._left = most
        self._changed = asyncio.Condition()

    async def take(self, count: int) -> None:
        """Waits until so many bytes may be held."""
        async with self._changed:
            await self._changed.wait_for(lambda: self._left >= count)
            self._left -= count

    async def give_back(self, count: int) -> None:
        """Lets so many bytes go."""
        async with self._changed:
            self._left += count
            self._changed.notify_all()


@dataclass
class Hub:
    """Serves connections over one program. `accounts` are the users of accounts of this machine; the hub's own account, and root, may say who they speak for."""
    program: Program
    folder: str
    bounds: Bounds = field(default_factory=Bounds)
    accounts: dict[str, str] = field(default_factory=dict)
    counters: Counters = field(default_factory=Counters)

    def __post_init__(self) -> None:
        self._room = Room(self.bounds.waiting)
        self._connections = 0

    def size(self) -> int:
        """The length of the store's file: it grows by each event, and by nothing else."""
        try:
            return os.stat(os.path.join(self.folder, STORE)).st_size
        except FileNotFoundError:
            return 0

    async def serve(self, reader: asyncio.StreamReader, writer: asyncio.StreamWriter) -> None:
        """Serves one connection until it ends, says what can't be read, or is too slow."""
        self._connections += 1
        self.counters.connections.set(self._connections)
        try:
            if self._connections > self.bounds.connections:
                await self._say(writer, b"refused too many connections\n")
                return
            user = await self._greet(reader, writer)
            while user is not None and (request := await self._request(reader)) is not None:
                await self._do(user, request, reader, writer)
        except Misspelled as fault:
            await self._say(writer, f"refused {fault}\n".encode())
        except (asyncio.IncompleteReadError, ConnectionError, TimeoutError, ValueError):
            pass
        finally:
            self._connections -= 1
            self.counters.connections.set(self._connections)
            writer.close()

    async def _greet(self, reader: asyncio.StreamReader, writer: asyncio.StreamWriter) -> str | None:
        """The user of a connection, who is told it: of the account at its other end, or whom a trusted account names."""
        request = await self._request(reader)
        if request is None:
            return None
        if request.word != "hello":
            raise Misspelled("the first head is hello")
        account = account_of(writer)
        if request.user is None:
            user = self.accounts.get(account, account)
        elif account in (account_name(os.geteuid()), "root"):
            user = request.user
        else:
            raise Misspelled(f"the account {account} doesn't say who it speaks for")
        await self._say(writer, f"hello {user}\n".encode())
        return user

    async def _request(self, reader: asyncio.StreamReader) -> Request | None:
        """The next head, or None where the client ended between two messages."""
        try:
            line = await reader.readuntil(b"\n")
        except asyncio.IncompleteReadError as end:
            if end.partial:
                raise
            return None
        except asyncio.LimitOverrunError:
            raise Misspelled(f"a head has at most {MOST_HEAD} bytes") from None
        return request_of(line[:-1])

    async def _do(self, user: str, request: Request, reader: asyncio.StreamReader, writer: asyncio.StreamWriter) -> None:
        match request.word:
            case "watch":
                await self._watch(request.number, reader, writer)
            case "turn":
                await self._pass_on(user, request, reader, writer)
            case _:
                raise Misspelled("hello comes once")

    async def _watch(self, size: int, reader: asyncio.StreamReader, writer: asyncio.StreamWriter) -> None:
        """Answers once the store has another length than the client knows. A client that goes, or sends anything meanwhile, ends its watch."""
        gone = asyncio.create_task(reader.read(1))
        try:
            while self.size() == size and self.program.status is None:
                change = asyncio.create_task(self.program.changed())
                done, _ = await asyncio.wait({gone, change}, timeout=30, return_when=asyncio.FIRST_COMPLETED)
                change.cancel()
                if gone in done:
                    raise ConnectionResetError("a watch ends by its answer")
        finally:
            gone.cancel()
        await self._say(writer, f"size {self.size()}\n".encode())

    async def _pass_on(self, user: str, request: Request, reader: asyncio.StreamReader, writer: asyncio.StreamWriter) -> None:
        """Takes a frame whole, and only then sends it to the program: who sends half a frame keeps nobody waiting."""
        count = request.number
        if count > self.bounds.frame:
            raise Misspelled(f"a frame has at most {self.bounds.frame} bytes")
        async with asyncio.timeout(self.bounds.send_seconds):
            await self._room.take(count)
        try:
            async with asyncio.timeout(self.bounds.send_seconds):
                text = await reader.readexactly(count)
            await self._answer(Frame(user, text), writer)
        finally:
            await self._room.give_back(count)

    async def _answer(self, frame: Frame, writer: asyncio.StreamWriter) -> None:
        began = time.monotonic()
        try:
            answer = await self.program.answer(frame)
        except Lost as fault:
            self._note(frame, began, lost=str(fault))
            await self._say(writer, f"lost {fault}\n".encode())
        except Refused as fault:
            await self._say(writer, f"refused {fault}\n".encode())
        else:
            self._note(frame, began, answer=answer)
            await self._say(writer, f"answer {len(answer)}\n".encode() + answer)

    def _note(self, frame: Frame, began: float, answer: bytes | None = None, lost: str | None = None) -> None:
        """Logs who sent which frame, and counts it. The frame's text is told by its hash alone."""
        seconds = time.monotonic() - began
        refusals = 0 if answer is None else sum(line.startswith(b"no ") for line in answer.split(b"\n"))
        self.counters.note(frame, seconds, refusals, lost is not None)
        log.info(json.dumps({
            "user": frame.user, "bytes": len(frame.text), "sha256": hashlib.sha256(frame.text).hexdigest(),
            "seconds": round(seconds, 6), "refusals": refusals, **({} if lost is None else {"lost": lost})}))

    async def _say(self, writer: asyncio.StreamWriter, some: bytes) -> None:
        """Writes to a client, who is cut off if it takes longer than its bound to read."""
        writer.write(some)
        try:
            async with asyncio.timeout(self.bounds.read_seconds):
                await writer.drain()
        except TimeoutError:
            writer.transport.abort()
            raise


def account_name(number: int) -> str:
    """The name of an account, or its number where it has none."""
    try:
        return pwd.getpwuid(number).pw_name
    except KeyError:
        return str(number)


def account_of(writer: asyncio.StreamWriter) -> str:
    """The account of the process at the other end of a Unix socket, as the kernel has it (SO_PEERCRED, unix(7))."""
    told = writer.get_extra_info("socket").getsockopt(socket.SOL_SOCKET, socket.SO_PEERCRED, struct.calcsize("3i"))
    return account_name(struct.unpack("3i", told)[1])
