"""The program that has the store: frames go to it in one order, and its answers come back in that order."""
import asyncio
import logging
from collections import deque
from dataclasses import dataclass, field

from emfstore_hub.frames import Answers, Frame

PIECE = 262_144
OUT_OF_MEMORY = 7
MOST_ENDS_IN_A_ROW = 3
WORDS = {
    0: "the program ended",
    1: "the program ended",
    2: "the policy is none, or the program knows no `serve`",
    3: "the program couldn't read its input",
    4: "the program couldn't write its answers",
    5: "the disk failed, or another program uses the store",
    6: "the file is no store",
    7: "the program ran out of memory",
    8: "the program couldn't read a frame",
}
log = logging.getLogger("emfstore_hub")


class Lost(Exception):
    """The program ended while the frame was on its way: what it says may be done, or not."""


class Refused(Exception):
    """The frame was not sent to the program, so nothing of it is done."""


@dataclass
class Waiting:
    """A frame, and whoever waits for its answer."""
    frame: Frame
    answer: "asyncio.Future[bytes]" = field(default_factory=lambda: asyncio.get_running_loop().create_future())


@dataclass(frozen=True)
class Command:
    """How the program is started: its path, the folder of the store, and the file that has the policy."""
    path: str
    folder: str
    policy: str

    def words(self) -> list[str]:
        """The command line, with the policy as its file has it now: grants by lines or commas."""
        with open(self.policy, encoding="utf-8") as file:
            lines = [line.partition("#")[0].strip().strip(",") for line in file]
        return [self.path, "serve", ",".join(line for line in lines if line)]


class Program:
    """`emftools serve`, started again when it ran out of memory and when its policy is to be read anew."""

    def __init__(self, command: Command) -> None:
        self._command = command
        self._queue: deque[Waiting] = deque()
        self._sent: deque[Waiting] = deque()
        self._news = asyncio.Event()
        self._renews = False
        self._ends = False
        self._answered = asyncio.Condition()
        self.status: int | None = None

    async def answer(self, frame: Frame) -> bytes:
        """Sends the frame in its turn. Raises Lost if the program ends meanwhile, Refused if it is no more there."""
        if self._ends or self.status is not None:
            raise Refused("the hub is about to end")
        waiting = Waiting(frame)
        self._queue.append(waiting)
        self._news.set()
        return await waiting.answer

    def renew(self) -> None:
        """Has the program end once all that was sent is answered, and begin again with the policy as it is then."""
        self._renews = True
        self._news.set()

    def end(self) -> None:
        """Takes no more frames, and ends once those that wait are answered."""
        self._ends = True
        self._news.set()

    async def changed(self) -> None:
        """Waits until a further frame is answered."""
        async with self._answered:
            await self._answered.wait()

    async def run(self) -> int:
        """Runs the program until `end`, or until it ends by a status that starting it again can't mend; that status is returned."""
        in_a_row = 0
        while self.status is None:
            in_a_row, status = await self._run_once(in_a_row)
            if status in (0, 1) and (self._renews or self._queue) and not (self._ends and not self._queue):
                self._renews = False
            elif status == OUT_OF_MEMORY and in_a_row < MOST_ENDS_IN_A_ROW:
                log.warning("%s: it is started again", WORDS[status])
            else:
                self.status = status
        for waiting in self._queue:
            waiting.answer.set_exception(Refused(WORDS.get(self.status, f"the program ended by {self.status}")))
        self._queue.clear()
        return self.status

    async def _run_once(self, in_a_row: int) -> tuple[int, int]:
        process = await asyncio.create_subprocess_exec(
            *self._command.words(), cwd=self._command.folder, stdin=asyncio.subprocess.PIPE, stdout=asyncio.subprocess.PIPE, limit=PIECE)
        writing = asyncio.create_task(self._write(process))
        count = await self._read(process)
        writing.cancel()
        status = await process.wait()
        while self._sent:
            waiting = self._sent.popleft()
            if not waiting.answer.done():
                waiting.answer.set_exception(Lost(WORDS.get(status, f"the program was stopped by signal {-status}")))
        return 1 if count else in_a_row + 1, status

    async def _write(self, process: asyncio.subprocess.Process) -> None:
        """Sends frames as they come, ahead of their answers. At the end, or for a new policy, the input is closed."""
        assert process.stdin is not None
        try:
            while True:
                self._news.clear()
                while self._queue and not self._renews:
                    waiting = self._queue.popleft()
                    self._sent.append(waiting)
                    process.stdin.write(waiting.frame.encoded())
                    await process.stdin.drain()
                if self._renews or self._ends:
                    process.stdin.close()
                    return
                await self._news.wait()
        except (BrokenPipeError, ConnectionResetError):
            return

    async def _read(self, process: asyncio.subprocess.Process) -> int:
        """Hands answers to those who wait, in the order of their frames, until the program prints no more; how many is returned."""
        assert process.stdout is not None
        answers, count = Answers(), 0
        while some := await process.stdout.read(PIECE):
            for answer in answers.add(some):
                waiting, count = self._sent.popleft(), count + 1
                if not waiting.answer.done():
                    waiting.answer.set_result(answer)
            async with self._answered:
                self._answered.notify_all()
        return count
