"""Runs of the program over a store, whose lines are timed: for the benches."""
import contextlib
import os
import shutil
import subprocess
import sys
import tempfile
import threading
import time

ECORE = "http://www.eclipse.org/emf/2002/Ecore#//"
STORE = "emfstore.journal"


@contextlib.contextmanager
def folder_of(store=None):
    """A folder of its own, with a copy of the store of another folder where one is named."""
    folder = tempfile.mkdtemp(dir=".")
    try:
        if store is not None:
            shutil.copy(os.path.join(store, STORE), folder)
        yield folder
    finally:
        shutil.rmtree(folder)


@contextlib.contextmanager
def store_of(path, script):
    """A folder with the store that a script leaves, each command of which must be accepted."""
    with folder_of() as folder, tempfile.TemporaryFile() as source, tempfile.TemporaryFile() as replies:
        source.write(script.encode())
        source.seek(0)
        done = subprocess.run([path], cwd=folder, stdin=source, stdout=replies, stderr=subprocess.PIPE)
        if done.returncode != 0:
            replies.seek(0)
            refused = next((line for line in replies if line.startswith(b"no ")), b"")
            sys.exit(f"the program ended with {done.returncode}: {done.stderr.decode()} {refused!r}")
        yield folder


class ProgramRun:
    """A run of the program in a folder, which has opened its store."""

    def __init__(self, path, folder):
        self.program = subprocess.Popen([path], cwd=folder, stdin=subprocess.PIPE, stdout=subprocess.PIPE, bufsize=1 << 20)
        # No workspace has this number, so the line is refused once the store is open.
        self.asked("show 0\n")

    def __enter__(self):
        return self

    def __exit__(self, *_):
        self.close()

    def close(self):
        self.program.stdin.close()
        self.program.stdout.close()
        self.program.wait()

    def send(self, lines):
        # The program's end is seen where its replies are read.
        with contextlib.suppress(BrokenPipeError):
            self.program.stdin.write("".join(lines).encode())
            self.program.stdin.flush()

    def reply(self):
        """The lines of the next reply."""
        lines = []
        while True:
            line = self.program.stdout.readline()
            if not line:
                sys.exit(f"the program ended with {self.program.wait()}")
            lines.append(line)
            if line.startswith((b"ok", b"no ")):
                return lines

    def used(self):
        """The processor seconds of the program so far, by the clock that Linux keeps for a process of that number."""
        return time.clock_gettime(~self.program.pid << 3 | 2)

    def asked(self, *lines):
        """The processor seconds and the wall seconds from the first of the commands to the end of the last reply; and the replies."""
        sender = threading.Thread(target=self.send, args=(lines,))
        used, started = self.used(), time.perf_counter()
        sender.start()
        replies = [self.reply() for _ in lines]
        used, taken = self.used() - used, time.perf_counter() - started
        sender.join()
        return used, taken, replies

    def taken(self, *lines):
        """The same of commands that must be accepted."""
        used, taken, replies = self.asked(*lines)
        for line, reply in zip(lines, replies):
            if not reply[-1].startswith(b"ok"):
                sys.exit(f"{line[:80]!r} got {reply[-1]!r}")
        return used, taken, replies

    def processor(self, *lines):
        """Their processor seconds alone."""
        return self.taken(*lines)[0]

    def peak(self):
        """The peak resident memory in KiB."""
        with open(f"/proc/{self.program.pid}/status") as status:
            return next(int(line.split()[1]) for line in status if line.startswith("VmHWM"))


def opened(path, folder):
    """The processor seconds of a run without a command, and so of opening the store."""
    child = subprocess.Popen([path], cwd=folder, stdin=subprocess.DEVNULL, stdout=subprocess.DEVNULL)
    _, status, usage = os.wait4(child.pid, 0)
    child.returncode = os.waitstatus_to_exitcode(status)
    if child.returncode != 0:
        sys.exit(f"the program ended with {child.returncode} as it opened the store")
    return usage.ru_utime + usage.ru_stime
