"""A store's records and a run's replies, as checks compare them, and libraries that are loaded before the C library."""
import os
import shutil
import subprocess

STORE = "emfstore.journal"
HEADER, GATE, OPEN = 16, 5, 0xA5


def records(file):
    """The records of a store up to its closed gate."""
    found, place = [], HEADER
    while place < len(file) and file[place] == OPEN:
        end = place + GATE + int.from_bytes(file[place + 1:place + GATE], "big")
        found.append(file[place:end])
        place = end
    return found


def replies(printed):
    """The whole replies in what was printed, each with its data lines, and what is left after them."""
    found, reply = [], b""
    for line in printed.splitlines(keepends=True):
        reply += line
        if line.startswith((b"ok", b"no ")) and line.endswith(b"\n"):
            found.append(reply)
            reply = b""
    return found, reply


def compiled(folder, name, text):
    """The library of a C text, or none without a compiler."""
    compiler = next(filter(None, map(shutil.which, ("cc", "gcc", "clang"))), None)
    if compiler is None:
        return None
    source, library = os.path.join(folder, f"{name}.c"), os.path.join(folder, f"{name}.so")
    with open(source, "w", encoding="utf-8") as file:
        file.write(text)
    subprocess.run([compiler, "-O1", "-shared", "-fPIC", "-fno-builtin", "-o", library, source], capture_output=True, check=True)
    return library
