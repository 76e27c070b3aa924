"""The files of sessions/, as checks/sessions tells their form."""
import glob

SESSIONS, OPENINGS = "sessions", "sessions/openings"


def all_sessions():
    """All sessions: where each begins, and its lines with those of its opening."""
    for path in sorted(glob.glob(f"{SESSIONS}/*.session")):
        yield from sessions_of(path)


def read(path):
    with open(path, encoding="utf-8", newline="") as file:
        return file.read()


def sessions_of(path):
    """The sessions of a file: where each begins, and its lines with those of its opening."""
    number = 1
    for part in read(path).rstrip("\n").split("\n\n"):
        lines = [line for line in part.split("\n") if not line.startswith("# ")]
        if lines and lines[0].startswith("= "):
            lines = read(f"{OPENINGS}/{lines[0][2:]}").rstrip("\n").split("\n") + lines[1:]
        if lines:
            yield f"{path}:{number}", lines
        number += part.count("\n") + 2


def cut(lines):
    """The commands of a session, each as its lines and its reply, and how the session ends, if it tells."""
    found, end, is_block = [], None, False
    for line in lines:
        if line.startswith("> "):
            line = line[2:]
            if not is_block:
                found.append(([], []))
            found[-1][0].append(line)
            is_block = line != "." and (is_block or line.split(" ")[0] in ("init", "evolve", "import", "load"))
        elif line.startswith("! "):
            end = line[2:]
        else:
            found[-1][1].append(line)
    return found, end
