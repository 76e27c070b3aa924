"""The must-fail edits: what each came to, and which are to be tried. `.ci/run` runs this file around `rt ci`; `checks/edits_tried` tests it.

    python3 checks/must_fail.py begin       has the edits that aren't due stand aside; with --all every edit is due
    python3 checks/must_fail.py end         reads what `rt ci` printed, puts the edits back, and writes what those tried came to into must-fail.txt;
                                            with --all it fails where must-fail.txt said otherwise
    python3 checks/must_fail.py put-back    puts the edits back that stand aside
    python3 checks/must_fail.py due         prints the edits that are due, each with the reason
    python3 checks/must_fail.py mend        takes the lines out of must-fail.txt that are of no edit

An edit that was refused stays refused until something that its trial reads changes. So must-fail.txt has a line for each edit: its crate and name, a
sum of all that its trial reads, what it came to, and the first line of the prover's reason. An edit without a line, or whose line has another sum, is
due. For the time of `rt ci` the others stand in out/edits_aside. The next run puts back what a killed one left there; so does `git checkout crates`.
"""
import fcntl
import functools
import glob
import hashlib
import json
import os
import re
import subprocess
import sys
from collections import Counter, namedtuple

import interfaces

RECORD = "must-fail.txt"
ASIDE = "out/edits_aside"
# The sums that a run begins with, of all edits, and the edits that it has tried.
BEGUN = "out/must-fail.begun"
# The file descriptor that .ci/run opens for the lock, which lasts until the run has ended.
LOCK = 9
NAME = "must-fail"
# What an edit can come to: the prover refuses it; only since a proof names what the edit took away; only by a limit of the prover's own.
REFUSED, FOR_A_NAME, BY_A_LIMIT = KINDS = ("refused", "for-a-name", "by-a-limit")
HEAD = """# What each must-fail edit came to when it was last tried: crate and edit, the sum of all that the trial read, what it came to
# (refused, for-a-name: only since a proof names what the edit took away, by-a-limit: only by a limit of the prover), and the prover's
# first line. `bash .ci/run` writes this file and tries an edit again once its sum differs; `bash .ci/run --all` tries all and compares.
"""
ROW = re.compile(rf"(\w+/[\w.-]+) ([0-9a-f]{{16}}) ({'|'.join(KINDS)})(?: (\S.*))?")
# What rt ci prints of an edit.
TOLD = re.compile(r"rt: must-fail (\w+/[\w.-]+)\.edit: (.*)")
AS_IT_MUST = re.compile(r"refused, as it must be(?: \((only [^)]*(?:\([^)]*\)[^)]*)*)\))?(?:: (.*))?")

Line = namedtuple("Line", "sum kind reason")


def say(text):
    print(f"{NAME}: {text}", flush=True)


# ---- edits and sums

def edits():
    """The files of the edits by `crate/name`, of those too that stand aside."""
    found = {}
    for path in [*glob.glob(f"{ASIDE}/*/*.edit"), *glob.glob("crates/*/must-fail/*.edit")]:
        crate = path.split("/")[-2 if path.startswith(ASIDE) else -3]
        found[f"{crate}/{os.path.basename(path)[:-len('.edit')]}"] = path
    return dict(sorted(found.items()))


@functools.lru_cache(maxsize=None)
def version():
    """The kit's identity, which is equal on each machine that has it."""
    return subprocess.run(["rt", "version"], stdout=subprocess.PIPE, text=True, check=True).stdout


def sums():
    """By edit, the sum of all that its trial reads: the kit, its crate, what a check of that reads of the crates below, and the edit."""
    kit, reads, found = version(), interfaces.read_sums(), {}
    for edit, path in edits().items():
        crate = edit.split("/")[0]
        if crate in reads:
            whole = repr((kit, reads[crate], interfaces.read(path)))
            found[edit] = hashlib.sha256(whole.encode()).hexdigest()[:16]
    return found


def due(record, now):
    """The edits to be tried, each with the reason."""
    found = {}
    for edit, sum_now in now.items():
        if edit not in record:
            found[edit] = "it has no line"
        elif record[edit].sum != sum_now:
            found[edit] = "what its trial reads has changed"
    return found


# ---- the record

def read_record(text):
    """The lines of must-fail.txt by edit, and what is wrong with it."""
    record, faults = {}, []
    for number, line in enumerate(text.splitlines(), 1):
        row = ROW.fullmatch(line)
        if not line or line.startswith("#"):
            continue
        if not row:
            faults.append(f"{RECORD}:{number}: this is no line of an edit: {line[:80]}")
        elif row[1] in record:
            faults.append(f"{RECORD}:{number}: a second line of {row[1]}")
        else:
            record[row[1]] = Line(row[2], row[3], row[4] or "")
    return record, faults


def recorded():
    if not os.path.exists(RECORD):
        return {}, []
    with open(RECORD, encoding="utf-8") as file:
        return read_record(file.read())


def of_no_edit(record, now):
    return [edit for edit in record if edit not in now]


def written(record):
    """The text of must-fail.txt."""
    return HEAD + "".join(" ".join([edit, *record[edit]]).rstrip() + "\n" for edit in sorted(record))


def write(record):
    with open(f"{RECORD}.new", "w", encoding="utf-8") as file:
        file.write(written(record))
    os.replace(f"{RECORD}.new", RECORD)


def verdict(line):
    """The edit that a line of rt ci is of, with its kind and reason; no kind where it wasn't refused, or not tried. None of another line."""
    told = TOLD.match(line)
    if not told:
        return None
    found = AS_IT_MUST.fullmatch(told[2])
    if not found:
        return told[1], None, told[2]
    only = found[1] or ""
    kind = BY_A_LIMIT if only.startswith("only by a limit") else FOR_A_NAME if only else REFUSED
    return told[1], kind, " ".join((found[2] or "").split())


def taken_over(record, tried, before, after):
    """The record once these edits were tried: `tried` has kind and reason by edit. A line is written only where nothing changed meanwhile."""
    record = dict(record)
    for edit, (kind, reason) in tried.items():
        if not kind:
            record.pop(edit, None)
        elif edit in before and before[edit] == after.get(edit):
            record[edit] = Line(before[edit], kind, reason)
    return record


def differences(record, found, now):
    """How the record differs from what the trials of all edits gave."""
    for edit in sorted(now):
        was, is_now = record.get(edit), found.get(edit)
        if was == is_now:
            continue
        if not was:
            yield f"{edit} has no line in {RECORD}"
        elif not is_now:
            yield f"{edit}: {RECORD} says {was.kind}, and its trial doesn't"
        elif was.kind != is_now.kind:
            yield f"{edit}: {RECORD} says {was.kind}, and its trial {is_now.kind}"
        elif was.sum != is_now.sum:
            yield f"{edit}: {RECORD} has another sum than that of what its trial read"
        else:
            yield f"{edit}: {RECORD} has another reason than its trial: {is_now.reason}"


# ---- the run

def is_alone(waits):
    """Whether no other run works in this checkout, where .ci/run has opened a file for that; it may wait until none does."""
    try:
        fcntl.flock(LOCK, fcntl.LOCK_EX | fcntl.LOCK_NB)
    except BlockingIOError:
        if not waits:
            return False
        say("waiting for another run in this checkout to end")
        fcntl.flock(LOCK, fcntl.LOCK_EX)
    except OSError:
        # (no such file is open, or the file system has no locks)
        pass
    return True


def put_back():
    """Gives the crates the edits that stand aside. One that is there already, as after a checkout, stays as it is."""
    for path in glob.glob(f"{ASIDE}/*/*.edit"):
        crate, name = path.split("/")[-2:]
        to = f"crates/{crate}/must-fail/{name}"
        if os.path.exists(to) or not os.path.isdir(f"crates/{crate}"):
            os.remove(path)
        else:
            os.makedirs(os.path.dirname(to), exist_ok=True)
            os.replace(path, to)


def put_aside(names):
    for edit in names:
        crate, name = edit.split("/")
        os.makedirs(f"{ASIDE}/{crate}", exist_ok=True)
        os.replace(f"crates/{crate}/must-fail/{name}.edit", f"{ASIDE}/{crate}/{name}.edit")


def begin(is_all):
    """Leaves the edits in the crates that are to be tried; gives the status, which isn't 0 where must-fail.txt is wrong."""
    is_alone(waits=True)
    put_back()
    now = sums()
    record, faults = recorded()
    faults += [f"{RECORD} has a line of {edit}, which is no edit: `checks/must_fail.py mend` takes it out" for edit in of_no_edit(record, now)]
    for fault in faults:
        say(fault)
    if faults:
        return 1
    tries = sorted(now if is_all else due(record, now))
    with open(BEGUN, "w", encoding="utf-8") as file:
        json.dump([now, tries], file)
    try:
        put_aside(set(now) - set(tries))
    except BaseException:
        put_back()
        raise
    say(f"{len(tries)} of {len(now)} edits are due, and tried once their crates are proved; the others are as {RECORD} has them")
    if len(tries) < len(now):
        say(f"until rt ci has ended, these stand in {ASIDE}: commit nothing here meanwhile")
    return 0


def count(record, tried, now):
    """What the run's last line says of the edits."""
    kinds = Counter(record[edit].kind for edit in now if edit in record and record[edit].sum == now[edit])
    few = f"{kinds[FOR_A_NAME]} of them only for want of a name, {kinds[BY_A_LIMIT]} only by a limit"
    return f"{len(tried)} edits tried, {len(now) - len(tried)} as {RECORD} has them; {sum(kinds.values())} of {len(now)} are refused, {few}"


def end(lines, is_all):
    """Takes what rt ci said of the edits into must-fail.txt, by its lines; gives the status, which isn't 0 where one that is due wasn't refused."""
    put_back()
    with open(BEGUN, encoding="utf-8") as file:
        before, tries = json.load(file)
    told = [found for line in lines if (found := verdict(line.rstrip("\n")))]
    tried = {edit: (kind, reason) for edit, kind, reason in told if edit in tries}
    record, faults = recorded()
    after = sums() if tried else before
    found = taken_over(record, tried, before, after)
    for edit in tried:
        if before[edit] != after.get(edit):
            say(f"{edit}: something that it reads changed while it was tried, so its line isn't written")
    untried = [edit for edit in tries if edit not in tried]
    if untried:
        faults.append(f"rt ci says nothing of {len(untried)} edits that are due: {' '.join(untried[:4])}{' ..' * (len(untried) > 4)}")
    faults += [f"{edit} isn't refused: {reason}" for edit, (kind, reason) in tried.items() if not kind]
    if is_all:
        faults += differences(record, found, before)
    for fault in faults:
        say(fault)
    if found != record:
        write(found)
        say(f"{RECORD} has changed: commit it")
    say(count(found, tried, before))
    return 1 if faults else 0


def mend():
    now = edits()
    record, faults = recorded()
    for edit in of_no_edit(record, now):
        del record[edit]
        say(f"{edit} had a line, and is no edit")
    if faults:
        say(faults[0])
        return 1
    write(record)
    return 0


def leave():
    """Puts back what this run has aside, however it ends; not what another run has, which this one waited for."""
    if is_alone(waits=False):
        put_back()


def print_due():
    for edit, why in due(recorded()[0], sums()).items():
        print(f"{edit}: {why}")
    return 0


def main(words):
    is_all = words[1:] == ["--all"]
    if words[:1] == ["begin"] and (is_all or len(words) == 1):
        return begin(is_all)
    if words[:1] == ["end"] and (is_all or len(words) == 1):
        return end(sys.stdin, is_all)
    calls = {"put-back": leave, "due": print_due, "mend": mend}
    if len(words) != 1 or words[0] not in calls:
        say(f"the words are begin, end, each with --all or not, {', '.join(calls)}")
        return 2
    return calls[words[0]]() or 0


if __name__ == "__main__":
    sys.exit(main(sys.argv[1:]))
