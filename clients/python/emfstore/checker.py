"""Says where a metamodel's or a model's document has its fault: the program decides whether there is one, and of which kind."""
from __future__ import annotations

import argparse
import sys
import tempfile
from collections.abc import Callable, Iterable, Sequence

from emfstore import metamodel_rules, model_faults
from emfstore.documents import Fault, NotJson, read
from emfstore.faults import Ended, NoProgram
from emfstore.metamodel_faults import metamodel_of
from emfstore.refusals import sentence_of
from emfstore.replies import Refusal
from emfstore.store import Store

GOOD, FAULTY, BAD_WORDS = 0, 1, 2
BAD_METAMODEL, BAD_MODEL = 4, 29
NOT_JSON = 1
NOT_FOUND = Fault(0, "no place that this checker knows", "", "please tell how it can be had again")


def place_in_metamodel(document: str, number: int) -> Fault:
    """Where the first fault of this number stands in a metamodel's document."""
    return _first(number, lambda: metamodel_rules.faults(read(document)))


def place_in_model(metamodel: str, document: str, number: int) -> Fault:
    """Where the first fault of this number stands in a model's document."""
    return _first(number, lambda: model_faults.faults(metamodel_of(read(metamodel)), read(document)))


def check(store: Store, document: str, metamodel: str | None) -> tuple[str, Fault | None] | None:
    """What the program says of a document over an empty store, and where it stands; None where it is accepted."""
    refusal = _asked(store, "init", document if metamodel is None else metamodel)
    if refusal is not None:
        of_metamodel = place_in_metamodel(document if metamodel is None else metamodel, int(refusal.fields[0])) if refusal.fields else None
        return ("" if metamodel is None else "of the metamodel: ") + _words(refusal), of_metamodel
    if metamodel is None:
        return None
    workspace = store.checkout(0).workspace
    refusal = _asked(store, f"import {workspace.number}", document)
    if refusal is None:
        return None
    return _words(refusal), place_in_model(metamodel, document, int(refusal.fields[0])) if refusal.number == BAD_MODEL else None


def _first(number: int, faults: Callable[[], Iterable[Fault]]) -> Fault:
    try:
        return next((fault for fault in faults() if fault.number == number), NOT_FOUND)
    except NotJson as found:
        return found.fault


def _asked(store: Store, line: str, block: str) -> Refusal | None:
    reply = store.ask(line, block)
    return reply if isinstance(reply, Refusal) else None


def _words(refusal: Refusal) -> str:
    return f"{' '.join((refusal.name, *refusal.fields))}: {sentence_of(refusal)}"


def main(arguments: Sequence[str] | None = None) -> int:
    """Checks a document, as the command line says, and returns the status: 0 it is good, 1 it has a fault, 2 it can't be checked."""
    statuses = "Status: 0 it is accepted; 1 it has a fault; 2 it can't be checked."
    parser = argparse.ArgumentParser(prog="emfstore-check", description=__doc__, epilog=statuses)
    parser.add_argument("file", metavar="FILE.json", help="a metamodel, or a model of METAMODEL.json")
    parser.add_argument("metamodel", metavar="METAMODEL.json", nargs="?", help="the metamodel of a model")
    parser.add_argument("--program", metavar="PATH", help="the program; without it that of the variable EMFSTORE, else emfstore of PATH")
    words = parser.parse_args(arguments)
    try:
        document, metamodel = _read(words.file), _read(words.metamodel) if words.metamodel else None
        with tempfile.TemporaryDirectory(prefix="emfstore-") as place, Store(words.program, place) as store:
            found = check(store, document, metamodel)
    except (OSError, NoProgram, Ended, ValueError) as fault:
        print(f"emfstore-check: {words.file}: {fault}", file=sys.stderr)
        return BAD_WORDS
    if found is None:
        print(f"{words.file}: accepted")
        return GOOD
    print(f"{words.file}: {found[0]}")
    if found[1] is not None:
        print(f"  {found[1]}")
    return FAULTY


def _read(name: str) -> str:
    with open(name, encoding="utf-8", newline="") as file:
        return file.read()
