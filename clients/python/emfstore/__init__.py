"""A client of the program emfstore: it starts the program over the store of a folder, sends commands, and reads each whole reply.

    with Store(folder="shared") as store:
        ann = store.checkout("trunk").workspace
        book = ann.create("Book", "library", "books")
        ann.set(book, "title", "Emma")
        version = ann.commit("one book")

A refused command raises Refused, but where `ask` sends it. Nothing beside Python's own library is needed.
"""
from emfstore.conflicts import Bucket, Change, Choice, Conflict
from emfstore.faults import (STATUSES, Closed, Damaged, DiskFault, Ended, InputFault, Interrupted, InUse, NoProgram, OutOfMemory, Refused, StoreError)
from emfstore.files import copy_of_store, find_program, is_in_use
from emfstore.lines import Document, Element
from emfstore.operations import (Gone, Inserted, Linked, Moved, New, Operation, Place, Put, Ranked, Reranked, Shifted, Step, Taken, Unlinked, Value)
from emfstore.replies import COMMANDS_WITH_BLOCKS, Accepted, Refusal
from emfstore.store import Checkout, Package, Store, Version
from emfstore.workspace import CONFLICTS, Missing, Workspace

MINE, THEIRS = Choice.MINE, Choice.THEIRS

__all__ = [
    "COMMANDS_WITH_BLOCKS", "CONFLICTS", "MINE", "STATUSES", "THEIRS", "Accepted", "Bucket", "Change", "Checkout", "Choice", "Closed", "Conflict",
    "Damaged", "DiskFault", "Document", "Element", "Ended", "Gone", "InUse", "InputFault", "Inserted", "Interrupted", "Linked", "Missing", "Moved",
    "New", "NoProgram", "Operation", "OutOfMemory", "Package", "Place", "Put", "Ranked", "Refusal", "Refused", "Reranked", "Shifted", "Step",
    "Store", "StoreError", "Taken", "Unlinked", "Value", "Version", "Workspace", "copy_of_store", "find_program", "is_in_use",
]
