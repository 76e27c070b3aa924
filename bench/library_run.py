"""A library of books, n0 and so on: for the benches that need one."""
import contextlib
import json

from program_run import ECORE, ProgramRun, folder_of

METAMODEL = json.dumps({"eClass": ECORE + "EPackage", "name": "lib", "nsURI": "http://lib/1", "nsPrefix": "lib", "eClassifiers": [
    {"eClass": ECORE + "EClass", "name": "Library", "eStructuralFeatures": [
        {"eClass": ECORE + "EReference", "name": "books", "upperBound": -1, "containment": True, "eType": {"$ref": "//Book"}}]},
    {"eClass": ECORE + "EClass", "name": "Book", "eStructuralFeatures": [
        {"eClass": ECORE + "EAttribute", "name": "pages", "eType": {"$ref": ECORE + "EInt"}}]}]})


def project():
    """The commands that begin the project, in which workspace 1 is empty."""
    return [f"init\n{METAMODEL}\n.\n", "checkout 0\n"]


def imported(books):
    """The command that brings a library of so many books into workspace 1."""
    document = {"eClass": "//Library", "_id": "lib", "books": [{"_id": f"n{k}", "pages": 0} for k in range(books)]}
    return f"import 1\n{json.dumps(document)}\n.\n"


def library(books):
    """The commands after which version 1 is a library of so many books, committed from workspace 1."""
    return [*project(), imported(books), "commit 1 first\n"]


@contextlib.contextmanager
def library_run(path, books):
    """A run in a folder of its own, in which a library of so many books is committed from workspace 1."""
    with folder_of() as folder, ProgramRun(path, folder) as run:
        run.taken(*library(books))
        yield run
