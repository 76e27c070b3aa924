"""What the tests share: the program, a metamodel, and a store in a folder of its own."""
import contextlib
import os
import tempfile

from emfstore import Store, find_program

PROGRAM = find_program()[0]
# A folder in memory, where there is one.
MEMORY = "/dev/shm" if os.access("/dev/shm", os.W_OK) else None
ECORE = "http://www.eclipse.org/emf/2002/Ecore#//"


def attribute(name, kind="EString", **more):
    """An attribute of a type of Ecore."""
    return {"eClass": ECORE + "EAttribute", "name": name, "eType": {"$ref": ECORE + kind}, **more}


def reference(name, target, **more):
    """A reference to a class of the package."""
    return {"eClass": ECORE + "EReference", "name": name, "eType": {"$ref": f"//{target}"}, **more}


def metamodel(**classes):
    """A package of classes by name, each of which is a list of features."""
    found = [{"eClass": ECORE + "EClass", "name": name, "eStructuralFeatures": features} for name, features in classes.items()]
    return {"eClass": ECORE + "EPackage", "name": "lib", "nsURI": "http://lib/1", "eClassifiers": found}


LIBRARY = metamodel(
    Library=[attribute("name"), reference("books", "Book", upperBound=-1, containment=True)],
    Book=[attribute("title", lowerBound=1), attribute("pages", "EInt"), attribute("tags", upperBound=-1, unique=False),
          reference("sequel", "Book"), reference("authors", "Writer", upperBound=-1, eOpposite={"$ref": "//Writer/works"})],
    Writer=[attribute("name"), reference("works", "Book", upperBound=-1, eOpposite={"$ref": "//Book/authors"})])


def folder():
    """A folder of its own, which is gone afterwards."""
    return tempfile.TemporaryDirectory(dir=MEMORY)


@contextlib.contextmanager
def library(place=None):
    """A store with the metamodel of libraries, and a workspace that has a library `l` with the book `a`, committed as version 1."""
    with contextlib.ExitStack() as stack:
        store = stack.enter_context(Store(PROGRAM, place or stack.enter_context(folder())))
        store.init(LIBRARY)
        ann = store.checkout("trunk").workspace
        ann.bring_in({"eClass": "//Library", "_id": "l", "name": "town", "books": [{"_id": "a", "title": "Emma"}]})
        ann.commit("one book")
        yield store, ann
