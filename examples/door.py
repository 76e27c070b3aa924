"""A team models a door: one session with the client of clients/python, in an empty folder. The one word is the path of the built program."""
import os
import sys

sys.path.append(os.path.join(os.path.dirname(os.path.abspath(__file__)), "..", "clients", "python"))
from emfstore import THEIRS, Refused, Store

ECORE = "http://www.eclipse.org/emf/2002/Ecore#//"
MACHINES = {
    "eClass": ECORE + "EPackage", "name": "machines", "nsURI": "http://machines/1", "eClassifiers": [
        {"eClass": ECORE + "EClass", "name": "Machine", "eStructuralFeatures": [
            {"eClass": ECORE + "EReference", "name": "states", "upperBound": -1, "containment": True, "eType": {"$ref": "//State"}}]},
        {"eClass": ECORE + "EClass", "name": "State", "eStructuralFeatures": [
            {"eClass": ECORE + "EAttribute", "name": "name", "eType": {"$ref": ECORE + "EString"}},
            {"eClass": ECORE + "EReference", "name": "next", "eType": {"$ref": "//State"}}]}]}
DOOR = {"eClass": "//Machine", "_id": "door", "states": [
    {"_id": "open", "name": "open", "next": {"$ref": "closed"}},
    {"_id": "closed", "name": "closed", "next": {"$ref": "open"}}]}


def say(*words, sep=" "):
    print(*words, sep=sep)


def names(roots):
    return ", ".join(state["name"] for state in roots[0]["states"])


with Store(sys.argv[1]) as store:
    # Ann brings the metamodel and the door.
    store.init(MACHINES)
    ann = store.checkout("trunk").workspace
    say("Ann brings in", ann.bring_in(DOOR), "elements: version", ann.commit("the door as it is"))

    # Ben takes them. Both rename a state, and Ben adds one.
    ben = store.checkout("trunk").workspace
    ann.set("closed", "name", "latched")
    say("Ann says latched: version", ann.commit("latched"))
    ben.set("closed", "name", "shut")
    with ben.composite("lock"):
        locked = ben.create("State", "door", "states", "locked")
        ben.set(locked, "name", "locked")
        ben.set("closed", "next", locked)

    # Hers came first, so his commit has to wait for an update.
    try:
        ben.commit("shut, and it can be locked")
    except Refused as refused:
        say("Ben's commit is refused:", refused.refusal.name, *refused.refusal.fields)

    def choose(conflict):
        for change in conflict.theirs:
            say("they conflict:", change)
        say("He keeps hers")
        return THEIRS

    say("Ben is at version", ben.update(choose), "with", names(ben.show()))
    for operation in ben.changes():
        say(*operation.lines, sep="\n    ")
    say("what was in no question stays: version", ben.commit("it can be locked"))

    # The history has all of it, and each version stays as it was.
    for version in store.log():
        say(version.number, version.message or "the empty project", "with", version.operations, "operations")
    say("now:", names(store.cat("trunk")), "and before:", names(store.cat(1)))
