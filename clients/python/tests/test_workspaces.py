"""Each call of a workspace and of a store, and conflicts with both sides' changes."""
import contextlib
import os
import shutil
import unittest

from emfstore import MINE, THEIRS, Choice, Linked, Missing, Place, Put, Refused, Store, StoreError
from tests.support import PROGRAM, folder, library


def journal(store):
    with open(os.path.join(store.folder, "emfstore.journal"), "rb") as file:
        return file.read()


def steps(workspace):
    return [step for operation in workspace.changes() for step in operation.steps]


class Calls(unittest.TestCase):
    def setUp(self):
        stack = contextlib.ExitStack()
        self.addCleanup(stack.close)
        self.store, self.ann = stack.enter_context(library())

    def refused(self, name, call, *words):
        with self.assertRaises(Refused) as found:
            call(*words)
        self.assertEqual(found.exception.refusal.name, name)

    def book(self):
        return self.ann.show()[0]["books"][0]

    def test_elements(self):
        ann = self.ann
        self.assertEqual(ann.create("Book", "l", "books", "b"), "b")
        self.assertEqual(ann.create("Writer"), "w1n1")
        ann.move("b", "l", "books", 0)
        self.assertEqual([it["_id"] for it in ann.show()[0]["books"]], ["b", "a"])
        ann.move("b")
        self.assertEqual([it["_id"] for it in ann.show()], ["l", "w1n1", "b"])
        ann.delete("b")
        self.refused("NoElement", ann.delete, "b")
        with self.assertRaises(ValueError):
            ann.create("Book", "l")

    def test_values(self):
        ann = self.ann
        ann.set("a", "title", 'a "text" ü')
        ann.set("a", "pages", 474)
        for tag in ("x", "y"):
            ann.add("a", "tags", tag)
        ann.add("a", "tags", "first", 0)
        self.assertEqual(self.book()["tags"], ["first", "x", "y"])
        ann.shift("a", "tags", 0, 2)
        ann.remove("a", "tags", 0)
        self.assertEqual((self.book()["title"], self.book()["pages"], self.book()["tags"]), ('a "text" ü', 474, ["y", "first"]))
        ann.unset("a", "pages")
        self.assertNotIn("pages", self.book())
        self.refused("BadValue", ann.set, "a", "pages", "many")
        self.assertEqual(steps(ann)[0], Put("a", "title", "Emma", 'a "text" ü'))

    def test_links(self):
        ann = self.ann
        for writer in ("v", "w"):
            ann.create("Writer", element=writer)
            ann.link("a", "authors", writer, 0)
        ann.reorder("a", "authors", "v", 0)
        self.assertEqual(self.book()["authors"], [{"$ref": "v"}, {"$ref": "w"}])
        ann.unlink("a", "authors", "v")
        self.assertEqual(self.book()["authors"], [{"$ref": "w"}])
        self.assertIsInstance(steps(ann)[1], Linked)

    def test_recorded(self):
        ann = self.ann
        ann.set("a", "title", "A")
        ann.set("a", "title", "B")
        ann.tidy()
        self.assertEqual(steps(ann), [Put("a", "title", "Emma", "B")])
        ann.undo()
        self.assertEqual(ann.changes(), [])
        self.refused("NothingLocal", ann.undo)
        ann.set("a", "title", "C")
        ann.discard()
        self.assertEqual(self.book()["title"], "Emma")

    def test_composite(self):
        ann = self.ann
        with ann.composite("both"):
            ann.set("a", "title", "A")
            ann.set("a", "pages", 1)
            self.assertTrue(ann.changes()[0].is_open)
        [operation] = ann.changes()
        self.assertEqual((operation.kind, operation.name, len(operation.steps)), ("composite", "both", 2))
        for edits in ([], [("a", "title", "B")]):
            with self.assertRaises(KeyError), ann.composite("none"):
                for edit in edits:
                    ann.set(*edit)
                raise KeyError
            self.assertEqual(ann.changes(), [operation])
            self.assertEqual(self.book()["title"], "A")
        ann.begin("open")
        self.refused("CompositeOpen", ann.commit)
        ann.end()
        self.refused("NoComposite", ann.end)

    def test_versions(self):
        store, ann = self.store, self.ann
        ann.set("a", "title", "A")
        self.assertEqual(ann.commit("a  message"), 2)
        store.tag("r1", 2)
        self.assertEqual(store.log()[2].tags, ("r1",))
        self.assertEqual(store.log()[2].message, "a  message")
        package = store.package("@r1")
        self.assertEqual(package.operations[0].steps, (Put("a", "title", "Emma", "A"),))
        ann.revert(2)
        self.assertEqual(self.book()["title"], "Emma")
        ann.apply(package.bytes)
        ann.undo()
        ann.load(package.bytes)
        self.assertEqual(self.book()["title"], "A")
        store.upgrade()
        self.refused("Unsigned", ann.commit)
        self.assertEqual(ann.signed("ann", 1767225600, "signed"), 3)
        self.assertEqual((store.log()[3].author, store.log()[3].moment), ("ann", 1767225600))
        self.assertEqual(store.cat("trunk"), ann.show())

    def test_what_is_missing(self):
        self.ann.create("Book", element="b")
        self.assertEqual(self.ann.validate(), [Missing("b", "title", 0, 1)])

    def test_a_workspace_taken_up_again(self):
        place = self.store.folder
        self.ann.set("a", "title", "kept")
        self.store.close()
        with Store(PROGRAM, place) as store:
            again = store.workspace(1)
            self.assertEqual(steps(again), [Put("a", "title", "Emma", "kept")])
            again.drop()
            self.refused("NoWorkspace", again.show)

    def test_evolve(self):
        with self.assertRaises(Refused) as found:
            self.store.evolve({"eClass": "x"})
        self.assertEqual(found.exception.refusal.name, "BadMetamodel")


class Conflicts(unittest.TestCase):
    def setUp(self):
        stack = contextlib.ExitStack()
        self.addCleanup(stack.close)
        self.store, self.ann = stack.enter_context(library())
        self.ben = self.store.checkout("trunk").workspace

    def both_retitle(self):
        self.ann.set("a", "pages", 3)
        self.ann.set("a", "title", "hers")
        self.ann.commit()
        self.ben.create("Book", "l", "books", "b")
        self.ben.set("a", "title", "his")

    def test_of_an_update(self):
        self.both_retitle()
        before = journal(self.store)
        [conflict] = self.ben.conflicts()
        self.assertEqual(journal(self.store), before)
        [theirs], [mine] = conflict.theirs, conflict.mine
        self.assertEqual((theirs.operation, theirs.version, mine.operation, mine.version), (2, 2, 2, None))
        for change in (theirs, mine):
            self.assertEqual((change.element, change.label, change.path, change.feature), ("a", "his", "town/his", "title"))
            self.assertEqual((change.kind, change.old, change.theirs, change.mine), ("set", "Emma", "hers", "his"))
        self.assertIn('set title of his (town/his): was "Emma", theirs "hers", mine "his"', str(conflict))

    def test_choices_of_an_update(self):
        for choices, title in ((MINE, "his"), ([THEIRS], "hers"), (lambda conflict: THEIRS if conflict.mine[0].mine == "his" else MINE, "hers")):
            with self.subTest(title), library() as (store, ann):
                ben = store.checkout("trunk").workspace
                ann.set("a", "title", "hers")
                ann.commit()
                ben.set("a", "title", "his")
                with self.assertRaises(Refused):
                    ben.update()
                with self.assertRaises(TypeError):
                    ben.update(lambda conflict: None)
                self.assertEqual(ben.changes()[0].steps, (Put("a", "title", "Emma", "his"),))
                self.assertEqual(ben.update(choices), 2)
                self.assertEqual(ben.show()[0]["books"][0]["title"], title)

    def test_of_a_signed_store(self):
        self.store.upgrade()
        self.ann.set("a", "title", "hers")
        self.ann.signed("ann", 1)
        self.ben.set("a", "title", "his")
        self.assertEqual(len(self.ben.conflicts()), 1)

    def test_none(self):
        self.ann.set("a", "pages", 3)
        self.ann.commit()
        before = journal(self.store)
        self.assertEqual(self.ben.conflicts(), [])
        self.assertEqual(journal(self.store), before)
        self.assertEqual(self.ben.update(), 2)

    def test_of_a_merge(self):
        self.ben.branch("dev")
        for title in ("first", "his"):
            self.ben.set("a", "title", title)
            self.ben.commit(title)
        self.ben.create("Writer", element="w")
        self.ben.link("a", "authors", "w")
        self.ben.commit("a writer")
        self.ann.set("a", "title", "between")
        self.ann.set("a", "pages", 7)
        self.ann.commit()
        self.ann.set("a", "title", "hers")
        self.ann.delete("a")
        before = journal(self.store)
        conflicts = self.ann.conflicts("dev")
        self.assertEqual(journal(self.store), before)
        self.assertEqual(len(self.ann.changes()), 2)
        [conflict] = conflicts
        self.assertEqual([(it.kind, it.feature, it.old, it.theirs, it.mine, it.version) for it in conflict.theirs], [
            ("set", "title", "Emma", "his", None, 2), ("set", "title", "first", "his", None, 3),
            ("create", None, None, "/", None, 4), ("link", "authors", None, "w", None, 4)])
        mine = [(it.kind, it.feature, it.old, it.theirs, it.mine) for it in conflict.mine]
        self.assertEqual(mine, [("set", "title", "Emma", "his", None), ("delete", None, "l/books", "l/books", None)])
        self.assertEqual([(it.kind, it.feature, it.old, it.theirs, it.mine) for it in conflict.changes], [
            ("set", "title", "Emma", "his", None), ("create", None, None, "/", None), ("link", "authors", None, "w", None),
            ("delete", None, "l/books", "l/books", None)])
        self.assertEqual(conflict.theirs[0].label, "his")
        self.assertEqual(self.ann.merge("dev", THEIRS), 4)
        self.assertEqual(self.ann.show()[0]["books"][0]["title"], "his")

    def test_two_targets(self):
        for book in ("b", "c"):
            self.ann.create("Book", "l", "books", book)
        self.ann.commit()
        self.ben.update()
        self.ann.set("a", "sequel", "b")
        self.ann.commit()
        self.ben.set("a", "sequel", "c")
        [conflict] = self.ben.conflicts()
        self.assertEqual((conflict.mine[0].theirs, conflict.mine[0].mine), ("b", "c"))
        self.assertEqual((conflict.theirs[0].theirs, conflict.theirs[0].mine), ("b", "c"))

    def test_of_a_file_that_was_replaced(self):
        self.ben.branch("dev")
        self.ben.set("a", "title", "his")
        self.ben.commit()
        self.ann.set("a", "title", "hers")
        path = os.path.join(self.store.folder, "emfstore.journal")
        with folder() as place, library(place):
            os.rename(path, path + ".away")
            os.link(os.path.join(place, "emfstore.journal"), path)
            with self.assertRaises(StoreError):
                self.ann.conflicts("dev")

    def test_of_a_program_that_works_elsewhere(self):
        """A merge that is tried must be tried on the copy: a program that goes to a store of its own is asked nothing that it could keep."""
        with folder() as place, folder() as tools, library(place) as (store, ann):
            ben = store.checkout("trunk").workspace
            ben.branch("dev")
            ben.set("a", "title", "his")
            ben.commit()
            ann.set("a", "title", "hers")
            store.close()
            path = os.path.join(tools, "elsewhere")
            with open(path, "w", encoding="utf-8") as file:
                file.write(f"#!/bin/sh\ncd {place} && exec {PROGRAM}\n")
            os.chmod(path, 0o755)
            for has_file in (False, True):
                if has_file:
                    shutil.copy(os.path.join(place, "emfstore.journal"), tools)
                with Store(path, tools) as far, self.assertRaises(StoreError):
                    before = journal(store)
                    far.workspace(1).conflicts("dev")
                self.assertEqual(journal(store), before)

    def test_words(self):
        self.assertEqual(Choice("m"), MINE)
        self.assertEqual(str(Place(None, None)), "/")
        self.assertEqual(str(Place("l", "books")), "l/books")


if __name__ == "__main__":
    unittest.main()
