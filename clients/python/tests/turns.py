"""Random edits in several workspaces over one store, with updates, merges and commits between, beside a model of the test's own.

After each turn the store shows what the model has, and has recorded what it says. Needs hypothesis.

    python3 -m tests.turns [EDITS [SEED]]

makes so many edits at least, and prints how many and the seeds. EMFSTORE names the program. With pytest tests/turns.py runs a small number.
"""
import random
import sys
import time
from collections import Counter

from hypothesis import HealthCheck, Phase, seed, settings
from hypothesis import strategies as st
from hypothesis.stateful import RuleBasedStateMachine, initialize, rule, run_state_machine_as_test

from emfstore import MINE, THEIRS, Inserted, Place, Refused, Shifted, Store, Taken
from tests.model import CONTAINMENTS, REFERENCES, ROOT, State
from tests.support import PROGRAM, attribute, folder, metamodel, reference

BOOKS = metamodel(
    Library=[attribute("name"), reference("books", "Book", upperBound=-1, containment=True)],
    Book=[attribute("title"), attribute("pages", "EInt"), attribute("tags", upperBound=-1, unique=False), reference("sequel", "Book"),
          reference("authors", "Writer", upperBound=-1, eOpposite={"$ref": "//Writer/works"}),
          reference("parts", "Book", upperBound=-1, containment=True)],
    Writer=[attribute("name"), reference("works", "Book", upperBound=-1, eOpposite={"$ref": "//Book/authors"})])
TEXTS = ["", "a", "b c", '"', "\\", "größe \U0001f600", "-", "7"]
FEW, MANY_EDITS, MOST_ELEMENTS, EDITS_OF_AN_EXAMPLE = 2000, 40, 40, 250
DRAWN = st.integers(0, 2**32)


class Side:
    """A workspace as the model has it: its branch and base, the operations recorded, each as its kind, name and steps, and what is pending."""

    def __init__(self, workspace, branch, base):
        self.workspace = workspace
        self.branch = branch
        self.base = base
        self.operations = []
        self.pending = []


class History:
    """The versions: of each its parent, branch, operations and merged versions; and where branches start."""

    def __init__(self):
        self.parents, self.merged, self.operations = [None], [[]], [[]]
        self.heads = {"trunk": 0}

    def path(self, version):
        """The way from version 0 to a version."""
        found = []
        while version is not None:
            found.append(version)
            version = self.parents[version]
        return found[::-1]

    def after(self, start, version):
        """The operations on the path of a version after one that is on it."""
        path = self.path(version)
        return [operation for it in path[path.index(start) + 1:] for operation in self.operations[it]]

    def state(self, version):
        """The model of a version."""
        return played(State(), self.after(0, version))

    def known(self, side, version):
        """The last version on the path of another that a workspace knows."""
        path = self.path(side.base)
        known = {*path, *side.pending, *(it for version in path for it in self.merged[version])}
        return next(it for it in reversed(self.path(version)) if it in known)


def played(state, operations):
    """The state after operations."""
    for _, _, steps in operations:
        for step in steps:
            state.play(step)
    return state


def undone(operation):
    """What undoes an operation."""
    kind, name, steps = operation
    return {"create": "delete", "delete": "create"}.get(kind, kind), name, [step.inverse() for step in reversed(steps)]


def read(operations):
    """Operations of the client as the model has them."""
    return [(it.kind, it.name, list(it.steps)) for it in operations]


class Turns(RuleBasedStateMachine):
    """Turns of workspaces over one store."""

    counts: "Counter[str]" = Counter()

    def __init__(self):
        super().__init__()
        self.place = folder()
        self.store = Store(PROGRAM, self.place.name)
        self.store.init(BOOKS)
        self.history, self.sides, self.made = History(), [], 0

    def teardown(self):
        if sys.stderr.isatty():
            sys.stderr.write(f"\r{Turns.counts['edits']} edits")
        self.store.close()
        self.place.cleanup()

    @initialize()
    def two_workspaces(self):
        for _ in range(2):
            self.open("trunk")

    def open(self, branch):
        """A new workspace at the head of a branch."""
        made = self.store.checkout(branch)
        assert made.version == self.history.heads[branch]
        side = Side(made.workspace, branch, made.version)
        self.sides.append(side)
        self.agree(side)

    def side(self, number):
        return self.sides[number % len(self.sides)]

    def state(self, side):
        """The model of a workspace."""
        return played(self.history.state(side.base), side.operations)

    def agree(self, side):
        """The store shows what the model has, and has recorded what it says."""
        assert side.workspace.show() == self.state(side).shown()
        assert read(side.workspace.changes()) == side.operations

    @rule(number=DRAWN, drawn=DRAWN, count=st.integers(1, MANY_EDITS))
    def single_edits(self, number, drawn, count):
        self.edit(number, drawn, count, False)

    @rule(number=DRAWN, drawn=DRAWN, count=st.integers(1, MANY_EDITS))
    def joined_edits(self, number, drawn, count):
        self.edit(number, drawn, count, True)

    @rule(drawn=DRAWN, count=st.integers(1, MANY_EDITS))
    def edits_in_each(self, drawn, count):
        for number in range(len(self.sides)):
            self.edit(number, drawn + number, count, False)

    def edit(self, number, drawn, count, is_composite):
        side, pick = self.side(number), random.Random(drawn)
        state, joined = self.state(side), []
        if is_composite:
            side.workspace.begin("joined")
        for _ in range(count):
            kind, steps = self.one_edit(side.workspace, state, pick)
            for step in steps:
                state.play(step)
            joined += steps
            if steps and not is_composite:
                side.operations.append((kind, None, steps))
        Turns.counts["edits"] += count
        if is_composite:
            side.workspace.end()
            side.operations += [("composite", "joined", joined)] if joined else []
        self.agree(side)

    def one_edit(self, workspace, state, pick):
        """Makes one edit in the store, and returns its kind and the steps that the model has for it."""
        names = sorted(state.nodes)
        if not names or pick.random() < 0.15:
            return "create", self.create(workspace, state, pick)
        name = pick.choice(names)
        if len(names) > MOST_ELEMENTS or pick.random() < 0.06:
            steps = state.delete(name)
            workspace.delete(name)
            return "delete", steps
        if pick.random() < 0.15:
            return "move", self.move(workspace, state, name, pick)
        references = REFERENCES[state.nodes[name].class_name]
        if references and pick.random() < 0.5:
            return "reference", self.refer(workspace, state, name, pick.choice(references), pick)
        if state.nodes[name].class_name == "Book" and pick.random() < 0.5:
            return "many-attribute", self.list(workspace, state, name, pick)
        feature = pick.choice(["title", "pages"]) if state.nodes[name].class_name == "Book" else "name"
        value = pick.choice([0, 1, -7, 2**31 - 1, -2**31]) if feature == "pages" else pick.choice(TEXTS)
        if pick.random() < 0.2:
            workspace.unset(name, feature)
            return "attribute", state.put(name, feature, None)
        workspace.set(name, feature, value)
        return "attribute", state.put(name, feature, value)

    def a_place(self, state, class_name, pick):
        """A place for an element of a class."""
        parents = [(name, feature) for name in sorted(state.nodes) for feature in CONTAINMENTS[state.nodes[name].class_name]]
        return Place(*pick.choice(parents)) if class_name == "Book" and parents and pick.random() < 0.8 else ROOT

    def create(self, workspace, state, pick):
        class_name = pick.choice(["Library", "Book", "Book", "Writer"])
        place = self.a_place(state, class_name, pick)
        self.made += 1
        name = workspace.create(class_name, place.parent, place.feature, f"e{self.made}" if pick.random() < 0.8 else None)
        return state.create(name, class_name, place)

    def move(self, workspace, state, name, pick):
        place = self.a_place(state, state.nodes[name].class_name, pick)
        others = [it for _, it in state.children(place) if it != name]
        index = pick.choice([None, 0, pick.randint(0, len(others))])
        if place.parent in state.below(name):
            expect("WouldCycle", lambda: workspace.move(name, place.parent, place.feature, index))
            return []
        steps = state.move(name, place, index)
        workspace.move(name, place.parent, place.feature, index)
        return steps

    def refer(self, workspace, state, name, feature, pick):
        held = [target for _, target in state.targets(name, feature)]
        others = [it for it in sorted(state.nodes) if state.nodes[it].class_name == ("Writer" if feature == "authors" else "Book")]
        if pick.random() < 0.1:
            workspace.unset(name, feature)
            return state.unlink_all(name, feature)
        if held and feature != "sequel" and pick.random() < 0.5:
            target, index = pick.choice(held), pick.randrange(len(held))
            if pick.random() < 0.5:
                workspace.unlink(name, feature, target)
                return state.unlink(name, feature, target)
            workspace.reorder(name, feature, target, index)
            return state.reorder(name, feature, target, index)
        if not others:
            return []
        target, index = pick.choice(others), pick.choice([None, 0, pick.randint(0, len(held))])
        if feature == "sequel":
            workspace.set(name, feature, target)
            return state.point(name, feature, target)
        if target in held:
            expect("AlreadyThere", lambda: workspace.link(name, feature, target, index))
            return []
        workspace.link(name, feature, target, index)
        return state.link(name, feature, target, index)

    def list(self, workspace, state, name, pick):
        values = list(state.nodes[name].lists.get("tags", []))
        kind = pick.choice(["add", "add", "remove", "shift", "unset"]) if values else "add"
        index, other = pick.randrange(len(values) or 1), pick.randrange(len(values) or 1)
        if kind == "add":
            value, index = pick.choice(TEXTS), pick.choice([None, index])
            workspace.add(name, "tags", value, index)
            return [Inserted(name, "tags", len(values) if index is None else index, value)]
        if kind == "remove":
            workspace.remove(name, "tags", index)
            return [Taken(name, "tags", index, values[index])]
        if kind == "shift":
            workspace.shift(name, "tags", index, other)
            return [Shifted(name, "tags", index, other)] if index != other and values[:] != moved(values, index, other) else []
        workspace.unset(name, "tags")
        return state.clear(name, "tags")

    @rule(number=DRAWN, count=st.integers(1, 3))
    def undo(self, number, count):
        side = self.side(number)
        for _ in range(count):
            if side.operations:
                side.workspace.undo()
                side.operations.pop()
            else:
                expect("NothingLocal", side.workspace.undo)
        self.agree(side)

    @rule(number=DRAWN)
    def discard(self, number):
        side = self.side(number)
        side.workspace.discard()
        side.operations, side.pending = [], []
        self.agree(side)

    @rule(number=DRAWN)
    def tidy(self, number):
        side = self.side(number)
        before = self.state(side).shown()
        side.workspace.tidy()
        side.operations = read(side.workspace.changes())
        assert self.state(side).shown() == before
        self.agree(side)

    @rule(number=DRAWN)
    def commit(self, number):
        side, history = self.side(number), self.history
        if side.base != history.heads[side.branch]:
            expect("Stale", side.workspace.commit)
        elif not side.operations and not side.pending:
            expect("NothingLocal", side.workspace.commit)
        else:
            history.parents.append(side.base)
            history.operations.append(side.operations)
            history.merged.append(side.pending)
            side.base = history.heads[side.branch] = len(history.parents) - 1
            side.operations, side.pending = [], []
            assert side.workspace.commit("a turn") == side.base
            Turns.counts["versions"] += 1
            assert self.store.cat(side.base) == history.state(side.base).shown()
        self.agree(side)

    @rule(number=DRAWN, drawn=DRAWN)
    def update(self, number, drawn):
        side, pick, history = self.side(number), random.Random(drawn), self.history
        head = history.heads[side.branch]
        theirs, mine = history.after(side.base, head), side.operations
        dropped, choices = self.choose(side.workspace.conflicts(), pick, theirs, mine)
        assert side.workspace.update(choices) == head
        if head != side.base:
            side.operations = [undone(theirs[it - 1]) for it in sorted(dropped[0], reverse=True)]
            side.operations += [operation for it, operation in enumerate(mine, 1) if it not in dropped[1]]
        side.base = head
        self.agree(side)

    def choose(self, conflicts, pick, theirs, mine):
        """A choice for each conflict, and the numbers of the operations that are dropped so, of each side."""
        dropped, choices = (set(), set()), []
        Turns.counts["conflicts of updates" if mine is not None else "conflicts of merges"] += len(conflicts)
        for conflict in conflicts:
            choices.append(pick.choice([MINE, THEIRS]))
            lost = 0 if choices[-1] == MINE else 1
            dropped[lost].update(change.operation for change in (conflict.theirs, conflict.mine)[lost])
            for told, operations in ((conflict.theirs, theirs), (conflict.mine, mine)):
                for it in {change.operation for change in told} if operations is not None else ():
                    assert [step.element for step in operations[it - 1][2]] == [change.element for change in told if change.operation == it]
        return dropped, choices

    @rule(number=DRAWN, drawn=DRAWN)
    def merge(self, number, drawn):
        side, pick, history = self.side(number), random.Random(drawn), self.history
        branch = pick.choice(sorted(history.heads))
        if branch == side.branch:
            expect("SameBranch", lambda: side.workspace.merge(branch))
            return
        head = history.heads[branch]
        theirs = history.after(history.known(side, head), head)
        conflicts = side.workspace.conflicts(branch)
        dropped, choices = self.choose(conflicts, pick, theirs, None)
        self.agree(side)
        assert side.workspace.merge(branch, choices) == head
        recorded = read(side.workspace.changes())
        kept = [operation for it, operation in enumerate(theirs, 1) if it not in dropped[0]]
        undoing = recorded[len(side.operations):len(recorded) - len(kept)]
        assert recorded == side.operations + undoing + kept
        told = {change.operation: [] for conflict in conflicts for change in conflict.mine}
        for change in (change for conflict in conflicts for change in conflict.mine):
            told[change.operation].append(change.element)
        assert [[step.element for step in undone(it)[2]] for it in undoing] == [told[it] for it in sorted(dropped[1], reverse=True)]
        side.operations = recorded
        side.pending = side.pending + [head] if theirs else side.pending
        self.agree(side)

    @rule(number=DRAWN, drawn=DRAWN, count=st.integers(5, MANY_EDITS))
    def work_and_share(self, number, drawn, count):
        """All edit; then one after another takes what the others shared, and shares its own."""
        self.edits_in_each(drawn, count)
        for at in range(len(self.sides)):
            self.update(number + at, drawn + at)
            self.commit(number + at)

    @rule(number=DRAWN, drawn=DRAWN, count=st.integers(5, MANY_EDITS))
    def release(self, number, drawn, count):
        """One starts a branch, all edit and share, and then it takes another branch in."""
        self.branch(number)
        self.work_and_share(number, drawn, count)
        self.merge(number, drawn)
        self.commit(number)

    @rule(number=DRAWN)
    def branch(self, number):
        side = self.side(number)
        side.branch = f"b{len(self.history.heads)}"
        side.workspace.branch(side.branch)
        self.history.heads[side.branch] = side.base
        self.agree(side)

    @rule(number=DRAWN, drawn=DRAWN)
    def revert(self, number, drawn):
        side = self.side(number)
        version = random.Random(drawn).choice(self.history.path(side.base)[1:] or [0])
        try:
            side.workspace.revert(version)
        except Refused as refused:
            assert refused.refusal.name == "Interferes"
        else:
            Turns.counts["reverts"] += 1
            side.operations = side.operations + [undone(operation) for operation in reversed(self.history.operations[version])]
        self.agree(side)

    @rule(number=DRAWN)
    def another_workspace(self, number):
        if len(self.sides) > 3:
            self.sides.pop(number % len(self.sides)).workspace.drop()
        self.open(sorted(self.history.heads)[number % len(self.history.heads)])

    @rule()
    def open_again(self):
        self.store.close()
        self.store = Store(PROGRAM, self.place.name)
        for side in self.sides:
            side.workspace = self.store.workspace(side.workspace.number)
            self.agree(side)


def moved(values, old, new):
    """The values after a shift."""
    values = list(values)
    values.insert(new, values.pop(old))
    return values


def expect(name, call):
    """The call must be refused by this name."""
    try:
        call()
    except Refused as refused:
        assert refused.refusal.name == name, refused
    else:
        raise AssertionError(f"{name} didn't come")


# An example that fails is told as it was found: the seed makes it again, and to make it smaller takes minutes.
SETTINGS = settings(max_examples=20, stateful_step_count=40, deadline=None, database=None, phases=[Phase.generate], print_blob=False,
                    suppress_health_check=list(HealthCheck))
TestTurns = Turns.TestCase
TestTurns.settings = SETTINGS


def main(edits=FEW, first=1):
    """Makes so many edits at least, from a seed on. The first examples of a seed are small, so a seed of a long run has more of them."""
    start, at = time.monotonic(), int(first)
    examples = max(SETTINGS.max_examples, int(edits) // EDITS_OF_AN_EXAMPLE)
    try:
        while Turns.counts["edits"] < int(edits):
            run_state_machine_as_test(seed(at)(Turns), settings=settings(SETTINGS, max_examples=examples))
            at += 1
    finally:
        counts = ", ".join(f"{count} {name}" for name, count in Turns.counts.items())
        print(f"\n{counts}; seeds {first} to {at}, {examples} examples each, {time.monotonic() - start:.0f} s", flush=True)


if __name__ == "__main__":
    main(*sys.argv[1:])
