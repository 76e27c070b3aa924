"""A model of the test's own: what each edit of a workspace does and records, as docs/LANGUAGE.md tells it, over the metamodel of tests/turns.py."""
from dataclasses import dataclass, field

from emfstore import Gone, Inserted, Linked, Moved, New, Place, Put, Ranked, Reranked, Shifted, Taken, Unlinked

GAP, TOP = 1 << 32, 1 << 64
ROOT = Place(None, None)
# By class: attributes, containments and plain references, each by number.
SINGLE = {"Library": ["name"], "Book": ["title", "pages"], "Writer": ["name"]}
MANY = {"Library": [], "Book": ["tags"], "Writer": []}
CONTAINMENTS = {"Library": ["books"], "Book": ["parts"], "Writer": []}
REFERENCES = {"Library": [], "Book": ["sequel", "authors"], "Writer": ["works"]}
DEFAULTS = {"pages": 0}
# A link is written from `authors`, whose number is less; seen from `works` it is the other side.
OPPOSITE = {"authors": "works", "works": "authors"}


@dataclass
class Node:
    """An element: its class, place and rank, its single values, and the values of its many-valued attributes."""

    class_name: str
    place: Place
    rank: int
    values: dict = field(default_factory=dict)
    lists: dict = field(default_factory=dict)


class State:
    """A model: elements by id, and links by source, feature and target, each with its ranks."""

    def __init__(self):
        self.nodes = {}
        self.links = {}

    def children(self, place):
        """The elements of a place in their order, each with its rank before it."""
        return sorted((node.rank, name) for name, node in self.nodes.items() if node.place == place)

    def targets(self, name, feature):
        """The entries of a reference in their order, each with its rank before it."""
        if feature == "works":
            return sorted((ranks[1], source) for (source, of, target), ranks in self.links.items() if of == "authors" and target == name)
        return sorted((ranks[0], target) for (source, of, target), ranks in self.links.items() if of == feature and source == name)

    def below(self, name):
        """An element and all that it contains, each before what is inside it."""
        found = [name]
        for feature in CONTAINMENTS[self.nodes[name].class_name]:
            for _, child in self.children(Place(name, feature)):
                found += self.below(child)
        return found

    def play(self, step):
        """Takes a step, which must find what it says."""
        kind = type(step)
        if kind in (New, Gone, Moved, Ranked):
            self._play_place(step)
        elif kind in (Linked, Unlinked, Reranked):
            self._play_link(step)
        elif kind is Put:
            values = self.nodes[step.element].values
            assert values.get(step.feature) == step.old
            values[step.feature] = step.new
        else:
            self._play_list(step, self.nodes[step.element].lists.setdefault(step.feature, []))

    def _play_place(self, step):
        if isinstance(step, New):
            assert step.element not in self.nodes and (step.place.parent is None or step.place.parent in self.nodes)
            self.nodes[step.element] = Node(step.class_name, step.place, step.rank)
            return
        node = self.nodes[step.element]
        if isinstance(step, Gone):
            assert (node.class_name, node.place, node.rank) == (step.class_name, step.place, step.rank)
            assert len(self.below(step.element)) == 1 and not any(step.element in (source, target) for source, _, target in self.links)
            del self.nodes[step.element]
        elif isinstance(step, Moved):
            assert (node.place, node.rank) == (step.old, step.old_rank)
            node.place, node.rank = step.new, step.new_rank
        else:
            assert node.rank == step.old
            node.rank = step.new

    def _play_list(self, step, values):
        if isinstance(step, Inserted):
            assert step.index <= len(values)
            values.insert(step.index, step.value)
        elif isinstance(step, Taken):
            assert values.pop(step.index) == step.value
        else:
            assert isinstance(step, Shifted)
            values.insert(step.new, values.pop(step.old))

    def _play_link(self, step):
        if isinstance(step, Reranked):
            is_back = step.feature == "works"
            ranks = self.links[(step.target, "authors", step.element) if is_back else (step.element, step.feature, step.target)]
            assert ranks[is_back] == step.old
            ranks[is_back] = step.new
            return
        key, ranks = (step.element, step.feature, step.target), [step.rank, step.target_rank]
        if isinstance(step, Linked):
            assert key not in self.links and step.element in self.nodes and step.target in self.nodes
            self.links[key] = ranks
        else:
            assert self.links.pop(key) == ranks

    def shown(self):
        """The elements at the root as `show` has them."""
        return [self._shown(name) for _, name in self.children(ROOT)]

    def _shown(self, name):
        node = self.nodes[name]
        found = {"_id": name, "eClass": f"http://lib/1#//{node.class_name}"}
        found.update({key: value for key, value in node.values.items() if value is not None})
        found.update({key: values for key, values in node.lists.items() if values})
        for feature in CONTAINMENTS[node.class_name]:
            children = [self._shown(child) for _, child in self.children(Place(name, feature))]
            found.update({feature: children} if children else {})
        for feature in REFERENCES[node.class_name]:
            targets = [{"$ref": target} for _, target in self.targets(name, feature)]
            found.update({feature: targets[0] if feature == "sequel" else targets} if targets else {})
        return found

    # Each of these gives the steps of an edit, and takes none.

    def create(self, name, class_name, place):
        """A new element, last in its place."""
        ranks, rank = inserted(self.children(place), None)
        return [Ranked(other, *both) for other, both in ranks] + [New(name, class_name, place, rank)]

    def move(self, name, place, index):
        """An element, to stand before the other at the index, or last."""
        node, entries = self.nodes[name], self.children(place)
        others = [entry for entry in entries if entry[1] != name]
        if node.place == place and [entry[1] for entry in entries].index(name) == (len(others) if index is None else index):
            return []
        ranks, rank = inserted(others, index)
        steps = [Ranked(other, *both) for other, both in ranks]
        if node.place != place:
            return steps + [Moved(name, node.place, node.rank, place, rank)]
        return steps + [Ranked(name, node.rank, rank)] * (rank != node.rank)

    def delete(self, name):
        """An element with all that it contains, and all links from and to that."""
        names, gone, steps = self.below(name), set(), []

        def unlink(key):
            if key not in gone:
                gone.add(key)
                steps.append(Unlinked(key[0], key[1], self.links[key][0], key[2], self.links[key][1]))
        for it in names:
            for feature in REFERENCES[self.nodes[it].class_name]:
                for _, other in self.targets(it, feature):
                    unlink((other, "authors", it) if feature == "works" else (it, feature, other))
        for it in names:
            for key in sorted(key for key in self.links if key[2] == it):
                unlink(key)
        for it in names:
            node = self.nodes[it]
            for feature in SINGLE[node.class_name]:
                steps += self.put(it, feature, None)
            for feature in MANY[node.class_name]:
                steps += self.clear(it, feature)
        return steps + [Gone(it, self.nodes[it].class_name, self.nodes[it].place, self.nodes[it].rank) for it in reversed(names)]

    def put(self, name, feature, value):
        """Another value of a single attribute; the default is none."""
        old, value = self.nodes[name].values.get(feature), None if value == DEFAULTS.get(feature) else value
        return [] if old == value else [Put(name, feature, old, value)]

    def clear(self, name, feature):
        """No value of a many-valued attribute."""
        return [Taken(name, feature, index, value) for index, value in reversed(list(enumerate(self.nodes[name].lists.get(feature, []))))]

    def unlink_all(self, name, feature):
        """No target of a reference."""
        return [self.unlink(name, feature, target)[0] for _, target in reversed(self.targets(name, feature))]

    def point(self, name, feature, target):
        """The one target of a single reference."""
        if (name, feature, target) in self.links:
            return []
        return self.unlink_all(name, feature) + [Linked(name, feature, GAP, target, None)]

    def link(self, name, feature, target, index):
        """One target more, which gets this one as the last of the opposite."""
        ranks, rank = inserted(self.targets(name, feature), index)
        _, back = inserted(self.targets(target, OPPOSITE[feature]), None)
        steps = [Reranked(name, feature, other, *both) for other, both in ranks]
        return steps + [Linked(name, feature, rank, target, back) if feature == "authors" else Linked(target, "authors", back, name, rank)]

    def unlink(self, name, feature, target):
        """One target less."""
        key = (target, "authors", name) if feature == "works" else (name, feature, target)
        return [Unlinked(key[0], key[1], self.links[key][0], key[2], self.links[key][1])]

    def reorder(self, name, feature, target, index):
        """A target at another index."""
        entries = self.targets(name, feature)
        if entries[index][1] == target:
            return []
        old = next(rank for rank, other in entries if other == target)
        ranks, rank = inserted([entry for entry in entries if entry[1] != target], index)
        steps = [Reranked(name, feature, other, *both) for other, both in ranks]
        return steps + [Reranked(name, feature, target, old, rank)] * (rank != old)


def inserted(entries, index):
    """What other entries' ranks become, old and new, where one is inserted at an index or last, and the rank that it gets."""
    at = len(entries) if index is None else index
    rank = between([rank for rank, _ in entries], at)
    if rank is not None:
        return [], rank
    numbered = [GAP * (number + 1) for number in range(len(entries))]
    changed = [(name, (old, new)) for (old, name), new in zip(entries, numbered) if old != new]
    return changed, between(numbered, at)


def between(ranks, at):
    """The rank of an entry before the one at an index, or None where the list must be renumbered."""
    if not ranks:
        return GAP
    if at == len(ranks):
        return ranks[-1] + GAP if ranks[-1] + GAP < TOP else None
    if at == 0:
        return ranks[0] // 2 or None
    middle = (ranks[at - 1] + ranks[at]) // 2
    return None if middle == ranks[at - 1] else middle
