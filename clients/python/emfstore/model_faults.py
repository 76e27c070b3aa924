"""Where the faults of a model's document stand. The program decides whether there is one; this finds its place."""
from __future__ import annotations

import re
from collections.abc import Iterator
from dataclasses import dataclass

from emfstore.documents import Fault, Json, at_key, by_bytes, listed, word_of
from emfstore.metamodel_faults import ECORE, NUMBERS, Feature, Metamodel

STEP = re.compile(r"@([^/.]+)(?:\.([0-9]+))?")
NO_CLASS, ABSTRACT, NO_FEATURE, BAD_VALUE, BAD_REF, DUP_ID, BAD_ID, BOUND, WRONG_TYPE = range(2, 11)


@dataclass
class Object:
    """An object that is an element, by its place in the document."""

    found: dict[str, Json]
    path: str
    class_name: str


class Walk:
    """The elements of a document in their order, with the faults that are met on the way."""

    def __init__(self, metamodel: Metamodel, document: Json) -> None:
        self.metamodel = metamodel
        self.roots = listed(document, "$") if isinstance(document, list) else [("$", document)]
        self.objects: list[Object] = []
        self.by_id: dict[str, Object] = {}
        self.by_place: dict[str, Object] = {}
        self._features = {name: {it.name: it for it in metamodel.features(name)} for name in metamodel.classes}

    def features(self, name: str) -> dict[str, Feature]:
        """The features of a class by name."""
        return self._features.get(name, {})

    def kind(self, feature: Feature) -> str:
        """What a feature is: skipped, attribute, containment, container or plain."""
        if feature.is_skipped:
            return "skipped"
        if not feature.is_reference:
            return "attribute"
        if feature.flag("containment"):
            return "containment"
        other = self.metamodel.opposite(feature)
        return "container" if other is not None and other.flag("containment") else "plain"

    def faults(self) -> Iterator[Fault]:
        """The faults of the walk."""
        for path, root in self.roots:
            yield from self._element(root, path, None)

    def _element(self, found: Json, path: str, feature: Feature | None) -> Iterator[Fault]:
        if not isinstance(found, dict):
            number = NO_CLASS if feature is None else WRONG_TYPE
            yield Fault(number, path, word_of(found), "an element's object is due here")
            return
        named = found.get("eClass")
        name = self._class_name(named, None if "eClass" in found else feature)
        at = at_key(path, "eClass") if "eClass" in found else path
        if name not in self.metamodel.classes:
            word = word_of(named) if "eClass" in found else "eClass"
            yield Fault(NO_CLASS, at, word, "this names no class of the metamodel" if "eClass" in found else "a root needs this key")
            return
        if self.metamodel.classes[name].is_abstract:
            yield Fault(ABSTRACT, at, name, "the class is abstract")
        if feature is not None and not self._is_below(name, self.metamodel.local(feature.ref("eType"))):
            yield Fault(WRONG_TYPE, at, name, f"the class isn't {feature.ref('eType')} or below it, as {feature.name} asks")
        made = Object(found, path, name)
        self.objects.append(made)
        self.by_place[path] = made
        yield from self._id(made)
        for key, value in by_bytes(found):
            if key not in ("eClass", "_id"):
                yield from self._key(made, key, value)

    def _class_name(self, named: Json, feature: Feature | None) -> str:
        if feature is not None:
            return self.metamodel.local(feature.ref("eType"))
        return self.metamodel.local(named) if isinstance(named, str) else ""

    def _is_below(self, name: str, wanted: str) -> bool:
        return any(it.name == wanted for it in self.metamodel.above(name))

    def _id(self, made: Object) -> Iterator[Fault]:
        if "_id" not in made.found:
            return
        name, path = made.found["_id"], at_key(made.path, "_id")
        if not isinstance(name, str) or not is_id(name):
            yield Fault(BAD_ID, path, word_of(name), "this is no id")
        elif name in self.by_id:
            yield Fault(DUP_ID, path, word_of(name), f"the element at {self.by_id[name].path} has this id too")
        else:
            self.by_id[name] = made

    def _key(self, made: Object, key: str, value: Json) -> Iterator[Fault]:
        path = at_key(made.path, key)
        feature = self.features(made.class_name).get(key)
        if feature is None:
            yield Fault(NO_FEATURE, path, key, f"{made.class_name} has no such feature")
            return
        kind = self.kind(feature)
        if value is None or kind in ("skipped", "container", "plain"):
            return
        if kind == "attribute":
            yield from self._values(feature, value, path)
            return
        upper = feature.bound("upperBound", 1)
        if upper == 1 and isinstance(value, list):
            yield Fault(WRONG_TYPE, path, word_of(value), f"{key} holds one element, so no list may stand here")
            return
        children = listed(value, path)
        yield from _above(len(children), upper, path, key)
        for place, child in children:
            yield from self._element(child, place, feature)

    def _values(self, feature: Feature, value: Json, path: str) -> Iterator[Fault]:
        upper = feature.bound("upperBound", 1)
        items = [(path, value)] if upper == 1 else listed(value, path)
        seen: list[tuple[type, Json]] = []
        for place, item in items:
            if not self._is_value(feature, item):
                yield Fault(BAD_VALUE, place, word_of(item), f"this is no value of {_type_name(feature, self.metamodel)}")
            elif upper != 1 and feature.flag("unique", True):
                same = self._literal(feature, item)
                if same in seen:
                    yield Fault(BAD_VALUE, place, word_of(item), f"the value comes twice, and {feature.name} holds each once")
                seen.append(same)
        yield from _above(len(items), upper, path, feature.name)

    def _is_value(self, feature: Feature, value: Json) -> bool:
        name = _type_name(feature, self.metamodel)
        if name == "EBoolean":
            return isinstance(value, bool)
        if name in NUMBERS:
            half = 2 ** (NUMBERS[name] - 1)
            return isinstance(value, int) and not isinstance(value, bool) and -half <= value < half
        if name in self.metamodel.enums:
            return isinstance(value, str) and any(value in literal for literal in self.metamodel.enums[name])
        return isinstance(value, str)

    def _literal(self, feature: Feature, value: Json) -> tuple[type, Json]:
        """The value, of an enum its literal's text, so that a name and a text of one literal are one value."""
        literals = self.metamodel.enums.get(_type_name(feature, self.metamodel), [])
        text = next((text for _, text in literals if text == value), None) or next((text for name, text in literals if name == value), None)
        return type(value), text if text is not None else value


class Links:
    """The references of a document, after its walk."""

    def __init__(self, walk: Walk) -> None:
        self._walk = walk
        self._lists: dict[tuple[str, str], list[str]] = {}

    def faults(self) -> Iterator[Fault]:
        """The faults of references, and then those of the bounds of completed lists."""
        for made in self._walk.objects:
            for feature in self._plain(made):
                yield from self._entries(made, feature)
        self._complete()
        for made in self._walk.objects:
            for feature in self._plain(made):
                path = at_key(made.path, feature.name)
                count = len(self._lists.get((made.path, feature.name), []))
                yield from _above(count, feature.bound("upperBound", 1), path, feature.name)

    def _plain(self, made: Object) -> list[Feature]:
        return [it for it in self._walk.features(made.class_name).values() if self._walk.kind(it) == "plain"]

    def _entries(self, made: Object, feature: Feature) -> Iterator[Fault]:
        value, path = made.found.get(feature.name), at_key(made.path, feature.name)
        if value is None:
            return
        if feature.bound("upperBound", 1) == 1 and isinstance(value, list):
            yield Fault(BAD_REF, path, word_of(value), f"{feature.name} holds one target, so no list may stand here")
            return
        targets = self._lists.setdefault((made.path, feature.name), [])
        for place, item in listed(value, path):
            ref = item.get("$ref") if isinstance(item, dict) else None
            if not isinstance(ref, str):
                yield Fault(BAD_REF, place, word_of(item), "an object with a text at $ref is due here")
                continue
            target = self._target(ref)
            if target is None:
                yield Fault(BAD_REF, at_key(place, "$ref"), word_of(ref), "the document has no such element")
            elif target.path in targets:
                yield Fault(BAD_REF, at_key(place, "$ref"), word_of(ref), "the list has this target twice")
            elif not self._walk._is_below(target.class_name, self._walk.metamodel.local(feature.ref("eType"))):
                why = f"its class {target.class_name} isn't {feature.ref('eType')} or below it"
                yield Fault(WRONG_TYPE, at_key(place, "$ref"), word_of(ref), why)
            else:
                targets.append(target.path)

    def _target(self, ref: str) -> Object | None:
        name = ref.removeprefix("#")
        if not name.startswith("/"):
            return self._walk.by_id.get(name)
        first, *steps = name[1:].split("/")
        if first and not first.isdigit():
            return None
        number = int(first or 0)
        at = self._walk.by_place.get(self._walk.roots[number][0]) if number < len(self._walk.roots) else None
        for step in steps:
            at = self._child(at, step) if at is not None else None
        return at

    def _child(self, above: Object, step: str) -> Object | None:
        found = STEP.fullmatch(step)
        feature = self._walk.features(above.class_name).get(found[1]) if found else None
        if found is None or feature is None or (found[2] is None) != (feature.bound("upperBound", 1) == 1):
            return None
        path = at_key(above.path, feature.name)
        children = listed(above.found.get(feature.name), path)
        number = int(found[2] or 0)
        return self._walk.by_place.get(children[number][0]) if number < len(children) else None

    def _complete(self) -> None:
        """Adds to each list the elements that name it by the opposite."""
        for (path, name), targets in list(self._lists.items()):
            other = self._walk.metamodel.opposite(self._walk.features(self._walk.by_place[path].class_name)[name])
            for target in targets if other is not None and "eOpposite" in other.found else []:
                assert other is not None
                ends = self._lists.setdefault((target, other.name), [])
                if path not in ends:
                    ends.append(path)


def faults(metamodel: Metamodel, document: Json) -> Iterator[Fault]:
    """The faults of a document, in the order in which the program looks for them."""
    walk = Walk(metamodel, document)
    yield from walk.faults()
    yield from Links(walk).faults()


def is_id(name: str) -> bool:
    """Whether a text is an id."""
    return 1 <= len(name) <= 128 and all("!" <= it <= "~" and it not in '"\\' for it in name) and name[0] not in "/#"


def _type_name(feature: Feature, metamodel: Metamodel) -> str:
    ref = feature.ref("eType")
    return ref.removeprefix(ECORE) if ref.startswith(ECORE) else metamodel.local(ref)


def _above(count: int, upper: int, path: str, name: str) -> Iterator[Fault]:
    if upper != -1 and count > upper:
        yield Fault(BOUND, path, f"{count} entries", f"{name} has at most {upper}")
