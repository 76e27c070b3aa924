"""Where the faults of a metamodel's document stand. The program decides whether there is one; this finds its place."""
from __future__ import annotations

import re
from collections.abc import Iterator
from dataclasses import dataclass, field

from emfstore.documents import Fault, Json, at_key, by_bytes, listed, word_of

ECORE = "http://www.eclipse.org/emf/2002/Ecore#//"
NAME = re.compile(r"[A-Za-z_$][A-Za-z0-9_$]{0,127}")
NOT_FEATURES = ("eClass", "_id", "$ref")
NOT_PACKAGE, BAD_KEY, LEFT_OUT = 2, 3, 4
NUMBERS = {"EByte": 8, "EShort": 16, "EInt": 32, "ELong": 64}
READ_TYPES = ("EString", "EBoolean", *NUMBERS)
SKIPPING = ("volatile", "transient", "derived")

# Of each kind of object its keys, with the kind of their values; `any` isn't read. A key that must be there has a star.
COMMON = {"eClass": "any", "_id": "any", "eAnnotations": "any"}
TYPED = {"instanceClassName": "any", "instanceTypeName": "any"}
FEATURE = {**COMMON, "name": "feature name*", "eType": "type*", "lowerBound": "int", "upperBound": "int", "unique": "bool", "volatile": "bool",
           "transient": "bool", "derived": "bool", "eGenericType": "any", "changeable": "any", "ordered": "any", "unsettable": "any"}
KEYS = {
    "EPackage": {**COMMON, "name": "name*", "nsURI": "text*", "nsPrefix": "any", "eClassifiers": "classifiers", "eSubpackages": "empty"},
    "EClass": {**COMMON, **TYPED, "name": "name*", "abstract": "bool", "eSuperTypes": "types", "eStructuralFeatures": "features",
               "eTypeParameters": "empty", "eGenericSuperTypes": "any", "eOperations": "any", "interface": "any"},
    "EEnum": {**COMMON, **TYPED, "name": "name*", "eLiterals": "literals", "serializable": "any"},
    "EDataType": {**COMMON, **TYPED, "name": "name*", "serializable": "any"},
    "literal": {**COMMON, "name": "name*", "literal": "text", "value": "int"},
    "EAttribute": {**FEATURE, "defaultValueLiteral": "text", "iD": "any"},
    "EReference": {**FEATURE, "containment": "bool", "eOpposite": "opposite", "eKeys": "empty", "defaultValueLiteral": "any",
                   "resolveProxies": "any"},
    "type": {"eClass": "any", "_id": "any", "$ref": "type text*"},
    "opposite": {"eClass": "any", "_id": "any", "$ref": "opposite text*"},
}
OBJECTS = {"classifiers": ("EClass", "EEnum", "EDataType"), "features": ("EAttribute", "EReference"), "literals": ("literal",), "types": ("type",),
           "type": ("type",), "opposite": ("opposite",)}


@dataclass
class Feature:
    """A feature of a class as the document has it."""

    name: str
    path: str
    owner: str
    found: dict[str, Json]
    is_reference: bool

    def flag(self, key: str, without: bool = False) -> bool:
        """Whether a flag is set; `without` holds where it isn't there."""
        return bool(self.found.get(key, without))

    def bound(self, key: str, without: int) -> int:
        """A bound; `without` holds where it isn't there. A skipped feature has none of its own."""
        value = self.found.get(key, without)
        return value if isinstance(value, int) and not self.is_skipped else without

    @property
    def is_skipped(self) -> bool:
        """Whether it holds nothing."""
        return any(self.flag(key) for key in SKIPPING)

    def ref(self, key: str) -> str:
        """The text of a reference object."""
        value = self.found.get(key)
        item = value[0] if isinstance(value, list) and value else value
        text = item.get("$ref") if isinstance(item, dict) else None
        return text if isinstance(text, str) else ""


@dataclass
class Class:
    """A class as the document has it."""

    name: str
    path: str
    is_abstract: bool
    supers: list[tuple[str, str]]
    features: list[Feature] = field(default_factory=list)


@dataclass
class Metamodel:
    """A package: its classes and enums by name, which names are data types, and the names of all classifiers with their paths."""

    uri: str
    classes: dict[str, Class]
    enums: dict[str, list[tuple[str, str]]]
    data_types: set[str]
    names: list[tuple[str, str]]

    def local(self, ref: str) -> str:
        """What a reference says after the head of one into the package, as the name of a classifier; nothing if it isn't into the package."""
        return after_head(self.uri, ref)

    def above(self, name: str) -> list[Class]:
        """The class and all above it, each once."""
        found: dict[str, Class] = {}
        rest = [name]
        while rest:
            at = rest.pop(0)
            if at in self.classes and at not in found:
                found[at] = self.classes[at]
                rest += [self.local(ref) for _, ref in self.classes[at].supers]
        return list(found.values())

    def features(self, name: str) -> list[Feature]:
        """All features of a class, inherited ones counted."""
        return [feature for owner in self.classes.values() if owner in self.above(name) for feature in owner.features]

    def opposite(self, feature: Feature) -> Feature | None:
        """The feature that a reference names as its opposite."""
        owner, _, name = self.local(feature.ref("eOpposite")).partition("/")
        return next((it for it in self.classes[owner].features if it.name == name), None) if owner in self.classes else None


def after_head(uri: str, ref: str) -> str:
    """What stands after `//`, `#//` or the package's URI and `#//`, the first of which begins the reference."""
    return next((ref[len(head):] for head in ("//", "#//", uri + "#//") if ref.startswith(head)), "")


def package_of(document: Json) -> dict[str, Json] | None:
    """The package that a document is, or that is alone in its array."""
    item = document[0] if isinstance(document, list) and len(document) == 1 else document
    return item if isinstance(item, dict) and item.get("eClass") == ECORE + "EPackage" else None


def faults_of_keys(document: Json) -> Iterator[Fault]:
    """The faults of a document that are met on a walk of its objects and their keys, in the order in which the program looks for them."""
    package = package_of(document)
    if package is None:
        at = document[0] if isinstance(document, list) and len(document) == 1 else document
        word = word_of(at.get("eClass")) if isinstance(at, dict) else word_of(document)
        yield Fault(NOT_PACKAGE, "$", word, f"a package is an object whose eClass is {ECORE}EPackage")
        return
    path = "$[0]" if isinstance(document, list) else "$"
    yield from _Keys(str(package.get("nsURI", ""))).object(package, path, "EPackage")


class _Keys:
    """The keys of the objects of a package, whose own references may begin with its URI."""

    def __init__(self, uri: str) -> None:
        self._uri = uri

    def object(self, found: dict[str, Json], path: str, kind: str) -> Iterator[Fault]:
        yield from _left_out(found, path, kind)
        keys = KEYS[kind]
        missing: dict[str, Json] = {key: None for key, value in keys.items() if value.endswith("*") and key not in found}
        for key, value in by_bytes({**found, **missing}):
            place = at_key(path, key)
            if key in missing:
                yield Fault(BAD_KEY, path, key, f"this key is missing in {_article(kind)}")
            elif key not in keys:
                yield Fault(BAD_KEY, place, key, f"this is no key of {_article(kind)}")
            else:
                yield from self._value(value, place, keys[key].removesuffix("*"))

    def _value(self, value: Json, path: str, kind: str) -> Iterator[Fault]:
        if kind in OBJECTS:
            yield from self._objects(value, path, kind)
        elif kind == "empty" or kind == "any":
            return
        elif kind.endswith("name"):
            if not isinstance(value, str) or not NAME.fullmatch(value) or kind == "feature name" and value in NOT_FEATURES:
                yield Fault(BAD_KEY, path, word_of(value), "this is no name")
        elif kind in ("type text", "opposite text"):
            if not _is_reference(self._uri, kind, value):
                wanted = "//Class/feature" if kind == "opposite text" else "//Name, or a type of Ecore"
                yield Fault(BAD_KEY, path, word_of(value), f"this is no reference of the form {wanted}")
        elif not _is_of(value, kind):
            wanted = {"bool": "true or false", "int": "a whole number of 32 bits", "text": "a text"}[kind]
            yield Fault(BAD_KEY, path, word_of(value), f"{wanted} is due here")

    def _objects(self, value: Json, path: str, kind: str) -> Iterator[Fault]:
        allowed = OBJECTS[kind]
        items = [(path, value)] if kind in ("type", "opposite") else listed(value, path)
        for place, item in items:
            if not isinstance(item, dict):
                yield Fault(BAD_KEY, place, word_of(item), "an object is due here")
                continue
            of = allowed[0]
            if len(allowed) > 1:
                named = item.get("eClass")
                if named is None:
                    yield Fault(BAD_KEY, place, "eClass", "this key is missing, which says what the object is")
                    continue
                of = next((name for name in allowed if named == ECORE + name), "")
                if not of:
                    yield Fault(BAD_KEY, at_key(place, "eClass"), word_of(named), f"an object of {' or '.join(allowed)} is due here")
                    continue
            yield from self.object(item, place, of)


def _article(kind: str) -> str:
    return {"type": "a reference", "opposite": "a reference", "literal": "a literal"}.get(kind, f"an {kind}")


def _left_out(found: dict[str, Json], path: str, kind: str) -> Iterator[Fault]:
    """Parts of Ecore that aren't supported."""
    for key, value in by_bytes(found):
        if KEYS[kind].get(key) == "empty" and value != []:
            yield Fault(LEFT_OUT, at_key(path, key), key, "this part of Ecore isn't supported, unless its list is empty")
    for generic, plain in (("eGenericSuperTypes", "eSuperTypes"), ("eGenericType", "eType")):
        if generic in found and generic in KEYS[kind] and plain not in found:
            yield Fault(LEFT_OUT, at_key(path, generic), generic, f"a generic type in place of {plain} isn't supported")
    if kind == "EReference" and found.get("unique") is False and found.get("upperBound", 1) != 1 and not any(found.get(key) for key in SKIPPING):
        yield Fault(LEFT_OUT, at_key(path, "unique"), "unique", "a list of references with duplicates isn't supported")


def _is_of(value: Json, kind: str) -> bool:
    if kind == "int":
        return isinstance(value, int) and not isinstance(value, bool) and -2**31 <= value < 2**31
    return isinstance(value, bool if kind == "bool" else str)


def _is_reference(uri: str, kind: str, text: Json) -> bool:
    """Whether a text names a classifier or a type of Ecore, or, as an opposite, a feature of a class of the package."""
    if not isinstance(text, str):
        return False
    if kind == "opposite text":
        owner, _, feature = after_head(uri, text).partition("/")
        return bool(NAME.fullmatch(owner) and NAME.fullmatch(feature))
    return bool(NAME.fullmatch(after_head(uri, text)) or text.startswith(ECORE) and NAME.fullmatch(text[len(ECORE):]))


def metamodel_of(document: Json) -> Metamodel:
    """The metamodel of a document whose keys are as they should be."""
    package = package_of(document) or {}
    found = Metamodel(str(package.get("nsURI", "")), {}, {}, set(), [])
    path = "$[0]" if isinstance(document, list) else "$"
    for place, item in listed(package.get("eClassifiers", []), at_key(path, "eClassifiers")):
        if not isinstance(item, dict):
            continue
        name, kind = str(item.get("name")), str(item.get("eClass")).removeprefix(ECORE)
        found.names.append((name, place))
        if kind == "EClass":
            found.classes.setdefault(name, _class(item, place))
        elif kind == "EEnum":
            found.enums[name] = [_literal(it) for _, it in listed(item.get("eLiterals", []), "") if isinstance(it, dict)]
        else:
            found.data_types.add(name)
    return found


def _class(found: dict[str, Json], path: str) -> Class:
    supers = [(place, str(it.get("$ref"))) for place, it in listed(found.get("eSuperTypes", []), at_key(path, "eSuperTypes")) if isinstance(it, dict)]
    made = Class(str(found.get("name")), path, found.get("abstract") is True, supers)
    for place, it in listed(found.get("eStructuralFeatures", []), at_key(path, "eStructuralFeatures")):
        if isinstance(it, dict):
            made.features.append(Feature(str(it.get("name")), place, made.name, it, it.get("eClass") == ECORE + "EReference"))
    return made


def _literal(found: dict[str, Json]) -> tuple[str, str]:
    name = str(found.get("name"))
    return name, str(found.get("literal", name))
