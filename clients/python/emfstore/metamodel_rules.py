"""Where a metamodel breaks the rules of names, types, opposites, bounds and defaults."""
from __future__ import annotations

import re
from collections.abc import Iterable, Iterator

from emfstore.documents import Fault, Json, at_key, word_of
from emfstore.metamodel_faults import ECORE, NUMBERS, READ_TYPES, Class, Feature, Metamodel, faults_of_keys, metamodel_of

DIGITS = re.compile(r"-?[0-9]+")


def faults(document: Json) -> Iterator[Fault]:
    """The faults of a document, in the order in which the program looks for them. Names and types are looked at if all keys are as they should be."""
    of_keys = list(faults_of_keys(document))
    yield from of_keys or _faults_of_names(metamodel_of(document))


def _faults_of_names(found: Metamodel) -> Iterator[Fault]:
    """The faults 11 to 19, in their order."""
    features = [feature for owner in found.classes.values() for feature in owner.features]
    live = [feature for feature in features if not feature.is_skipped]
    yield from _dup_names(found)
    for feature in live:
        yield from _unsupported(found, feature)
    for owner in found.classes.values():
        yield from _no_super(found, owner)
    for feature in live:
        yield from _no_type(found, feature)
    for owner in found.classes.values():
        yield from _super_cycle(found, owner)
    for owner in found.classes.values():
        yield from _clash(found, owner)
    for feature in live:
        if feature.is_reference and found.opposite(feature) is feature:
            yield Fault(16, at_key(feature.path, "eOpposite"), feature.ref("eOpposite"), "the reference is its own opposite")
    for feature in live:
        yield from _bad_opposite(found, feature)
    for feature in live:
        yield from _bad_bound(found, feature)
    for feature in live:
        yield from _bad_default(found, feature)


def _twice(names: Iterable[tuple[str, str]], what: str) -> Iterator[Fault]:
    seen: dict[str, str] = {}
    for name, path in names:
        if name in seen:
            yield Fault(11, path, name, f"{what}, that at {seen[name]} too")
        seen.setdefault(name, path)


def _dup_names(found: Metamodel) -> Iterator[Fault]:
    paths = dict(found.names)
    yield from _twice(found.names, "two classifiers have this name")
    for owner in found.classes.values():
        yield from _twice([(it.name, it.path) for it in owner.features], "two features of the class have this name")
    for enum, literals in found.enums.items():
        path = at_key(paths[enum], "eLiterals")
        yield from _twice([(name, f"{path}[{at}]") for at, (name, _) in enumerate(literals)], "two literals have this name")
        yield from _twice([(text, f"{path}[{at}]") for at, (_, text) in enumerate(literals)], "two literals have this text")


def _unsupported(found: Metamodel, feature: Feature) -> Iterator[Fault]:
    ref = feature.ref("eType")
    if not feature.is_reference and ref.startswith(ECORE) and ref.removeprefix(ECORE) not in READ_TYPES:
        yield Fault(12, at_key(feature.path, "eType"), ref, "attributes of this type aren't read")


def _no_super(found: Metamodel, owner: Class) -> Iterator[Fault]:
    for path, ref in owner.supers:
        if found.local(ref) not in found.classes:
            yield Fault(13, path, ref, "this is no class of the package")


def _no_type(found: Metamodel, feature: Feature) -> Iterator[Fault]:
    ref = feature.ref("eType")
    name = found.local(ref)
    if feature.is_reference:
        is_fit = name in found.classes
    else:
        is_fit = ref.startswith(ECORE) or bool(found.enums.get(name)) or name in found.data_types
    if not is_fit:
        wanted = "class" if feature.is_reference else "data type, and no enum with a literal,"
        yield Fault(13, at_key(feature.path, "eType"), ref, f"this is no {wanted} of the package")


def _super_cycle(found: Metamodel, owner: Class) -> Iterator[Fault]:
    for path, ref in owner.supers:
        if owner in found.above(found.local(ref)):
            yield Fault(14, path, ref, f"so {owner.name} is above itself")


def _clash(found: Metamodel, owner: Class) -> Iterator[Fault]:
    seen: dict[str, Feature] = {}
    for feature in found.features(owner.name):
        other = seen.setdefault(feature.name, feature)
        if other is not feature:
            own = feature if feature.owner == owner.name else other
            where = own.path if own.owner == owner.name else owner.path
            yield Fault(15, where, feature.name, f"{owner.name} has a feature of this name from {other.owner} and from {feature.owner}")


def _bad_opposite(found: Metamodel, feature: Feature) -> Iterator[Fault]:
    if not feature.is_reference or "eOpposite" not in feature.found:
        return
    path, ref = at_key(feature.path, "eOpposite"), feature.ref("eOpposite")
    other = found.opposite(feature)
    if other is None or not other.is_reference:
        yield Fault(17, path, ref, "no class of the package declares this reference")
    elif other.is_skipped or found.opposite(other) is not feature:
        yield Fault(17, path, ref, f"it doesn't name {feature.owner}/{feature.name} back as its opposite")
    elif found.local(other.ref("eType")) != feature.owner or found.local(feature.ref("eType")) != other.owner:
        wrong = other if found.local(other.ref("eType")) != feature.owner else feature
        why = "the type of a reference with an opposite is the class that declares the opposite"
        yield Fault(17, at_key(wrong.path, "eType"), wrong.ref("eType"), why)
    elif feature.flag("containment") and other.flag("containment"):
        yield Fault(17, path, ref, "both are containments")


def _bad_bound(found: Metamodel, feature: Feature) -> Iterator[Fault]:
    lower, upper = feature.bound("lowerBound", 0), feature.bound("upperBound", 1)
    if upper != -1 and upper < 1:
        yield Fault(18, at_key(feature.path, "upperBound"), str(upper), "an upper bound is -1 or at least 1")
    if lower < 0 or upper != -1 and lower > upper:
        yield Fault(18, at_key(feature.path, "lowerBound"), str(lower), "a lower bound is at least 0 and at most the upper one")
    other = found.opposite(feature) if feature.is_reference else None
    if other is not None and other.flag("containment") and upper != 1:
        yield Fault(18, at_key(feature.path, "upperBound"), str(upper), "the upper bound of the reference to a container is 1")


def _bad_default(found: Metamodel, feature: Feature) -> Iterator[Fault]:
    text = feature.found.get("defaultValueLiteral")
    if feature.is_reference or not isinstance(text, str) or feature.bound("upperBound", 1) != 1:
        return
    ref = feature.ref("eType")
    name = ref.removeprefix(ECORE) if ref.startswith(ECORE) else found.local(ref)
    if name in NUMBERS:
        half = 2 ** (NUMBERS[name] - 1)
        is_good = bool(DIGITS.fullmatch(text)) and -half <= int(text) < half
    elif name == "EBoolean":
        is_good = text in ("true", "false")
    else:
        is_good = name not in found.enums or any(text in literal for literal in found.enums[name])
    if not is_good:
        yield Fault(19, at_key(feature.path, "defaultValueLiteral"), word_of(text), f"this is no value of {name}")
