"""Each refusal in words, and the faults of documents, by their numbers."""
from __future__ import annotations

from emfstore.faults import INPUT_FAULTS
from emfstore.replies import Refusal

BAD_FRAME = 44

REFUSALS = {
    1: ("BadLine", "the line is no command: the word at column {0} doesn't fit, or is missing"),
    2: ("NotInit", "the store has no metamodel yet: send `init` first"),
    3: ("AlreadyInit", "the store has a metamodel already: `evolve` extends it"),
    4: ("BadMetamodel", "the block is no metamodel: {fault}"),
    5: ("NoWorkspace", "there is no workspace of this number: it was dropped, or never made"),
    6: ("NoVersion", "there is no version of this number, or no tag of this name"),
    7: ("NoBranch", "there is no branch of this name"),
    8: ("BranchExists", "there is a branch of this name already"),
    9: ("TagExists", "there is a tag of this name already"),
    10: ("NoElement", "the workspace's model has no element of one of these ids"),
    11: ("IdInUse", "an element of the workspace's model has this id already"),
    12: ("BadId", "this is no id: 1 to 128 visible ASCII characters without quotes and backslashes, the first neither `/` nor `#`"),
    13: ("NoClass", "the metamodel has no class of this name"),
    14: ("Abstract", "the class is abstract"),
    15: ("NoFeature", "the element's class has no feature of this name"),
    16: ("WrongKind", "the feature is none that this command edits"),
    17: ("BadValue", "the value is none of the attribute's type"),
    18: ("WrongType", "the element's class isn't of the feature's type"),
    19: ("Bound", "the feature, or the opposite's, has as many entries as its upper bound allows"),
    20: ("AlreadyThere", "the list holds this target or value already"),
    21: ("NoEntry", "the index is none of an entry, or the target isn't in the list"),
    22: ("WouldCycle", "the element would stand in itself"),
    23: ("NothingLocal", "nothing is recorded in the workspace"),
    24: ("Stale", "someone else came first: the workspace is at version {0}, and its branch at {1}; send `update`, and commit again"),
    25: ("Conflicts", "{0} buckets of operations conflict: send the line again with a letter for each, `m` for mine or `t` for theirs"),
    26: ("BadChoice", "a letter `m` or `t` is due for each of {0} buckets, and {1} bytes were given"),
    27: ("CompositeOpen", "a composite is open in the workspace: send `end` first"),
    28: ("NoComposite", "no composite is open in the workspace"),
    29: ("BadModel", "the block is no model of the metamodel: {fault}"),
    30: ("Interferes", "what came later touches what would be undone: {later}"),
    31: ("SameBranch", "the workspace is on that branch: `update` brings in its versions"),
    32: ("NotOnPath", "the version isn't on the way to the workspace's base"),
    33: ("HistoryFull", "the store has as many events as it can hold"),
    34: ("TooLarge", "the command's event would be too large"),
    35: ("JournalFull", "the store's file would have more than 2^40 bytes"),
    36: ("NotApplicable", "the workspace's model can't take step {0} of the package, counted from 0"),
    37: ("NotForm", "the bytes are no package: the field at byte {0}, counted from 0, can't be read"),
    38: ("NotExtension", "the document lacks or changes {0}, which the present metamodel has"),
    39: ("OldForm", "the store isn't upgraded, so versions have no signatures: send `commit`"),
    40: ("Unsigned", "the store is upgraded, so each version is signed: send `signed`"),
    41: ("Denied", "the policy denies this: {rule}"),
    42: ("TooLong", "the package of event {0} is too long for a block"),
    43: ("NotPrintable", "event {0} would be read otherwise than it stands"),
    44: ("BadFrame", "the turn breaks the rules of lines at byte {1}, counted from 0: {input}"),
}

RULES = {
    "0": "the user has no grant",
    "2": "a reader may look and open workspaces, and nothing else",
    "3": "an admin alone may do this",
    "4": "the user may work on one branch alone, and the workspace is on another",
    "5": "the author of a signed version is the user",
    "6": "the user may not make this branch: they may work on one alone, or the policy grants a branch of this name",
}

METAMODEL_FAULTS = {
    1: ("NotJson", "it is no JSON value"),
    2: ("NotPackage", "it is no package"),
    3: ("BadKey", "a key isn't known, is missing, or has a value of another kind"),
    4: ("LeftOut", "this part of Ecore isn't supported"),
    11: ("DupName", "two have one name or one text"),
    12: ("Unsupported", "an attribute has a type of Ecore that isn't read"),
    13: ("NoType", "a supertype is no class of the package, or a feature's type none that fits"),
    14: ("SuperCycle", "a class is above itself"),
    15: ("Clash", "a class has two features of one name, inherited ones counted"),
    16: ("SelfOpposite", "a reference is its own opposite"),
    17: ("BadOpposite", "an opposite isn't there, doesn't name the reference back, or doesn't fit it"),
    18: ("BadBound", "a bound is none, or doesn't fit the other"),
    19: ("BadDefault", "the default text stands for no value of the attribute's type"),
}

MODEL_FAULTS = {
    1: ("NotJson", "it is no JSON value"),
    2: ("NoClass", "an element's class is missing, or none of the metamodel"),
    3: ("Abstract", "the class is abstract"),
    4: ("NoFeature", "a key is no feature of the class"),
    5: ("BadValue", "a value isn't of its attribute's type, or comes twice"),
    6: ("BadRef", "a reference finds no element, or has one twice"),
    7: ("DupId", "two elements have one `_id`"),
    8: ("BadId", "an `_id` isn't of the form of an id"),
    9: ("Bound", "more entries than the upper bound allows"),
    10: ("WrongType", "a child is no object, or a child or target isn't of the feature's type"),
}


def sentence_of(refusal: Refusal) -> str:
    """What a refusal says, as a sentence for people."""
    _, text = REFUSALS.get(refusal.number, ("", "the command was refused"))
    fields = refusal.fields or ("",)
    faults = {4: METAMODEL_FAULTS, 29: MODEL_FAULTS}.get(refusal.number, {})
    fault = faults.get(int(fields[0]), ("", "fault " + fields[0]))[1] if faults else ""
    line_fault = INPUT_FAULTS.get(int(fields[0]), "") if refusal.number == BAD_FRAME else ""
    later = "operations of the workspace itself" if fields[0] == "local" else f"version {fields[0]}"
    return text.format(*fields, fault=fault, input=line_fault, later=later, rule=RULES.get(fields[0], f"rule {fields[0]}"))
