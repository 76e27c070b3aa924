"""JSON documents for the checker: how they are read, and where something stands in them."""
from __future__ import annotations

import json
import re
from collections.abc import Iterator
from dataclasses import dataclass
from typing import Union

Json = Union[None, bool, int, float, str, "list[Json]", "dict[str, Json]"]
DEEPEST = 127
TOKEN = re.compile(r'"(?:[^"\\]|\\.)*"?|-?[0-9][0-9.eE+-]*|[\[\]{}]|[A-Za-z]+', re.DOTALL)
PLAIN_KEY = re.compile(r"[A-Za-z_$][A-Za-z0-9_$]*")
SHOWN = 80


@dataclass(frozen=True)
class Fault:
    """A fault of a document: its number, where it stands, the word at fault, and what is wrong with it."""

    number: int
    path: str
    word: str
    what: str

    def __str__(self) -> str:
        return f"at {self.path}: {self.word}: {self.what}"


class NotJson(Exception):
    """The text is no JSON value that the program reads."""

    def __init__(self, fault: Fault) -> None:
        super().__init__(str(fault))
        self.fault = fault


def at_key(path: str, key: str) -> str:
    """The path of what stands at a key of the object at a path."""
    return f"{path}.{key}" if PLAIN_KEY.fullmatch(key) else f"{path}[{json.dumps(key)}]"


def word_of(value: Json) -> str:
    """A value as a word of a message, cut off where it is long."""
    text = json.dumps(value, ensure_ascii=False)
    return text if len(text) <= SHOWN else text[:SHOWN] + "..."


def listed(value: Json, path: str) -> list[tuple[str, Json]]:
    """The items of a list with their paths; a single value stands for the list of it alone."""
    if isinstance(value, list):
        return [(f"{path}[{at}]", item) for at, item in enumerate(value)]
    return [(path, value)]


def by_bytes(found: dict[str, Json]) -> Iterator[tuple[str, Json]]:
    """The items of an object in the order of their keys' bytes."""
    return iter(sorted(found.items(), key=lambda item: item[0].encode(errors="surrogatepass")))


def read(text: str) -> Json:
    """The value of a text. What the program doesn't read is a NotJson, by line and column."""
    for token in _tokens(text):
        raise NotJson(token)
    try:
        found: Json = json.loads(text, parse_int=_whole)
    except json.JSONDecodeError as fault:
        raise NotJson(_fault(text, fault.pos, fault.msg)) from None
    return found


def _whole(digits: str) -> int | float:
    """A whole number; minus zero isn't written as one."""
    return -0.0 if digits == "-0" else int(digits)


def _tokens(text: str) -> Iterator[Fault]:
    """What Python's reader accepts and the program doesn't: depth, numbers past a double's range, words, and halves of characters."""
    depth = 0
    for found in TOKEN.finditer(text):
        word = found[0]
        depth += (word in "[{") - (word in "]}")
        if depth > DEEPEST:
            yield _fault(text, found.start(), f"there are more than {DEEPEST} levels")
        if word in ("NaN", "Infinity"):
            yield _fault(text, found.start(), "this is no number of JSON")
        if (word[0] in "-0123456789") and _is_past_range(word):
            yield _fault(text, found.start(), "the number is past a double's range")
        half = _half(word) if word[0] == '"' else None
        if half is not None:
            yield _fault(text, found.start() + half, "this is half of a character")


def _half(text: str) -> int | None:
    """Where a string has an escape of one half of a surrogate pair without the other."""
    escapes = [(found.start(), found[1]) for found in re.finditer(r"\\(?:u([0-9a-fA-F]{4})|.)", text, re.DOTALL)]
    before: int | None = None
    for at, digits in escapes:
        is_low = digits is not None and 0xDC00 <= int(digits, 16) < 0xE000
        if is_low != (before is not None and before + 6 == at):
            return at if before is None else before
        before = at if digits is not None and 0xD800 <= int(digits, 16) < 0xDC00 else None
    return before


def _is_past_range(word: str) -> bool:
    try:
        return abs(float(word)) == float("inf")
    except ValueError:
        return False


def _fault(text: str, at: int, what: str) -> Fault:
    line, column = text.count("\n", 0, at) + 1, at - text.rfind("\n", 0, at)
    rest = text[at:at + SHOWN].split("\n", 1)[0]
    return Fault(1, f"line {line}, column {column}", rest or "the end of the text", what)
