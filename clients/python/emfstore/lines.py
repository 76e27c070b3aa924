"""Lines of the language as they are made of words and documents, and what their parts are read as."""
from __future__ import annotations

import json
from typing import Union

Element = dict[str, object]
Document = Union[str, Element, "list[Element]"]


def line_of(*words: str | int | None) -> str:
    """The line of these words, without those that are None. A word that would be read as none or as several is a ValueError."""
    found = [str(word) for word in words if word is not None]
    wrong = next((word for word in found if not word or " " in word or "\n" in word or word.endswith("\r")), None)
    if wrong is not None:
        raise ValueError(f"{wrong!r} is no word of a line")
    return " ".join(found)


def with_rest(line: str, rest: str) -> str:
    """The line with a rest that may hold spaces, as a message; an empty one is left out."""
    if "\n" in rest or rest.endswith("\r"):
        raise ValueError("what ends a line has no line feed, and no carriage return at its end")
    return f"{line} {rest}" if rest else line


def text_of(document: Document) -> str:
    """A document as text: one that is a text already stays as it is."""
    return document if isinstance(document, str) else json.dumps(document, ensure_ascii=False)


def roots_of(text: str) -> list[Element]:
    """The elements at the root of a model's text."""
    found = json.loads(text)
    return found if isinstance(found, list) else [found]


def numbers_of(words: str) -> tuple[int, ...]:
    """The numbers of a list with commas, or none."""
    return () if words == "-" else tuple(int(word) for word in words.split(","))
