"""A model's JSON with an element a line, so that a difference of two versions is one of lines."""
import json
from typing import Any


def lines_of(text: str) -> str:
    """The text of a model, each element on a line of its own, those inside another one indented below it."""
    return "".join(_written(json.loads(text), 0)) + "\n"


def is_element(value: Any) -> bool:
    return isinstance(value, dict) and "_id" in value


def _written(value: Any, depth: int) -> list[str]:
    """The pieces of a value's text. Only elements, and lists of elements, take lines of their own."""
    if is_element(value):
        return _element(value, depth)
    if isinstance(value, list) and value and all(map(is_element, value)):
        indent = "\n" + " " * (depth + 1)
        pieces = ["["]
        for number, item in enumerate(value):
            pieces += ["," if number else "", indent, *_written(item, depth + 1)]
        return [*pieces, "]"]
    return [json.dumps(value, ensure_ascii=False, separators=(",", ":"))]


def _element(element: dict[str, Any], depth: int) -> list[str]:
    """An element: what it has itself first, and then what is inside it."""
    inside = {key: value for key, value in element.items() if _has_elements(value)}
    own = {key: value for key, value in element.items() if key not in inside}
    pieces = [json.dumps(own, ensure_ascii=False, separators=(",", ":"))[:-1]]
    for key, value in inside.items():
        pieces += [",", json.dumps(key, ensure_ascii=False), ":", *_written(value, depth)]
    return [*pieces, "}"]


def _has_elements(value: Any) -> bool:
    return is_element(value) or isinstance(value, list) and any(map(is_element, value))
