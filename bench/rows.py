"""The rows that a bench prints: a name, its figures with their units, and, where there is a wish, the wish and whether it is met.

    an edit | 12.1 us at 1,000; 13.4 us at 10,000; 1.11 times | at most 1.5 times | met
"""
import dataclasses
import os
import sys

MEMORY = "/dev/shm"
MET, MISSED = "met", "MISSED"
_missed = []


def number(value):
    """A value with three digits at least; from 100 on it is a whole number."""
    if abs(value) >= 100 or isinstance(value, int):
        return f"{value:,.0f}"
    return f"{value:.1f}" if abs(value) >= 10 else f"{value:.2f}" if abs(value) >= 1 else f"{value:.3g}"


def scaled(value, unit):
    """Less than a second as milliseconds or microseconds; all else as it is."""
    if unit != "s" or abs(value) >= 1:
        return value, unit
    return (1e3 * value, "ms") if abs(value) >= 1e-3 else (1e6 * value, "us")


@dataclasses.dataclass(frozen=True)
class Figure:
    """A value in its unit, what it is of, and the most that it may be where there is a wish."""
    value: float
    unit: str
    of: str = ""
    most: float | None = None

    def __str__(self):
        value, unit = scaled(self.value, self.unit)
        return f"{number(value)} {unit} {self.of}".rstrip()

    def wish(self):
        return f"at most {self.most:,g} {self.unit} {self.of}".rstrip()

    def is_met(self):
        return self.most is None or self.value <= self.most


def at(value, unit, size, most=None):
    """A figure of a size, as of so many elements."""
    return Figure(value, unit, f"at {size:,}", most)


def times(value, of="", most=None):
    """How many times one figure another is."""
    return Figure(value, "times", of, most)


def row(name, *figures):
    """Prints a row. A wish is that each figure with a most is at most that."""
    cells = [name, "; ".join(map(str, figures))]
    wishes = [figure.wish() for figure in figures if figure.most is not None]
    if wishes:
        is_met = all(figure.is_met() for figure in figures)
        cells += ["; ".join(wishes), MET if is_met else MISSED]
        _missed.extend([] if is_met else [name])
    print(" | ".join(cells), flush=True)


def end():
    """Ends the bench, with status 1 where a wish isn't met."""
    sys.exit(1 if _missed else 0)


def in_memory():
    """From now on the bench works on the file system in memory, where there is one: a sync costs nothing there."""
    if os.path.isdir(MEMORY):
        os.chdir(MEMORY)
