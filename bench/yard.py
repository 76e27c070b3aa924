#!/usr/bin/env python3
"""A yard for figures: the processor time of a small busy loop, which touches no memory to speak of and makes no call of the system.

    bench/yard

It prints the best of five times of two million steps of a loop of whole numbers, in this Python. Figures of two machines, or of one at two times,
compare best as multiples of their yards.
"""
import time

from rows import Figure, row

STEPS, TIMES = 2_000_000, 5


def once():
    started, number = time.process_time(), 1
    for _ in range(STEPS):
        number = (number * 1_103_515_245 + 12_345) & 0x7FFF_FFFF
    return time.process_time() - started


def yard():
    """The yard in seconds."""
    return min(once() for _ in range(TIMES))


if __name__ == "__main__":
    row("yard", Figure(yard(), "s"))
