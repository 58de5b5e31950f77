#!/usr/bin/env python3
"""Writes what the program `golden_ranges` has to write: the ranges of walks that join the dimensions of the tail.

    python3 tools/python_ranges.py            writes it
    python3 tools/python_ranges.py --check    writes nothing, and ends with 1 if the file would change

The table has every shape of up to four dimensions with entries from 0 to 3, over items of two bytes that lie one after
the other, row-major. A shape with dimensions is sliced by the steps 1, 2 and -1 along the first. Each line has the shape,
the step and the ranges.

The ranges are computed from the words. The tail is the greatest t for which each of the last t dimensions that has more
than one entry has as stride the item size times the product of the entries after it: every t is tried. There is one range
for each index of the dimensions before the tail, and it is that index's whole block: its place is the sum of index times
stride. With an entry of 0 there is no range. A shape with an entry of 0 after the first has no descriptor that is valid, and
is refused.
"""
import itertools
import math
import pathlib
import sys

sys.dont_write_bytecode = True

import case_files

CRATE = pathlib.Path(__file__).resolve().parent.parent / "crates/golden_ranges"
SIZE = 2
STEPS = [1, 2, -1]


def strides_of(shape):
    """The strides of items that lie one after the other. An entry of 0 counts as 1."""
    return [SIZE * math.prod(max(n, 1) for n in shape[k + 1 :]) for k in range(len(shape))]


def sliced(shape, step):
    """The start, the shape and the strides of `[::step]` along the first dimension."""
    strides = strides_of(shape)
    picked = range(shape[0])[::step]
    start = picked[0] * strides[0] if picked else 0
    return start, [len(picked), *shape[1:]], [strides[0] * step, *strides[1:]]


def tail_of(shape, strides):
    def is_tail(t):
        last = range(len(shape) - t, len(shape))
        return all(strides[k] == SIZE * math.prod(shape[k + 1 :]) for k in last if shape[k] > 1)

    return max(t for t in range(len(shape) + 1) if is_tail(t))


def ranges_of(start, shape, strides, tail):
    if 0 in shape:
        return []
    outer = len(shape) - tail
    block = SIZE * math.prod(shape[outer:])
    indices = itertools.product(*map(range, shape[:outer]))
    places = [start + sum(i * stride for i, stride in zip(index, strides)) for index in indices]
    return [(place, place + block) for place in places]


def text_of(ranges):
    return "".join(f" {a}..{b}" for a, b in ranges)


def lines_of(shape):
    name = "[" + ",".join(map(str, shape)) + "]"
    if 0 in shape[1:]:
        yield f"{name} refused"
        return
    if not shape:
        yield f"{name}{text_of(ranges_of(0, shape, [], tail_of(shape, [])))}"
        return
    for step in STEPS:
        start, entries, strides = sliced(shape, step)
        yield f"{name} {step}{text_of(ranges_of(start, entries, strides, tail_of(entries, strides)))}"


def table():
    shapes = (list(shape) for n in range(5) for shape in itertools.product(range(4), repeat=n))
    return "".join(f"{line}\n" for shape in shapes for line in lines_of(shape))


if __name__ == "__main__":
    sys.exit(case_files.put({CRATE / "stdout": table()}, CRATE))
