#!/usr/bin/env python3
"""Writes what the program `golden_columns` has to write: casts in column order and row-major, and walks in column order.

    python3 tools/python_columns.py            writes it
    python3 tools/python_columns.py --check    writes nothing, and ends with 1 if the file would change

The table has every shape of up to three dimensions with entries from 1 to 3, of items of one byte and of two, in column
order (`F`) and row-major (`C`): all items, and where there are dimensions three slices along the first. Each line has the
strides, whether the items lie without a gap row-major (`C`) and in column order (`F`), and where each item lies, in column
order.

All of this comes from Python. `_testbuffer`, which comes with its tests, makes an array in either order (`ND_FORTRAN`) whose bytes
have their places as values. A memoryview of it gives strides and contiguity, and `tobytes('F')` gives the places.
"""
import itertools
import math
import pathlib
import sys
from _testbuffer import ND_FORTRAN, ndarray

sys.dont_write_bytecode = True

import case_files

CRATE = pathlib.Path(__file__).resolve().parent.parent / "crates/golden_columns"
ORDERS = {"F": ND_FORTRAN, "C": 0}
SLICES = {"[::2]": slice(None, None, 2), "[::-1]": slice(None, None, -1), "[:0]": slice(0)}


def view_of(order, size, shape):
    """A view in an order of bytes whose values are their places."""
    places = bytes(range(size * math.prod(shape)))
    view = memoryview(ndarray(items_of(places, size), shape=shape, format=f"{size}s", flags=ORDERS[order]))
    assert view.tobytes("A") == places
    return view


def items_of(content, size):
    return [content[k : k + size] for k in range(0, len(content), size)]


def text_of(numbers):
    return "[" + ",".join(map(str, numbers)) + "]"


def line_of(name, shown, view):
    contiguity = ("C" if view.c_contiguous else "-") + ("F" if view.f_contiguous else "-")
    ranges = [f"{item[0]}..{item[-1] + 1}" for item in items_of(view.tobytes("F"), view.itemsize)]
    return " ".join([name, shown, text_of(view.strides), contiguity, *ranges])


def lines_of(order, size, shape):
    name = f"{order}{size} {text_of(shape)}"
    view = view_of(order, size, shape)
    yield line_of(name, "[...]", view)
    if shape:
        for shown, cut in SLICES.items():
            yield line_of(name, shown, view[cut])


def table():
    shapes = [list(shape) for n in range(4) for shape in itertools.product(range(1, 4), repeat=n)]
    cases = itertools.product([1, 2], shapes, ORDERS)
    return "".join(f"{line}\n" for size, shape, order in cases for line in lines_of(order, size, shape))


if __name__ == "__main__":
    sys.exit(case_files.put({CRATE / "stdout": table()}, CRATE))
