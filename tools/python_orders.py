#!/usr/bin/env python3
"""Writes the cases of `cases/orders`: bytes of views row by row and in column order, their strides and contiguity.

    python3 tools/python_orders.py            writes them
    python3 tools/python_orders.py --check    writes nothing, and ends with 1 if a file would change

There is a case for each number of dimensions up to three, and for items of one byte and of two. In each, a view is cast to every
shape with entries from 0 to 3, row-major (`cast`) and in column order (`castf`). Of both casts, and of three slices along the
first dimension, all bytes are asked for in each order, and everything that is shown.

All of this comes from Python. `_testbuffer`, which comes with its tests, makes an array in column order (`ND_FORTRAN`), as no method of
Python's does; a shape with an entry of 0 is refused as `memoryview.cast` refuses it.
"""
import itertools
import math
import pathlib
import sys
from _testbuffer import ND_FORTRAN, ndarray

sys.dont_write_bytecode = True

import case_files

CASES = pathlib.Path(__file__).resolve().parent.parent / "cases"
CODES = {1: "B", 2: "H"}
SLICES = {"None:None:2": slice(None, None, 2), "None:None:-1": slice(None, None, -1), "0:0:1": slice(0, 0, 1)}
ORDERS = ("", " None", " 'C'", " 'F'", " 'A'")
SHOWN = ("strides", "c_contiguous", "f_contiguous", "contiguous")


class Session:
    """Lines, and what Python replies."""

    def __init__(self):
        self.lines, self.replies, self.handles = [], [], 0

    def says(self, line, reply):
        self.lines.append(line)
        self.replies.append(reply)

    def makes(self, line):
        """Adds a line that makes a view, and gives the view's name."""
        name = f"h{self.handles}"
        self.handles += 1
        self.says(line, name)
        return name

    def shows(self, name, view):
        for order in ORDERS:
            self.says(f"bytes {name}{order}", repr(view.tobytes(*map(eval, order.split()))))
        for shown in SHOWN:
            self.says(f"prop {name} {shown}", repr(getattr(view, shown)))


def column_view(content, code, size, shape):
    items = [int.from_bytes(content[k : k + size], sys.byteorder) for k in range(0, len(content), size)]
    view = memoryview(ndarray(items, shape=shape, format=code, flags=ND_FORTRAN))
    assert view.tobytes("A") == content
    return view


def cast(session, size, shape):
    """Casts as many bytes as the shape has, in both orders."""
    code, content = CODES[size], bytes(range(1, size * max(math.prod(shape), 1) + 1))
    own = session.makes(f"new bytes x{content.hex()}")
    flat = session.makes(f"view {own}")
    plain = memoryview(content)
    try:
        views = {"cast": plain.cast(code, shape)}
        views["castf"] = column_view(content, code, size, shape)
    except (TypeError, ValueError) as refusal:
        views = {}
        for word in ("cast", "castf"):
            session.says(f"{word} {flat} '{code}' {shape}".replace(", ", ","), f"! {type(refusal).__name__}")
    for word, view in views.items():
        name = session.makes(f"{word} {flat} '{code}' {shape}".replace(", ", ","))
        session.shows(name, view)
        for shown, cut in SLICES.items() if shape else ():
            session.shows(session.makes(f"get {name} {shown}"), view[cut])


def cases():
    for size, code in CODES.items():
        for n in range(4):
            session = Session()
            for shape in map(list, itertools.product(range(4), repeat=n)):
                cast(session, size, shape)
            path = CASES / f"orders/items-of-{code}-in-{n}-dimensions"
            yield path, "".join(f"{line}\n" for line in session.lines)
            yield path.with_name(f"{path.name}.stdout"), "".join(f"{reply}\n" for reply in session.replies)


if __name__ == "__main__":
    sys.exit(case_files.put(dict(cases()), CASES))
