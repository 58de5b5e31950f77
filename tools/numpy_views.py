#!/usr/bin/env python3
"""Writes what NumPy says of views in several dimensions: the cases of `cases/nd`, and what the program `golden_nd` is
given and has to write.

    python3 tools/numpy_views.py            writes them
    python3 tools/numpy_views.py --check    writes nothing, and ends with 1 if a file would change

It needs NumPy (Debian's `python3-numpy`). What it writes is kept, so nothing else needs NumPy.

Shapes, slices, orders of axes and places are drawn from a fixed seed. A case of `cases/nd` has the bytes of an array as its
input, and its words in a file with the ending `.args`: `selections-N` has what slices pick, in turn as they stand and
transposed. `misfits-N` has more bytes than the shape, or fewer. The other cases have words that the program refuses.

A line of the table has a shape of up to four dimensions with entries from 1 to 3, and up to four steps, each of which makes
a view of the view before: `slice` and a tuple of slices, `order` and the axes in their order, `turn`, `pick` and an axis and
a place. The program writes the shape, the strides and the items of the last view, which are the numbers of their places, and
the bytes of the array once others were assigned to these items, or that a step was refused. NumPy makes views that the program refuses. These are views without items in which a dimension other than
the first has no entry, and an order or a place of a view in which a dimension has none.
"""
import itertools
import math
import pathlib
import random
import sys

sys.dont_write_bytecode = True

import numpy

import case_files

ROOT = pathlib.Path(__file__).resolve().parent.parent
CASES = ROOT / "cases/nd"
TABLE = ROOT / "crates/golden_nd"
USAGE, BAD_DATA = 6, 9
LARGE = 2**127


def slice_of(draw, entries):
    """A slice of so many entries. Each of its parts may be absent, and may lie past the ends."""

    def part():
        return draw.choice([None, None, draw.randint(-entries - 2, entries + 2)])

    return slice(part(), part(), draw.choice([None, 1, 1, 2, 3, -1, -1, -2]))


def some_slice_of(draw, entries):
    """A slice that picks an entry, if there is one."""
    while True:
        drawn = slice_of(draw, entries)
        if range(entries)[drawn] or not entries:
            return drawn


def key_of(draw, shape):
    """A slice for each dimension. In most keys each of them picks an entry."""
    drawn = slice_of if draw.random() < 0.15 else some_slice_of
    return tuple(drawn(draw, entries) for entries in shape)


def slice_text(part):
    return f"{part.start}:{part.stop}:{part.step}"


def tuple_text(parts):
    return "(" + ",".join(parts) + ")"


def key_text(key):
    return tuple_text(map(slice_text, key))


def shape_text(shape):
    return "[" + ",".join(map(str, shape)) + "]"


# ---- the form `nd`


def case(name, words, given, written, status=0):
    yield CASES / name, given
    yield CASES / f"{name}.args", "".join(f"{word}\n" for word in ["nd", *words])
    yield CASES / f"{name}.stdout", written
    if status:
        yield CASES / f"{name}.status", f"{status}\n"


def array_of(draw, shape):
    """An array of drawn bytes, and these."""
    given = draw.randbytes(math.prod(shape))
    return numpy.frombuffer(given, dtype=numpy.uint8).reshape(shape), given


def selected(array, key, turn):
    view = array[key]
    return (view.T if turn else view).tobytes()


def selections():
    """What drawn slices pick from drawn shapes. These have one to six dimensions in turn, and once 32, which is NumPy's limit."""
    draw = random.Random(61)
    for number in range(72):
        shape = [draw.choice([1, 2, 3, 4, 5, 7]) for _ in range(number // 2 % 6 + 1)]
        if number >= 70:
            shape = [draw.choice([1, 1, 1, 2]) for _ in range(32)]
        array, given = array_of(draw, shape)
        key = key_of(draw, shape)
        turn = number % 2 == 1
        words = [shape_text(shape), key_text(key)] + (["T"] if turn else [])
        yield from case(f"selections-{number + 1:02}", words, given, selected(array, key, turn))


def misfits():
    """Inputs that don't have as many bytes as the shape."""
    for number, (shape, count) in enumerate([([2, 3], 5), ([2, 3], 7), ([1], 0), ([1, 1], 2), ([1048576], 1), ([64, 128, 128], 6)]):
        words = [shape_text(shape), key_text([slice(None)] * len(shape))] + (["T"] if number % 2 else [])
        yield from case(f"misfits-{number + 1}", words, bytes(range(count)), f"{count} bytes, not {math.prod(shape)}\n", BAD_DATA)


ALL = "None:None:None"

# Words behind `nd` that the program refuses.
REFUSED = {
    "no-word": [],
    "a-shape-alone": ["[2,3]"],
    "a-further-word": ["[2,3]", f"({ALL},{ALL})", "T", "T"],
    "a-small-letter": ["[2,3]", f"({ALL},{ALL})", "t"],
    "an-empty-word-behind": ["[2,3]", f"({ALL},{ALL})", ""],
    "an-entry-of-0": ["[2,0]", f"({ALL},{ALL})"],
    "an-entry-that-is-false": ["[2,False]", f"({ALL},{ALL})"],
    "an-entry-below-0": ["[2,-1]", f"({ALL},{ALL})"],
    "an-entry-that-is-none": ["[2,None]", f"({ALL},{ALL})"],
    "an-entry-that-is-a-text": ["[2,'3']", f"({ALL},{ALL})"],
    "an-entry-past-a-word": [f"[1,{2**64 + 1}]", f"({ALL},{ALL})"],
    "no-dimension": ["[]", "()"],
    "sixty-five-dimensions": [shape_text([1] * 65), tuple_text([ALL] * 65)],
    "more-bytes-than-an-input-has": ["[1048577]", f"({ALL})"],
    "more-bytes-than-an-input-has-by-two-entries": ["[1024,1025]", f"({ALL},{ALL})"],
    "a-product-that-wraps": ["[1048576,1048576,1048576,16]", tuple_text([ALL] * 4)],
    "a-shape-that-is-a-tuple": ["(2,3)", f"({ALL},{ALL})"],
    "a-shape-that-is-a-number": ["6", f"({ALL})"],
    "a-shape-with-a-blank": ["[2, 3]", f"({ALL},{ALL})"],
    "a-shape-that-does-not-end": ["[2,3", f"({ALL},{ALL})"],
    "a-slice-too-few": ["[2,3]", f"({ALL})"],
    "a-slice-too-many": ["[6]", f"({ALL},{ALL})"],
    "a-key-that-is-a-slice": ["[6]", ALL],
    "a-key-that-is-a-list": ["[6]", f"[{ALL}]"],
    "a-key-of-numbers": ["[2,3]", "(0,1)"],
    "a-slice-of-two-parts": ["[6]", "(0:1)"],
    "a-step-of-0": ["[6]", "(0:1:0)"],
    "a-step-that-is-false": ["[6]", "(0:1:False)"],
    "a-start-that-is-a-handle": ["[6]", "(h1:2:1)"],
    "a-stop-that-is-bytes": ["[6]", "(0:x01:1)"],
    "a-step-that-is-dots": ["[6]", "(0:1:...)"],
    "a-part-past-128-bits": ["[6]", f"(0:{LARGE}:1)"],
}


def refused():
    for name, words in REFUSED.items():
        yield from case(name, words, bytes(6), b"", USAGE)


SIX = bytes(range(6))

# Words that are taken, with the shape and the key as NumPy has them.
TAKEN = {
    # numbers go to the ends of 128 bits and may have zeros in front, and a truth value is a number
    "the-greatest-stop": (["[6]", f"(0:{LARGE - 1}:1)"], [6], [slice(0, LARGE - 1, 1)]),
    "the-least-start": (["[6]", f"({-LARGE}:None:{LARGE - 1})"], [6], [slice(-LARGE, None, LARGE - 1)]),
    "the-least-step": (["[6]", f"(None:None:{-LARGE})"], [6], [slice(None, None, -LARGE)]),
    "zeros-in-front": (["[02,003]", "(01:None:1,None:02:01)"], [2, 3], [slice(1, None), slice(None, 2)]),
    "truth-values-are-numbers": (["[True,6]", "(False:True:True,True:None:None)"], [1, 6], [slice(0, 1), slice(1, None)]),
    "sixty-four-dimensions": ([shape_text([6] + [1] * 63), tuple_text(["4:None:-2"] + [ALL] * 63)], [6], [slice(4, None, -2)]),
    "nothing-in-the-first-dimension": (["[2,3]", f"(0:0:None,{ALL})"], [2, 3], [slice(0, 0), slice(None)]),
    "nothing-in-the-last-dimension": (["[2,3]", f"({ALL},3:0:1)"], [2, 3], [slice(None), slice(3, 0)]),
    "nothing-transposed": (["[2,3]", f"(0:0:None,{ALL})", "T"], [2, 3], [slice(0, 0), slice(None)]),
    "nothing-in-one-dimension-transposed": (["[6]", "(0:0:None)", "T"], [6], [slice(0, 0)]),
    "rows-backward-and-two-columns": (["[2,3]", "(None:None:-1,1:3:None)"], [2, 3], [slice(None, None, -1), slice(1, 3)]),
    "columns-of-rows-backward": (["[2,3]", "(None:None:-1,1:3:None)", "T"], [2, 3], [slice(None, None, -1), slice(1, 3)]),
}


def taken():
    for name, (words, shape, key) in TAKEN.items():
        array = numpy.frombuffer(SIX, dtype=numpy.uint8).reshape(shape)
        yield from case(name, words, SIX, selected(array, tuple(key), words[-1] == "T"))


# ---- the table


def can_be(view):
    """Whether the descriptor of a view is valid."""
    return 0 not in view.shape[1:]


# The first of the bytes that are assigned. It is greater than each byte of an array.
FIRST = 100


def step_of(draw, view):
    """A drawn step, and the view that it makes, or None if it is refused."""
    axes = list(range(view.ndim))
    kinds = ["turn", "order"] + (["slice", "slice", "pick"] if axes else [])
    kind = draw.choice(kinds)
    has_no_entry = 0 in view.shape
    if kind == "slice":
        key = key_of(draw, view.shape)
        made = view[key]
        return f"slice {key_text(key)}", made if can_be(made) else None
    if kind == "pick":
        axis = draw.choice(axes)
        entries = view.shape[axis]
        place = draw.randint(-entries - 1, entries)
        made = None if has_no_entry or not -entries <= place < entries else view.take([place], axis)
        # (`take` copies, so the view is made by an index)
        if made is not None:
            made = view[(slice(None),) * axis + (place, ...)]
        return f"pick ({axis},{place})", made
    refused = has_no_entry and view.ndim > 1
    if kind == "turn":
        return "turn", None if refused else view.T
    draw.shuffle(axes)
    return f"order {tuple_text(map(str, axes))}", None if refused else view.transpose(axes)


def line_of(draw, shape, depth):
    """A line of the table, and what is written of it."""
    array = numpy.arange(math.prod(shape), dtype=numpy.uint8)
    view = array.reshape(shape)
    steps = []
    for _ in range(depth):
        text, view = step_of(draw, view)
        steps.append(text)
        if view is None:
            break
    line = " ".join([shape_text(shape), *steps])
    if view is None:
        return line, "refused"
    shown = [shape_text(view.shape)]
    if 0 not in view.shape:
        # (if a dimension has one entry, no place depends on its stride)
        strides = [stride if n > 1 else "-" for n, stride in zip(view.shape, view.strides)]
        shown += [tuple_text(map(str, strides)), *map(str, view.flatten().tolist())]
    view[...] = numpy.arange(FIRST, FIRST + view.size, dtype=numpy.uint8).reshape(view.shape)
    return line, " ".join([*shown, "=", *map(str, array.tolist())])


def table():
    draw = random.Random(62)
    shapes = [list(shape) for n in range(5) for shape in itertools.product(range(1, 4), repeat=n)]
    drawn = [line_of(draw, shape, depth) for shape in shapes for depth in (1, 2, 3, 3, 4, 4)]
    yield TABLE / "stdin", "".join(f"{line}\n" for line, _ in drawn)
    yield TABLE / "stdout", "".join(f"{written}\n" for _, written in drawn)


if __name__ == "__main__":
    status = case_files.put(dict(itertools.chain(selections(), misfits(), refused(), taken())), CASES.parent)
    sys.exit(max(status, case_files.put(dict(table()), TABLE)))
