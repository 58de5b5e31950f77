#!/usr/bin/env python3
"""Writes what the program `golden_picture` has to write: the levels of a picture and of its parts, by NumPy's views.

    python3 tools/numpy_picture.py            writes it
    python3 tools/numpy_picture.py --check    writes nothing, and ends with 1 if the file would change

It needs NumPy (Debian's `python3-numpy`). What it writes is kept, so nothing else needs NumPy. Each view is made of the one before and
shares its bytes; a level is painted through the last one, and the picture shows it.
"""
import pathlib
import sys

import numpy

STDOUT = pathlib.Path(__file__).resolve().parent.parent / "crates/golden_picture/stdout"


def rows_of(name, part):
    return [" ".join([name, *map(str, row.ravel())]) for row in part]


def lines():
    picture = numpy.arange(18, dtype="B").reshape(2, 3, 3)
    cropped = picture[0:2, 1:3]
    flipped = cropped[:, ::-1]
    turned = numpy.rot90(flipped, -1)
    shown = rows_of("whole", picture) + rows_of("cropped", cropped) + rows_of("flipped", flipped) + rows_of("turned", turned)
    turned[0, 1, 2] = 200
    return shown + rows_of("painted", [picture])


def main():
    text = "\n".join(lines()) + "\n"
    if sys.argv[1:] == ["--check"]:
        return int(not STDOUT.is_file() or STDOUT.read_text() != text)
    STDOUT.write_text(text)
    return 0


if __name__ == "__main__":
    sys.exit(main())
