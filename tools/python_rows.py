#!/usr/bin/env python3
"""Writes the cases of `cases/`, whose answers come from Python's own objects.

    python3 tools/python_rows.py            writes them
    python3 tools/python_rows.py --check    writes nothing, and ends with 1 if a file would change

A case is an input, a file without an ending, and beside it what the program writes for it, with the
ending `.stdout`. In `cases/python` the replies are Python's. In `cases/differences` they are this
program's own, written down here by hand, and `cases/differences.txt` has Python's beside them
wherever they differ. The script stops if a difference is said and there is none, or the other way
round. The name of a file is that of its case, with `-` in place of blanks and signs.
`python_objects.py` carries the lines out. The cases are made with CPython 3.11, and nothing is random:
the drawn lines come from a fixed seed.
"""
import pathlib
import random
import re
import struct
import sys

sys.dont_write_bytecode = True

import case_files
from python_objects import NATIVE_CODES, AsWritten, World

CASES = pathlib.Path(__file__).parent.parent / "cases"


class Case:
    """What a case shows, and its lines."""

    def __init__(self, title, lines):
        self.title = title
        self.lines = [line for line in lines.strip().split("\n") if line]


PYTHON = [
    Case(
        "a write through a view is seen by the bytearray and by every view",
        """
new bytearray x616263
view h0
view h1
set h1 0 65
set h2 2 90
get h0 0
get h1 2
bytes h0
bytes h1
bytes h2
set h0 1 0
bytes h2
get h2 1
""",
    ),
    Case(
        "each release ends one view alone",
        """
new bytearray x6162
view h0
view h1
get h2 None:None:-1
release h1
get h1 0
get h1 0:1:1
set h1 0 1
len h1
bytes h1
view h1
release h1
set h2 0 65
set h3 0 66
bytes h0
release h2
release h3
bytes h2
len h3
bytes h0
view h0
get h4 0
""",
    ),
    Case(
        "a refusal of a released view comes before any other",
        """
new bytes x6162
view h0
release h1
get h1 'a'
get h1 9
get h1 0:1:0
get h1 x61:1:1
set h1 9 256
set h1 'a' None
view h0
get h2 0
""",
    ),
    Case(
        "indices at and past both ends of the items",
        """
new bytes x616263
get h0 0
get h0 2
get h0 3
get h0 -1
get h0 -3
get h0 -4
view h0
get h1 0
get h1 2
get h1 3
get h1 -1
get h1 -3
get h1 -4
new bytearray x616263
set h2 2 90
set h2 3 90
set h2 -3 65
set h2 -4 65
view h2
set h3 1 66
set h3 3 90
set h3 -4 90
bytes h3
""",
    ),
    Case(
        "indices at and past both ends of a word",
        """
new bytes x616263
get h0 9223372036854775807
get h0 -9223372036854775808
get h0 9223372036854775808
get h0 -9223372036854775809
get h0 170141183460469231731687303715884105727
get h0 -170141183460469231731687303715884105728
view h0
get h1 9223372036854775807
get h1 -9223372036854775808
get h1 9223372036854775808
get h1 -9223372036854775809
get h1 170141183460469231731687303715884105727
new bytearray x616263
set h2 9223372036854775807 65
set h2 9223372036854775808 65
set h2 -170141183460469231731687303715884105728 65
view h2
set h3 9223372036854775807 65
set h3 -9223372036854775809 65
bytes h2
""",
    ),
    Case(
        "bounds and steps at and past both ends of a word",
        """
new bytes x6162636465
get h0 -9223372036854775808:9223372036854775807:1
get h0 -170141183460469231731687303715884105728:170141183460469231731687303715884105727:9223372036854775808
get h0 None:None:-9223372036854775808
get h0 None:None:-9223372036854775809
get h0 9223372036854775808:-9223372036854775809:-2
get h0 9223372036854775808:None:1
get h0 None:-9223372036854775809:-1
view h0
get h1 None:None:9223372036854775807
bytes h2
get h1 None:None:-170141183460469231731687303715884105728
bytes h3
get h1 9223372036854775808:-9223372036854775809:-2
bytes h4
get h4 None:None:-1
bytes h5
""",
    ),
    Case(
        "a slice of a slice of a view",
        """
new bytes x616263646566
view h0
get h1 None:None:-1
get h2 1:4:None
bytes h3
get h3 None:None:-2
bytes h4
get h4 -1
len h4
""",
    ),
    Case(
        "a slice without items, and slices of it",
        """
new bytes x6162636465
view h0
get h1 None:None:2
get h2 3:None:None
bytes h3
len h3
get h3 0
get h3 None:None:-1
bytes h4
get h1 4:1:1
bytes h5
get h5 -1
""",
    ),
    Case(
        "reversing twice gives the items in order",
        """
new bytearray x6162636465
view h0
get h1 None:None:-1
bytes h2
get h2 None:None:-1
bytes h3
set h3 0 90
set h2 0 89
bytes h0
""",
    ),
    Case(
        "writes through sliced views, which share their bytes",
        """
new bytearray x616263646566
view h0
get h1 None:None:-2
set h2 0 90
set h2 -1 89
get h2 1:None:None
set h3 0 88
bytes h0
bytes h2
bytes h3
release h2
get h2 0:1:1
get h2 0:1:0
len h2
bytes h3
release h1
set h3 1 87
bytes h0
""",
    ),
    Case(
        "a slice of bytes and of a bytearray is a copy",
        """
new bytearray x616263
get h0 0:2:1
set h0 0 90
get h0 0:2:1
get h0 None:None:None
get h0 None:None:-1
get h0 1:1:1
get h0 5:9:1
get h0 -100:100:1
new bytes x616263
get h1 2:None:-1
get h1 -2:None:None
get h1 2:0:1
""",
    ),
    Case(
        "truth values as indices, bounds, steps and bytes",
        """
new bytearray x616263
get h0 True
get h0 False
get h0 False:None:True
get h0 True:True:None
get h0 None:None:True
view h0
get h1 True
get h1 True:None:True
bytes h2
set h1 False True
set h0 True False
bytes h0
""",
    ),
    Case(
        "keys of a wrong kind",
        """
new bytearray x616263
get h0 ...
get h0 'a'
get h0 None
get h0 x61
get h0 []
get h0 [0]
get h0 ()
get h0 (0)
get h0 (0,1)
get h0 (0:1:1)
set h0 ... 1
set h0 'a' 1
set h0 None 1
set h0 x61 1
set h0 [0] 1
view h0
get h1 ...
get h1 'a'
get h1 None
get h1 x61
get h1 [0]
set h1 ... 1
set h1 'a' 1
set h1 None 1
set h1 [0] 1
bytes h1
""",
    ),
    Case(
        "a step of 0, and slice parts of a wrong kind: the step, then the start, then the stop",
        """
new bytes x616263
get h0 0:1:0
get h0 x61:1:0
get h0 0:x61:False
get h0 0:1:x61
get h0 0:1:...
get h0 x61:1:1
get h0 0:...:1
get h0 ...:x:None
view h0
get h1 0:1:0
get h1 x61:1:0
get h1 0:1:x61
get h1 ...:1:None
get h1 0:x61:None
view h1
""",
    ),
    Case(
        "values of a wrong kind, and numbers at the ends of a byte",
        """
new bytearray x616263
set h0 0 256
set h0 0 -1
set h0 0 None
set h0 0 'a'
set h0 0 x61
set h0 0 ...
set h0 0 [1]
set h0 0 (1)
set h0 0 0:1:1
set h0 0 (0:1:1,0:1:1)
set h0 5 256
set h0 5 'a'
set h0 'a' 256
set h0 9223372036854775808 256
set h0 -1 255
set h0 -3 0
view h0
set h1 0 None
set h1 0 'a'
set h1 0 x61
set h1 0 [1]
set h1 0 (1)
set h1 -1 000000000000000000000000000000000000000000254
set h1 5 1
set h1 9223372036854775808 1
bytes h1
""",
    ),
    Case(
        "a view of bytes, and a slice of it, may only be read",
        """
new bytes x616263
view h0
get h1 1:None:None
set h1 0 65
set h2 0 65
set h2 5 65
set h2 'a' 65
set h2 0 None
set h1 0 256
bytes h2
bytes h0
""",
    ),
    Case(
        "lengths",
        """
new bytes x
len h0
new bytearray x010203
len h1
view h1
len h2
get h2 None:None:2
len h3
get h2 2:1:None
len h4
release h4
len h4
len h3
""",
    ),
    Case(
        "no bytes at all",
        """
new bytearray x
view h0
get h1 0
set h1 0 0
get h0 -1
set h0 0 0
get h0 None:None:-1
get h1 None:None:-1
bytes h2
bytes h1
release h1
release h1
""",
    ),
    Case(
        "zeros in front, signs, digits of either case, and texts that hold other spellings",
        """
new bytearray xaBCd0aFf
get h0 -0
get h00 -0000
get h00000000000000000000000 -003
get h0 000000000000000000000000000000000000000000000000000000000000000000002
get h0 'a:b:c'
get h0 ('a,b')
get h0 [',','(',')','[',']']
get h0 ('x,y',-1,xAb,...,None,True)
get h0 'None'
set h0 0 ['a,b']
get h0 (0:1:1,None:None:None)
bytes h0
""",
    ),
    Case(
        "each byte in a repr",
        "\n".join(f"new bytes x{bytes(range(at, at + 32)).hex()}\nbytes h{at // 32}" for at in range(0, 256, 32)),
    ),
    Case(
        "both quotes, one, and the other",
        """
new bytes x2722
bytes h0
get h0 0:1:1
get h0 1:2:1
get h0 None:None:-1
new bytes x5c27
bytes h1
new bytes x
bytes h2
""",
    ),
    Case(
        "several exporters, each with views of its own",
        """
new bytes x0102
new bytearray x0102
view h1
view h0
set h2 0 9
set h3 0 9
bytes h0
bytes h1
get h3 0
release h2
set h2 0 9
view h1
set h4 1 8
bytes h1
get h3 1
""",
    ),
    Case(
        "properties of a view of all bytes",
        """
new bytearray x616263
view h0
prop h1 obj
prop h1 nbytes
prop h1 readonly
prop h1 itemsize
prop h1 ndim
prop h1 shape
prop h1 strides
prop h1 format
prop h1 contiguous
prop h1 c_contiguous
prop h1 f_contiguous
new bytes x
view h2
prop h3 obj
prop h3 nbytes
prop h3 readonly
prop h3 shape
prop h3 strides
prop h3 contiguous
""",
    ),
    Case(
        "the bytes of a view in each order, and which orders its items have",
        """
new bytes x000102030405
view h0
cast h1 'B' [2,3]
bytes h2
bytes h2 None
bytes h2 'C'
bytes h2 'F'
bytes h2 'A'
prop h2 c_contiguous
prop h2 f_contiguous
prop h2 contiguous
bytes h2 'X'
bytes h2 'CF'
bytes h2 'f'
bytes h2 70
bytes h2 x46
bytes h2 ('F')
bytes h0 'C'
bytes h0 None
cast h1 'B' [1,6]
prop h3 c_contiguous
prop h3 f_contiguous
bytes h3 'A'
cast h1 'B' [6,1]
prop h4 f_contiguous
get h4 None:None:-1
bytes h5 'F'
bytes h5 'A'
prop h5 contiguous
get h2 0:0:1
bytes h6 'F'
""",
    ),
    Case(
        "properties of sliced views",
        """
new bytes x616263646566
view h0
get h1 None:None:-2
prop h2 shape
prop h2 strides
prop h2 nbytes
prop h2 contiguous
prop h2 c_contiguous
prop h2 f_contiguous
prop h2 readonly
prop h2 obj
get h2 0:1:1
prop h3 shape
prop h3 strides
prop h3 contiguous
get h2 None:None:-1
prop h4 strides
get h1 2:5:1
prop h5 strides
prop h5 contiguous
get h1 None:None:9223372036854775807
prop h6 strides
bytes h6
""",
    ),
    Case(
        "exports rise with each view and fall with each first release",
        """
new bytearray x6162
prop h0 exports
view h0
view h1
set h1 1 90
get h2 1
bytes h0
prop h0 exports
get h2 None:None:-1
prop h0 exports
release h1
prop h0 exports
release h1
prop h0 exports
release h2
release h3
prop h0 exports
new bytes x61
prop h4 exports
view h4
prop h4 exports
""",
    ),
    Case(
        "properties of a released view",
        """
new bytes x61
view h0
release h1
prop h1 obj
prop h1 nbytes
prop h1 readonly
prop h1 format
prop h1 shape
prop h1 contiguous
""",
    ),
    Case(
        "a cast shares the bytes, and items are read and written by their format",
        """
new bytearray x01000200
view h0
cast h1 'H'
get h2 0
get h2 1
get h2 -1
get h2 2
len h2
set h2 1 258
bytes h0
bytes h2
get h2 None:None:-1
get h3 0
set h3 0 1
bytes h0
get h1 3
cast h2 'B'
get h4 2
""",
    ),
    Case(
        "a length that is no multiple, and a format that is no text",
        """
new bytes x0102030405
view h0
cast h1 'H'
cast h1 'i'
cast h1 'B'
cast h1 5
cast h1 None
cast h1 x42
cast h1 ['B']
get h1 None:None:2
cast h3 'B'
get h1 4:5:1
cast h4 'b'
get h5 0
""",
    ),
    Case(
        "each native number code at its ends",
        """
new bytes xff7f80ff000102fe
view h0
cast h1 'b'
get h2 0
get h2 2
cast h1 'B'
get h3 0
cast h1 'h'
get h4 0
get h4 1
cast h1 'H'
get h5 0
get h5 1
cast h1 'i'
get h6 0
get h6 1
cast h1 'I'
get h7 0
get h7 1
cast h1 'l'
get h8 0
cast h1 'L'
get h9 0
cast h1 'q'
get h10 0
cast h1 'Q'
get h11 0
cast h1 'n'
get h12 0
cast h1 'N'
get h13 0
cast h1 '?'
get h14 0
get h14 4
cast h1 'c'
get h15 0
get h15 5
cast h1 '@q'
get h16 0
""",
    ),
    Case(
        "each native number code written",
        """
new bytearray x0000000000000000
view h0
cast h1 'b'
set h2 0 -128
set h2 -1 127
cast h1 'h'
set h3 1 -2
cast h1 'H'
set h4 2 65535
bytes h0
cast h1 'i'
set h5 0 -2147483648
set h5 1 2147483647
bytes h0
cast h1 'I'
set h6 1 4294967295
bytes h0
cast h1 'l'
set h7 0 -2
bytes h0
cast h1 'L'
set h8 0 18446744073709551615
bytes h0
cast h1 'q'
set h9 0 -9223372036854775808
bytes h0
cast h1 'Q'
set h10 0 1
bytes h0
cast h1 'n'
set h11 0 -1
bytes h0
cast h1 'N'
set h12 0 72623859790382856
bytes h0
cast h1 '?'
set h13 0 True
set h13 1 0
set h13 2 77
bytes h0
cast h1 'c'
set h14 0 x5a
bytes h0
set h14 0 90
set h14 0 'Z'
set h4 0 'Z'
set h4 0 x5a5a
set h4 4 0
set h4 0 True
bytes h0
""",
    ),
    Case(
        "a view is cast to one native code alone",
        """
new bytes x0102030405060708
view h0
cast h1 '3'
cast h1 '<n'
cast h1 '>N'
cast h1 'y'
cast h1 'B<'
cast h1 'B3'
cast h1 '0s'
cast h1 '0H'
cast h1 '1H'
cast h1 '@'
cast h1 '@@H'
cast h1 '@H@'
cast h1 '<u'
cast h1 '>u'
cast h1 '<h'
cast h1 '>h'
cast h1 '!H'
cast h1 '=H'
cast h1 '=B'
cast h1 '<q'
cast h1 's'
cast h1 'p'
cast h1 'x'
cast h1 '@x'
cast h1 '4s'
cast h1 '4p'
cast h1 '8x'
cast h1 'BB'
cast h1 'BH'
cast h1 '2B'
cast h1 '<Bb2x'
cast h1 '>H' [2,2]
cast h1 'BB' [2,2]
cast h1 '8s' []
cast h1 'y' [0]
cast h1 '0s' [0]
cast h1 'y' 0
prop h0 exports
cast h1 '@H'
get h2 0
""",
    ),
    Case(
        "what is looked at before the format of a cast, and what behind it",
        """
new bytearray x000102030405
view h0
cast h1 'B' [2,3]
get h1 None:None:-1
cast h3 'y'
cast h3 5
get h2 0:0:1
cast h4 'y'
cast h4 'y' [1]
cast h4 'y' 0
cast h2 'y' [3,2]
cast h2 'y' [6]
cast h2 'H' [6]
cast h1 'y' [1,1,1,1,1,1,1,1,1,1,1,1,1,1,1,1,1,1,1,1,1,1,1,1,1,1,1,1,1,1,1,1,1,1,1,1,1,1,1,1,1,1,1,1,1,1,1,1,1,1,1,1,1,1,1,1,1,1,1,1,1,1,1,1,1]
cast h1 'y' ['a']
cast h1 'y' [-1]
cast h1 'I' ['a']
cast h1 'H' ['a']
cast h1 'H' [0]
cast h1 'H' []
cast h1 'H'
cast h5 'I'
cast h5 'I' ['a']
cast h5 'h'
cast h5 'y'
cast h5 'c'
cast h5 'b' [2,3]
cast h2 'H'
cast h7 'B' [6]
""",
    ),
    Case(
        "a cast from items of several bytes to others is refused",
        """
new bytes x0102030405060708
view h0
cast h1 'H'
cast h2 'I'
cast h2 'H'
cast h2 '@H'
cast h2 '?'
cast h2 'I' [2]
cast h1 'H' [2,2]
cast h3 'I'
cast h3 'H'
cast h3 'B'
cast h4 'I'
cast h1 '?'
cast h6 '?'
cast h6 'I'
cast h6 'c'
""",
    ),
    Case(
        "casts of read-only and of released views",
        """
new bytes x01020304
view h0
cast h1 'H'
set h2 0 1
set h2 9 1
set h2 0 None
get h2 1
release h1
cast h1 'B'
get h2 0
release h2
get h2 0
cast h2 'B'
len h2
""",
    ),
    Case(
        "properties of casts",
        """
new bytearray x0102030405060708
view h0
cast h1 'H'
prop h2 format
prop h2 itemsize
prop h2 shape
prop h2 strides
prop h2 nbytes
prop h2 readonly
prop h2 obj
prop h2 ndim
get h2 None:None:-2
prop h3 strides
prop h3 shape
prop h3 nbytes
prop h3 contiguous
cast h1 '@i'
prop h4 format
prop h4 itemsize
cast h1 'I'
prop h5 format
prop h5 shape
prop h5 strides
get h5 None:None:-1
prop h6 strides
prop h6 contiguous
prop h0 exports
""",
    ),
    Case(
        "a read-only view shows what is written through others",
        """
new bytearray x616263
view h0
toreadonly h1
prop h1 readonly
prop h2 readonly
set h2 1 90
set h2 9 90
set h2 'a' 90
set h2 1 None
get h2 1
set h1 1 90
get h2 1
set h0 2 89
bytes h2
len h2
prop h2 obj
prop h0 exports
new bytes x6162
view h3
toreadonly h4
prop h5 readonly
set h5 0 65
get h5 -1
""",
    ),
    Case(
        "what is made of a read-only view may only be read",
        """
new bytearray x01000200
view h0
toreadonly h1
view h2
get h2 None:None:-1
cast h2 'H'
cast h2 '@H'
toreadonly h2
set h3 0 9
set h4 0 9
set h5 0 9
set h6 0 9
set h7 0 9
get h6 0:1:1
set h8 0 9
get h1 1:None:None
set h9 0 9
get h5 0
get h6 0
bytes h4
bytes h7
prop h0 exports
""",
    ),
    Case(
        "a read-only view has the items of its view",
        """
new bytearray x0102030405060708
view h0
cast h1 'H'
get h2 None:None:-1
toreadonly h3
prop h4 format
prop h4 itemsize
prop h4 shape
prop h4 strides
prop h4 nbytes
prop h4 ndim
prop h4 contiguous
get h4 0
get h4 -1
get h4 4
get h4 1:3:1
bytes h5
cast h4 'B'
cast h1 'i'
get h6 None:None:-1
toreadonly h7
get h8 0
prop h8 format
prop h8 shape
prop h8 readonly
bytes h8
get h1 8:None:None
toreadonly h9
prop h10 shape
bytes h10
get h10 0
""",
    ),
    Case(
        "a read-only view and its view are released each by itself",
        """
new bytearray x6162
view h0
toreadonly h1
release h1
toreadonly h1
get h2 0
prop h0 exports
toreadonly h2
release h2
release h2
toreadonly h2
get h2 0
prop h2 readonly
get h3 1
prop h0 exports
view h0
set h4 1 90
bytes h3
""",
    ),
    Case(
        "handles of bytes as values of items",
        """
new bytes x5a
new bytearray x0000000000000000
view h1
cast h2 'c'
set h3 0 h0
bytes h1
set h3 1 h1
view h0
set h3 1 h4
set h2 0 h0
set h1 0 h0
set h1 0 h2
bytes h1
""",
    ),
    Case(
        "handles in keys are of a wrong kind",
        """
new bytearray x0102
view h0
get h0 h0
get h0 h1
get h1 h0
get h0 h0:1:1
get h1 0:h0:1
get h1 0:1:h1
set h0 h0 1
set h1 h1 1
get h0 (h0)
get h0 [h0]
set h0 0 [h0]
set h0 0 (h1,h0)
bytes h0
""",
    ),
    Case(
        "items of a view of two dimensions, by tuples",
        """
new bytearray x000102030405
view h0
cast h1 'B' [2,3]
get h2 (0,0)
get h2 (1,2)
get h2 (-1,-3)
get h2 (-2,2)
get h2 (True,False)
get h2 (2,0)
get h2 (0,3)
get h2 (-3,0)
get h2 (0,-4)
get h2 (9223372036854775807,0)
get h2 (0,-9223372036854775808)
set h2 (1,0) 90
set h2 (-1,True) 91
set h2 (2,0) 1
set h2 (0,3) 1
bytes h0
get h0 3
tolist h2
len h2
""",
    ),
    Case(
        "tuples of too few, of too many and of wrong parts",
        """
new bytearray x000102030405
view h0
cast h1 'B' [2,3]
get h2 ()
get h2 (1)
get h2 (5)
get h2 (0,0,0)
get h2 (5,5,5)
get h2 ('a',0)
get h2 (0,'a')
get h2 (None)
get h2 (x00,0)
get h2 (...,0)
get h2 (h0,0)
get h2 (0,h1)
get h2 (9223372036854775808,0)
get h2 (0,-9223372036854775809)
get h2 (0:1:1)
get h2 (0:1:1,0:1:1)
get h2 (0:1:0)
get h2 0
get h2 9
get h2 -1
get h2 9223372036854775808
get h2 'a'
get h2 None
get h2 ...
get h2 [0,0]
set h2 () 1
set h2 (1) 1
set h2 (0,0,0) 1
set h2 ('a',0) 1
set h2 (0,'a') 1
set h2 (9223372036854775808,0) 1
set h2 (0,9223372036854775808) 1
set h2 (0:1:1) 1
set h2 (0:1:1,0:1:1) 1
set h2 0 1
set h2 9 1
set h2 'a' 1
set h2 ... 1
set h2 [0,0] 1
bytes h0
""",
    ),
    Case(
        "tuples as keys of a view of one dimension",
        """
new bytearray x616263
view h0
get h1 (0)
get h1 (-1)
get h1 (True)
get h1 (3)
get h1 (-4)
get h1 (9223372036854775808)
get h1 ()
get h1 (0,1)
get h1 ('a')
get h1 (0:1:1)
get h1 (0:1:1,0:1:1)
get h1 ...
set h1 (1) 90
set h1 (-1) 91
set h1 (3) 1
set h1 () 1
set h1 (0,1) 1
set h1 (0:1:1) 1
set h1 ... 1
bytes h0
get h0 (0)
set h0 (0) 1
""",
    ),
    Case(
        "slices of a view of three dimensions share its bytes",
        """
new bytearray x000102030405060708090a0b0c0d0e0f1011121314151617
view h0
cast h1 'B' [3,4,2]
get h2 None:None:-1
prop h3 shape
prop h3 strides
prop h3 ndim
prop h3 nbytes
prop h3 itemsize
prop h3 format
prop h3 contiguous
prop h3 c_contiguous
prop h3 f_contiguous
prop h3 readonly
prop h3 obj
bytes h3
tolist h3
get h3 (0,0,0)
get h3 (2,3,1)
set h3 (0,3,1) 255
bytes h0
get h2 1:None:None
prop h4 shape
prop h4 strides
prop h4 contiguous
prop h4 f_contiguous
bytes h4
get h2 None:None:2
prop h5 shape
prop h5 strides
prop h5 contiguous
tolist h5
get h5 None:None:-1
prop h6 strides
tolist h6
get h6 1:1:1
prop h7 shape
prop h7 strides
prop h7 nbytes
prop h7 contiguous
prop h7 c_contiguous
tolist h7
bytes h7
len h7
get h7 (0,0,0)
get h2 -1:None:None
prop h8 shape
prop h8 contiguous
tolist h8
get h2 0:1:0
get h2 x61:1:1
get h2 0:x61:1
prop h0 exports
""",
    ),
    Case(
        "casts to a shape and back",
        """
new bytearray x000102030405060708090a0b
view h0
cast h1 'B' [3,4]
cast h2 'B'
prop h3 shape
cast h2 'H'
prop h4 shape
get h4 5
cast h2 'I' [3]
tolist h5
cast h2 'B' (12)
bytes h6
cast h1 'H' [2,3]
prop h7 strides
prop h7 nbytes
tolist h7
get h7 (1,2)
set h7 (0,1) 65535
bytes h0
cast h7 'B'
tolist h8
cast h7 'B' [12]
cast h2 'B' [4,3]
cast h2 'B' [2,6]
cast h2 'B' []
cast h2 'B' [11]
cast h2 'l'
cast h2 'B' [True]
cast h1 'B' [True,12]
prop h10 shape
get h2 None:None:-1
cast h11 'B'
cast h11 'B' [12]
get h2 1:None:None
cast h12 'B'
prop h13 shape
get h2 3:None:None
cast h14 'B'
cast h14 'B' [0]
get h1 12:None:None
cast h15 'B' [0]
cast h15 'B' []
cast h15 'B' (1,1)
prop h0 exports
""",
    ),
    Case(
        "shapes that are refused",
        """
new bytes x0001020304050607
view h0
cast h1 'B' 8
cast h1 'B' None
cast h1 'B' 'B'
cast h1 'B' x08
cast h1 'B' h0
cast h1 'B' 0:1:1
cast h1 'B' (0:1:1)
cast h1 'B' [2,'a']
cast h1 'B' [x02,4]
cast h1 'B' [None,4]
cast h1 'B' [...,4]
cast h1 'B' [h0]
cast h1 'B' [0]
cast h1 'B' [8,0]
cast h1 'B' [-8]
cast h1 'B' [8,-1]
cast h1 'B' [-9223372036854775808]
cast h1 'B' [False,8]
cast h1 'B' [9223372036854775807]
cast h1 'B' [9223372036854775808]
cast h1 'B' [-9223372036854775809]
cast h1 'B' [170141183460469231731687303715884105727]
cast h1 'B' [9223372036854775807,2]
cast h1 'B' [2,9223372036854775807]
cast h1 'B' [3037000500,3037000500]
cast h1 'B' [3037000499,3037000499]
cast h1 'H' [4611686018427387904]
cast h1 'H' [4611686018427387903]
cast h1 'B' [9223372036854775807,'a']
cast h1 'B' [0,'a']
cast h1 'B' ['a',0]
cast h1 'B' [0,9223372036854775808]
cast h1 'B' []
cast h1 'B' ()
cast h1 'B' [7]
cast h1 'B' [2,2]
cast h1 'B' [2,2,2]
cast h1 'B' [1,1,1,1,1,1,1,1,1,1,1,1,1,1,1,1,1,1,1,1,1,1,1,1,1,1,1,1,1,1,1,1,1,1,1,1,1,1,1,1,1,1,1,1,1,1,1,1,1,1,1,1,1,1,1,1,1,1,1,1,1,1,1,1,1]
cast h1 'B' [1,1,1,1,1,1,1,1,1,1,1,1,1,1,1,1,1,1,1,1,1,1,1,1,1,1,1,1,1,1,1,1,1,1,1,1,1,1,1,1,1,1,1,1,1,1,1,1,1,1,1,1,1,1,1,1,1,1,1,1,1,1,1,1]
cast h1 'H' [1,1,1,1,1,1,1,1,1,1,1,1,1,1,1,1,1,1,1,1,1,1,1,1,1,1,1,1,1,1,1,1,1,1,1,1,1,1,1,1,1,1,1,1,1,1,1,1,1,1,1,1,1,1,1,1,1,1,1,1,1,1,1,1,1]
cast h1 5 [1,1,1,1,1,1,1,1,1,1,1,1,1,1,1,1,1,1,1,1,1,1,1,1,1,1,1,1,1,1,1,1,1,1,1,1,1,1,1,1,1,1,1,1,1,1,1,1,1,1,1,1,1,1,1,1,1,1,1,1,1,1,1,1,1]
cast h1 None [0]
cast h1 'Q' [1,1,1,1,1,1,1,1,1,1,1,1,1,1,1,1,1,1,1,1,1,1,1,1,1,1,1,1,1,1,1,1,1,1,1,1,1,1,1,1,1,1,1,1,1,1,1,1,1,1,1,1,1,1,1,1,1,1,1,1,1,1,1,1]
prop h3 ndim
prop h3 nbytes
get h3 (0,0,0,0,0,0,0,0,0,0,0,0,0,0,0,0,0,0,0,0,0,0,0,0,0,0,0,0,0,0,0,0,0,0,0,0,0,0,0,0,0,0,0,0,0,0,0,0,0,0,0,0,0,0,0,0,0,0,0,0,0,0,0,0)
get h3 (0,0,0,0,0,0,0,0,0,0,0,0,0,0,0,0,0,0,0,0,0,0,0,0,0,0,0,0,0,0,0,0,0,0,0,0,0,0,0,0,0,0,0,0,0,0,0,0,0,0,0,0,0,0,0,0,0,0,0,0,0,0,0)
get h3 (0,0,0,0,0,0,0,0,0,0,0,0,0,0,0,0,0,0,0,0,0,0,0,0,0,0,0,0,0,0,0,0,0,0,0,0,0,0,0,0,0,0,0,0,0,0,0,0,0,0,0,0,0,0,0,0,0,0,0,0,0,0,0,0,0)
get h3 (0,0,0,0,0,0,0,0,0,0,0,0,0,0,0,0,0,0,0,0,0,0,0,0,0,0,0,0,0,0,0,0,0,0,0,0,0,0,0,0,0,0,0,0,0,0,0,0,0,0,0,0,0,0,0,0,0,0,0,0,0,0,0,1)
tolist h3
get h3 None:None:-1
bytes h4
prop h0 exports
""",
    ),
    Case(
        "lists of items by their format, and by the shape",
        """
new bytes x0001ff7f80fe0100
view h0
tolist h1
cast h1 'b' [2,2,2]
tolist h2
cast h1 'H' [2,2]
tolist h3
cast h1 'h'
tolist h4
cast h1 'i' [1,2]
tolist h5
cast h1 'Q' [1,1]
tolist h6
cast h1 'c' [4,2]
tolist h7
cast h1 '?' [2,4]
tolist h8
get h7 None:None:-2
tolist h9
get h3 1:1:1
tolist h10
get h4 3:0:-2
tolist h11
get h1 8:None:None
tolist h12
new bytes x
view h13
tolist h14
""",
    ),
    Case(
        "a view without dimensions has one item, at its own start",
        """
new bytearray x7856341200ff0102
view h0
get h1 0:4:None
cast h2 'i' []
get h3 ()
get h3 ...
prop h3 shape
prop h3 strides
prop h3 suboffsets
prop h3 ndim
prop h3 nbytes
prop h3 itemsize
prop h3 format
prop h3 contiguous
prop h3 c_contiguous
prop h3 f_contiguous
bytes h3
set h3 () 1
bytes h0
set h3 ... -2
bytes h0
get h1 6:None:None
cast h4 'H' []
get h5 ()
set h5 () 65535
bytes h0
bytes h5
get h1 7:None:None
cast h6 'B' ()
get h7 ()
set h7 ... 7
bytes h0
view h7
get h8 ()
toreadonly h8
get h9 ()
set h9 () 1
set h9 ... 1
set h9 0 1
cast h9 'b'
tolist h10
cast h7 'B' [1]
tolist h11
cast h7 'B' [1,1]
cast h7 'B' []
cast h5 'B' [2]
tolist h12
cast h5 'B' [1,2]
""",
    ),
    Case(
        "keys of a view without dimensions",
        """
new bytearray x05
view h0
cast h1 'B' []
get h2 0
get h2 -1
get h2 1
get h2 (0)
get h2 (0,0)
get h2 0:1:1
get h2 0:1:0
get h2 (0:1:1)
get h2 'a'
get h2 None
get h2 []
get h2 9223372036854775808
get h2 (9223372036854775808)
set h2 0 1
set h2 (0) 1
set h2 0:1:1 x01
set h2 (0:1:1) 1
set h2 'a' 1
set h2 None 1
set h2 [] 1
set h2 ... None
set h2 () None
get h2 ()
release h2
get h2 ()
get h2 ...
set h2 () 1
prop h2 shape
""",
    ),
    Case(
        "a part of the bytes, by the places where it begins and ends",
        """
new bytearray x000102030405
range h0 2 5
bytes h1
prop h1 shape
prop h1 strides
prop h1 format
prop h1 readonly
prop h1 obj
set h1 0 90
bytes h0
get h1 None:None:-1
bytes h2
range h0 0 6
bytes h3
range h0 3 3
bytes h4
prop h4 shape
range h0 0 0
range h0 6 6
range h0 False True
bytes h7
range h0 5 7
range h0 7 7
range h0 4 3
range h0 -1 3
range h0 -3 -1
range h0 0 -1
range h0 0 9223372036854775808
range h0 -9223372036854775809 0
range h0 170141183460469231731687303715884105727 0
range h0 None 3
range h0 0 None
range h0 'a' 'b'
range h0 0:1:1 3
range h0 [0] 3
range h0 h0 3
range h0 9 'a'
range h0 ... x00
prop h0 exports
new bytes x0102
range h8 1 2
prop h9 readonly
set h9 0 1
bytes h9
""",
    ),
    Case(
        "a view that is entered is itself, and one that is left is released",
        """
new bytearray x0102
view h0
enter h1
enter h1
get h1 0
exit h1
prop h0 exports
exit h1
exit h1
release h1
enter h1
get h1 0
view h0
release h2
exit h2
enter h2
view h0
cast h3 'B' [1,2]
enter h4
exit h4
get h3 0
prop h0 exports
""",
    ),
    Case(
        "a copy of a view of bytes whose items do not lie one after the other",
        """
new bytes x000102030405060708090a0b
view h0
get h1 None:None:-2
contig h2
bytes h3
bytes h4
prop h4 shape
prop h4 strides
prop h4 format
prop h4 readonly
prop h4 obj
prop h4 contiguous
prop h3 exports
prop h0 exports
set h4 0 1
len h3
view h3
bytes h5
release h2
bytes h4
cast h1 'B' [2,3,2]
get h6 None:None:-1
contig h7
prop h9 shape
prop h9 strides
prop h9 contiguous
prop h7 strides
tolist h9
bytes h8
get h9 (0,0,1)
cast h1 'H' [3,2]
get h10 None:None:-2
contig h11
prop h13 format
prop h13 strides
tolist h13
cast h13 'B'
tolist h14
release h13
release h14
contig h13
bytes h12
prop h12 exports
range h12 2 5
bytes h15
""",
    ),
    Case(
        "a slice is assigned from bytes, from an exporter and from views",
        """
new bytearray x616263646566
view h0
set h1 1:4:None x313233
bytes h0
set h1 None:None:-2 x414243
bytes h0
new bytes x010203040506
set h1 None:None:None h2
bytes h0
view h2
set h1 None:None:-1 h3
bytes h0
get h3 None:None:-3
set h1 0:2:1 h4
bytes h0
new bytearray x7879
set h1 4:None:None h5
bytes h0
view h5
set h1 0:4:2 h6
set h1 1:4:2 h6
bytes h1
set h1 0:0:1 x
set h1 6:9:1 x
set h1 3:1:1 x
get h1 2:2:1
set h1 5:5:1 h7
set h1 h0 h0
set h1 None:None:None h0
bytes h0
set h1 True:2:True x21
bytes h0
toreadonly h1
set h1 0:2:1 h6
set h1 2:4:1 h6
bytes h8
prop h0 exports
""",
    ),
    Case(
        "slices assigned onto themselves and onto parts of themselves",
        """
new bytearray x616263646566
view h0
set h1 None:None:-1 h1
bytes h0
set h1 None:None:-1 h0
bytes h0
get h1 0:4:None
set h1 1:5:None h2
bytes h0
get h1 2:None:None
set h1 0:4:1 h3
bytes h0
get h1 None:None:-1
set h1 None:None:None h4
bytes h0
set h4 None:None:None h4
set h4 None:None:-1 h4
bytes h0
get h1 None:None:2
set h1 0:3:1 h5
bytes h0
set h1 3:None:-1 h5
set h1 2:None:-1 h5
bytes h0
get h1 0:1:1
get h1 1:2:1
set h6 None:None:None h7
bytes h0
new bytearray x0102030405060708
view h8
cast h9 'H'
set h10 None:None:-1 h10
bytes h8
get h10 0:3:1
set h10 1:4:1 h11
bytes h8
get h10 None:None:2
set h10 2:0:-1 h12
bytes h8
get h12 None:None:-1
set h12 None:None:None h13
bytes h8
""",
    ),
    Case(
        "slice assignments that are refused",
        """
new bytearray x616263646566
view h0
set h1 0:3:1 x3132
set h1 0:3:1 x31323334
set h1 0:3:1 x
set h1 0:0:1 x31
set h1 0:3:1 h0
set h1 0:3:1 5
set h1 0:3:1 None
set h1 0:3:1 'abc'
set h1 0:3:1 ...
set h1 0:3:1 True
set h1 0:3:1 [1,2,3]
set h1 0:3:1 (1,2,3)
set h1 0:3:1 0:1:1
set h1 0:3:1 (0:1:1)
set h1 x61:3:1 x313233
set h1 0:x61:1 x313233
set h1 0:3:x61 x313233
set h1 0:3:0 x313233
set h1 x:x61:0 x313233
set h1 x61:3:... x313233
set h1 h0:3:1 x313233
cast h1 'H'
set h1 0:3:1 h2
set h2 0:3:1 h1
set h2 0:1:1 x3132
set h2 0:1:1 h0
cast h1 'b'
set h1 0:6:1 h3
set h3 0:6:1 x313233343536
cast h1 'B' [2,3]
set h4 0:1:1 x313233
set h4 0:2:1 h4
set h4 0:2:1 5
set h4 None:None:-1 h4
get h4 0:1:1
set h1 0:1:1 h4
set h1 0:3:1 h5
cast h1 'B' [6,1]
set h1 0:6:1 h6
new bytes x313233
view h7
set h8 0:3:1 x616263
set h8 0:1:0 x616263
set h8 x61:1:1 5
set h8 0:9:1 None
release h8
set h1 0:3:1 h8
set h1 0:2:1 h8
set h1 None:None:None h8
set h8 0:3:1 x616263
bytes h0
prop h0 exports
""",
    ),
    Case(
        "a slice of another format is assigned from items of the same format alone",
        """
new bytearray x0102030405060708
new bytes x1112131415161718
view h0
view h1
cast h2 'H'
cast h3 'H'
set h4 None:None:-1 h5
bytes h0
get h5 None:None:-2
set h4 0:2:1 h6
bytes h0
set h4 1:3:1 h6
bytes h0
cast h3 'h'
set h4 0:4:1 h7
cast h3 'I'
cast h2 'I'
set h9 None:None:-1 h8
bytes h0
get h9 0
cast h2 'c'
cast h3 'c'
set h10 0:3:1 h11
get h11 7:1:-2
set h10 2:5:1 h12
bytes h0
""",
    ),
]


# Each code that a view is cast to, alone and behind `@`.
NATIVE_FORMATS = [sign + code for code in NATIVE_CODES for sign in ("", "@")]


# How a view of 16 bytes is cast: whether of two dimensions, whether of no items, and to which shape. SIZE is the number
# of all items, HALF of half of them.
CASTS = [
    (False, False, ""),
    (True, False, ""),
    (False, False, " [SIZE]"),
    (True, False, " [2,HALF]"),
    (False, False, " [2,HALF]"),
    (False, True, ""),
    (True, False, " [SIZE]"),
    (False, False, " [0]"),
    (True, True, ""),
]


def casts_by_code(formats):
    """The lines that make views by each format, of one dimension and of two, and of no items, and cast these to each
    format, in each pair another way. Of what is made by a code alone the items are listed."""
    world, lines = World(), []

    def reply(line):
        lines.append(line)
        return world.reply(line)

    reply("new bytes x0180ff7f000110020304a0b0c0d0e0f0")
    reply("view h0")
    for at, old in enumerate(formats):
        views = {}
        for is_plane in (False, True):
            views[is_plane, False] = reply(f"cast h1 '{old}'{' [2,HALF]' * is_plane}".replace("HALF", str(8 // struct.calcsize(old))))
            views[is_plane, True] = reply(f"get {views[is_plane, False]} 0:0:1")
        for to, new in enumerate(formats):
            *subject, shape = CASTS[(at + 2 * to) % len(CASTS)]
            count = 16 // struct.calcsize(new)
            made = reply(f"cast {views[tuple(subject)]} '{new}'{shape}".replace("SIZE", str(count)).replace("HALF", str(count // 2)))
            if made[0] == "h" and new in NATIVE_CODES:
                reply(f"tolist {made}")
    return "\n".join(lines)


PYTHON += [Case("casts from each native code to each, of one dimension and of two", casts_by_code(NATIVE_FORMATS))]


class Draw:
    """Draws from a fixed seed, by the one call whose numbers stay the same in all Pythons."""

    def __init__(self, seed):
        self.random = random.Random(seed).random

    def below(self, count):
        return int(self.random() * count)

    def one_of(self, choices):
        return choices[self.below(len(choices))]


def drawn_slices(draw):
    """Slices of slices of a view, each followed by its bytes."""
    length = 9 + draw.below(8)
    lines = [f"new bytearray x{bytes(range(97, 97 + length)).hex()}", "view h0"]
    bounds = ["None", *map(str, range(-length - 1, length + 2))]
    for made in range(2, 14):
        step = draw.one_of(["None", "1", "1", "2", "3", "-1", "-1", "-2", "-3"])
        of = max(1, made - 1 - draw.below(3))
        lines.append(f"get h{of} {draw.one_of(bounds)}:{draw.one_of(bounds)}:{step}")
        lines.append(f"bytes h{made}")
    return "\n".join(lines)


def drawn_writes(draw):
    """Items that are read and written through a bytearray, a view, and a slice of the view."""
    lines = ["new bytearray x303132333435363738", "view h0", f"get h1 {draw.below(3)}:None:{1 + draw.below(2)}", "get h2 None:None:-1"]
    for _ in range(18):
        handle, place = draw.below(4), draw.below(13) - 6
        lines.append(draw.one_of([f"get h{handle} {place}", f"set h{handle} {place} {65 + draw.below(26)}", f"set h{handle} {place} {65 + draw.below(26)}"]))
    lines += ["bytes h0", "bytes h2", "bytes h3"]
    return "\n".join(lines)


def drawn_shapes(draw):
    """Items that are read and written by tuples, through slices of views of several dimensions."""
    shape = draw.one_of([[2, 3, 2], [3, 4], [2, 2, 3], [4, 3], [1, 2, 6]])
    lines = [f"new bytearray x{bytes(range(97, 97 + 12)).hex()}", "view h0", f"cast h1 'B' {shape}".replace(", ", ",")]
    made = 2
    bounds = ["None", "None", *map(str, range(-shape[0] - 1, shape[0] + 2))]
    for _ in range(12):
        of = 2 + draw.below(made - 1)
        lines.append(f"get h{of} {draw.one_of(bounds)}:{draw.one_of(bounds)}:{draw.one_of(['None', '1', '-1', '-1', '2', '-2'])}")
        made += 1
        key = ",".join(str(draw.below(2 * entries + 1) - entries) for entries in shape)
        lines.append(draw.one_of([f"get h{made} ({key})", f"set h{made} ({key}) {draw.below(26) + 65}"]))
        lines.append(draw.one_of([f"tolist h{made}", f"bytes h{made}", f"prop h{made} strides", f"prop h{made} shape", f"prop h{made} c_contiguous"]))
    return "\n".join(lines + ["bytes h0"])


STEPS = [-3, -2, -1, 1, 2, 3]


def slice_of(start, count, step):
    """The slice of so many items from a place on, and their places."""
    stop = start + count * step
    places = list(range(start, stop, step))
    return f"{start}:{stop if stop >= 0 else None}:{step}" if count else f"{start}:{start}:{step}", places


def placed(draw, room, count, step):
    """A slice of so many items, somewhere among so many bytes."""
    span = (count - 1) * abs(step) if count else 0
    start = draw.below(room - span) + (span if step < 0 else 0)
    return slice_of(start, count, step)


def assigned(draw, step, others):
    """A slice of each step and length is assigned to one of a given step, of the same bytes or of
    others. What the bytes then are follows from lists too, and is compared."""
    room = 18
    target, source = bytearray(range(97, 97 + room)), bytes(range(65, 65 + room))
    lines = [f"new bytearray x{target.hex()}", f"new bytes x{source.hex()}", "view h0", "view h1"]
    replies = ["h0", "h1", "h2", "h3"]
    for of_step in STEPS:
        for count in range(7):
            key, places = placed(draw, room, count, step)
            of_key, of_places = placed(draw, room, count, of_step)
            made = f"h{3 + len(lines) // 3}"
            before = source if others else bytes(target)
            for place, of_place in zip(places, of_places):
                target[place] = before[of_place]
            lines += [f"get h{3 if others else 2} {of_key}", f"set h2 {key} {made}", "bytes h0"]
            replies += [made, "ok", repr(bytes(target))]
    return Case(f"slices of {'other bytes' if others else 'the same bytes'} assigned to one of step {step}", "\n".join(lines)), replies


# New exporters, and the edits of a bytearray.
PYTHON += [
    Case(
        "new bytes and bytearrays of a size, of parts and of others' bytes",
        """
new bytes
new bytearray
new bytes 3
new bytearray 2
new bytes True
new bytearray False
new bytes [1,2,255]
new bytearray (97,True,0)
new bytes []
new bytearray x6162
new bytes h9
new bytearray h8
view h11
new bytearray h12
get h12 None:None:-1
new bytes h14
view h10
cast h16 'B' [2,1]
new bytes h17
new bytearray h10
bytes h0
bytes h1
bytes h2
bytes h3
bytes h4
bytes h5
bytes h6
bytes h7
bytes h8
bytes h9
bytes h10
bytes h11
bytes h13
bytes h15
bytes h18
bytes h19
prop h11 exports
prop h10 exports
""",
    ),
    Case(
        "new bytes of texts by their encoding",
        """
new bytes 'ab' 'utf-8'
new bytearray 'ab' 'utf8'
new bytes 'ab' 'ascii'
new bytes 'ab' 'ascii' 'strict'
bytes h0
bytes h1
bytes h2
bytes h3
""",
    ),
    Case(
        "what no bytes are made of",
        """
new bytes -1
new bytes 9223372036854775808
new bytearray -170141183460469231731687303715884105728
new bytes [256]
new bytes [-1,'a']
new bytes ['a',256]
new bytes [97,None]
new bytes (x61)
new bytes 'ab'
new bytes None
new bytearray ...
new bytes 0:1:1
new bytes 'ab' 5
new bytes 'ab' None
new bytes 5 'utf-8'
new bytes x6162 'utf-8'
new bytes [1] 'ascii'
new bytes 'ab' 'utf-8' 5
new bytes 'ab' 'utf-8' None
new bytes 3 'utf-8' 'strict'
new bytearray x61
view h0
release h1
new bytes h1
new bytearray h1
new bytes [h0]
new bytes h0 'utf-8'
new bytearray x62
bytes h2
""",
    ),
    Case(
        "a new exporter is of the source as it was, and shares nothing with it",
        """
new bytearray x616263
new bytearray h0
set h0 0 90
bytes h1
view h0
new bytes h2
set h2 1 90
bytes h3
append h1 100
bytes h1
bytes h0
""",
    ),
    Case(
        "bytes are added at the end",
        """
new bytearray x6162
append h0 99
append h0 True
append h0 256
append h0 -1
append h0 None
append h0 'a'
append h0 x61
append h0 [1]
extend h0 x6465
extend h0 [102,False]
extend h0 (103)
extend h0 h0
extend h0 [1,256]
extend h0 [1,None]
extend h0 5
extend h0 None
new bytes x7879
extend h0 h1
iadd h0 h1
iadd h0 x7a
iadd h0 5
iadd h0 'a'
iadd h0 None
iadd h0 [1]
bytes h0
len h0
""",
    ),
    Case(
        "bytes of views are added, as they were",
        """
new bytearray x61626364
view h0
get h1 None:None:-1
new bytearray x78
extend h3 h1
iadd h3 h1
iadd h3 h2
bytes h3
cast h1 'H'
iadd h3 h4
bytes h3
cast h1 'B' [2,2]
extend h3 h5
iadd h3 h5
set h3 0:0:1 h2
bytes h3
bytes h0
""",
    ),
    Case(
        "a byte is put before the nearest place to an index",
        """
new bytearray x6162
insert h0 0 48
insert h0 -1 49
insert h0 2 50
insert h0 100 51
insert h0 -100 52
insert h0 9223372036854775807 53
insert h0 -9223372036854775808 54
insert h0 9223372036854775808 55
insert h0 0 256
insert h0 'a' 1
insert h0 None 1
insert h0 0 None
insert h0 True False
bytes h0
""",
    ),
    Case(
        "bytes are taken out one by one",
        """
new bytearray x616263616263
pop h0
pop h0 0
pop h0 -2
pop h0 3
pop h0 -4
pop h0 True
pop h0 9223372036854775807
pop h0 'a'
pop h0 None
pop h0 9223372036854775808
bytes h0
remove h0 98
remove h0 120
remove h0 256
remove h0 None
remove h0 97
bytes h0
pop h0
pop h0 0
remove h0 0
new bytearray x61626162
remove h1 98
remove h1 98
remove h1 98
bytes h1
""",
    ),
    Case(
        "all bytes are taken out, turned round and repeated",
        """
new bytearray x616263
reverse h0
bytes h0
imul h0 2
bytes h0
imul h0 1
imul h0 True
imul h0 0
bytes h0
imul h0 5
bytes h0
new bytearray x6162
imul h1 3
imul h1 -1
bytes h1
new bytearray x6162
clear h2
bytes h2
clear h2
reverse h2
imul h2 9223372036854775807
new bytearray x6162
imul h3 9223372036854775808
imul h3 'a'
imul h3 None
bytes h3
reverse h3
bytes h3
""",
    ),
    Case(
        "bytes are taken out by an index and by slices",
        """
new bytearray x00010203040506070809
del h0 0
del h0 -1
del h0 8
del h0 -9
del h0 9223372036854775808
del h0 'a'
del h0 None
del h0 (0)
bytes h0
del h0 1:3:1
bytes h0
del h0 None:None:2
bytes h0
del h0 5:1:1
del h0 0:1:0
del h0 x61:1:1
bytes h0
del h0 None:None:-1
bytes h0
new bytearray x00010203040506070809
del h1 None:None:-3
bytes h1
del h1 4:None:-2
bytes h1
del h1 -1:-100:-9223372036854775808
bytes h1
""",
    ),
    Case(
        "bytes take the place of those of a slice",
        """
new bytearray x616263646566
set h0 1:3:None x58595a
bytes h0
set h0 None:None:None x
bytes h0
set h0 5:9:1 [1,2]
bytes h0
set h0 1:1:1 x6162
bytes h0
set h0 None:None:2 x5758
bytes h0
set h0 None:None:2 x57
set h0 None:None:-1 x30313233
bytes h0
set h0 3:1:1 x39
bytes h0
set h0 4:0:-2 (65,66)
bytes h0
set h0 0:1:0 x
set h0 x61:1:1 x
set h0 0:1:1 'a'
set h0 0:1:1 [256]
set h0 0:1:1 [None]
set h0 0:2:1 h0
bytes h0
new bytes x7a7a
set h0 -1:None:1 h1
bytes h0
view h1
set h0 0:0:1 h2
bytes h0
""",
    ),
    Case(
        "a slice that gets as many bytes as it picks, while a view is unreleased",
        """
new bytearray x616263646566
view h0
get h1 None:None:-1
set h0 0:3:1 x585959
bytes h1
set h0 None:None:-2 x313233
bytes h0
bytes h2
set h0 0:3:1 x58
set h0 0:3:1 x
set h0 0:3:1 x5859595a
bytes h0
set h0 0:3:1 h2
set h0 0:6:1 h2
bytes h0
set h0 2:2:1 x
set h0 4:2:1 x
reverse h0
bytes h0
release h1
release h2
set h0 0:3:1 x58
bytes h0
""",
    ),
    Case(
        "no edit that asks for another length is done while a view is unreleased",
        """
new bytearray x616263
view h0
append h0 100
extend h0 x64
extend h0 h0
extend h0 [1]
insert h0 0 100
pop h0
pop h0 0
remove h0 97
clear h0
del h0 0
del h0 0:1:1
del h0 None:None:2
iadd h0 x64
imul h0 2
imul h0 0
imul h0 1
init h0 x64
init h0 5
reverse h0
bytes h0
view h1
release h1
append h0 100
bytes h0
release h2
append h0 100
extend h0 h0
insert h0 0 1
pop h0
remove h0 98
del h0 0
del h0 None:None:2
iadd h0 x6465
imul h0 2
bytes h0
init h0 x64
bytes h0
clear h0
bytes h0
""",
    ),
    Case(
        "an edit is refused for its values before the views are looked at",
        """
new bytearray x616263
view h0
append h0 256
append h0 None
extend h0 [256]
extend h0 5
insert h0 'a' 1
insert h0 0 256
insert h0 9223372036854775808 1
pop h0 'a'
remove h0 256
iadd h0 5
imul h0 'a'
imul h0 9223372036854775808
del h0 'a'
del h0 0:1:0
set h0 0:1:0 x
set h0 0:2:1 [256]
set h0 0:2:1 None
bytes h0
""",
    ),
    Case(
        "a bytearray is made anew of every source",
        """
new bytearray x616263
init h0 2
bytes h0
init h0
bytes h0
init h0 'ab' 'ascii'
bytes h0
init h0 [1,2,3]
bytes h0
new bytes x787a
init h0 h1
bytes h0
view h1
get h2 None:None:-1
init h0 h3
bytes h0
""",
    ),
    Case(
        "a copy of a bytearray is one of its own",
        """
new bytearray x616263
view h0
copy h0
append h2 100
bytes h2
bytes h0
view h2
copy h2
set h3 0 90
bytes h2
bytes h4
prop h4 exports
prop h2 exports
new bytearray x
copy h5
bytes h6
""",
    ),
    Case(
        "nothing is taken out of a view",
        """
new bytearray x616263
view h0
del h1 0
del h1 'a'
del h1 0:1:1
del h1 None
bytes h1
release h1
del h1 0
""",
    ),
]


def drawn_edits(draw):
    """Edits of a bytearray by drawn values, live and not."""
    lines = ["new bytearray x000102030405", "new bytes x6162"]
    part = lambda: draw.one_of(["None", str(draw.below(19) - 9)])
    sliced = lambda: f"{part()}:{part()}:{draw.one_of(['None', '1', '2', '-1', '-2', '3', '-3'])}"
    source = lambda: draw.one_of(["x", "x61", "x6263", "x646566", "h1", "[1,2]", "(3)"])
    for turn in range(90):
        lines.append(
            draw.one_of(
                [
                    f"append h0 {draw.below(258) - 1}",
                    f"extend h0 {source()}",
                    f"iadd h0 {draw.one_of(['x', 'x61', 'x6263', 'h1'])}",
                    f"insert h0 {draw.below(19) - 9} {draw.below(256)}",
                    f"pop h0 {draw.below(4)}",
                    f"del h0 {sliced()}",
                    # nothing is assigned to a slice with a step, since that is a difference
                    f"set h0 {part()}:{part()}:1 {source()}",
                    f"set h0 {sliced()} {draw.one_of(['x61', 'x6263', 'x646566', 'h1'])}",
                    f"imul h0 {1 + draw.below(2)}",
                    "reverse h0",
                ]
            )
        )
        lines.append("bytes h0")
        if turn % 9 == 8:
            lines.append("del h0 6:None:None")
    return "\n".join(lines)


PYTHON += [Case(f"edits of a bytearray, drawn ({seed})", drawn_edits(Draw(seed))) for seed in (12, 13, 14, 15)]
PYTHON += [Case(f"slices of slices of a view, drawn ({seed})", drawn_slices(Draw(seed))) for seed in (1, 2, 3, 4)]
PYTHON += [Case(f"items read and written, drawn ({seed})", drawn_writes(Draw(seed))) for seed in (5, 6, 7)]
PYTHON += [Case(f"items of several dimensions, drawn ({seed})", drawn_shapes(Draw(seed))) for seed in (8, 9, 10, 11)]
# Comparison, hash and text.
PYTHON += [
    Case(
        "bytes and bytearrays are compared byte by byte, and a shorter one is less where all its bytes are the same",
        """
new bytes x6162
new bytearray x6162
compare h0 == x6162
compare h0 == h1
compare h1 == h0
compare h1 == x6162
compare h0 != x6162
compare h1 != h0
compare h0 < x6163
compare h0 < x6162
compare h0 <= x6162
compare h0 > x6162
compare h0 >= x6162
compare h0 < x61
compare h0 > x61
compare h0 < x616200
compare h0 <= x616200
compare h0 == x616200
compare h0 > x6161ff
compare h0 < x80
compare h0 < xff
compare h0 > x7f
compare h0 == x
compare h0 > x
compare h1 < x6163
compare h1 >= h0
compare h1 > x61
compare h1 < x62
compare h0 == h0
compare h1 < h1
compare h1 <= h1
new bytes x
new bytearray x
compare h2 == h3
compare h3 < h2
compare h3 <= h2
compare h2 < h0
compare h3 >= h1
compare h2 == x
append h1 99
compare h1 > h0
compare h1 == x616263
""",
    ),
    Case(
        "a bytearray is compared with a view whose items lie together by the bytes of both",
        """
new bytearray x01000200
view h0
cast h1 'H'
cast h1 'B' [2,2]
compare h0 == h1
compare h0 == h2
compare h0 == h3
compare h0 != h2
compare h0 < h2
compare h0 <= h2
get h1 1:None:None
compare h0 < h4
compare h0 > h4
compare h0 == h4
new bytes x01000300
view h5
cast h6 'i'
compare h0 < h7
compare h0 >= h7
compare h0 == h7
get h1 2:2:1
compare h0 > h8
compare h0 < h8
set h1 2 3
compare h0 == h7
""",
    ),
    Case(
        "a view is compared with bytes and a bytearray by its items",
        """
new bytes xff616200
new bytearray xff616200
view h0
compare h2 == h0
compare h2 == h1
compare h2 == xff616200
compare h2 != xff616201
compare h2 == xff6162
compare h2 == x
cast h2 'b'
compare h3 == h0
compare h3 == h1
compare h3 == xff616200
get h3 1:None:None
compare h4 == x616200
compare h4 != x616200
cast h2 'c'
compare h5 == h0
compare h5 != h0
cast h2 'h'
compare h6 == h0
cast h2 'B' [2,2]
compare h7 == h0
cast h2 'B' [4]
compare h8 == h0
get h2 None:None:-1
compare h9 == x006261ff
compare h9 == h0
get h2 4:None:None
compare h10 == x
new bytes x
compare h10 == h11
set h1 1 98
compare h2 == h1
""",
    ),
    Case(
        "a view is equal to itself, released or not, and a released one to nothing else",
        """
new bytearray x6162
view h0
view h0
compare h1 == h1
compare h1 != h1
compare h1 == h2
release h1
compare h1 == h1
compare h1 != h1
compare h1 == h2
compare h2 == h1
compare h2 != h1
compare h1 == h0
compare h1 == x6162
compare h1 != x6162
release h2
compare h1 == h2
compare h2 == h2
compare h1 == None
compare h1 < h1
compare h1 < h2
compare h1 >= x6162
""",
    ),
    Case(
        "what is no bytes is unequal to a view, and has no order with one",
        """
new bytes x6162
view h0
compare h1 == None
compare h1 != None
compare h1 == True
compare h1 == 97
compare h1 == ...
compare h1 == 'ab'
compare h1 != 'ab'
compare h1 == [97,98]
compare h1 == (97,98)
compare h1 == ()
compare h1 == 0:1:1
compare h1 == (0:1:1)
compare h1 < None
compare h1 <= 97
compare h1 > 'ab'
compare h1 >= [97,98]
compare h1 < x6163
compare h1 <= h1
compare h1 > h0
compare h1 >= x6162
compare h0 < h1
compare h0 <= h1
compare h0 > h1
compare h0 >= h1
""",
    ),
    Case(
        "rows that lie apart are equal to rows that lie together or turned round",
        """
new bytes x000102030405060708090a0b
new bytes x000102060708
new bytes x060708000102
view h0
view h1
view h2
cast h3 'B' [4,3]
cast h4 'B' [2,3]
cast h5 'B' [2,3]
get h6 None:None:2
compare h9 == h7
compare h7 == h9
compare h9 == h8
get h8 None:None:-1
compare h9 == h10
compare h10 == h9
compare h7 == h10
compare h8 == h10
""",
    ),
    Case(
        "views of several dimensions are equal by their shapes and all of their items",
        """
new bytes x000102030405060708090a0b
new bytes xff0102030405060708090a0b
new bytes x000102030405060708090aff
new bytes x0001020304ff060708090a0b
view h0
view h1
view h2
view h3
cast h4 'B' [3,4]
cast h5 'B' [3,4]
cast h6 'B' [3,4]
cast h7 'B' [3,4]
compare h8 == h9
compare h8 == h10
compare h8 == h11
compare h8 != h9
compare h8 == h8
get h8 1:None:None
get h9 1:None:None
get h10 1:None:None
get h11 1:None:None
compare h12 == h13
compare h12 == h14
compare h12 == h15
get h8 2:None:None
get h11 2:None:None
compare h16 == h17
cast h4 'B' [2,3,2]
cast h5 'B' [2,3,2]
cast h6 'B' [2,3,2]
cast h7 'B' [2,3,2]
compare h18 == h19
compare h18 == h20
compare h18 == h21
compare h18 != h21
view h0
cast h22 'B' [2,3,2]
compare h18 == h23
get h18 None:None:-1
get h18 None:None:-1
compare h24 == h25
compare h24 == h18
get h24 None:None:-1
compare h26 == h18
get h19 None:None:-1
get h19 1:None:None
get h18 1:None:None
compare h28 == h29
get h27 0:1:1
compare h30 == h29
""",
    ),
    Case(
        "shapes agree up to an entry of 0 that both have",
        """
new bytes x000102030405
view h0
cast h1 'B' [2,3]
cast h1 'B' [3,2]
get h2 0:0:1
get h3 0:0:1
compare h4 == h5
compare h4 != h5
compare h2 == h3
compare h4 == h2
cast h1 'H' [3]
get h6 0:0:1
get h1 0:0:1
compare h7 == h8
compare h7 == x
compare h4 == h7
compare h4 == x
cast h1 'B' [2,3,1]
get h9 2:None:None
compare h9 == h2
compare h10 == h4
cast h1 'c'
get h11 6:None:-1
get h11 6:None:1
compare h13 == h8
compare h12 == h11
""",
    ),
    Case(
        "views without dimensions are equal by their one item",
        """
new bytes x01
new bytes x0100
new bytearray x02
view h0
view h1
view h2
cast h3 'B' []
cast h4 'H' []
cast h5 'b' []
compare h6 == h7
compare h7 == h6
compare h6 == h8
compare h6 == h6
compare h6 == h3
compare h6 == x01
compare h3 == x01
set h5 0 1
compare h6 == h8
cast h3 'c' []
compare h9 == h6
cast h3 '?' []
compare h10 == h6
""",
    ),
    Case(
        "views of items apart, backwards and over each other are equal by their items",
        """
new bytearray x616261626162
view h0
get h1 None:None:2
get h1 1:None:2
get h1 None:None:-2
compare h2 == h3
compare h3 == h4
compare h2 == x616161
compare h4 == x626262
get h1 0:4:1
get h1 2:None:1
compare h5 == h6
get h1 None:None:-1
compare h7 == h1
get h7 None:None:-1
compare h8 == h1
get h7 1:None:None
get h1 1:None:None
get h1 0:5:1
compare h9 == h11
compare h9 == h10
set h1 0 98
compare h2 == x626161
compare h5 == h6
compare h8 == h1
new bytes x7878626261626162
view h12
get h13 2:None:None
compare h14 == h1
compare h14 == h0
compare h1 == h14
get h14 None:None:3
get h1 None:None:3
compare h15 == h16
compare h15 == x6262
""",
    ),
    Case(
        "truth values of bytes 0 and 1 are equal to the numbers 0 and 1",
        """
new bytes x010001
view h0
cast h1 '?'
cast h1 '?'
compare h2 == h3
compare h2 == h1
compare h1 == h2
compare h2 == x010001
compare h2 == x010101
compare h2 != x010101
new bytes x020005
view h4
cast h5 '@?'
cast h1 '@?'
compare h7 == h2
compare h6 == h1
compare h6 == h5
cast h1 'b'
compare h8 == h2
cast h1 'c'
compare h9 == h2
""",
    ),
    Case(
        "what is hashed is the bytes of what can't change",
        """
new bytes x616263
new bytearray x616263
hash h0
hash h1
view h0
view h1
hash h2
hash h3
get h2 None:None:-1
hash h4
get h2 None:None:2
hash h5
get h2 1:1:1
hash h6
cast h2 'b'
hash h7
cast h2 'c'
hash h8
cast h2 'B' [1,3]
hash h9
get h9 None:None:-1
hash h10
cast h2 'B' [3,1]
get h11 None:None:-1
hash h12
toreadonly h4
hash h13
cast h3 'b'
hash h14
get h3 None:None:-1
hash h15
new bytes x
hash h16
view h16
hash h17
cast h2 '@c'
hash h18
get h2 0:1:1
cast h19 'B' []
hash h20
release h15
hash h15
release h3
hash h3
release h6
compare h6 == h6
""",
    ),
    Case(
        "bytes in a repr, and views that were released before they had a hash",
        """
new bytes x61620a
repr h0
new bytearray x61620a
repr h1
view h0
release h2
hash h2
new bytes x
new bytearray x
repr h3
repr h4
append h4 92
repr h4
""",
    ),
    Case(
        "both quotes, one, and the other in a repr",
        """
new bytes x
repr h0
new bytes x27
repr h1
new bytes x22
repr h2
new bytes x2722
repr h3
new bytes x2227
repr h4
new bytes x275c27
repr h5
new bytes x225c0922
repr h6
new bytearray x22
repr h7
new bytearray x2722
repr h8
new bytearray x2227
repr h9
new bytearray x225c22
repr h10
new bytearray x27225c
repr h11
new bytearray x0a0d095c2722
repr h12
""",
    ),
]

# The native codes of numbers.
NUMBER_CODES = "".join(code for code in NATIVE_CODES if code not in "c?")


def by_code(codes, content):
    """The lines that make a view of some content by each code, and that compare all pairs of these."""
    lines = []
    for at, code in enumerate(codes):
        lines += [f"new bytes x{content(code).hex()}", f"view h{3 * at}", f"cast h{3 * at + 1} '{code}'"]
    views = range(2, 3 * len(codes), 3)
    return "\n".join(lines + [f"compare h{left} == h{right}" for left in views for right in views])


def by_code_in_a_shape(codes, shape, *numbers):
    """The lines that make a view of numbers in a shape by each code, and compare it, and it turned
    round, with those of the first code."""
    lines = []
    for at, code in enumerate(codes):
        exporter = 4 * at
        lines += [f"new bytes x{numbers_of(code, *numbers).hex()}", f"view h{exporter}", f"cast h{exporter + 1} '{code}' {shape}", f"get h{exporter + 2} None:None:-1"]
        lines += [f"compare h{exporter + one} {sign} h{other}" for one in (2, 3) for other in (2, 3) for sign in ("==", "!=")]
    return "\n".join(lines)


def numbers_of(code, *numbers):
    """Numbers as items of a native code."""
    return b"".join(struct.pack(code, bytes([it]) if code == "c" else it) for it in numbers)


PYTHON += [
    Case("equal numbers by each two native codes", by_code(NATIVE_CODES, lambda code: numbers_of(code, 1, 0, 1))),
    Case("numbers of which one is another, by each two native codes", by_code(NATIVE_CODES, lambda code: numbers_of(code, 1, 0, NATIVE_CODES.index(code) % 2))),
    Case("all bits of each native number code", by_code(NUMBER_CODES, lambda code: b"\xff" * struct.calcsize(code))),
    Case("the same bytes by each two native codes", by_code(NATIVE_CODES, lambda code: bytes([1, 0, 0, 0, 0, 0, 0, 0]))),
    Case("equal numbers of two dimensions by each native code", by_code_in_a_shape(NATIVE_CODES, "[3,2]", 1, 0, 0, 1, 1, 1)),
    Case("equal numbers of three dimensions by each native code", by_code_in_a_shape(NATIVE_CODES, "[2,2,2]", 1, 0, 0, 1, 1, 1, 0, 1)),
    Case(
        "shapes of one, of two and of three dimensions of the same bytes",
        "\n".join(
            ["new bytes x616161616161616161616161", "view h0"]
            + [f"cast h1 'B' {shape}" for shape in ["[12]", "[1,12]", "[12,1]", "[3,4]", "[4,3]", "[2,3,2]", "[3,2,2]", "[2,2,3]", "[1,3,4]", "[3,4,1]"]]
            + [f"compare h{left} == h{right}" for left in range(2, 12) for right in range(2, 12)]
        ),
    ),
    Case("each byte alone in a repr", "\n".join(f"new bytes x{byte:02x}\nrepr h{byte}" for byte in range(256))),
    Case("each byte alone in the repr of a bytearray", "\n".join(f"new bytearray x{byte:02x}\nrepr h{at}" for at, byte in enumerate(byte for byte in range(256) if byte != ord("'")))),
    Case("all bytes in a repr", f"new bytes x{bytes(range(256)).hex()}\nrepr h0\nnew bytearray x{bytes(range(256)).hex()}\nrepr h1"),
]


def drawn_comparisons(draw):
    """Slices of two exporters of few different bytes, compared with each other and with bytes."""
    bits = lambda count: bytes(draw.below(2) for _ in range(count)).hex()
    lines = [f"new bytearray x{bits(12)}", f"new bytes x{bits(12)}", "view h0", "view h1", "cast h2 'b' [3,4]", "cast h3 'B' [3,4]", "cast h2 'h'", "cast h3 'b' [6,2]"]
    made = 8
    for _ in range(40):
        step = draw.one_of(["1", "1", "-1", "2", "-2", "3"])
        start = draw.below(5)
        lines.append(f"get h{2 + draw.below(min(made, 20) - 2)} {f'{start}:None' if step[0] != '-' else f'None:{start}'}:{step}")
        made += 1
        lines.append(f"compare h{made - 1} {draw.one_of(['==', '!='])} h{2 + draw.below(made - 2)}")
        lines.append(f"compare h{2 + draw.below(made - 2)} == h{2 + draw.below(made - 2)}")
        lines.append(f"compare h{made - 1} == x{bits(draw.below(5))}")
        lines.append(f"compare h{draw.below(2)} {draw.one_of(['<', '<=', '>', '>='])} x{bits(draw.below(13))}")
    return "\n".join(lines)


def drawn_bytes(draw):
    """The text of drawn bytes, of which some are quotes."""
    lines = []
    for made in range(40):
        content = bytes(draw.one_of([34, 39, 92, 10, 97, 98, 0, 255]) for _ in range(draw.below(6)))
        kind = draw.one_of(["bytes", "bytearray"]) if b"'" not in content or b'"' in content else "bytes"
        lines += [f"new {kind} x{content.hex()}", f"repr h{made}"]
    return "\n".join(lines)


PYTHON += [Case(f"comparisons, drawn ({seed})", drawn_comparisons(Draw(seed))) for seed in (16, 17, 18, 19)]
PYTHON += [Case(f"bytes in a repr, drawn ({seed})", drawn_bytes(Draw(seed))) for seed in (20, 21)]

# Iterators.
PYTHON += [
    Case(
        "an iterator gives each byte once, in order, and then stops for ever",
        """
new bytes x00ff41
iter h0
hint h1
next h1
hint h1
next h1
next h1
hint h1
next h1
hint h1
next h1
new bytearray x800a
iter h2
next h3
next h3
next h3
next h3
hint h3
new bytes x
iter h4
hint h5
next h5
next h5
new bytearray x
iter h6
hint h7
next h7
append h6 1
next h7
hint h7
bytes h2
""",
    ),
    Case(
        "what is added before an iterator is exhausted is given, and after that nothing",
        """
new bytearray x0102
iter h0
next h1
append h0 3
hint h1
next h1
next h1
extend h0 x0405
next h1
iadd h0 x06
hint h1
next h1
next h1
next h1
hint h1
append h0 7
hint h1
next h1
iter h0
hint h2
next h2
next h1
""",
    ),
    Case(
        "what is taken out leaves the place of an iterator, and what is left falls to none and rises again",
        """
new bytearray x0102030405060708
iter h0
next h1
next h1
next h1
pop h0
hint h1
pop h0 0
hint h1
next h1
del h0 0:3:1
hint h1
next h1
extend h0 x0a0b
hint h1
iter h0
setstate h2 4
clear h0
hint h2
extend h0 x10111213
hint h2
append h0 20
hint h2
next h2
hint h2
clear h0
next h2
hint h2
extend h0 x3031323334353637
next h2
next h1
""",
    ),
    Case(
        "bytes that are put in, turned round and written anew between two items",
        """
new bytearray x010203040506
iter h0
next h1
next h1
insert h0 0 9
next h1
insert h0 3 10
next h1
reverse h0
next h1
set h0 5 255
next h1
set h0 0:0:1 x1415
hint h1
next h1
set h0 None:None:1 x1e1f202122232425
hint h1
next h1
remove h0 31
hint h1
next h1
""",
    ),
    Case(
        "a bytearray that is doubled, repeated and made anew between two items",
        """
new bytearray x0102
iter h0
next h1
extend h0 h0
hint h1
next h1
imul h0 2
hint h1
next h1
init h0 x4142434445
hint h1
next h1
next h1
next h1
imul h0 0
hint h1
iter h0
init h0 2
next h2
next h2
init h0 'ab' 'ascii'
next h2
copy h0
iter h3
next h4
clear h0
next h4
next h4
""",
    ),
    Case(
        "an iterator of an iterator is that iterator",
        """
new bytes x616263
iter h0
iter h1
next h1
iter h1
next h1
view h0
iter h2
iter h3
next h3
iter h3
next h3
next h1
next h1
iter h1
next h1
release h2
iter h3
next h3
""",
    ),
    Case(
        "several iterators of one subject, each at its own place",
        """
new bytearray x616263
view h0
iter h0
iter h0
iter h1
iter h1
next h2
next h2
next h3
next h4
next h4
next h4
next h4
next h5
hint h2
hint h3
set h0 2 90
next h2
next h5
next h5
next h4
next h2
next h3
iter h0
next h6
iter h1
next h7
""",
    ),
    Case(
        "an iterator keeps no bytearray from being resized, and a view does",
        """
new bytearray x6162
iter h0
prop h0 exports
append h0 99
view h0
iter h2
next h3
prop h0 exports
append h0 100
pop h0
next h1
release h2
prop h0 exports
append h0 100
next h3
next h1
next h1
next h1
next h1
next h3
""",
    ),
    Case(
        "places that an iterator is moved to",
        """
new bytes x6162636465
iter h0
setstate h1 3
hint h1
next h1
setstate h1 0
next h1
setstate h1 -1
next h1
setstate h1 -5
hint h1
setstate h1 True
next h1
setstate h1 False
next h1
setstate h1 5
hint h1
setstate h1 4
next h1
setstate h1 6
hint h1
setstate h1 2
hint h1
setstate h1 9223372036854775807
hint h1
setstate h1 -9223372036854775808
hint h1
setstate h1 0000000000000000000000000000000000000000000004
hint h1
next h1
next h1
setstate h1 0
hint h1
next h1
setstate h1 9223372036854775807
next h1
new bytearray x6162636465
iter h2
setstate h3 3
next h3
setstate h3 -2
next h3
setstate h3 True
next h3
setstate h3 6
hint h3
setstate h3 -9223372036854775808
hint h3
setstate h3 9223372036854775807
hint h3
next h3
setstate h3 0
hint h3
next h3
""",
    ),
    Case(
        "an iterator that is moved past the bytes goes on with those that are added",
        """
new bytearray x6162
iter h0
setstate h1 100
hint h1
append h0 99
hint h1
next h1
setstate h1 100
clear h0
hint h1
extend h0 x4142434445
hint h1
next h1
setstate h1 1
clear h0
setstate h1 3
extend h0 x5a59
next h1
setstate h1 2
next h1
append h0 88
setstate h1 0
next h1
hint h1
""",
    ),
    Case(
        "places of a wrong kind",
        """
new bytes x616263
iter h0
next h1
setstate h1 None
setstate h1 ...
setstate h1 'a'
setstate h1 x01
setstate h1 x
setstate h1 ()
setstate h1 (1)
setstate h1 []
setstate h1 [1]
setstate h1 0:1:1
setstate h1 (0:1:1)
setstate h1 h0
setstate h1 h1
hint h1
next h1
new bytearray x616263
iter h2
next h3
setstate h3 None
setstate h3 'a'
setstate h3 x01
setstate h3 h2
setstate h3 h3
hint h3
next h3
""",
    ),
    Case(
        "an iterator of a view by each native code",
        "\n".join(
            ["new bytes xff01800a000000f07f00000000000001", "view h0"]
            + [f"cast h1 '{code}'\niter h{2 * at + 2}\n" + "\n".join([f"next h{2 * at + 3}"] * (16 // struct.calcsize(code) + 2)) for at, code in enumerate(NATIVE_CODES)]
        ),
    ),
    Case(
        "an iterator of a slice of a view",
        """
new bytearray x616263646566
view h0
get h1 None:None:-1
iter h2
next h3
next h3
set h0 3 90
next h3
get h2 1:None:2
iter h4
next h5
next h5
next h5
next h5
cast h1 'H'
get h6 None:None:-2
iter h7
next h8
next h8
next h8
get h1 2:2:1
iter h9
next h10
next h10
get h1 5:1:1
iter h11
next h12
get h1 1:5:3
iter h13
next h14
next h14
next h14
cast h1 'h'
get h15 None:None:-1
iter h16
next h17
next h17
next h17
next h17
range h0 2 4
iter h18
next h19
next h19
next h19
toreadonly h2
iter h20
next h21
next h3
next h3
next h3
next h3
""",
    ),
    Case(
        "an iterator of a view of no bytes, of one item and of a shape of one dimension",
        """
new bytes x
view h0
iter h1
next h2
next h2
cast h1 'B'
iter h3
next h4
new bytes x01020304
view h5
cast h6 'I'
iter h7
next h8
next h8
cast h6 'H' [2]
iter h9
next h10
next h10
next h10
cast h6 'B' [2,2]
cast h11 'b' [4]
iter h12
next h13
get h6 None:None:-1
contig h14
iter h16
next h17
next h17
""",
    ),
    Case(
        "writes are seen by every iterator that comes to them later",
        """
new bytearray x6162636465
view h0
iter h0
iter h1
next h2
next h3
set h1 0 65
set h0 1 66
next h2
next h3
set h1 3:None:1 x4445
next h2
next h3
next h2
next h3
cast h1 'B'
set h4 4 255
next h2
next h3
cast h1 'b'
iter h5
setstate h2 0
next h6
reverse h0
next h6
next h6
""",
    ),
    Case(
        "a view that is released between two items, and the bytes and the other views that go on",
        """
new bytearray x616263
view h0
view h0
iter h1
iter h2
iter h0
next h3
next h4
next h5
release h1
next h3
next h3
next h4
next h5
append h0 100
release h2
next h4
append h0 100
next h3
next h5
next h5
next h5
next h4
view h0
iter h6
next h7
next h3
""",
    ),
    Case(
        "an iterator that is exhausted before its view is released",
        """
new bytes x61
view h0
iter h1
next h2
next h2
release h1
next h2
next h2
new bytes x
view h3
iter h4
next h5
release h4
next h5
cast h1 'H'
""",
    ),
    Case(
        "an iterator among the values is of a wrong kind, and stays where it is",
        """
new bytearray x616263
new bytes x616263
view h1
iter h0
iter h1
iter h2
next h3
get h0 h3
get h0 h4:None:None
get h0 None:h5:None
get h0 0:1:h3
get h0 [h3]
get h1 h5
get h2 h3
get h2 (h4)
get h2 (0,h4)
get h2 0:h5:1
set h0 h3 1
set h0 0 h3
set h0 0 [h3]
set h0 h4:1:1 x61
set h0 0:1:h4 x61
set h0 0:1:1 [h3]
del h0 h3
del h0 0:h3:1
range h0 h3 1
range h0 0 h4
append h0 h3
extend h0 [h4]
extend h0 (1,h5)
iadd h0 h3
iadd h0 h5
insert h0 h3 1
insert h0 0 h4
pop h0 h3
remove h0 h4
imul h0 h3
init h0 x61 h3
init h0 'a' h4
init h0 'a' 'utf-8' h5
new bytes [h3]
new bytes x61 h4
new bytearray 'a' h5
new bytearray 'a' 'ascii' h3
cast h2 h3
cast h2 'B' h3
cast h2 'B' [h4]
cast h2 'B' (1,h5)
setstate h3 h4
setstate h4 h5
view h0
set h6 h3 1
set h6 0 h3
set h6 0 h5
set h6 (h3) 1
set h6 0:1:1 h4
set h6 0:1:1 [h4]
set h6 h5:1:1 x61
iter h6
iadd h0 h7
append h0 h7
get h0 h7
pop h0 h7
set h6 0 h7
set h6 0:1:1 h7
set h6 h7 0
bytes h0
next h3
next h4
next h5
""",
    ),
    Case(
        "an iterator is unequal to every view, and has no order with one",
        """
new bytes x6162
view h0
iter h0
iter h1
compare h1 == h2
compare h1 != h2
compare h1 == h3
compare h1 != h3
compare h1 < h2
compare h1 >= h3
compare h1 == [h3]
cast h1 'B' [1,2]
compare h4 == h3
compare h4 != h2
release h1
compare h1 == h3
compare h1 != h3
next h2
""",
    ),
]


PYTHON += [
    Case(
        "which bytes and numbers stand in bytes and in a bytearray",
        """
new bytes x616263616264
contains h0 97
contains h0 101
contains h0 x6263
contains h0 x626361
contains h0 x6161
contains h0 x
contains h0 True
contains h0 h0
new bytearray x0001ff
contains h1 True
contains h1 False
contains h1 255
contains h1 256
contains h1 -1
contains h1 9223372036854775808
contains h1 -170141183460469231731687303715884105728
contains h1 'a'
contains h1 None
contains h1 ...
contains h1 0:1:1
contains h1 (0:1:1)
contains h1 h1
contains h1 h0
view h0
contains h0 h2
get h2 1:3:1
contains h0 h3
contains h1 h3
cast h3 'H'
contains h0 h4
get h2 6:None:None
contains h1 h5
release h3
contains h0 h3
contains h1 h3
new bytes x
contains h6 x
contains h6 h6
contains h6 0
contains h6 h0
iter h0
contains h0 h7
next h7
bytes h0
bytes h1
""",
    ),
    Case(
        "a live bytearray is searched, and its methods change nothing",
        """
new bytearray x2061425f6142200a
view h0
view h0
contains h0 h1
call h0 find h2
call h0 strip
call h0 upper
call h0 split x5f
call h0 replace x6142 x63
call h0 add h1
call h0 mul 2
call h0 translate None x20
call h0 splitlines
bytes h0
set h1 0 33
call h0 strip
call h0 count h2
append h0 1
release h1
release h2
append h0 33
call h0 rstrip x21
bytes h0
prop h0 exports
""",
    ),
    Case(
        "the digits of the bytes of views",
        """
new bytes x00ff10abcdef
view h0
hex h1
hex h1 ':'
hex h1 x2d 2
hex h1 ':' -2
hex h1 ':' 4
hex h1 ':' -4
hex h1 ':' 6
hex h1 ':' 0
hex h1 ':' True
hex h1 ':' 2147483647
hex h1 ':' -2147483647
get h1 None:None:-1
hex h2
hex h2 ':' 4
get h1 None:None:2
hex h3 '.'
cast h1 'H'
hex h4
hex h4 ':' 2
get h4 None:None:-1
hex h5 ':' 2
cast h1 'B' [2,3]
hex h6 ':' 3
get h6 None:None:-1
hex h7 ':' 3
cast h1 'c' [3,2]
hex h8 ':' 3
get h8 None:None:-1
hex h9 ':' -3
get h1 3:4:1
hex h10 ':'
cast h10 'B' []
hex h11
get h1 6:None:None
hex h12
hex h12 ':'
get h6 2:None:None
hex h13 ':' 9
toreadonly h2
hex h14
bytes h0
""",
    ),
    Case(
        "digits that are refused, and separators of each kind",
        """
new bytes x0a0b0c
new bytes x3a
new bytearray x3a
view h0
view h1
hex h3 h1
hex h3 h1 2
hex h3 h2
hex h3 h4
hex h3 h0
hex h3 '::'
hex h3 x
hex h3 x3a3a 2
hex h3 x80
hex h3 xff 2
hex h3 x7f
hex h3 x27
hex h3 x09
hex h3 x5c
hex h3 5
hex h3 None
hex h3 True
hex h3 (58)
hex h3 ...
hex h3 0:1:1
hex h3 ':' 'a'
hex h3 ':' None
hex h3 ':' x01
hex h3 ':' h0
hex h3 ':' 9223372036854775808
hex h3 ':' -9223372036854775809
release h3
hex h3
hex h3 ':'
hex h3 ':' 2
bytes h0
""",
    ),
    Case(
        "the digits of bytes and bytearrays, and digits read back",
        """
new bytes x010203
call h0 hex
call h0 hex ':'
call h0 hex ':' 2
call h0 hex x2d -2
call h0 hex ':' 0
new bytearray xfedcba9876543210
call h1 hex
call h1 hex '_' 3
call h1 hex '_' -3
call h1 hex h0
new bytes x2e
call h1 hex h2
call h1 hex 5
call h1 hex ':' 'a'
call h0 hex xe9
new bytes x
call h3 hex
call h3 hex ':' 2
call h3 fromhex '4a4B'
call h0 fromhex 'fF00'
call h1 fromhex '0A'
call h0 fromhex '0'
call h0 fromhex '0g'
call h0 fromhex '000'
call h0 fromhex '0:0'
call h0 fromhex x3030
call h0 fromhex h2
call h0 fromhex 30
call h0 fromhex None
bytes h1
""",
    ),
    Case(
        "which bytes are letters, digits, blanks, of one case and titles",
        """
new bytes x6142
new bytearray x3132
new bytes x61422031
new bytes x090a0b0c0d20
new bytearray x61e9
new bytes x
new bytes x4142
new bytearray x6162
new bytes x4162204364
new bytes x41622063
call h0 isalnum
call h1 isalnum
call h2 isalnum
call h5 isalnum
call h0 isalpha
call h1 isalpha
call h4 isalpha
call h5 isalpha
call h0 isascii
call h4 isascii
call h5 isascii
call h1 isdigit
call h2 isdigit
call h5 isdigit
call h3 isspace
call h2 isspace
call h5 isspace
call h7 islower
call h4 islower
call h0 islower
call h1 islower
call h6 isupper
call h0 isupper
call h2 isupper
call h5 isupper
call h8 istitle
call h9 istitle
call h6 istitle
call h1 istitle
call h5 istitle
""",
    ),
    Case(
        "letters in another case",
        """
new bytes x6142632d6445e9c931642041
call h0 lower
call h0 upper
call h0 swapcase
call h0 capitalize
call h0 title
new bytearray x676574496e74
call h1 lower
call h1 upper
call h1 swapcase
call h1 capitalize
call h1 title
new bytes x
call h2 lower
call h2 upper
call h2 swapcase
call h2 capitalize
call h2 title
bytes h0
bytes h1
""",
    ),
    Case(
        "bytes filled up to a width",
        """
new bytes x616263
new bytearray x2b31
new bytes x2a
call h0 center 6
call h0 center 7 x2a
call h0 center 6 h2
call h0 center 3
call h0 center -1 x2a
call h1 center 5 x2d
call h1 center 4 x2d
call h0 ljust 6
call h0 ljust 6 x2e
call h1 ljust 5 h2
call h0 rjust 6
call h0 rjust 6 x2e
call h1 rjust True
new bytearray x7e
call h0 center 8 h3
call h3 rjust 3 h3
call h0 zfill 5
call h1 zfill 5
call h1 zfill 2
call h1 zfill -9223372036854775808
new bytes x2d
call h4 zfill 3
new bytes x
call h5 zfill 2
call h5 center 2
call h0 center 'a'
call h0 center None x2a
call h0 center 9223372036854775808
call h0 center -9223372036854775809 x2a
call h0 center 6 x
call h0 center 6 x2a2a
call h0 center 6 42
call h0 center 6 'a'
call h0 center 6 None
call h0 center 6 [42]
call h0 center 1 x2a2a
view h2
call h0 center 6 h6
release h6
call h0 center 6 h6
call h0 ljust 6 h0
call h0 rjust x 5
call h1 zfill x
call h1 zfill 9223372036854775808
bytes h1
""",
    ),
    Case(
        "where a needle stands, from the left and from the right",
        """
new bytes x616263616263
call h0 find x6263
call h0 find x62 2
call h0 find x62 2 4
call h0 find x64
call h0 find 99
call h0 find x
call h0 find x 6
call h0 find x 7
call h0 find x 3 2
call h0 rfind x6263
call h0 rfind x62 0 4
call h0 rfind x62 0 5
call h0 rfind x
call h0 rfind x 7
call h0 rfind 97 None -1
call h0 index x6361
call h0 index x6361 -4
call h0 index x6361 3
call h0 rindex 97
call h0 rindex 97 None 3
call h0 rindex 100
call h0 count x6263
call h0 count 98 -3
call h0 count x
call h0 count x 7
call h0 count x 2 4
call h0 count x616263616263
new bytearray x616161
call h1 count x6161
call h1 find x6161 True
call h1 rfind x6161 False True
call h1 count x61 -9223372036854775809 9223372036854775808
call h1 find x61 -170141183460469231731687303715884105728
call h1 find x61 170141183460469231731687303715884105727
call h1 rfind x61 None None
call h1 index x61 1 None
new bytes x
call h2 find x
call h2 find x61
call h2 find x 1
call h2 count x
call h2 rindex x
call h2 index x61
""",
    ),
    Case(
        "needles that are handles, and those that are refused",
        """
new bytearray x6162636162
view h0
get h1 3:None:None
call h0 find h2
call h0 rfind h2
call h0 count h2 1
call h0 find h0
call h0 index h1 1
call h0 count h1
new bytes x6261
view h3
call h0 find h3
call h0 find h4 2
cast h4 'H'
call h3 find h5
call h3 rfind h0
call h0 find 'a'
call h0 find None
call h0 find ...
call h0 find 0:1:1
call h0 find 256
call h0 index -1
call h0 count 9223372036854775808
call h0 find x61 'a'
call h0 find x61 0 'a'
call h0 rfind x61 x00
call h0 rindex x61 None ...
call h0 find x61 [0]
call h0 count x61 0:1:1 2
iter h3
call h0 find h6
call h0 find x61 h6
release h4
call h0 find h4
call h0 rfind h4 0
call h0 index h4 0 1
call h0 count h4
bytes h0
next h6
""",
    ),
    Case(
        "what bytes begin and end with",
        """
new bytes x616263646566
new bytearray x6162
new bytes x6566
call h0 startswith x6162
call h0 startswith h1
call h0 startswith h2
call h0 startswith h0
call h0 startswith x
call h0 startswith x62 1
call h0 startswith x62 1 2
call h0 startswith x6263 1 2
call h0 startswith x -1 -2
call h0 startswith x 6
call h0 startswith x 7
call h0 startswith (x62,x61)
call h0 startswith (h2,h1)
call h0 startswith (h2,x62,x) 3
call h0 startswith ()
call h0 startswith (x61,5)
call h0 startswith (5,x61)
call h0 startswith (x62,'a')
call h0 startswith (h0,h0)
call h0 endswith h2
call h0 endswith x6162
call h0 endswith x65 None -1
call h0 endswith x65 4 5
call h0 endswith x6465 4 5
call h0 endswith (h1,h2)
call h0 endswith ()
call h0 endswith x 6 6
call h1 startswith h0
call h1 endswith h1
view h1
call h0 startswith h3
call h1 endswith (x7a,h3)
call h0 startswith 97
call h0 startswith 'a'
call h0 startswith None
call h0 startswith (None)
call h0 startswith x61 'a'
call h0 startswith 'a' x
call h0 endswith x61 0 h0
call h0 endswith (0:1:1)
release h3
call h0 startswith h3
call h0 endswith (x66,h3)
call h0 endswith (h3,x66)
""",
    ),
    Case(
        "bytes put together",
        """
new bytes x2c
new bytearray x6162
view h1
call h0 add x63
call h0 add h1
call h0 add h2
call h0 add h0
call h1 add h1
call h1 add x
call h0 concat x63
call h0 concat h1
call h0 concat h2
call h1 concat h1
call h1 mul 3
call h1 mul 0
call h1 mul -9223372036854775808
call h1 mul True
call h0 join [x61,x62,x63]
call h0 join (h1,h2,h0)
call h0 join [h1]
call h0 join []
call h0 join ()
call h1 join [h1,h1]
call h1 join (x,x)
call h0 add 5
call h0 add 'a'
call h0 add None
call h0 add [1]
call h0 add (1)
call h0 concat 5
call h0 concat 'a'
call h0 concat [1]
call h0 concat None
call h0 mul 'a'
call h0 mul None
call h0 mul x01
call h0 mul h1
call h0 mul [1]
call h0 mul 9223372036854775808
call h1 mul -9223372036854775809
new bytes x616263
call h3 mul 9223372036854775807
call h3 mul 4611686018427387904
call h0 join 5
call h0 join None
call h0 join 'a'
call h0 join x6162
call h0 join h1
call h0 join [x61,5]
call h0 join ['a',x61]
call h0 join [x61,None]
call h0 join (0:1:1)
get h2 None:None:-1
call h0 add h4
bytes h0
bytes h1
prop h1 exports
""",
    ),
    Case(
        "tables, and bytes mapped by them",
        """
new bytes x616263
new bytes x585a59
call h0 maketrans x x
call h0 translate None
call h0 translate None x62
call h0 translate None h0
new bytearray x6162636162
call h2 translate None x6162
call h2 translate None h2
view h2
call h2 translate None h3
call h2 maketrans h0 h1
call h0 maketrans x6162 x61
call h0 maketrans x x61
call h0 maketrans 'a' x61
call h0 maketrans x61 5
call h0 maketrans None x61
call h0 maketrans x61 'a'
new bytes x000102030405060708090a0b0c0d0e0f101112131415161718191a1b1c1d1e1f202122232425262728292a2b2c2d2e2f303132333435363738393a3b3c3d3e3f404142434445464748494a4b4c4d4e4f505152535455565758595a5b5c5d5e5f6058595a6465666768696a6b6c6d6e6f707172737475767778797a7b7c7d7e7f808182838485868788898a8b8c8d8e8f909192939495969798999a9b9c9d9e9fa0a1a2a3a4a5a6a7a8a9aaabacadaeafb0b1b2b3b4b5b6b7b8b9babbbcbdbebfc0c1c2c3c4c5c6c7c8c9cacbcccdcecfd0d1d2d3d4d5d6d7d8d9dadbdcdddedfe0e1e2e3e4e5e6e7e8e9eaebecedeeeff0f1f2f3f4f5f6f7f8f9fafbfcfdfeff
call h2 translate h4
call h2 translate h4 x62
view h4
call h0 translate h5
call h4 translate h4
call h0 translate x00
call h0 translate x
call h0 translate h0
call h0 translate None 'a'
call h0 translate None 97
call h0 translate h4 None
call h0 translate x61 5
release h5
call h0 translate h5
call h0 translate None h5
""",
    ),
    Case(
        "bytes without those at their ends",
        """
new bytes x2009612062200a
new bytearray x787961786278
call h0 strip
call h0 lstrip
call h0 rstrip
call h0 strip None
call h0 rstrip None
call h1 strip x78
call h1 strip x7879
call h1 lstrip x7978
call h1 rstrip x78
call h1 strip
call h1 strip x
call h1 strip h1
call h1 rstrip h0
view h1
call h1 lstrip h2
get h2 0:2:1
call h1 strip h3
cast h3 'H'
call h1 lstrip h4
call h1 removeprefix x7879
call h1 removeprefix x79
call h1 removeprefix h3
call h1 removeprefix h1
call h1 removeprefix x
call h1 removesuffix x78
call h1 removesuffix x7878
call h1 removesuffix h0
call h1 removesuffix x
new bytes x
call h5 strip
call h5 strip x61
call h5 removesuffix x61
call h1 strip 'x'
call h1 lstrip 120
call h1 rstrip ...
call h1 removeprefix None
call h1 removeprefix 'x'
call h1 removesuffix 5
release h3
call h1 strip h3
call h1 removeprefix h3
call h1 removesuffix h3
bytes h0
bytes h1
""",
    ),
    Case(
        "bytes cut at a separator, from the left and from the right",
        """
new bytes x612c622c2c63
new bytearray x2c
call h0 split x2c
call h0 split x2c 1
call h0 split x2c 0
call h0 split x2c -1
call h0 split h1 2
call h0 rsplit h1 1
call h0 rsplit x2c
call h0 rsplit x2c 0
call h0 rsplit x2c -9223372036854775808
call h0 split x2c 9223372036854775807
call h0 split x2c2c
call h0 rsplit x7a
call h0 split h0
call h1 split h1
call h1 rsplit h1 True
new bytes x
call h2 split x2c
call h2 rsplit x2c
new bytearray x616161
call h3 split x6161
call h3 rsplit x6161
call h0 split x
call h0 rsplit h2
call h0 split 'a'
call h0 split 44
call h0 rsplit ...
call h0 split x2c 'a'
call h0 split x2c None
call h0 rsplit x2c 9223372036854775808
call h0 split x2c x01
call h0 partition x2c
call h0 partition x2c2c
call h0 partition x7a
call h0 rpartition x2c
call h0 rpartition h1
call h0 rpartition x7a
call h1 partition h1
call h2 rpartition x61
call h3 partition h3
call h3 rpartition x61
call h0 partition x
call h0 partition h2
call h0 rpartition x
call h0 partition 44
call h0 partition None
call h0 rpartition 'a'
view h1
call h0 split h4
call h0 rpartition h4
release h4
call h0 split h4
call h0 rsplit h4 1
call h0 partition h4
call h0 rpartition h4
bytes h0
""",
    ),
    Case(
        "bytes cut at blanks and at the ends of lines",
        """
new bytes x2061200962206320
call h0 split
call h0 split None
call h0 split None 1
call h0 split None 2
call h0 split None 0
call h0 split None 5
call h0 rsplit
call h0 rsplit None 1
call h0 rsplit None 0
call h0 rsplit None -1
new bytearray x200a
call h1 split
call h1 rsplit None 0
new bytes x610b621c630d0a64
call h2 split
new bytes x610a620d0a0a630d640a
call h3 splitlines
call h3 splitlines True
call h3 splitlines False
call h3 splitlines 0
call h3 splitlines -5
call h3 splitlines 2147483647
call h2 splitlines 1
call h1 splitlines True
new bytes x
call h4 splitlines
call h4 split
call h4 rsplit
call h3 splitlines 'a'
call h3 splitlines None
call h3 splitlines x01
call h0 split None 'a'
call h0 split None None
call h0 rsplit None 9223372036854775808
""",
    ),
    Case(
        "tabs as spaces",
        """
new bytes x610962630964
call h0 expandtabs
call h0 expandtabs 4
call h0 expandtabs 1
call h0 expandtabs 0
call h0 expandtabs -3
call h0 expandtabs True
new bytearray x090a61090d0962
call h1 expandtabs
call h1 expandtabs 2
new bytes x616263
call h2 expandtabs
call h2 expandtabs 2147483647
call h0 expandtabs 'a'
call h0 expandtabs None
call h0 expandtabs x04
call h0 expandtabs 9223372036854775808
bytes h1
""",
    ),
    Case(
        "others in place of matches",
        """
new bytes x616261626162
call h0 replace x6162 x63
call h0 replace x6162 x63 1
call h0 replace x6162 x63 0
call h0 replace x6162 x63 -1
call h0 replace x61 x
call h0 replace x61 x787878 2
call h0 replace x x2e
call h0 replace x x2e 2
call h0 replace x x
call h0 replace x7a x79
call h0 replace x6162 x63 9223372036854775807
new bytearray x616161
call h1 replace x6161 x62
call h1 replace h1 x62
call h1 replace x61 h1
call h1 replace h1 h1
call h1 replace h0 h1
call h0 replace h1 h0
view h1
call h1 replace h2 h0
get h2 0:1:1
call h0 replace h3 h2
call h1 replace h3 x True
new bytes x
call h4 replace x x61
call h4 replace x x61 0
call h4 replace x61 x62
call h0 replace 'a' x
call h0 replace x61 5
call h0 replace x61 None
call h0 replace 97 98
call h0 replace x61 x62 'a'
call h0 replace x61 x62 None
call h0 replace x61 x62 9223372036854775808
release h3
call h0 replace h3 x
call h0 replace x61 h3
bytes h0
bytes h1
""",
    ),
    Case(
        "texts of bytes",
        """
new bytes x616263
call h0 decode
call h0 decode 'utf-8'
call h0 decode 'ascii'
call h0 decode 'utf8' 'strict'
new bytearray x6127220a5c00
call h1 decode
call h1 decode 'ascii' 'strict'
new bytes x2761
call h2 decode
new bytes x
call h3 decode
call h3 decode 'ascii'
new bytes xff
call h4 decode
call h4 decode 'utf-8' 'strict'
call h4 decode 'ascii'
new bytearray xc3
call h5 decode
new bytes xeda080
call h6 decode 'utf8'
call h0 decode 5
call h0 decode x61
call h0 decode h2
call h0 decode 'ascii' 5
call h0 decode 'ascii' ...
bytes h1
""",
    ),
    Case(
        "several handles in one call",
        """
new bytes x2d
new bytearray x6162
new bytes x6162
view h1
view h2
get h3 None:None:-1
call h0 join [h1,h2,h0]
call h0 join (h3,h4,h0,x)
call h1 replace h2 h0
call h1 replace h3 h4
call h1 replace h1 h1 1
call h1 startswith (h0,h2)
call h1 endswith (h4,h3)
call h1 find h4
call h1 translate None h3
call h2 strip h4
call h0 center 5 h0
call h2 split h1
call h2 partition h3
contains h1 h4
contains h2 h3
call h0 maketrans h0 h0
call h1 removeprefix h2
call h2 removesuffix h1
set h1 0 90
call h0 join [h1,h2,h3]
call h2 find h3
bytes h1
bytes h2
prop h1 exports
prop h2 exports
""",
    ),
    Case(
        "views of every shape as arguments",
        """
new bytes x616263646162
view h0
cast h1 'H'
cast h1 'B' [2,3]
cast h1 'c'
get h1 0:1:1
cast h5 'B' []
get h1 6:None:None
get h3 2:None:None
call h0 find h2
call h0 count h6
call h0 startswith h3
call h0 strip h6
call h0 split h7
call h0 split h6
call h0 replace h6 h3
call h0 add h2
call h0 concat h3
call h0 join [h1,h2,h3]
call h0 count h8
contains h0 h4
call h0 removeprefix h4
call h0 partition h4
call h0 rpartition h6
get h2 1:None:None
call h0 find h9
call h0 endswith (h9,h6)
bytes h0
prop h0 exports
""",
    ),
    Case(
        "a vector as an argument",
        """
new bytes x62616261
view h0
get h1 None:None:-1
contig h2
call h0 find h3
call h0 count h4
call h0 add h3
call h0 concat h4
call h0 join [h3,h4]
call h0 replace h3 h0
call h0 startswith (h4,h3)
call h0 strip h3
contains h0 h3
call h0 translate None h3
call h0 removeprefix h3
""",
    ),
    Case(
        "no argument is of a kind that no method has",
        """
new bytearray x6162
call h0 find (0:1:1)
call h0 strip (0:1:1)
call h0 add (0:1:1)
call h0 mul (0:1:1)
call h0 join (0:1:1,0:1:1)
call h0 center (0:1:1)
call h0 hex (0:1:1)
call h0 decode (0:1:1)
call h0 fromhex (0:1:1)
call h0 split ... ...
call h0 replace ... x
call h0 expandtabs ...
call h0 splitlines ...
call h0 zfill ...
call h0 removeprefix ...
call h0 startswith ...
call h0 maketrans ... x
contains h0 (0:1:1)
bytes h0
""",
    ),
]


def drawn_iterators(draw):
    """Iterators of a bytearray that is edited, of bytes, and of views that are written."""
    lines = ["new bytearray x000102030405", "new bytes x6162636465", "new bytearray x707172737475", "view h2", "get h3 None:None:-2"]
    lines += [f"iter h{of}" for of in (3, 4, 1, 0, 0)]
    # the last handle, and the first handle of an iterator that doesn't go over a view
    last, first = 9, 7
    for turn in range(110):
        own = first + draw.below(last + 1 - first)
        lines.append(
            draw.one_of(
                [
                    *[f"next h{5 + draw.below(last - 4)}"] * 4,
                    f"hint h{own}",
                    f"hint h{own}",
                    f"setstate h{own} {draw.below(16) - 4}",
                    f"append h0 {draw.below(256)}",
                    f"insert h0 {draw.below(9) - 3} {draw.below(256)}",
                    f"pop h0 {draw.below(9) - 3}",
                    f"del h0 {draw.below(4)}:{draw.below(9)}:{1 + draw.below(2)}",
                    f"extend h0 x{bytes(draw.below(256) for _ in range(draw.below(4))).hex()}",
                    "reverse h0",
                    f"set h3 {draw.below(6)} {draw.below(256)}",
                ]
            )
        )
        if turn % 15 == 14:
            # these take the place of iterators that are exhausted
            last += 1
            lines += ["iter h0", f"setstate h{last} {draw.below(3)}", "bytes h0"]
    return "\n".join(lines)


PYTHON += [Case(f"iterators, drawn ({seed})", drawn_iterators(Draw(seed))) for seed in (22, 23, 24, 25)]

def asked(*rows):
    """Lines that make bytes of each content, and then ask the lines of this content, in which `h0` stands for the bytes."""
    lines = []
    for number, (content, *asks) in enumerate(rows):
        lines.append(f"new bytes x{content.hex()}")
        lines += [re.sub(r"\bh0\b", f"h{number}", ask) for ask in asks]
    return "\n".join(lines)


CASE_METHODS = [f"call h0 {name}" for name in ("lower", "upper", "swapcase", "capitalize", "title", "istitle")]
LETTERED = [
    b" hello ",
    b"hello ",
    b"Hello ",
    b"fOrMaT thIs aS titLe String",
    b"fOrMaT,thIs-aS*titLe;String",
    b"getInt",
    b"a1b\xe9C",
    b"",
    b"A",
    b"A Titlecased Line",
    b"A\nTitlecased Line",
    b"A Titlecased, Line",
    b"a",
    b"\n",
    b"Not a capitalized String",
    b"Not\ta Titlecase String",
    b"Not--a Titlecase String",
    b"NOT",
    b"A1B",
    b"A1b",
    b"1",
]

PYTHON += [
    Case("letters of whole lines in another case", asked(*((text, *CASE_METHODS) for text in LETTERED))),
    Case(
        "parts and lines one by one",
        asked(
            (b" a b c ", "call h0 split None 1", "call h0 rsplit None 1", "call h0 split", "call h0 rsplit", "call h0 split None 0", "call h0 rsplit None 0"),
            (b"a\x0b\x0cb\x1c", "call h0 split None 5", "call h0 rsplit None 5"),
            (b" \t", "call h0 split None 0", "call h0 rsplit None 0"),
            (b"", "call h0 split", "call h0 rsplit", "call h0 splitlines", "call h0 splitlines True"),
            (b"a\nb\r\nc\rd", "call h0 splitlines", "call h0 splitlines True", "call h0 splitlines 2"),
            (b"a\n\n", "call h0 splitlines", "call h0 splitlines True"),
            (b"\r\r\n", "call h0 splitlines", "call h0 splitlines True"),
            (b"\n\r", "call h0 splitlines", "call h0 splitlines True"),
            (b"a,b,,c", "call h0 split x2c", "call h0 rsplit x2c 2", "call h0 split x2c 1", "call h0 split x"),
            (b"aaaa", "call h0 split x616161 9223372036854775807", "call h0 rsplit x616161 -9223372036854775808"),
            (b"a,b", "call h0 partition x2c", "call h0 rpartition x2c", "call h0 partition x7a", "call h0 rpartition x7a"),
            (b" a b c ", "call h0 partition x2061", "call h0 rpartition x2061", "call h0 rsplit x20 2"),
        ),
    ),
    Case(
        "bytes put together, repeated and filled up one by one",
        asked(
            (b"ab", "call h0 add x63", "call h0 mul 3", "call h0 mul 9223372036854775807", "call h0 join [x31,x32]", "call h0 join []"),
            (b"abab", "call h0 removeprefix x6162", "call h0 removesuffix x61", "call h0 removesuffix x6162"),
            (b"abc", "call h0 center 6 x2a", "call h0 ljust 5 x2e", "call h0 rjust 5 x2e", "call h0 rjust -5 x2e", "call h0 rjust 6", "call h0 center 6 x2a2a"),
            (b"ab", "call h0 center 5 x2a"),
            (b"-42", "call h0 zfill 5"),
            (b"42", "call h0 zfill 5"),
            (b"", "call h0 zfill 2"),
            (b"01\t012\t0123\n\t4", "call h0 expandtabs 4", "call h0 expandtabs"),
            (b"\ta\t", "call h0 expandtabs -1"),
        ),
    ),
    Case(
        "digits of bytes and back one by one",
        asked(
            (b"\x01\x02\x03", "call h0 hex", "call h0 hex ':' 2", "call h0 hex ':' -2", "call h0 hex ':'", "call h0 hex x3a"),
            (b"\xab\xcd", "call h0 hex '-' 1", "call h0 hex '--' 1"),
            (b"\xab", "call h0 hex '--' 1", "call h0 hex x80 1"),
            (b"", "call h0 fromhex '0aFf10'", "call h0 fromhex '0'", "call h0 fromhex '0g'"),
        ),
    ),
    Case(
        "matches replaced and bytes mapped one by one",
        asked(
            (b"Python", "call h0 replace x x2e", "call h0 replace x x2e 2", "call h0 replace x x2e 0"),
            (b"", "call h0 replace x x6162", "call h0 replace x x6162 0"),
            (b"aaaa", "call h0 replace x6161 x78797a"),
            (b"banana", "call h0 replace x616e x 1", "call h0 replace x616e x414e 1", "call h0 replace x616e x6c6f6e676572 0", "call h0 replace x71 x6c6f6e676572"),
            (b"abracadabra", "call h0 translate None x72"),
        ),
    ),
    Case(
        "needles one by one",
        asked(
            (b"abc", "call h0 find x 4", "call h0 count x 4", "call h0 find x 3", "call h0 count x 3", "call h0 find x", "call h0 count x", "call h0 find x7a", "call h0 count 98 -3", "contains h0 99"),
            (b"abcabc", "call h0 find x63 3", "call h0 rfind 97", "call h0 find x64 None 2", "call h0 count x", "call h0 startswith x6263 1", "call h0 index x64"),
            (b"abc", "call h0 startswith (x62,x61) 0", "call h0 endswith (x62,x61) 0", "call h0 startswith (x62,x6263) -2", "call h0 endswith (x62,x6263) -2", "call h0 startswith 97"),
        ),
    ),
    Case(
        "texts decoded by each name",
        asked(
            (b"ab", "call h0 decode", "call h0 decode 'ascii'", "call h0 decode 'utf8' 'strict'"),
            (b"\xc3\xa9", "call h0 decode 'ascii'"),
            (b"\xff", "call h0 decode"),
        ),
    ),
    Case(
        "bytes compared by each operator",
        asked(
            *(
                (left, *(f"compare h0 {operator} x{right.hex()}" for operator in ("==", "!=", "<", "<=", ">", ">=")))
                for left, right in (
                    (b"", b""),
                    (b"", b"a"),
                    (b"a", b""),
                    (b"ab", b"b"),
                    (b"ab", b"a"),
                    (b"\xff", b"\x00"),
                    (b"0123456789abcdefg", b"0123456789abcdefg"),
                    (b"0123456789abcdefg", b"0123456789abcdefh"),
                )
            )
        ),
    ),
    Case(
        "views of bytes apart compared one by one",
        """
new bytes x010203
new bytes x78030201
new bytes x0102030405060708
new bytes x0102000000000506
new bytes x01020506
new bytes x0100ffff
new bytes x01ff
new bytes x01fe
view h0
get h8 None:None:-1
range h1 1 4
compare h8 == h8
compare h8 == h9
compare h9 == h10
compare h10 == h9
compare h9 == x010203
compare h9 == x030201
view h2
cast h11 'B' [4,2]
get h12 None:None:2
view h3
cast h14 'B' [4,2]
get h15 None:None:3
view h4
cast h17 'B' [2,2]
cast h17 'B' [4,1]
compare h13 == h18
compare h18 == h13
compare h16 == h18
compare h18 == h16
compare h18 == h19
compare h13 == h16
compare h18 == x01020506
view h5
cast h20 'h'
cast h20 'H'
view h6
cast h23 'b'
view h7
cast h25 'b'
compare h21 == h21
compare h21 == h24
compare h26 == h21
compare h21 == h22
""",
    ),
]
ASSIGNED = [assigned(Draw(12 + number), step, others) for others in (False, True) for number, step in enumerate(STEPS)]

# Beside each line stands our reply, written by hand. Python's reply is put beside it if it differs.
DIFFERENCES = [
    Case(
        "a number that an item doesn't take is of a wrong kind",
        """
new bytearray x616263              h0
view h0                            h1
set h1 0 256                       ! TypeError    !
set h1 -1 -1                       ! TypeError    !
set h1 0 9223372036854775808       ! TypeError    !
set h1 3 256                       ! IndexError
set h0 0 256                       ! ValueError
bytes h0                           b'abc'
""",
    ),
    Case(
        "None is refused before its key is looked at",
        """
new bytearray x616263              h0
view h0                            h1
set h1 3 None                      ! TypeError    !
set h1 9223372036854775808 None    ! TypeError    !
set h1 2 None                      ! TypeError
set h0 3 None                      ! TypeError
bytes h1                           b'abc'
""",
    ),
    Case(
        "a handle that was never given is an unknown name",
        """
get h0 0                           ! UnknownName  !
new bytearray x61                  h0
get h1 0                           ! UnknownName  !
get h18446744073709551615 0        ! UnknownName  !
set h1 0 65                        ! UnknownName  !
view h1                            ! UnknownName  !
bytes h1                           ! UnknownName  !
len h1                             ! UnknownName  !
release h1                         ! UnknownName  !
toreadonly h1                      ! UnknownName  !
view h0                            h1
get h1 0                           97
""",
    ),
    Case(
        "a subject of a kind that a command hasn't is an unknown name",
        """
new bytes x61                      h0
set h0 0 65                        ! UnknownName  !
set h0 'a' None                    ! UnknownName  !
release h0                         ! UnknownName  !
toreadonly h0                      ! UnknownName  !
new bytearray x61                  h1
release h1                         ! UnknownName  !
toreadonly h1                      ! UnknownName  !
bytes h0                           b'a'
""",
    ),
    Case(
        "an exporter has exports alone, and a view has all else",
        """
new bytearray x61                  h0
view h0                            h1
prop h1 exports                    ! UnknownName  !
prop h0 shape                      ! UnknownName  !
release h1                         ok
prop h1 exports                    ! UnknownName  !
prop h0 exports                    0
""",
    ),
    Case(
        "a shown stride is moved to the nearest isize",
        """
new bytes x616263                  h0
view h0                            h1
get h1 None:None:-170141183460469231731687303715884105728   h2
bytes h2                           b'c'
prop h2 strides                    (-9223372036854775808,)   !
get h1 None:None:2                 h3
get h3 None:None:9223372036854775807   h4
bytes h4                           b'a'
prop h4 strides                    (9223372036854775807,)    !
""",
    ),
    Case(
        "suboffsets are one 0 for each dimension",
        """
new bytes x616263                  h0
view h0                            h1
prop h1 suboffsets                 (0,)           !
""",
    ),
    Case(
        "a view without bytes is contiguous",
        """
new bytes x616263                  h0
view h0                            h1
get h1 None:None:2                 h2
get h2 2:None:None                 h3
prop h3 shape                      (0,)
prop h3 contiguous                 True           !
prop h3 c_contiguous               True           !
prop h3 f_contiguous               True           !
""",
    ),
    Case(
        "a view without bytes may be cast",
        """
new bytes x616263                  h0
view h0                            h1
get h1 None:None:2                 h2
get h2 2:None:None                 h3
cast h3 'B'                        h4             !
""",
    ),
    Case(
        "a value that an item's format refuses is of a wrong kind",
        """
new bytearray x01020304            h0
view h0                            h1
cast h1 'H'                        h2
set h2 0 65536                     ! TypeError    !
set h2 0 -1                        ! TypeError    !
cast h1 'c'                        h3
set h3 0 x6162                     ! TypeError    !
bytes h0                           b'\\x01\\x02\\x03\\x04'
""",
    ),
    Case(
        "a truth value is written as a truth value or a whole number alone",
        """
new bytearray x0001                h0
view h0                            h1
cast h1 '?'                        h2
set h2 0 'a'                       ! TypeError    !
set h2 1 0                         ok
set h2 1 None                      ! TypeError    !
get h2 1                           False
""",
    ),
    Case(
        "a released view is refused before the format is looked at",
        """
new bytes x0102                    h0
view h0                            h1
release h1                         ok
cast h1 5                          ! ValueError   !
cast h1 'y'                        ! ValueError
cast h1 'H'                        ! ValueError
""",
    ),
    Case(
        "formats that are refused or are codes here",
        """
new bytes x0102030405060708        h0
view h0                            h1
cast h1 '<u'                       ! ValueError
cast h1 'u'                        h2             !
get h2 0                           67305985       !
cast h1 'd'                        ! ValueError   !
cast h1 'e'                        ! ValueError
cast h1 'f'                        ! ValueError   !
cast h1 'P'                        ! ValueError   !
cast h1 '@d'                       ! ValueError   !
""",
    ),
    Case(
        "a wide character is an item of four bytes",
        """
new bytearray x0102030405060708    h0
view h0                            h1
cast h1 '@u' [2,1]                 h2             !
prop h2 format                     '@u'           !
prop h2 itemsize                   4              !
tolist h2                          [[67305985], [134678021]]   !
cast h1 'u'                        h3             !
set h3 0 2147483647                ok             !
set h3 1 2147483648                ! TypeError    !
set h3 1 -2                        ok             !
set h3 1 'a'                       ! TypeError    !
bytes h0                           b'\\xff\\xff\\xff\\x7f\\xfe\\xff\\xff\\xff'   !
compare h3 == h2                   False          !
cast h3 'I'                        ! TypeError    !
cast h3 'u'                        ! TypeError    !
cast h3 'c'                        h4             !
cast h4 'u'                        h5             !
cast h4 'u' [3]                    ! TypeError    !
cast h4 'u' []                     ! TypeError    !
cast h1 'H'                        h6             !
cast h6 'u'                        ! TypeError    !
range h0 0 7                       h7             !
cast h7 'u'                        ! TypeError    !
""",
    ),
    Case(
        "a slice of a bytearray is bytes",
        """
new bytearray x616263              h0
get h0 0:2:1                       b'ab'          !
get h0 None:None:-1                b'cba'         !
get h0 2:1:1                       b''            !
new bytes x616263                  h1
get h1 0:2:1                       b'ab'
""",
    ),
    Case(
        "a number of a tuple that does not fit a word comes before how many there are",
        """
new bytes x000102030405             h0
view h0                             h1
cast h1 'B' [2,3]                   h2
get h2 (9223372036854775808)        ! IndexError    !
get h2 (-9223372036854775809)       ! IndexError    !
get h2 (0,0,9223372036854775808)    ! IndexError    !
get h2 (0,9223372036854775808,0)    ! IndexError    !
get h2 (9223372036854775808,0)      ! IndexError
get h2 (0,9223372036854775808)      ! IndexError
get h1 (0,9223372036854775808)      ! IndexError    !
get h2 (9223372036854775808,'a')    ! TypeError
get h2 (9223372036854775807)        ! NotImplementedError
get h2 (0,0,9223372036854775807)    ! TypeError
""",
    ),
    Case(
        "an index that does not fit a word comes before how many dimensions there are",
        """
new bytearray x000102030405         h0
view h0                             h1
cast h1 'B' [2,3]                   h2
set h2 9223372036854775808 1        ! IndexError    !
get h2 9223372036854775808          ! IndexError
set h2 9223372036854775807 1        ! NotImplementedError
set h2 (9223372036854775808) 1      ! IndexError    !
bytes h0                            b'\\x00\\x01\\x02\\x03\\x04\\x05'
""",
    ),
    Case(
        "the parts of a slice are looked at before what is assigned to it",
        """
new bytearray x616263               h0
view h0                             h1
set h1 0:1:0 5                      ! ValueError    !
set h1 0:1:0 'a'                    ! ValueError    !
set h1 x61:1:1 h9                   ! UnknownName   !
set h1 0:1:0 x41                    ! ValueError
set h1 0:1:1 5                      ! TypeError
view h0                             h2
release h2                          ok
set h1 x61:1:1 h2                   ! TypeError     !
set h1 0:1:1 h2                     ! ValueError
bytes h0                            b'abc'
""",
    ),
    Case(
        "formats are compared as they are written where a slice is assigned",
        """
new bytearray x616263               h0
view h0                             h1
cast h1 '@B'                        h2
set h1 0:3:1 h2                     ! ValueError    !
set h2 0:1:1 x41                    ! ValueError    !
set h2 0:3:1 h0                     ! ValueError    !
set h2 0:2:1 h2                     ! ValueError
set h2 None:None:-1 h2              ok
bytes h0                            b'cba'          !
""",
    ),
    Case(
        "a shape of many entries for a view that is not of one dimension",
        """
new bytes x0001                     h0
view h0                             h1
cast h1 'B' [1,2]                   h2
cast h2 'B' [1,1,1,1,1,1,1,1,1,1,1,1,1,1,1,1,1,1,1,1,1,1,1,1,1,1,1,1,1,1,1,1,1,1,1,1,1,1,1,1,1,1,1,1,1,1,1,1,1,1,1,1,1,1,1,1,1,1,1,1,1,1,1,1,1]  ! TypeError     !
cast h1 'B' [1,1,1,1,1,1,1,1,1,1,1,1,1,1,1,1,1,1,1,1,1,1,1,1,1,1,1,1,1,1,1,1,1,1,1,1,1,1,1,1,1,1,1,1,1,1,1,1,1,1,1,1,1,1,1,1,1,1,1,1,1,1,1,1,1]  ! ValueError
cast h2 'B' [1,2]                   ! TypeError
""",
    ),
    Case(
        "a released view is refused before its order is looked at",
        """
new bytes x000102                   h0
view h0                             h1
bytes h1 5                          ! TypeError
release h1                          ok
bytes h1 'X'                        ! ValueError
bytes h1 5                          ! ValueError    !
bytes h1 'C'                        ! ValueError
""",
    ),
    Case(
        "a view is cast to items in column order",
        """
new bytes x000102030405             h0
view h0                             h1
castf h1 'B' [2,3]                  h2              !
castf h0 'B' [2,3]                  ! UnknownName   !
castf h9 'B' [2,3]                  ! UnknownName   !
castf h1 'B' 6                      ! TypeError     !
castf h1 'B' None                   ! TypeError     !
castf h1 'B' [4]                    ! TypeError     !
castf h1 'BH' [2]                   ! ValueError    !
castf h1 'B' [0]                    ! ValueError    !
castf h1 5 [6]                      ! TypeError     !
cast h1 'B' [3,2]                   h3              !
castf h3 'B' [6]                    h4              !
castf h3 'B' [2,3]                  ! TypeError     !
get h1 None:None:2                  h5              !
castf h5 'B' [3]                    ! TypeError     !
release h1                          ok
castf h1 'B' [2,3]                  ! ValueError    !
""",
    ),
    Case(
        "suboffsets of several dimensions are one 0 for each",
        """
new bytes x000102                   h0
view h0                             h1
cast h1 'B' [1,3]                   h2
prop h2 suboffsets                  (0, 0)          !
get h1 0:1:1                        h3
cast h3 'B' []                      h4
prop h4 suboffsets                  ()
""",
    ),
    Case(
        "a list of a view without dimensions has one item",
        """
new bytes x05                       h0
view h0                             h1
cast h1 'B' []                      h2
tolist h2                           [5]             !
get h2 ()                           5
cast h2 'b' [1]                     h3
tolist h3                           [5]
""",
    ),
    Case(
        "a view without dimensions has no length",
        """
new bytes x05                       h0
view h0                             h1
cast h1 'B' []                      h2
len h2                              ! TypeError     !
prop h2 nbytes                      1
""",
    ),
    Case(
        "contig makes a copy of every view, writable as the view",
        """
new bytearray x61626364             h0
view h0                             h1
get h1 None:None:-1                 h2
toreadonly h1                       h3
contig h2                           h4 h5
prop h5 readonly                    False           !
set h5 0 90                         ok              !
bytes h4                            b'Zcba'         !
bytes h0                            b'abcd'
contig h1                           h6 h7           !
set h7 1 90                         ok              !
bytes h7                            b'aZcd'         !
bytes h0                            b'abcd'
prop h7 obj                         h6              !
prop h0 exports                     3               !
prop h6 exports                     1               !
contig h3                           h8 h9           !
prop h9 readonly                    True            !
set h9 0 1                          ! TypeError     !
view h8                             h10             !
set h10 0 1                         ! TypeError     !
""",
    ),
    Case(
        "a vector has the commands of an exporter without items",
        """
new bytes x616263                   h0
view h0                             h1
get h1 None:None:-1                 h2
contig h2                           h3 h4
len h3                              3
bytes h3                            b'cba'
get h3 0                            ! UnknownName   !
get h3 0:1:1                        ! UnknownName   !
set h3 0 1                          ! UnknownName   !
cast h3 'B'                         ! UnknownName   !
release h3                          ! UnknownName   !
contig h3                           ! UnknownName   !
prop h3 exports                     1
""",
    ),
    Case(
        "views alone are entered, left, copied and listed, and a part by places is of bytes alone",
        """
new bytearray x616263               h0
view h0                             h1
enter h0                            ! UnknownName   !
exit h0                             ! UnknownName   !
contig h0                           ! UnknownName   !
tolist h0                           ! UnknownName   !
range h1 0 1                        ! UnknownName   !
range h1 'a' 9                      ! UnknownName   !
enter h9                            ! UnknownName   !
exit h9                             ! UnknownName   !
contig h9                           ! UnknownName   !
tolist h9                           ! UnknownName   !
range h9 0 1                        ! UnknownName   !
range h0 h9 1                       ! UnknownName   !
cast h1 'B' [h9]                    ! UnknownName   !
get h1 (h9)                         ! UnknownName   !
set h1 0:1:1 h9                     ! UnknownName   !
set h1 (h9) 1                       ! UnknownName   !
release h1                          ok
range h1 0 1                        ! UnknownName   !
prop h0 exports                     0
""",
    ),
    Case(
        "an edit that changes nothing asks for another length, where Python looks at the numbers of bytes",
        """
new bytearray x                     h0
view h0                             h1
clear h0                            ! BufferError   !
extend h0 x                         ! BufferError   !
extend h0 []                        ! BufferError   !
iadd h0 x                           ! BufferError   !
init h0                             ! BufferError   !
init h0 x                           ! BufferError   !
del h0 None:None:1                  ! BufferError   !
del h0 0:0:1                        ! BufferError   !
extend h0 h0                        ok
imul h0 5                           ok
set h0 0:0:1 x                      ok
bytes h0                            b''
release h1                          ok
clear h0                            ok
extend h0 x                         ok
del h0 None:None:1                  ok
bytes h0                            b''
""",
    ),
    Case(
        "that a view is unreleased comes before what is not there",
        """
new bytearray x616263               h0
view h0                             h1
pop h0 5                            ! BufferError   !
pop h0 -4                           ! BufferError   !
remove h0 120                       ! BufferError   !
del h0 9                            ! BufferError   !
del h0 -4                           ! BufferError   !
set h0 None:None:2 x61              ! BufferError   !
imul h0 9223372036854775807         ! BufferError   !
release h1                          ok
pop h0 5                            ! IndexError
remove h0 120                       ! ValueError
del h0 9                            ! IndexError
set h0 None:None:2 x61              ! ValueError
bytes h0                            b'abc'
""",
    ),
    Case(
        "an extended slice that picks nothing takes nothing",
        """
new bytearray x                     h0
view h0                             h1
set h0 0:0:2 x                      ok              !
set h0 0:0:2 x61                    ! BufferError   !
release h1                          ok
set h0 0:0:2 x                      ok
set h0 0:0:2 x61                    ! ValueError
bytes h0                            b''
""",
    ),
    Case(
        "an extended slice that picks some is not assigned nothing",
        """
new bytearray x6162636465           h0
set h0 None:None:2 x                ! ValueError    !
set h0 None:None:-1 []              ! ValueError    !
bytes h0                            b'abcde'        !
set h0 1:3:1 x                      ok
""",
    ),
    Case(
        "the options are looked at before the views, and a refusal keeps the bytes",
        """
new bytearray x616263               h0
view h0                             h1
init h0 'a'                         ! TypeError     !
init h0 [256]                       ! ValueError    !
init h0 -1                          ! ValueError    !
init h0 h0                          ! BufferError
bytes h0                            b'abc'
release h1                          ok
init h0 [1,256]                     ! ValueError
len h0                              3               !
init h0 'a'                         ! TypeError
init h0 None                        ! TypeError
init h0 5 'utf-8'                   ! TypeError
init h0 -1                          ! ValueError
init h0 9223372036854775808         ! OverflowError
bytes h0                            b'abc'          !
init h0 h0                          ok
bytes h0                            b'abc'          !
""",
    ),
    Case(
        "a bytearray is never added to itself",
        """
new bytearray x                     h0
iadd h0 h0                          ! BufferError   !
append h0 97                        ok
iadd h0 h0                          ! BufferError
extend h0 h0                        ok
bytes h0                            b'aa'
""",
    ),
    Case(
        "more than isize::MAX bytes are refused by their number",
        """
new bytearray x6162                 h0
imul h0 9223372036854775807         ! OverflowError   !
imul h0 4611686018427387904         ! OverflowError   !
imul h0 1                           ok
bytes h0                            b'ab'
""",
    ),
    Case(
        "codecs are utf-8, utf8 and ascii, and strict the one handler of errors",
        """
new bytes 'ab' 'ascii' 'strict'     h0
new bytes 'ab' 'latin-1'            ! ValueError    !
new bytes 'ab' 'UTF-8'              ! ValueError    !
new bytes 'ab' 'klingon'            ! ValueError    !
new bytes 'ab' 'utf-8' 'nonsense'   ! ValueError    !
new bytearray 'ab' 'utf-8' 'replace'   ! ValueError   !
""",
    ),
    Case(
        "bytes are added of views whose items do not lie together, and a released one is a wrong value",
        """
new bytes x616263                   h0
view h0                             h1
get h1 None:None:-1                 h2
new bytearray x78                   h3
extend h3 h2                        ok              !
iadd h3 h2                          ! TypeError
bytes h3                            b'xcba'         !
release h2                          ok
extend h3 h2                        ! ValueError    !
iadd h3 h2                          ! ValueError    !
set h3 0:1:1 h2                     ! ValueError
init h3 h2                          ! ValueError
""",
    ),
    Case(
        "edits are of bytearrays alone",
        """
new bytes x616263                   h0
view h0                             h1
append h0 1                         ! UnknownName   !
extend h0 x                         ! UnknownName   !
insert h0 0 1                       ! UnknownName   !
pop h0                              ! UnknownName   !
remove h0 97                        ! UnknownName   !
clear h0                            ! UnknownName   !
reverse h0                          ! UnknownName   !
iadd h0 x                           ! UnknownName   !
imul h0 1                           ! UnknownName   !
init h0                             ! UnknownName   !
copy h0                             ! UnknownName   !
del h0 0                            ! UnknownName   !
del h0 'a'                          ! UnknownName   !
set h0 0:1:1 x61                    ! UnknownName   !
append h1 1                         ! UnknownName   !
pop h1                              ! UnknownName   !
reverse h1                          ! UnknownName   !
copy h1                             ! UnknownName   !
append h9 1                         ! UnknownName   !
init h9                             ! UnknownName   !
del h9 0                            ! UnknownName   !
del h1 h9                           ! UnknownName   !
new bytearray x61                   h2
append h2 h9                        ! UnknownName   !
extend h2 h9                        ! UnknownName   !
extend h2 [256,h9]                  ! UnknownName   !
insert h2 'a' h9                    ! UnknownName   !
init h2 h9                          ! UnknownName   !
init h2 'a' h9                      ! UnknownName   !
pop h2 h9                           ! UnknownName   !
new bytes h9                        ! UnknownName   !
new bytes [256,h9]                  ! UnknownName   !
new bytearray 'a' 5 h9              ! UnknownName   !
append h2 h0                        ! TypeError
bytes h2                            b'a'
""",
    ),
    Case(
        "a view has an order with nothing",
        """
new bytes x6162                     h0
new bytearray x6163                 h1
view h0                             h2
view h1                             h3
compare h2 < h1                     ! TypeError    !
compare h2 <= h1                    ! TypeError    !
compare h2 > h1                     ! TypeError    !
compare h2 >= h1                    ! TypeError    !
compare h3 <= h1                    ! TypeError    !
compare h1 > h2                     True
compare h2 < h0                     ! TypeError
compare h2 < x6163                  ! TypeError
compare h2 < h3                     ! TypeError
compare h2 < h2                     ! TypeError
compare h2 < 5                      ! TypeError
compare h0 < h3                     ! TypeError
release h2                          ok
compare h2 < h1                     ! TypeError
""",
    ),
    Case(
        "bytes are compared with a view by the bytes of both, if the items of the view lie together",
        """
new bytes xff00                     h0
new bytearray x00ff                 h1
view h0                             h2
cast h2 'b'                         h3
compare h0 == h3                    True           !
compare h0 != h3                    False          !
compare h3 == h0                    False
cast h2 'H'                         h4
compare h0 == h4                    True           !
compare h4 == h0                    False
cast h2 'c'                         h5
compare h0 == h5                    True           !
cast h2 'B' [1,2]                   h6
compare h0 == h6                    True           !
compare h0 != h6                    False          !
compare h6 == h0                    False
compare h0 == h2                    True
get h2 None:None:-1                 h7
compare h0 == h7                    NotImplemented   !
compare h0 != h7                    NotImplemented   !
compare h1 == h7                    NotImplemented   !
compare h1 < h7                     NotImplemented   !
compare h7 == h1                    True
compare h0 < h7                     ! TypeError
get h2 2:None:2                     h8
compare h1 > h8                     True           !
compare h1 == h8                    False
""",
    ),
    Case(
        "bytes are not compared with what has no bytes",
        """
new bytes x6162                     h0
new bytearray x6162                 h1
compare h0 == 'ab'                  NotImplemented   !
compare h0 != 'ab'                  NotImplemented   !
compare h0 < 'ab'                   NotImplemented   !
compare h1 == 'ab'                  NotImplemented   !
compare h1 >= 97                    NotImplemented   !
compare h0 == None                  NotImplemented   !
compare h0 == True                  NotImplemented   !
compare h0 != ...                   NotImplemented   !
compare h0 == [97,98]               NotImplemented   !
compare h1 == (97,98)               NotImplemented   !
compare h0 <= ()                    NotImplemented   !
compare h0 == 0:1:1                 NotImplemented   !
compare h1 == (0:1:1)               NotImplemented   !
compare h0 == [h0]                  NotImplemented   !
view h0                             h2
release h2                          ok
compare h0 == h2                    NotImplemented   !
compare h0 != h2                    NotImplemented   !
compare h1 == h2                    NotImplemented   !
compare h1 <= h2                    NotImplemented   !
compare h0 < h2                     ! TypeError
compare h2 == h0                    False
compare h2 != h0                    True
""",
    ),
    Case(
        "truth values are equal where both are true or both are not",
        """
new bytes x020001                   h0
view h0                             h1
cast h1 '?'                         h2
get h2 None:None:-1                 h3
compare h2 == h3                    True           !
compare h2 != h3                    False          !
compare h2 == h2                    True
new bytes xff0003                   h4
view h4                             h5
cast h5 '?'                         h6
compare h2 == h6                    True           !
compare h6 == h2                    True           !
compare h2 == x010001               True
compare h2 == h1                    False
cast h5 '@?'                        h7
compare h7 == h2                    True           !
""",
    ),
    Case(
        "the repr of a bytearray has the quote rule of bytes",
        """
new bytearray x27                   h0
repr h0                             bytearray(b"'")   !
new bytearray x6127275c             h1
repr h1                             bytearray(b"a''\\\\")   !
new bytearray x2722                 h2
repr h2                             bytearray(b'\\'"')
new bytes x27                       h3
repr h3                             b"'"
""",
    ),
    Case(
        "every view that may only be read has a hash",
        """
new bytes x01000200                 h0
view h0                             h1
cast h1 'H'                         h2
hash h2                             b'\\x01\\x00\\x02\\x00'   !
cast h1 '?'                         h3
hash h3                             b'\\x01\\x00\\x02\\x00'   !
cast h1 'i'                         h4
hash h4                             b'\\x01\\x00\\x02\\x00'   !
cast h1 'H' [1,2]                   h5
hash h5                             b'\\x01\\x00\\x02\\x00'   !
get h2 None:None:-1                 h6
hash h6                             b'\\x02\\x00\\x01\\x00'   !
new bytearray x6162                 h7
view h7                             h8
toreadonly h8                       h9
hash h9                             b'ab'          !
set h8 0 65                         ok
hash h9                             b'Ab'          !
hash h8                             ! ValueError
hash h7                             ! TypeError
""",
    ),
    Case(
        "a released view has no hash, also where it had one",
        """
new bytes x6162                     h0
view h0                             h1
view h0                             h2
hash h1                             b'ab'
release h1                          ok
hash h1                             ! ValueError   !
release h2                          ok
hash h2                             ! ValueError
""",
    ),
    Case(
        "a view is shown by its number among those of its exporter",
        """
new bytes x6162                     h0
new bytes x6162                     h1
view h0                             h2
view h1                             h3
get h3 None:None:-1                 h4
get h2 0:1:1                        h5
repr h2                             <memory 0>     !
repr h3                             <memory 0>     !
repr h4                             <memory 1>     !
repr h5                             <memory 1>     !
release h3                          ok
repr h3                             <released memory 0>   !
repr h4                             <memory 1>     !
view h1                             h6
repr h6                             <memory 2>     !
""",
    ),
    Case(
        "a vector is compared with, and has no comparison, hash or repr of its own",
        """
new bytes x616263                   h0
view h0                             h1
get h1 None:None:-1                 h2
contig h2                           h3 h4
compare h3 == h3                    ! UnknownName   !
compare h3 < x61                    ! UnknownName   !
hash h3                             ! UnknownName   !
repr h3                             ! UnknownName   !
compare h2 == h3                    True
compare h0 < h3                     True
compare h2 == h4                    True
hash h4                             b'cba'
repr h4                             <memory 0>     !
compare h9 == h0                    ! UnknownName   !
compare h0 == h9                    ! UnknownName   !
compare h0 == [1,h9]                ! UnknownName   !
compare h1 < h9                     ! UnknownName   !
compare h1 == 0:h9:1                ! UnknownName   !
hash h9                             ! UnknownName   !
repr h9                             ! UnknownName   !
release h1                          ok
compare h1 == h9                    ! UnknownName   !
""",
    ),
    Case(
        "an iterator is never read as bytes",
        """
new bytearray x616263               h0
new bytes x6465                     h1
view h1                             h2
iter h0                             h3
iter h1                             h4
iter h2                             h5
extend h0 h3                        ! TypeError    !
bytes h0                            b'abc'         !
set h0 0:1:1 h3                     ! TypeError    !
set h0 0:1:1 h4                     ! TypeError    !
set h0 0:3:2 h5                     ! TypeError    !
extend h0 h4                        ! TypeError    !
extend h0 h5                        ! TypeError    !
bytes h0                            b'abc'         !
init h0 h3                          ! TypeError    !
init h0 h4                          ! TypeError    !
init h0 h5                          ! TypeError    !
iadd h0 h3                          ! TypeError
iadd h0 h4                          ! TypeError
iadd h0 h5                          ! TypeError
bytes h0                            b'abc'         !
next h3                             97             !
next h4                             100            !
next h5                             100            !
new bytearray x0000                 h6
view h6                             h7
iter h7                             h8
iadd h6 h8                          ! TypeError
extend h6 h8                        ! TypeError    !
set h6 0:1:1 h8                     ! TypeError    !
set h6 0:2:2 h8                     ! TypeError    !
init h6 h8                          ! TypeError    !
set h7 0:1:1 h8                     ! TypeError
cast h7 'c'                         h9
set h9 0 h8                         ! TypeError
cast h7 '?'                         h10
set h10 0 h8                        ! TypeError    !
next h8                             0              !
bytes h6                            b'\\x00\\x00'   !
new bytes h3                        ! TypeError    !
""",
    ),
    Case(
        "bytes are not compared with an iterator",
        """
new bytes x6162                     h0
new bytearray x6162                 h1
iter h0                             h2
iter h1                             h3
compare h0 == h2                    NotImplemented   !
compare h0 != h3                    NotImplemented   !
compare h0 < h2                     NotImplemented   !
compare h1 == h2                    NotImplemented   !
compare h1 != h3                    NotImplemented   !
compare h1 >= h3                    NotImplemented   !
view h0                             h4
iter h4                             h5
compare h0 == h5                    NotImplemented   !
compare h0 <= h5                    NotImplemented   !
compare h4 == h5                    False
next h2                             97
next h3                             97
next h5                             97
""",
    ),
    Case(
        "bytes, bytearrays, views and iterators have an iterator, which alone gives items",
        """
new bytes x61                       h0
new bytearray x61                   h1
view h1                             h2
next h0                             ! UnknownName   !
next h1                             ! UnknownName   !
next h2                             ! UnknownName   !
hint h0                             ! UnknownName   !
hint h2                             ! UnknownName   !
setstate h1 0                       ! UnknownName   !
setstate h2 'a'                     ! UnknownName   !
iter h9                             ! UnknownName   !
next h9                             ! UnknownName   !
hint h9                             ! UnknownName   !
setstate h9 0                       ! UnknownName   !
release h2                          ok
next h2                             ! UnknownName   !
iter h1                             h3
setstate h3 h9                      ! UnknownName   !
setstate h3 [h9]                    ! UnknownName   !
next h3                             97
next h3                             stop
setstate h3 h9                      ! UnknownName   !
new bytes x6162                     h4
view h4                             h5
get h5 None:None:-1                 h6
contig h6                           h7 h8
next h7                             ! UnknownName   !
iter h7                             ! UnknownName   !
""",
    ),
    Case(
        "an iterator has the commands iter, next, hint and setstate, and that of a view the first two",
        """
new bytearray x616263               h0
view h0                             h1
iter h0                             h2
iter h1                             h3
next h3                             97
hint h3                             ! UnknownName   !
setstate h3 0                       ! UnknownName   !
setstate h3 None                    ! UnknownName   !
release h1                          ok
hint h3                             ! UnknownName   !
view h2                             ! UnknownName   !
range h2 0 0                        ! UnknownName   !
get h2 0                            ! UnknownName   !
set h2 0 1                          ! UnknownName   !
del h2 0                            ! UnknownName   !
cast h2 'B'                         ! UnknownName   !
toreadonly h2                       ! UnknownName   !
contig h3                           ! UnknownName   !
len h2                              ! UnknownName   !
tolist h3                           ! UnknownName   !
release h3                          ! UnknownName   !
exit h3                             ! UnknownName   !
enter h2                            ! UnknownName   !
prop h2 exports                     ! UnknownName   !
prop h3 obj                         ! UnknownName   !
prop h3 nbytes                      ! UnknownName   !
compare h2 == h2                    ! UnknownName   !
compare h3 < x61                    ! UnknownName   !
repr h2                             ! UnknownName   !
repr h3                             ! UnknownName   !
append h2 1                         ! UnknownName   !
extend h2 x                         ! UnknownName   !
insert h2 0 1                       ! UnknownName   !
pop h2                              ! UnknownName   !
remove h2 1                         ! UnknownName   !
clear h2                            ! UnknownName   !
reverse h2                          ! UnknownName   !
iadd h2 x                           ! UnknownName   !
imul h2 1                           ! UnknownName   !
init h2                             ! UnknownName   !
take h2                             ! UnknownName   !
copy h2                             ! UnknownName   !
next h2                             97
bytes h2                            ! UnknownName   !
next h2                             98             !
""",
    ),
    Case(
        "a place past the ends of a word is moved to the nearest one",
        """
new bytes x616263                   h0
iter h0                             h1
setstate h1 9223372036854775808     ok             !
hint h1                             0              !
setstate h1 -9223372036854775809    ok             !
hint h1                             3
setstate h1 170141183460469231731687303715884105727   ok   !
setstate h1 2                       ok
setstate h1 -170141183460469231731687303715884105728   ok   !
next h1                             97             !
setstate h1 9223372036854775807     ok
hint h1                             0
setstate h1 -9223372036854775808    ok
hint h1                             3
new bytearray x6162                 h2
iter h2                             h3
setstate h3 9223372036854775808     ok             !
append h2 99                        ok
next h3                             99             !
""",
    ),
    Case(
        "an exhausted iterator looks at no place",
        """
new bytearray x                     h0
iter h0                             h1
next h1                             stop
setstate h1 None                    ok             !
setstate h1 'a'                     ok             !
setstate h1 [0]                     ok             !
setstate h1 0:1:1                   ok             !
setstate h1 h1                      ok             !
setstate h1 9223372036854775808     ok             !
setstate h1 -9223372036854775809    ok             !
setstate h1 0                       ok
append h0 1                         ok
next h1                             stop
""",
    ),
    Case(
        "a view of several dimensions or of none has an iterator, which refuses its items",
        """
new bytes x000102030405             h0
view h0                             h1
cast h1 'B' [2,3]                   h2
get h1 0:1:1                        h3
cast h3 'B' []                      h4
cast h1 'B' [6,1]                   h5
get h5 3:3:1                        h6
iter h2                             h7             !
next h7                             ! NotImplementedError   !
next h7                             ! NotImplementedError   !
iter h7                             h7             !
iter h4                             h8             !
next h8                             ! NotImplementedError   !
next h8                             ! NotImplementedError   !
iter h6                             h9             !
next h9                             stop           !
next h9                             stop           !
iter h5                             h10            !
release h5                          ok
next h10                            ! ValueError   !
release h4                          ok
next h8                             ! ValueError   !
release h6                          ok
next h9                             stop           !
""",
    ),
    Case(
        "a released view refuses its iterator until that is exhausted",
        """
new bytes x6162                     h0
view h0                             h1
get h1 2:2:1                        h2
iter h1                             h3
iter h1                             h4
iter h2                             h5
next h3                             97
next h3                             98
next h4                             97
next h4                             98
next h4                             stop
release h1                          ok
release h2                          ok
next h3                             ! ValueError   !
next h3                             ! ValueError   !
next h4                             stop
next h5                             ! ValueError   !
""",
    ),
    Case(
        "a released view has no iterator",
        """
new bytes x61626364                 h0
view h0                             h1
cast h1 'B' [2,2]                   h2
get h1 0:1:1                        h3
cast h3 'B' []                      h4
release h1                          ok
iter h1                             ! ValueError   !
release h2                          ok
iter h2                             ! ValueError   !
release h4                          ok
iter h4                             ! ValueError   !
iter h3                             h5
next h5                             97
""",
    ),
    Case(
        "None is refused before a key of several dimensions is looked at",
        """
new bytearray x0001                 h0
view h0                             h1
cast h1 'B' [1,2]                   h2
set h2 0 None                       ! TypeError     !
set h2 (1,0) None                   ! TypeError     !
set h2 (0) None                     ! TypeError     !
set h1 0:1:0 None                   ! TypeError
set h2 0:1:1 None                   ! TypeError     !
set h2 (0,0) 256                    ! TypeError     !
set h2 (1,0) 256                    ! IndexError
bytes h0                            b'\\x00\\x01'
""",
    ),
    Case(
        "a handle among the values that was never given",
        """
new bytearray x01                  h0
get h0 h9                          ! UnknownName  !
get h0 0:1:h9                      ! UnknownName  !
set h0 h9 0                        ! UnknownName  !
set h0 0 h9                        ! UnknownName  !
set h0 0 [h9]                      ! UnknownName  !
bytes h0                           b'\\x01'
""",
    ),
    Case(
        "what a method of a bytearray answers is bytes, and a partition is a list of bytes",
        """
new bytearray x612c62    h0
view h0                  h1
get h1 1:2:1             h2
call h0 upper            b'A,B'               !
call h0 add x63          b'a,bc'              !
call h0 mul 2            b'a,ba,b'            !
call h0 replace x2c x    b'ab'                !
call h0 fromhex '61'     b'a'                 !
call h0 split x2c        [b'a', b'b']         !
call h0 rsplit h2        [b'a', b'b']         !
call h0 splitlines       [b'a,b']             !
call h0 join [x61,x62]   b'aa,bb'             !
call h0 hex              '612c62'
call h0 find x2c         1
call h0 isalpha          False
call h0 partition x2c    [b'a', b',', b'b']   !
call h0 rpartition h2    [b'a', b',', b'b']   !
new bytes x612c62        h3
call h3 partition x2c    [b'a', b',', b'b']   !
call h3 partition x7a    [b'a,b', b'', b'']   !
call h3 rpartition x7a   [b'', b'', b'a,b']   !
call h3 partition h2     [b'a', b',', b'b']   !
call h3 rpartition h1    [b'', b'a,b', b'']   !
call h3 split h2         [b'a', b'b']
""",
    ),
    Case(
        "lists and tuples of numbers are read as bytes, but by add, concat and join",
        """
new bytes x616263616263          h0
contains h0 [98,99]              True                    !
contains h0 (97)                 True                    !
contains h0 []                   True                    !
contains h0 [256]                ! ValueError            !
contains h0 ['a']                ! TypeError
contains h0 [True,h0]            ! TypeError
call h0 find [98,99]             1                       !
call h0 rfind (97,98)            3                       !
call h0 find ()                  0                       !
call h0 count [97] 1             1                       !
call h0 index [122]              ! ValueError            !
call h0 find [-1]                ! ValueError            !
call h0 startswith [97,98]       True                    !
call h0 endswith [99]            True                    !
call h0 startswith (97)          ! TypeError
call h0 startswith [x61]         ! TypeError
call h0 strip [97,99]            b'bcab'                 !
call h0 rstrip (99)              b'abcab'                !
call h0 lstrip [300]             ! ValueError            !
call h0 split [98]               [b'a', b'ca', b'c']     !
call h0 rsplit (98) 1            [b'abca', b'c']         !
call h0 split []                 ! ValueError            !
call h0 partition [99,97]        [b'ab', b'ca', b'bc']   !
call h0 rpartition ()            ! ValueError            !
call h0 removeprefix [97]        b'bcabc'                !
call h0 removesuffix (98,99)     b'abca'                 !
call h0 replace [97] (120,121)   b'xybcxybc'             !
call h0 replace [] [45] 2        b'-a-bcabc'             !
call h0 replace [97] [256]       ! ValueError            !
call h0 translate None [98]      b'acac'                 !
call h0 translate [97]           ! ValueError            !
call h0 add [97]                 ! TypeError
call h0 concat (97)              ! TypeError
call h0 join [97]                ! TypeError
bytes h0                         b'abcabc'
""",
    ),
    Case(
        "views whose items lie apart are read as bytes by every method but add",
        """
new bytes x616263616263     h0
view h0                     h1
get h1 2:None:-1            h2
get h1 None:None:3          h3
cast h1 'B' [2,3]           h4
get h4 None:None:-1         h5
contains h0 h2              False                   !
contains h0 h3              False                   !
call h0 find h2             -1                      !
call h0 rfind h3            -1                      !
call h0 startswith h3       False                   !
call h0 endswith (h2,h5)    True                    !
call h0 strip h3            b'bcabc'                !
call h0 split h3            [b'abcabc']             !
call h0 partition h2        [b'abcabc', b'', b'']   !
call h0 removeprefix h5     b''                     !
call h0 replace h2 h3       b'abcabc'               !
call h0 replace x61 h3      b'aabcaabc'             !
call h0 translate None h3   b'bcbc'                 !
call h0 concat h3           b'abcabcaa'             !
call h0 join [h3,h2]        b'aaabcabccba'          !
call h0 add h3              ! TypeError
""",
    ),
    Case(
        "a released view among the arguments is a wrong value",
        """
new bytes x6162             h0
view h0                     h1
release h1                  ok
contains h0 h1              ! ValueError
call h0 find h1             ! ValueError
call h0 strip h1            ! ValueError
call h0 add h1              ! ValueError   !
call h0 concat h1           ! ValueError   !
call h0 join [x61,h1]       ! ValueError   !
call h0 join (5,h1)         ! TypeError
call h0 maketrans h1 x61    ! ValueError
call h0 translate h1        ! ValueError
call h0 mul h1              ! TypeError
call h0 center 5 h1         ! TypeError
call h0 hex h1              ! TypeError    !
call h0 fromhex h1          ! TypeError
call h0 decode h1           ! TypeError
call h0 split None h1       ! TypeError
call h0 startswith x61 h1   ! TypeError
""",
    ),
    Case(
        "join is of a list or a tuple alone",
        """
new bytes x2c       h0
new bytes x         h1
new bytearray x     h2
call h0 join x      ! TypeError   !
call h0 join h1     ! TypeError   !
call h0 join h2     ! TypeError   !
view h1             h3
call h0 join h3     ! TypeError   !
new bytes x6162     h4
view h4             h5
cast h5 'c'         h6
call h0 join h6     ! TypeError   !
iter h4             h7
call h0 join h7     ! TypeError
next h7             97            !
call h0 join [h6]   b'ab'
""",
    ),
    Case(
        "a translation by what is no table is a wrong value",
        """
new bytes x6162           h0
call h0 translate 5       ! ValueError   !
call h0 translate 'a'     ! ValueError   !
call h0 translate ...     ! ValueError   !
call h0 translate 0:1:1   ! ValueError   !
call h0 translate [5]     ! ValueError   !
call h0 translate ['a']   ! ValueError   !
call h0 translate 'a' 5   ! ValueError   !
iter h0                   h1
call h0 translate h1      ! ValueError   !
call h0 translate x61     ! ValueError
call h0 translate None    b'ab'
next h1                   97
""",
    ),
    Case(
        "a table is made by the first of repeated bytes",
        """
new bytes x616263                   h0
call h0 maketrans x000000 x010203   b'\\x01\\x01\\x02\\x03\\x04\\x05\\x06\\x07\\x08\\t\\n\\x0b\\x0c\\r\\x0e\\x0f\\x10\\x11\\x12\\x13\\x14\\x15\\x16\\x17\\x18\\x19\\x1a\\x1b\\x1c\\x1d\\x1e\\x1f !"#$%&\\'()*+,-./0123456789:;<=>?@ABCDEFGHIJKLMNOPQRSTUVWXYZ[\\\\]^_`abcdefghijklmnopqrstuvwxyz{|}~\\x7f\\x80\\x81\\x82\\x83\\x84\\x85\\x86\\x87\\x88\\x89\\x8a\\x8b\\x8c\\x8d\\x8e\\x8f\\x90\\x91\\x92\\x93\\x94\\x95\\x96\\x97\\x98\\x99\\x9a\\x9b\\x9c\\x9d\\x9e\\x9f\\xa0\\xa1\\xa2\\xa3\\xa4\\xa5\\xa6\\xa7\\xa8\\xa9\\xaa\\xab\\xac\\xad\\xae\\xaf\\xb0\\xb1\\xb2\\xb3\\xb4\\xb5\\xb6\\xb7\\xb8\\xb9\\xba\\xbb\\xbc\\xbd\\xbe\\xbf\\xc0\\xc1\\xc2\\xc3\\xc4\\xc5\\xc6\\xc7\\xc8\\xc9\\xca\\xcb\\xcc\\xcd\\xce\\xcf\\xd0\\xd1\\xd2\\xd3\\xd4\\xd5\\xd6\\xd7\\xd8\\xd9\\xda\\xdb\\xdc\\xdd\\xde\\xdf\\xe0\\xe1\\xe2\\xe3\\xe4\\xe5\\xe6\\xe7\\xe8\\xe9\\xea\\xeb\\xec\\xed\\xee\\xef\\xf0\\xf1\\xf2\\xf3\\xf4\\xf5\\xf6\\xf7\\xf8\\xf9\\xfa\\xfb\\xfc\\xfd\\xfe\\xff'   !
""",
    ),
    Case(
        "in a range whose start passes its end no affix is looked at",
        """
new bytes x616263                      h0
call h0 startswith 97 2 1              False          !
call h0 startswith 'a' 4               False          !
call h0 endswith None 4                False          !
call h0 endswith ('a',5) 3 -3          False          !
call h0 startswith h0 9223372036854775807   False
call h0 startswith [256] 5             False          !
view h0                                h1
release h1                             ok
call h0 startswith h1 4                False          !
call h0 endswith (h1) 2 1              False          !
call h0 startswith h1 3                ! ValueError
call h0 startswith 97 3                ! TypeError
call h0 startswith x 4                 False
call h0 startswith 97 4 'a'            ! TypeError
""",
    ),
    Case(
        "digits of nothing, and without groups, look at no separator",
        """
new bytes x           h0
view h0               h1
hex h1 '::'           ''             !
hex h1 x              ''             !
hex h1 xff 2          ''             !
hex h1 '::' 0         ''             !
hex h1 5              ! TypeError
hex h1 ':' 'a'        ! TypeError
call h0 hex '::'      ''             !
call h0 hex xff 5     ''             !
new bytearray x6162   h2
view h2               h3
hex h3 '::' 0         '6162'         !
hex h3 x 0            '6162'         !
hex h3 xff 0          '6162'         !
hex h3 xff False      '6162'         !
hex h3 '::' 1         ! ValueError
call h2 hex '::' 0    '6162'         !
call h2 hex x80 0     '6162'         !
call h2 hex 5 0       ! TypeError
get h3 0:0:1          h4
hex h4 '::'           ''             !
""",
    ),
    Case(
        "sizes of groups and of tabs are counts of a whole word",
        """
new bytes x61626364                    h0
view h0                                h1
hex h1 ':' 2147483648                  '61626364'        !
hex h1 ':' 9223372036854775807         '61626364'        !
hex h1 ':' -2147483649                 '61626364'        !
hex h1 ':' -9223372036854775808        '61626364'        !
hex h1 '::' 2147483648                 ! ValueError      !
hex h1 ':' 9223372036854775808         ! OverflowError
call h0 hex ':' 2147483648             '61626364'        !
call h0 hex ':' -9223372036854775808   '61626364'        !
call h0 expandtabs 2147483648          b'abcd'           !
call h0 expandtabs -2147483649         b'abcd'           !
call h0 expandtabs 9223372036854775807   b'abcd'           !
call h0 expandtabs 9223372036854775808   ! OverflowError
new bytes x6109620a                    h2
call h2 expandtabs -9223372036854775808   b'ab\\n'           !
call h2 splitlines 2147483648          [b'a\\tb\\n']       !
call h2 splitlines 9223372036854775808   [b'a\\tb\\n']       !
call h2 splitlines -170141183460469231731687303715884105728   [b'a\\tb\\n']       !
""",
    ),
    Case(
        "arguments are refused from left to right",
        """
new bytes x6162                        h0
call h0 split 5 9223372036854775808    ! TypeError       !
call h0 rsplit 'a' -9223372036854775809   ! TypeError       !
call h0 split x 'a'                    ! TypeError
call h0 find 256 x61                   ! ValueError      !
call h0 count -1 0 'a'                 ! ValueError      !
call h0 index [256] 'a'                ! ValueError      !
call h0 hex 5 9223372036854775808      ! TypeError       !
call h0 hex '::' 9223372036854775808   ! OverflowError
call h0 replace [256] 'a'              ! ValueError      !
call h0 replace x61 [256] 'a'          ! ValueError      !
call h0 replace [256] x61 'a'          ! ValueError      !
call h0 maketrans [256] 5              ! ValueError      !
call h0 translate x61 5                ! ValueError
call h0 startswith [256] 'a'           ! TypeError
call h0 center 9223372036854775808 5   ! OverflowError
view h0                                h1
release h1                             ok
call h0 find h1 'a'                    ! ValueError      !
call h0 replace h1 5                   ! ValueError
call h0 split h1 'a'                   ! ValueError      !
call h0 hex h1 'a'                     ! TypeError
""",
    ),
    Case(
        "a separator of digits is a text or bytes, whatever its length",
        """
new bytes x6162       h0
new bytearray x3a3a   h1
view h0               h2
view h1               h3
hex h2 h1             ! TypeError   !
hex h2 h3             ! TypeError   !
hex h2 h2             ! TypeError   !
hex h2 [58,58]        ! TypeError   !
hex h2 [58]           ! TypeError
hex h2 ()             ! TypeError   !
call h0 hex h1        ! TypeError   !
call h0 hex h3 2      ! TypeError   !
call h1 hex (58,58)   ! TypeError   !
release h3            ok
hex h2 h3             ! TypeError   !
call h0 hex h3        ! TypeError   !
""",
    ),
    Case(
        "a released view has no digits, whatever is asked",
        """
new bytes x6162                  h0
view h0                          h1
release h1                       ok
hex h1                           ! ValueError
hex h1 'a' 'b'                   ! ValueError   !
hex h1 ':' 9223372036854775808   ! ValueError   !
hex h1 '::' 2                    ! ValueError
hex h1 5                         ! ValueError
hex h1 ':' None                  ! ValueError   !
""",
    ),
    Case(
        "decoding without a name is by utf-8, and the codecs are three",
        """
new bytes x6162                   h0
new bytes xe9                     h1
new bytes x                       h2
call h0 decode None               'ab'           !
call h0 decode None None          'ab'           !
call h0 decode 'ascii' None       'ab'           !
call h0 decode None 'strict'      'ab'           !
call h1 decode None               ! ValueError   !
call h0 decode 'latin'            ! ValueError   !
call h1 decode 'latin-1'          ! ValueError   !
call h0 decode 'UTF-8'            ! ValueError   !
call h0 decode 'utf_8'            ! ValueError   !
call h0 decode 'x'                ! ValueError   !
call h2 decode 'x'                ! ValueError   !
call h0 decode 'ascii' 'ignore'   ! ValueError   !
call h0 decode 'ascii' 'x'        ! ValueError   !
call h1 decode 'ascii' 'ignore'   ! ValueError   !
call h0 decode 'x' 'y'            ! ValueError   !
call h0 decode 'x' 5              ! TypeError
call h0 decode 5 'y'              ! TypeError
""",
    ),
    Case(
        "a text is written by its bytes",
        """
new bytes xc3a96127      h0
call h0 decode           "\\xc3\\xa9a'"     !
call h0 decode 'utf8'    "\\xc3\\xa9a'"     !
new bytearray xe282ac    h1
call h1 decode           '\\xe2\\x82\\xac'   !
new bytes x7fc280        h2
call h2 decode           '\\x7f\\xc2\\x80'   !
call h2 decode 'ascii'   ! ValueError
""",
    ),
    Case(
        "more than isize::MAX bytes are refused by their number, of a bytearray too",
        """
new bytearray x616263             h0
new bytes x616263                 h1
call h0 mul 9223372036854775807   ! OverflowError   !
call h1 mul 9223372036854775807   ! OverflowError
call h0 mul 3074457345618258603   ! OverflowError   !
bytes h0                          b'abc'
""",
    ),
    Case(
        "digits are of views, searches and methods of bytes and bytearrays",
        """
new bytes x626162     h0
view h0               h1
hex h0                ! UnknownName   !
hex h0 ':' 1          ! UnknownName   !
call h1 hex           ! UnknownName   !
call h1 find x61      ! UnknownName   !
call h1 upper         ! UnknownName   !
contains h1 97        ! UnknownName   !
contains h1 x61       ! UnknownName   !
release h1            ok
contains h1 97        ! UnknownName   !
call h1 hex           ! UnknownName   !
hex h0 'a' 'b'        ! UnknownName   !
iter h0               h2
contains h2 97        ! UnknownName   !
call h2 hex           ! UnknownName   !
hex h2                ! UnknownName   !
next h2               98
view h0               h3
get h3 None:None:-2   h4
contig h4             h5 h6
contains h5 98        ! UnknownName   !
call h5 find x62      ! UnknownName   !
call h5 decode        ! UnknownName   !
hex h5                ! UnknownName   !
hex h6                '6262'
contains h6 98        ! UnknownName   !
call h6 count 98      ! UnknownName   !
new bytearray x6162   h7
hex h7                ! UnknownName   !
contains h7 97        True
""",
    ),
    Case(
        "a handle among the arguments of a method that was never given",
        """
new bytes x6162                        h0
view h0                                h1
contains h0 h9                         ! UnknownName   !
contains h0 [256,h9]                   ! UnknownName   !
contains h9 97                         ! UnknownName   !
hex h9                                 ! UnknownName   !
hex h1 h9                              ! UnknownName   !
hex h1 ':' h9                          ! UnknownName   !
hex h1 5 h9                            ! UnknownName   !
call h9 upper                          ! UnknownName   !
call h9 find h9                        ! UnknownName   !
call h0 find h9                        ! UnknownName   !
call h0 find 'a' h9                    ! UnknownName   !
call h0 find 256 'a' h9                ! UnknownName   !
call h0 startswith (x61,h9)            ! UnknownName   !
call h0 startswith 5 4 h9              ! UnknownName   !
call h0 startswith h9 4                ! UnknownName   !
call h0 join [x61,h9]                  ! UnknownName   !
call h0 join (5,h9)                    ! UnknownName   !
call h0 replace 5 x61 h9               ! UnknownName   !
call h0 split x h9                     ! UnknownName   !
call h0 translate h9                   ! UnknownName   !
call h0 translate 5 h9                 ! UnknownName   !
call h0 center 9223372036854775808 h9   ! UnknownName   !
call h0 fromhex h9                     ! UnknownName   !
call h0 decode h9                      ! UnknownName   !
call h0 decode 5 h9                    ! UnknownName   !
call h0 add h9                         ! UnknownName   !
call h0 mul h9                         ! UnknownName   !
call h0 splitlines h9                  ! UnknownName   !
call h0 strip 0:1:h9                   ! UnknownName   !
call h0 maketrans (0:h9:1) 5           ! UnknownName   !
release h1                             ok
hex h1 h9                              ! UnknownName   !
call h1 find h9                        ! UnknownName   !
call h0 find h1 h9                     ! UnknownName   !
bytes h0                               b'ab'
""",
    ),
]


def text(lines):
    return "".join(f"{line}\n" for line in lines)


def python_cases():
    """Each case with its lines and the replies of Python's objects, where slices of a bytearray are
    `bytes`."""
    for case in PYTHON:
        yield case.title, list(zip(case.lines, AsWritten().run(case.lines)))
    for case, replies in ASSIGNED:
        if World().run(case.lines) != replies:
            sys.exit(f"{case.title}: Python's slices are not those of lists")
        yield case.title, list(zip(case.lines, replies))


def difference_cases():
    """Each case with its lines and our replies, and with Python's replies if they differ."""
    for case in DIFFERENCES:
        rows = [tuple(part.strip() for part in line.split("  ") if part.strip()) for line in case.lines]
        python = World().run([row[0] for row in rows])
        for row, reply in zip(rows, python):
            if (row[1] != reply) != (row[2:] == ("!",)):
                sys.exit(f"{case.title}: {row[0]}: we reply {row[1]}, and Python {reply}")
        yield case.title, [(line, ours) if ours == reply else (line, ours, f"Python: {reply}") for (line, ours, *_), reply in zip(rows, python)]


def in_columns(rows):
    """The rows, of which each is one line of columns."""
    widths = [max((len(row[at]) for row in rows if len(row) > at + 1), default=0) for at in (0, 1)]
    return ["   ".join(part.ljust(width) for part, width in zip(row, [*widths, 0])).rstrip() for row in rows]


def files():
    """The text of each file, by its path."""
    table = ["Our replies, and Python's where they differ. Made by tools/python_rows.py: change it there."]
    for folder, cases in {"python": python_cases(), "differences": difference_cases()}.items():
        for title, rows in cases:
            name = re.sub("[^A-Za-z0-9]+", "-", title.replace("'", "")).strip("-")
            yield CASES / folder / name, text(row[0] for row in rows)
            yield CASES / folder / f"{name}.stdout", text(row[1] for row in rows)
            if folder == "differences":
                table += ["", title, "", *(f"    {line}" for line in in_columns(rows))]
    yield CASES / "differences.txt", text(table)


if __name__ == "__main__":
    sys.exit(case_files.put(dict(files()), CASES))
