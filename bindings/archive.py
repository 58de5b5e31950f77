#!/usr/bin/env python3
"""Makes crates/pybuf_c/out/libpybuf_c.a by `rt lib`, over the libraries that `rt ci` left.

`rt ci` proves each library and leaves it in its crate's out/, but without the note by which `rt lib` knows that it is built from
these files, so `rt lib` alone would prove them all again. This script writes the notes of the libraries that are there.
It computes the note of each crate once, where `rt` computes it for every path. The script rests on the kit's rtlib, but the proofs rest
on `rt ci` alone. If the kit's rtlib has other names, a plain `rt lib` proves the libraries once more.
"""
import os
import pathlib
import runpy
import shutil
import sys

rt = pathlib.Path(shutil.which('rt')).resolve()
top = pathlib.Path(__file__).resolve().parent.parent
os.chdir(top / 'crates/pybuf_c')
known = {}


def stamp(crate):
    if crate.folder not in known:
        known[crate.folder] = made(crate)
    return known[crate.folder]


try:
    sys.path.insert(0, str(rt.parent))
    import rtlib

    made = rtlib.Crate.stamp
    rtlib.Crate.stamp = stamp
    if sys.argv[1:] == ['--after-ci']:
        for crate in rtlib.Crate(os.getcwd(), str(top), {}).below():
            note = pathlib.Path(crate.rlib).parent / 'stamp'
            if (pathlib.Path(crate.rlib) / 'format').exists() and not note.exists():
                note.write_text(crate.stamp())
    known.clear()
except (AttributeError, ImportError, TypeError) as fault:
    print(f'archive: {fault}: rt lib proves the libraries once more', file=sys.stderr)
    os.execv(rt, [str(rt), 'lib'])
sys.argv = [str(rt), 'lib']
runpy.run_path(str(rt), run_name='__main__')
