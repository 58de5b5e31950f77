#!/usr/bin/env python3
"""Makes a stand-in for the program and the libraries, so that archives and installing can be tested even if nothing is proved.

    tools/stand_in.py FOLDER

rt builds the real ones only from proved crates. The stand-in has the calls of `bindings/c/pybuf.c`, and behind each of them, in place
of the proved library, a function that answers PYBUF_NO_MEMORY and does nothing. The program says that it is a stand-in, and ends
with status 3. An archive of it is marked as such, by its name and in its file PROVED.
"""
import pathlib
import re
import subprocess
import sys

sys.dont_write_bytecode = True

from version import version

ROOT = pathlib.Path(__file__).resolve().parent.parent
PROGRAM = '#include <stdio.h>\nint main(void)\n{\n    fputs("pybuf: this is a stand-in for the program\\n", stderr);\n    return 3;\n}\n'


def exports():
    """The functions of the proved library, with bodies that do nothing."""
    text = (ROOT / "bindings/c/exports.h").read_text()
    found = re.findall(r"^(uint32_t|void) (pybuf_proved_\w+\([^)]*\));$", text, re.MULTILINE)
    return '#include "exports.h"\n' + "".join(f"{kind} {head} {{{' return PYBUF_NO_MEMORY; ' if kind != 'void' else ''}}}\n" for kind, head in found)


def main(words):
    if len(words) != 1:
        print(__doc__, end="", file=sys.stderr)
        return 2
    out = pathlib.Path(words[0])
    out.mkdir(parents=True, exist_ok=True)
    (out / "program.c").write_text(PROGRAM)
    (out / "exports.c").write_text(exports())
    symbols = subprocess.run([sys.executable, ROOT / "tools/check_abi.py", "--symbols"], capture_output=True, check=True).stdout
    (out / "libpybuf.map").write_bytes(symbols)
    here = {"cwd": out, "check": True}
    paths = ["-I", ROOT / "include", "-I", ROOT / "bindings/c"]
    subprocess.run(["gcc", "-O1", "program.c", "-o", "pybuf_program"], **here)
    subprocess.run(["gcc", "-O1", "-fPIC", *paths, "-c", "exports.c", "-o", "exports.o"], **here)
    subprocess.run(["gcc", "-O1", "-fPIC", *paths, "-c", ROOT / "bindings/c/pybuf.c", "-o", "pybuf.o"], **here)
    (out / "libpybuf.a").unlink(missing_ok=True)
    subprocess.run(["ar", "rcs", "libpybuf.a", "pybuf.o", "exports.o"], **here)
    name = f"libpybuf.so.{version().split('.')[0]}"
    linked = [f"-Wl,-soname,{name}", "-Wl,--version-script,libpybuf.map", "pybuf.o", "exports.o"]
    subprocess.run(["gcc", "-shared", "-o", "libpybuf.so", *linked], **here)
    return 0


if __name__ == "__main__":
    sys.exit(main(sys.argv[1:]))
