#!/usr/bin/env python3
"""Makes each wrong use in crates/*/misuse/ in a copy of its crate, and looks for the error of the borrow checker that refuses it. `./test misuse` calls this.

    python3 tools/misuse.py            all wrong uses
    python3 tools/misuse.py WORD..     those with one of the words in their names

A file `NAME.edit` there has the lines `file:`, `old:` and `new:` of a must-fail edit, and a line `error:` with the number that rustc gives
the error, such as E0499. A must-fail edit has to compile; such a use must not. The crate as it stands has to compile too.

The last line is `N passed, M failed`. The status is 1 if a use isn't refused so, 2 if no use has such a name, and else 0.
"""
import pathlib
import shutil
import subprocess
import sys
import tempfile

ROOT = pathlib.Path(__file__).resolve().parent.parent


def copied(crate, top):
    """The folder of one crate in a copy of the repository's crates at `top`."""
    shutil.copytree(ROOT / "crates", top / "crates", ignore=shutil.ignore_patterns("out"))
    for name in ("crates.txt", "HANDLES"):
        shutil.copy(ROOT / name, top / name)
    return top / "crates" / crate


def said(folder):
    ran = subprocess.run(["rt", "try", "--test"], cwd=folder, stdout=subprocess.PIPE, stderr=subprocess.STDOUT, text=True)
    return ran.stdout


def fault_of(path):
    """Why a wrong use isn't refused as it must be, or None."""
    words = dict(line.split(": ", 1) for line in path.read_text().splitlines())
    with tempfile.TemporaryDirectory() as top:
        folder = copied(path.parent.parent.name, pathlib.Path(top))
        file = folder / words["file"]
        text = file.read_text()
        if text.count(words["old"]) != 1:
            return "the old line doesn't stand in the file exactly once"
        file.write_text(text.replace(words["old"], words["new"]))
        told = said(folder)
        return None if f"error[borrow-{words['error'].lower()}]" in told else f"no error {words['error']}; it said:\n{told}"


def main(words):
    if "--help" in words or "-h" in words:
        print(__doc__, end="")
        return 0
    edits = [it for it in sorted(ROOT.glob("crates/*/misuse/*.edit")) if not words or any(word in it.stem for word in words)]
    if not edits:
        print("misuse: no wrong use has such a name", file=sys.stderr)
        return 2
    passed = failed = 0
    for path in edits:
        fault = fault_of(path)
        passed, failed = passed + (fault is None), failed + (fault is not None)
        print(f"{path.stem}: {'refused, as it must be' if fault is None else fault}", flush=True)
    print(f"{passed} passed, {failed} failed")
    return 1 if failed else 0


if __name__ == "__main__":
    sys.exit(main(sys.argv[1:]))
