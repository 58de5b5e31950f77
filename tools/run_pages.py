#!/usr/bin/env python3
"""Follows a page to learn from in a fresh folder, and ends with status 1 if something comes out otherwise than the page says.

    python3 tools/run_pages.py NAME      follows docs/learn/NAME.md
    python3 tools/run_pages.py --list    prints the names of these pages

The folder has a copy of `crates.txt`, `HANDLES` and `crates/`, and is taken away afterwards. The steps are taken in the order of
the page:

- a block between fences is written to the file that the line before it names, behind the word "into";
- each command, a line `    $ ..`, is run at the top of the folder, and what it writes has to be what stands behind it.
"""
import pathlib
import shutil
import subprocess
import sys
import tempfile

sys.dont_write_bytecode = True

import page_blocks

ROOT = pathlib.Path(__file__).resolve().parent.parent
LEARN = ROOT / "docs/learn"
# How long a command may take, in seconds: a program is built from nothing.
SECONDS = 3000


def steps(lines):
    """What a reader does: files to write (a name and a text), and commands (a line of the page, the command, and what it writes)."""
    files = page_blocks.written(lines)
    for number, language, block in page_blocks.blocks(lines):
        if language is not None:
            # (if no line names a file for a block, tools/check_documents.py refuses the block, or the block shows what stands elsewhere)
            if number in files:
                yield "file", number, files[number], "".join(line + "\n" for line in block)
            continue
        command = None
        for line in block:
            if line.startswith("    $ "):
                if command is not None:
                    yield "run", number, command, written
                command, written = line[6:], ""
            else:
                written += line[4:] + "\n"
        if command is not None:
            yield "run", number, command, written


def follow(name, folder):
    """Follows a page, and says what came out otherwise. It gives `None` if everything is as the page says."""
    ran = 0
    for kind, number, what, text in steps((LEARN / f"{name}.md").read_text().split("\n")):
        if kind == "file":
            path = folder / what
            if folder not in path.resolve().parents:
                return f"line {number}: {what} lies outside the folder"
            path.write_text(text)
            continue
        done = subprocess.run(["bash", "-c", what], cwd=folder, stdout=subprocess.PIPE, stderr=subprocess.PIPE, stdin=subprocess.DEVNULL, timeout=SECONDS)
        written = done.stdout.decode(errors="replace")
        if written != text or done.returncode:
            said = done.stderr.decode(errors="replace")
            return f"line {number}: {what}\nended with status {done.returncode} and wrote\n{written}in place of\n{text}and said\n{said}"
        ran += 1
    print(f"{ran} commands of docs/learn/{name}.md")
    return None


def main(words):
    names = sorted(path.stem for path in LEARN.glob("*.md"))
    if words == ["--list"]:
        print("\n".join(names))
        return 0
    if len(words) != 1 or words[0] not in names:
        print(f"run_pages: which page? {', '.join(names)}", file=sys.stderr)
        return 2
    with tempfile.TemporaryDirectory() as place:
        folder = pathlib.Path(place) / "pybuf"
        folder.mkdir()
        for name in ("crates.txt", "HANDLES"):
            shutil.copy(ROOT / name, folder)
        shutil.copytree(ROOT / "crates", folder / "crates", ignore=shutil.ignore_patterns("out"))
        # rt looks for the top of a repository, and ends the search there
        subprocess.run(["git", "init", "-q"], cwd=folder, check=True)
        fault = follow(words[0], folder)
    if fault is not None:
        print(fault)
        return 1
    return 0


if __name__ == "__main__":
    sys.exit(main(sys.argv[1:]))
