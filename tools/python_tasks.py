#!/usr/bin/env python3
"""Writes what the program `example_tasks` has to print: what Python's lines in `docs/tasks/cookbook.md` print.

    python3 tools/python_tasks.py            writes it
    python3 tools/python_tasks.py --check    writes nothing, and ends with 1 if the file would change

A section of the page is a task: a block of Rattle, a block of Python, and what both print. Python runs its block in the folder of the
files that the program reads, and has to print what the page shows. There are ten tasks, and a block of Rattle has at most 15 lines.
`tools/check_documents.py` looks for the blocks of Rattle in the sources of the program.
"""
import pathlib
import re
import subprocess
import sys

sys.dont_write_bytecode = True

import case_files
import page_blocks

ROOT = pathlib.Path(__file__).resolve().parent.parent
PAGE = ROOT / "docs/tasks/cookbook.md"
CRATE = ROOT / "crates/example_tasks"
TASKS, LINES, SECONDS = 10, 15, 60


def tasks():
    """The tasks of the page, each with its heading and its blocks: their languages and their lines."""
    for part in re.split(r"^## ", PAGE.read_text(), flags=re.MULTILINE)[1:]:
        head, _, text = part.partition("\n")
        yield head, [(language, block) for _, language, block in page_blocks.blocks(text.split("\n"))]


def fault_of(blocks, written):
    """What is wrong with the blocks of a task, or nothing."""
    if [language for language, _ in blocks] != ["rust", "python", None]:
        return "a task has a block of Rattle, one of Python, and what both print"
    if sum(1 for line in blocks[0][1] if line.strip()) > LINES:
        return f"the block of Rattle has more than {LINES} lines"
    shown = "".join(line[4:] + "\n" for line in blocks[2][1])
    return "" if shown == written else f"Python prints\n{written}"


def main():
    printed, faults, count = "", [], 0
    for head, blocks in tasks():
        code = "".join(line + "\n" for language, block in blocks if language == "python" for line in block)
        ran = subprocess.run([sys.executable, "-c", code], cwd=CRATE / "data", capture_output=True, text=True, timeout=SECONDS)
        fault = ran.stderr or fault_of(blocks, ran.stdout)
        if fault:
            faults.append(f"{PAGE.relative_to(ROOT)}: {head}: {fault}")
        printed += ran.stdout
        count += 1
    if count != TASKS:
        faults.append(f"{PAGE.relative_to(ROOT)}: there are {count} tasks in place of {TASKS}")
    for fault in faults:
        print(fault)
    return case_files.put({CRATE / "stdout": printed}, CRATE) or int(bool(faults))


if __name__ == "__main__":
    sys.exit(main())
