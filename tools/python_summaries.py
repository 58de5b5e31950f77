#!/usr/bin/env python3
"""Writes the cases of `cases/summaries`: what `make` with a number has to write, computed by Python's own objects.

    python3 tools/python_summaries.py            writes them
    python3 tools/python_summaries.py --check    writes nothing, and ends with 1 if a file would change

The numbers are those from 1 to 64, the ends of what `make` takes, and ten that are drawn from a fixed seed. A case has
no input. Its words are in a file with the ending `.args`.
"""
import pathlib
import random
import sys

sys.dont_write_bytecode = True

import case_files

CASES = pathlib.Path(__file__).resolve().parent.parent / "cases/summaries"
MOST = 4096


class Counted:
    """Objects of Python by the handles that commands would give them, and how many commands and refusals there were."""

    def __init__(self):
        self.objects = []
        self.lines = self.refused = 0

    def ask(self, command, *arguments):
        self.lines += 1
        try:
            return command(*arguments)
        except BufferError:
            self.refused += 1

    def make(self, command, *arguments):
        self.objects.append(self.ask(command, *arguments))


def summary(number):
    """The script of a number, carried out. For each k below the number a byte is added. After the fourth, the eighth and so on
    the first is popped; after the sixteenth and so on a view and its reverse are read while a byte is added."""
    run = Counted()
    run.make(bytearray, b"")
    data = run.objects[0]
    for k in range(number):
        run.ask(data.append, (7 * k + 3) % 256)
        if k % 4 == 3:
            run.ask(data.pop, 0)
        j, rest = divmod(k, 16)
        if rest == 15:
            a, b = 2 * j + 1, 2 * j + 2
            run.make(memoryview, data)
            run.make(lambda: run.objects[a][None:None:-1])
            run.ask(bytes, run.objects[b])
            run.ask(data.append, 0)
            run.ask(run.objects[a].release)
            run.ask(run.objects[b].release)
    run.ask(bytes, data)
    numbers = {
        "lines": run.lines,
        "refused": run.refused,
        "handles": len(run.objects),
        "length": len(data),
        "sum": sum(data),
    }
    return "".join(f"{name} {found}\n" for name, found in numbers.items())


def files():
    """The path of each file, with its text."""
    drawn = random.Random(48).sample(range(65, MOST), 10)
    for number in (*range(1, 65), *sorted(drawn), MOST):
        name = f"make-{number}"
        yield CASES / name, ""
        yield CASES / f"{name}.args", f"make\n{number}\n"
        yield CASES / f"{name}.stdout", summary(number)


if __name__ == "__main__":
    sys.exit(case_files.put(dict(files()), CASES.parent))
