#!/usr/bin/env python3
"""Passes on what `rt ci` says, line by line, and says between these lines how far it is.

    rt ci | tools/progress.py

Behind each line that tells that a crate or its tests were proved stands a line of its own. It says how many of how many are proved, and
the minutes since the start. If nothing comes for two minutes, such a line is written all the same. The script reads the names of the crates from
`crates.txt`, and the tests and edits from their folders. It keeps the line with how many have passed in `out/gate-count.txt`.
"""
import os
import pathlib
import re
import select
import signal
import sys
import time

ROOT = pathlib.Path(__file__).resolve().parent.parent
QUIET_SECONDS = 120
COUNT = ROOT / "out/gate-count.txt"
COUNTED = re.compile(rb"\d+ passed, \d+ failed.*")
PROVED = re.compile(rb"rt: (\w+)(: its tests are)? (proved|NOT PROVED.*|is kept: .*)")
TRIES = re.compile(rb"rt: (\w+): trying its must-fail edits \((\d+)\)")


def crates():
    lines = (ROOT / "crates.txt").read_text().split("\n")
    return [line.partition(":")[0].split()[0] for line in lines if ":" in line.partition("#")[0]]


def has_tests(crate):
    return any("#[test]" in path.read_text() for path in (ROOT / "crates" / crate / "src").glob("**/*.rt"))


class Progress:
    def __init__(self):
        names = crates()
        self.start, self.proved, self.tested, self.tried = time.monotonic(), set(), set(), {}
        self.of_proofs, self.of_tests = len(names), sum(map(has_tests, names))
        self.of_edits = len(list((ROOT / "crates").glob("*/must-fail/*.edit")))

    def is_told_by(self, line):
        """Whether the line tells that one more thing is done."""
        proved, tries = PROVED.fullmatch(line), TRIES.fullmatch(line)
        if proved:
            (self.tested if proved[2] else self.proved).add(proved[1])
        if tries:
            self.tried[tries[1]] = int(tries[2])
        return bool(proved or tries)

    def line(self):
        minutes = (time.monotonic() - self.start) / 60
        begun = f", {sum(self.tried.values())} of {self.of_edits} edits begun" if self.of_edits else ""
        return f"gate: {len(self.proved)} of {self.of_proofs} crates, {len(self.tested)} of {self.of_tests} crates of tests{begun}; {minutes:.0f} minutes\n"


def write(text):
    os.write(1, text) if isinstance(text, bytes) else os.write(1, text.encode())


def keep(line):
    try:
        COUNT.parent.mkdir(exist_ok=True)
        COUNT.write_bytes(line + b"\n")
    except OSError:
        pass


def main():
    # (what rt ci still says when it is stopped is passed on)
    signal.signal(signal.SIGINT, signal.SIG_IGN)
    progress, left = Progress(), b""
    while True:
        if not select.select([0], [], [], QUIET_SECONDS)[0]:
            if not left:
                write(progress.line())
            continue
        more = os.read(0, 65536)
        if not more:
            write(left)
            return 0
        *lines, left = (left + more).split(b"\n")
        for line in lines:
            write(line + b"\n")
            if COUNTED.fullmatch(line):
                keep(line)
            if progress.is_told_by(line):
                write(progress.line())


if __name__ == "__main__":
    sys.exit(main())
