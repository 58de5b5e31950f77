#!/usr/bin/env python3
"""Writes what the program `golden_queues` is given and has to write: calls of a bytearray that is used as a queue.

    python3 tools/python_typed_queues.py            writes it
    python3 tools/python_typed_queues.py --check    writes nothing, and ends with 1 if a file would change

The calls are drawn from a fixed seed, and carried out on Python's own `bytearray`. Python has no call that takes bytes away
and gives them, so a slice and `del` stand for it. Whether the length may change while a view is unreleased is asked of Python:
a byte is added and taken away. That is asked too where memory is taken ahead, or given back, for which Python has no call. Its
`bytearray` refuses a length past `sys.maxsize` with `OverflowError`.
"""
import pathlib
import random
import sys

sys.dont_write_bytecode = True

import case_files

CRATE = pathlib.Path(__file__).resolve().parent.parent / "crates/golden_queues"
SEED, CALLS, PERIOD = 20261202, 1500, 64
# The greatest number of bytes that can be asked for.
HUGE = 2 * sys.maxsize + 1
# The calls that are done while a view is unreleased, by the number behind `view`.
WITH_VIEW = ["take", "read", "line", "consume", "drain", "write", "push", "all", "front", "reserve", "huge", "shrink", "peek"]


class Queue:
    def __init__(self):
        self.bytes, self.next = bytearray(), 0

    def pattern(self, count):
        made = bytes((self.next + k) % PERIOD for k in range(count))
        self.next = (self.next + count) % PERIOD
        return made

    def may_resize(self):
        """Fails as Python does while a view is unreleased."""
        self.bytes.append(0)
        del self.bytes[-1]

    def taken(self, count):
        self.may_resize()
        front = bytes(self.bytes[:count])
        del self.bytes[:count]
        return front

    def given(self, word, count):
        """What a call gives: bytes, None, or the word for it."""
        if word == "push":
            self.bytes.append(count)
            return "done"
        if word in ("extend", "write"):
            made = self.pattern(count)
            self.may_resize()
            self.bytes += made
            return "done" if word == "extend" else str(count)
        if word == "take":
            self.may_resize()
            if count > len(self.bytes):
                raise IndexError
            return self.taken(count)
        if word == "peek":
            return bytes(self.bytes[:count]) if count <= len(self.bytes) else "none"
        if word == "read":
            return self.taken(count)
        if word == "all":
            return self.taken(len(self.bytes))
        if word == "front":
            for byte in reversed(self.pattern(count)):
                self.bytes.insert(0, byte)
            return "done"
        if word in ("reserve", "huge", "shrink"):
            self.may_resize()
            if word == "huge":
                bytearray(len(self.bytes) + HUGE - count)
            return "done"
        if word == "line":
            return self.taken(self.bytes.find(b"\n") + 1 or len(self.bytes))
        if word == "drain":
            self.taken(count)
            return "done"
        # As `BufRead` has it, `consume` fails silently.
        try:
            self.taken(count)
        except BufferError:
            pass
        return "done"

    def line(self, word, count):
        try:
            if word == "view":
                with memoryview(self.bytes):
                    given = self.given(WITH_VIEW[count], 1)
            else:
                given = self.given(word, count)
        except (IndexError, BufferError, OverflowError) as error:
            given = type(error).__name__
        if isinstance(given, bytes):
            given = "".join(["[", *(f" {byte}" for byte in given), " ]"])
        return f"{given} left {len(self.bytes)}"


def drawn():
    """The calls: the queue grows to some hundred bytes, and ends empty."""
    draw = random.Random(SEED)
    for _ in range(CALLS):
        word = draw.choice("push extend extend write take take drain read peek line consume view front front all reserve huge shrink".split())
        if word == "view":
            yield word, draw.randrange(len(WITH_VIEW))
        elif word == "push":
            yield word, draw.randrange(256)
        elif word == "line":
            yield word, 0
        elif word == "front":
            yield word, draw.choice([0, 1, 2, 15, 16, 17])
        else:
            yield word, draw.choice([0, 1, 2, 7, 15, 16, 17, draw.randint(0, 40), draw.randint(0, 150)])
    for _ in range(40):
        yield "take", 100
        yield "read", 60
    yield "line", 0


def main():
    queue = Queue()
    calls = list(drawn())
    files = {
        CRATE / "stdin": "".join(f"{word} {count}\n" for word, count in calls).encode(),
        CRATE / "stdout": "".join(f"{queue.line(word, count)}\n" for word, count in calls).encode(),
    }
    if queue.bytes:
        sys.exit("the queue doesn't end empty")
    return case_files.put(files, CRATE)


if __name__ == "__main__":
    sys.exit(main())
