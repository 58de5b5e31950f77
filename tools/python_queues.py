#!/usr/bin/env python3
"""Writes the cases of `cases/queues`: bytearrays that are used as queues, with the replies of Python's own objects.

    python3 tools/python_queues.py            writes them
    python3 tools/python_queues.py --check    writes nothing, and ends with 1 if a file would change

Each case has 500 commands, which are drawn from a fixed seed. Bytes are added at the end and before the first byte. They
are taken away at the front: one by one, by slices in both directions, and by their value. Views live and are released in
between. Copies are made, bytearrays are made anew, and vectors of such bytes are taken out. `compare.py` carries the
lines out on Python's objects. If a case has no vector, they are carried out once more on Python's objects alone, and the
script stops if another reply comes.
"""
import pathlib
import random
import sys

sys.dont_write_bytecode = True

import case_files
from compare import Ours
from python_objects import AsWritten

CASES = pathlib.Path(__file__).resolve().parent.parent / "cases/queues"
COUNT, LINES, SEED = 20, 500, 47


class Queue:
    """Draws lines, and carries them out."""

    def __init__(self, number):
        self.random = random.Random(SEED * 1000 + number)
        self.has_vectors = number % 4 == 0
        self.python = Ours()
        # Python's objects alone, if no vector is drawn
        self.plain = self.python if self.has_vectors else AsWritten()
        self.lines, self.replies = [], []
        # the handles of the bytearrays, and those of unreleased views
        self.queues, self.live = [], []

    def ask(self, line):
        """Carries a line out. We differ on a line that is refused here while a view lives, though it asks for no other
        length in Python. Such a line changes nothing and isn't kept."""
        reply = self.python.reply(line)
        if self.plain is self.python or self.plain.reply(line) == reply:
            self.lines.append(line)
            self.replies.append(reply)
        return reply

    def handle(self, line):
        return int(self.ask(line).split(" ")[-1][1:])

    def content(self):
        """Bytes as a line has them."""
        return "x" + self.random.randbytes(self.random.choice((0, 1, 2, 5, 17, 60))).hex()

    def front(self, size):
        """A slice of the first bytes, in one of the two directions."""
        n = self.random.choice((0, 1, 2, size // 3, size // 2, max(size - 1, 0), size))
        if not n:
            return self.random.choice(("0:0:None", "3:1:None", "None:0:1"))
        return self.random.choice((f"0:{n}:None", f"None:{n}:1", f"{n - 1}:None:-1", f"{-size}:{n}:None"))

    def edit(self, at):
        """An edit of a bytearray."""
        draw, data = self.random, self.python.objects[at]
        kind = draw.choices(
            "append extend iadd first pop front del0 remove last insert slice delete doubled new clear".split(),
            (20, 8, 5, 5, 18, 14, 4, 5, 3, 3, 3, 3, 1, 1, 1),
        )[0]
        if kind in ("append", "remove"):
            value = data[0] if kind == "remove" and data else draw.randrange(256)
            return f"{kind} h{at} {value}"
        if kind in ("extend", "iadd"):
            return f"{kind} h{at} {self.content()}"
        return {
            "first": f"insert h{at} 0 {draw.randrange(256)}",
            "pop": f"pop h{at} 0",
            "front": f"del h{at} {self.front(len(data))}",
            "del0": f"del h{at} {draw.choice((0, -max(len(data), 1)))}",
            "last": f"pop h{at}",
            "insert": f"insert h{at} {draw.randrange(-9, 9)} {draw.randrange(256)}",
            "slice": f"set h{at} {draw.randrange(4)}:{draw.randrange(9)}:None {self.content()}",
            "delete": f"del h{at} {draw.randrange(6)}:{draw.choice((None, 9, 40))}:{draw.choice((None, 2, 3, 7))}",
            "doubled": f"imul h{at} {draw.randrange(-1, 3)}" if len(data) < 400 else f"clear h{at}",
            "new": f"init h{at} {self.content()}",
            "clear": f"clear h{at}",
        }[kind]

    def look(self, view):
        """What is done with a view while it lives."""
        draw = self.random
        return draw.choice((f"bytes h{view}", f"get h{view} 0", f"set h{view} 0 {draw.randrange(256)}", f"set h{view} -1 {draw.randrange(256)}"))

    def draw(self):
        self.queues.append(self.handle(f"new bytearray {self.content()}"))
        while len(self.lines) < LINES - 8:
            at = self.random.choice(self.queues)
            kind = self.random.choices("edit view look release bytes copy take".split(), (80, 3, 5, 15, 5, 0.7, 0.7))[0]
            if kind == "view":
                self.live.append(self.handle(f"view h{at}"))
                if self.random.randrange(2):
                    self.live.append(self.handle(f"get h{self.live[-1]} None:None:-1"))
            elif kind == "look" and self.live:
                self.ask(self.look(self.random.choice(self.live)))
            elif kind == "release" and self.live:
                while self.live:
                    self.ask(f"release h{self.live.pop()}")
            elif kind == "bytes":
                self.ask(f"bytes h{at}")
            elif kind == "copy" and len(self.queues) < 4:
                self.queues.append(self.handle(f"copy h{at}"))
            elif kind == "take" and self.has_vectors:
                view = self.handle(f"view h{at}")
                copied = self.handle(f"contig h{view}")
                self.ask(f"release h{view}")
                self.ask(f"release h{copied}")
                self.ask(f"take h{copied - 1}")
                self.ask(f"bytes h{copied - 1}")
            else:
                self.ask(self.edit(at))
        while len(self.lines) < LINES:
            self.ask(f"bytes h{self.queues[len(self.lines) % len(self.queues)]}")
        if not self.has_vectors and AsWritten().run(self.lines) != self.replies:
            sys.exit(f"{self.lines[0]}: Python replies otherwise")
        return self.lines, self.replies


def files():
    """The path of each file, with its text."""
    for number in range(1, COUNT + 1):
        lines, replies = Queue(number).draw()
        yield CASES / f"queue-{number:02}", "".join(f"{line}\n" for line in lines)
        yield CASES / f"queue-{number:02}.stdout", "".join(f"{reply}\n" for reply in replies)


if __name__ == "__main__":
    sys.exit(case_files.put(dict(files()), CASES.parent))
