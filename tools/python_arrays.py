#!/usr/bin/env python3
"""Writes the cases of `cases/arrays`: operations on typed arrays, with the replies of Python's `array` and `memoryview`.

    python3 tools/python_arrays.py            writes them
    python3 tools/python_arrays.py --check    writes nothing, and ends with 1 if a file would change

Each code has a case of operations that are drawn from a fixed seed, and a case of numbers at the ends of its range, with
an unreleased view and without one. If we differ, the reply is ours, and one of `DIFFERENCES` says why. The script stops if
Python's reply isn't the one that is said there, or if our reply differs and none is said. Each difference also has a case
of its own, written down by hand, and `cases/array-differences.txt` has Python's replies beside ours.
"""
import array
import pathlib
import random
import sys

sys.dont_write_bytecode = True

import case_files

CASES = pathlib.Path(__file__).resolve().parent.parent / "cases"
SEED, LINES = 56, 400
CODES = {
    "b": "signed-char",
    "B": "unsigned-char",
    "h": "short",
    "H": "unsigned-short",
    "i": "int",
    "I": "unsigned-int",
    "l": "long",
    "L": "unsigned-long",
    "q": "long-long",
    "Q": "unsigned-long-long",
}
FAULTS = (IndexError, ValueError, TypeError, BufferError, OverflowError)
# Slices with parts of a wrong kind, or with a step of 0, and slices with truth values, which count as their numbers.
ODD_SLICES = ("None:None:0", "x61:None:None", "None:...:None", "None:None:h0", "True:None:None", "1:None:True", "0:x:0", "...:h1:False")
NO_NUMBER = {"None": None, "True": True, "False": False, "...": Ellipsis}


def ends(code):
    """The least and the greatest number of a code."""
    bits = 8 * array.array(code).itemsize
    return (-(1 << bits - 1), (1 << bits - 1) - 1) if code.islower() else (0, (1 << bits) - 1)


def part(word):
    """A part of a slice."""
    if word in NO_NUMBER:
        return NO_NUMBER[word]
    if word.startswith("x"):
        return bytes.fromhex(word[1:])
    return object() if word.startswith("h") else int(word)


def numbers(word):
    """The numbers of a list."""
    return [int(it) for it in word[1:-1].split(",")] if word != "[]" else []


class Unknown(Exception):
    """A view that was never given: Python has no names for views that aren't there."""


class Python:
    """An array of Python, and the views that were made of it."""

    def __init__(self, code):
        self.array = array.array(code)
        self.views = []

    def view(self, number):
        if int(number) >= len(self.views):
            raise Unknown
        return self.views[int(number)]

    def made(self, view):
        self.views.append(view)
        return f"v{len(self.views) - 1}"

    def answer(self, word, *words):
        it = self.array
        match word:
            case "append":
                it.append(int(words[0]))
            case "extend":
                it.extend(numbers(words[0]))
            case "insert":
                it.insert(int(words[0]), int(words[1]))
            case "pop":
                return repr(it.pop(*map(int, words)))
            case "remove":
                it.remove(int(words[0]))
            case "frombytes":
                it.frombytes(bytes.fromhex(words[0][1:]))
            case "get":
                return repr(it[int(words[0])])
            case "set":
                it[int(words[0])] = int(words[1])
            case "len":
                return repr(len(it))
            case "tolist":
                return repr(it.tolist())
            case "tobytes":
                return repr(it.tobytes())
            case "byteswap":
                it.byteswap()
            case "view":
                return self.made(memoryview(it))
            case "vslice":
                return self.made(self.view(words[0])[slice(*map(part, words[1].split(":")))])
            case "vget":
                return repr(self.view(words[0])[int(words[1])])
            case "vset":
                self.view(words[0])[int(words[1])] = int(words[2])
            case "release":
                self.view(words[0]).release()
        return "ok"

    def reply(self, line):
        try:
            return self.answer(*line.split(" "))
        except FAULTS as fault:
            return f"! {type(fault).__name__}"
        except Unknown:
            return None

    def is_live(self):
        """Whether a view is unreleased."""
        try:
            self.array.append(0)
        except BufferError:
            return True
        self.array.pop()
        return False

    def holds(self, number):
        least, most = ends(self.array.typecode)
        return least <= number <= most


def unknown_view(python, word, words):
    """A view that was never given is `UnknownName`."""
    return word in ("vslice", "vget", "vset", "release") and int(words[0]) >= len(python.views)


def out_of_range_through_a_view(python, word, words):
    """A number out of the code's range is `OverflowError` through a view too (Python: `ValueError`)."""
    return word == "vset" and not python.holds(int(words[2]))


def nothing_while_a_view_lives(python, word, words):
    """While a view is unreleased, `extend` by no numbers and `frombytes` of no bytes are `BufferError` (Python: done)."""
    return words in (("[]",), ("x",)) and word in ("extend", "frombytes") and python.is_live()


def list_with_one_out_of_range(python, word, words):
    """`extend` adds all numbers of a list or none, and looks at all of them first (Python: those before the first that the
    code hasn't are added, and a view is found before it)."""
    return word == "extend" and not all(map(python.holds, numbers(words[0])))


# What may differ: a test that a line differs in this way, our reply, and the replies that Python may give.
DIFFERENCES = (
    (unknown_view, "! UnknownName", (None,)),
    (out_of_range_through_a_view, "! OverflowError", ("! ValueError",)),
    (nothing_while_a_view_lives, "! BufferError", ("ok",)),
    (list_with_one_out_of_range, "! OverflowError", ("! OverflowError", "! BufferError")),
)


class Ours:
    """What we reply. It is what Python replies, except for the differences."""

    def __init__(self, code):
        self.python = Python(code)

    def difference(self, line):
        word, *words = line.split(" ")
        return next((it for it in DIFFERENCES if it[0](self.python, word, tuple(words))), None)

    def reply(self, line):
        """Our reply, and Python's."""
        difference = self.difference(line)
        count = len(self.python.array)
        theirs = self.python.reply(line)
        if difference is None:
            return theirs, theirs
        _, ours, others = difference
        # an index or a view is checked before the number that is set
        if difference[0] is out_of_range_through_a_view and theirs != "! ValueError":
            return theirs, theirs
        if theirs == "! ValueError" and self.is_released(line):
            return theirs, theirs
        if theirs not in others:
            sys.exit(f"{line}: Python replies {theirs}, where {difference[0].__doc__}")
        if len(self.python.array) > count:
            # what Python added from a list before the number that it refuses
            del self.python.array[count:]
        return ours, theirs

    def is_released(self, line):
        """Whether a line asks something of a released view."""
        word, *words = line.split(" ")
        if word not in ("vslice", "vget", "vset"):
            return False
        try:
            len(self.python.view(words[0]))
        except ValueError:
            return True
        return False


class Drawn:
    """Draws operations, with our replies."""

    def __init__(self, code):
        self.random = random.Random(f"{SEED} {code}")
        self.ours = Ours(code)
        self.python = self.ours.python
        self.least, self.most = ends(code)
        self.size = self.python.array.itemsize
        self.lines, self.replies = [], []

    def ask(self, line):
        self.lines.append(line)
        self.replies.append(self.ours.reply(line)[0])

    def number(self):
        draw = self.random
        kind = draw.randrange(20)
        if kind < 6:
            return draw.choice((self.least, self.most, self.least + 1, self.most - 1, 0, 1))
        if kind < 8:
            return draw.choice((self.least - 1, self.most + 1, -1, 1 << 64, -(1 << 63) - 1, (1 << 127) - 1, -(1 << 127)))
        if kind < 11 and self.python.array:
            return draw.choice(self.python.array)
        return draw.randint(self.least, self.most)

    def index(self, count):
        draw = self.random
        if draw.randrange(12) == 0:
            return draw.choice(((1 << 63) - 1, -(1 << 63), 1 << 63, -(1 << 63) - 1, 1 << 100))
        return draw.randint(-count - 2, count + 1)

    def slice(self):
        draw = self.random
        if draw.randrange(7) == 0:
            return draw.choice(ODD_SLICES)
        near = lambda: draw.choice(("None", str(draw.randint(-9, 9)), str(draw.choice((1 << 63, -(1 << 64), 40)))))
        step = draw.choice(("None", "1", "2", "3", "-1", "-2", "-3", str(1 << 63), str(-(1 << 63))))
        return f"{near()}:{near()}:{step}"

    def view(self):
        """The number of a view, which is mostly unreleased."""
        count = len(self.python.views)
        if count == 0 or self.random.randrange(20) == 0:
            return count + self.random.randrange(3)
        live = [k for k, it in enumerate(self.python.views) if not self.is_released(it)]
        return self.random.choice(live if live and self.random.randrange(16) else range(count))

    @staticmethod
    def is_released(view):
        try:
            return len(view) < 0
        except ValueError:
            return True

    def items(self, view):
        views = self.python.views
        return 0 if view >= len(views) or self.is_released(views[view]) else len(views[view])

    def line(self):
        draw, count = self.random, len(self.python.array)
        words = {
            "append": 14, "extend": 7, "insert": 9, "pop": 8, "remove": 5, "frombytes": 6, "get": 8, "set": 8, "len": 2,
            "tolist": 4, "tobytes": 4, "byteswap": 4, "view": 6, "vslice": 10, "vget": 9, "vset": 9, "release": 10,
        }
        if count > 40:
            return draw.choice((f"pop {self.index(count)}", "pop", "tolist", f"release {self.view()}"))
        word = draw.choices(list(words), list(words.values()))[0]
        view = self.view()
        match word:
            case "append" | "remove":
                return f"{word} {self.number()}"
            case "extend":
                return f"extend [{','.join(str(self.number()) for _ in range(draw.choice((0, 1, 2, 2, 5))))}]"
            case "insert" | "set":
                return f"{word} {self.index(count)} {self.number()}"
            case "pop":
                return draw.choice(("pop", f"pop {self.index(count)}"))
            case "frombytes":
                return f"frombytes x{draw.randbytes(self.size * draw.randrange(4) + (draw.randrange(5) == 0)).hex()}"
            case "get":
                return f"get {self.index(count)}"
            case "vslice":
                return f"vslice {view} {self.slice()}"
            case "vget":
                return f"vget {view} {self.index(self.items(view))}"
            case "vset":
                return f"vset {view} {self.index(self.items(view))} {self.number()}"
            case "release":
                return f"release {view}"
        return word

    def drawn(self):
        for _ in range(LINES):
            self.ask(self.line())
            # now and then all views are released, so that arrays grow
            if self.random.randrange(12) == 0:
                for k, view in enumerate(self.python.views):
                    if not self.is_released(view):
                        self.ask(f"release {k}")
        self.ask("tolist")
        return self.lines, self.replies

    def at_the_ends(self):
        """Each operation that takes a number, with those at and past the ends of the range, without a view, with one that
        is unreleased, and with it released."""
        past = (self.least - 1, self.least, self.most, self.most + 1)
        for before in ("len", "view", "release 0"):
            self.ask(before)
            for number in past:
                self.ask(f"append {number}")
                self.ask(f"insert 0 {number}")
                self.ask(f"extend [{number}]")
                self.ask(f"extend [{self.least},{number},{self.most}]")
                self.ask(f"set -1 {number}")
                self.ask(f"vset 0 0 {number}")
                self.ask(f"remove {number}")
                self.ask("tolist")
            for bytes_of in (b"", b"\x80" * self.size, b"\x7f" * self.size + b"\xff" * self.size, b"\0" * (self.size + 1)):
                self.ask(f"frombytes x{bytes_of.hex()}")
            for index in ((1 << 63) - 1, -(1 << 63), 1 << 63, -(1 << 63) - 1):
                self.ask(f"insert {index} 0")
                self.ask(f"pop {index}")
                self.ask(f"get {index}")
                self.ask(f"vget 0 {index}")
            for odd in (*ODD_SLICES, "None:None:-1", f"{1 << 63}:None:{-(1 << 63)}", f"{-(1 << 64)}:{1 << 64}:2"):
                self.ask(f"vslice 0 {odd}")
            self.ask("byteswap")
            self.ask("tolist")
            self.ask("tobytes")
            for view in range(1, len(self.python.views)):
                self.ask(f"vget {view} -1")
                self.ask(f"release {view}")
        return self.lines, self.replies


# Each difference by itself: a code, and lines, which have Python's reply if it differs.
BY_HAND = {
    "a view that was never given is an unknown name": (
        "h",
        """
vget 0 0            None
vslice 0 0:1:None   None
vset 0 0 1          None
release 0           None
view
release 1           None
release 0
release 0
vget 0 0
""",
    ),
    "a number out of range is so through a view too": (
        "B",
        """
extend [1,2]
view
set 0 256
vset 0 0 256     ! ValueError
vset 0 1 -1      ! ValueError
vset 0 2 256
vset 0 -1 255
tolist
""",
    ),
    "nothing is added while a view is unreleased": (
        "i",
        """
extend [1]
view
extend []          ok
frombytes x        ok
frombytes x01
release 0
extend []
frombytes x
tolist
""",
    ),
    "a list is added whole or not at all": (
        "b",
        """
extend [1,2,128,3]
tolist              [1, 2]
view
extend [4,-129]     ! BufferError
extend [200,4]
tolist              [1, 2]
""",
    ),
}


def case_by_hand(title, code, rows):
    """The lines of a case, our replies, and Python's replies if they differ."""
    ours, theirs = Ours(code), Python(code)
    for row in rows.strip().split("\n"):
        line, *said = (it.strip() for it in row.split("  ") if it.strip())
        reply, python = ours.reply(line)[0], theirs.reply(line)
        differs = reply != python
        if differs != bool(said) or said and said != [str(python)]:
            sys.exit(f"{title}: {line}: we reply {reply}, and Python {python}")
        yield (line, reply, f"Python: {python or 'has no such view'}") if differs else (line, reply)


def text(lines):
    return "".join(f"{line}\n" for line in lines)


def files():
    """The path of each file, with its text."""
    folder = CASES / "arrays"
    for code, name in CODES.items():
        for title, (lines, replies) in (("drawn", Drawn(code).drawn()), ("at-the-ends", Drawn(code).at_the_ends())):
            yield folder / f"{title}-{name}", text(lines)
            yield folder / f"{title}-{name}.args", f"array\n{code}\n"
            yield folder / f"{title}-{name}.stdout", text(replies)
    table = ["Our replies, and Python's where they differ. Made by tools/python_arrays.py: change it there."]
    for title, (code, rows) in BY_HAND.items():
        rows = list(case_by_hand(title, code, rows))
        name = title.replace(" ", "-")
        yield folder / name, text(row[0] for row in rows)
        yield folder / f"{name}.args", f"array\n{code}\n"
        yield folder / f"{name}.stdout", text(row[1] for row in rows)
        widths = [max(len(row[at]) for row in rows) for at in (0, 1)]
        columns = ["   ".join(it.ljust(width) for it, width in zip(row, [*widths, 0])).rstrip() for row in rows]
        table += ["", f"{title} (array {code})", "", *(f"    {line}" for line in columns)]
    yield CASES / "array-differences.txt", text(table)


if __name__ == "__main__":
    sys.exit(case_files.put(dict(files()), CASES))
