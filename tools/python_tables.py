#!/usr/bin/env python3
"""Writes the cases of `cases/tables`: what `table` has to write for formats and bytes, computed by Python's own `struct`.

    python3 tools/python_tables.py            writes them
    python3 tools/python_tables.py --check    writes nothing, and ends with 1 if a file would change

Formats and bytes are drawn from a fixed seed: every code that Python's `struct` shares with the program, every prefix,
counts, 0 among them, text and Pascal strings, and pads. A case has the bytes of a table as its input, and its words in a file
with the ending `.args`. `tables-N` has every record of a format. `queries-N` has the records in which a field compares as
asked, with each operator in turn. In each sixth case there are too few bytes for a last record.

The other cases have words that the program refuses. If Python takes what the program refuses, or the other way round, this
is named in `DIFFERENT`, and the script stops if it is no difference. Python has to refuse every other such format.
"""
import operator
import pathlib
import random
import struct
import sys

sys.dont_write_bytecode = True

import case_files

ROOT = pathlib.Path(__file__).resolve().parent.parent
CASES = ROOT / "cases/tables"

PREFIXES = ["", "@", "=", "<", ">", "!"]
NUMBERS = "bBhHiIlLqQ"
NATIVE = "nN"
OPERATORS = {
    "==": operator.eq,
    "!=": operator.ne,
    "<": operator.lt,
    "<=": operator.le,
    ">": operator.gt,
    ">=": operator.ge,
}
USAGE, BAD_DATA = 6, 9
WORD = 2**64
LARGE = 2**127

# The bytes that are drawn most often, beside any byte: the ends of what a byte can say, with and without a sign.
BYTES = [0x00, 0x01, 0x7F, 0x80, 0xFF]


def code_of(draw, prefix, wanted):
    """A code with its count, or without one."""
    if wanted in "sp":
        # (a Pascal string of length 0 is a difference, below)
        return draw.choice(["", "0" if wanted == "s" else "", "1", "2", "3", "7", "12"]) + wanted
    return draw.choice(["", "", "", "", "0", "1", "2", "3"]) + wanted


def format_of(draw, wanted):
    """A format with a code that is wanted, whose records have a byte."""
    while True:
        prefix = draw.choice(PREFIXES[:2] if wanted in NATIVE else PREFIXES)
        codes = "xcbB?hHiIlLqQsp" + (NATIVE if prefix in PREFIXES[:2] else "")
        drawn = [draw.choice(codes) for _ in range(draw.randrange(5))]
        drawn.insert(draw.randrange(len(drawn) + 1), wanted)
        text = prefix + "".join(code_of(draw, prefix, code) for code in drawn)
        if struct.calcsize(text):
            return text


def bytes_of(draw, count):
    return bytes(draw.choice(BYTES) if draw.randrange(3) == 0 else draw.randrange(256) for _ in range(count))


def row_line(row):
    return f"{row!r}\n".encode()


def answer(text, given, chooses=lambda row: True):
    """What is written for a table, and the status."""
    size = struct.calcsize(text)
    if len(given) % size:
        return f"{len(given) % size} bytes left over\n".encode(), BAD_DATA
    return b"".join(row_line(row) for row in struct.iter_unpack(text, given) if chooses(row)), 0


def given_of(draw, text, number):
    """The bytes of some records. Each sixth input also has some bytes of one more, if a record has several."""
    size = struct.calcsize(text)
    given = bytes_of(draw, size * draw.randrange(1, 12))
    return given + bytes_of(draw, draw.randrange(1, size)) if number % 6 == 5 and size > 1 else given


def case(name, words, given, written, status):
    yield CASES / name, given
    yield CASES / f"{name}.args", "".join(f"{word}\n" for word in words).encode()
    yield CASES / f"{name}.stdout", written
    if status:
        yield CASES / f"{name}.status", f"{status}\n".encode()


def tables():
    """Every record of drawn formats, in which each code is wanted three times."""
    draw = random.Random(57)
    for number, wanted in enumerate(("xc?sp" + NUMBERS + NATIVE) * 3):
        text = format_of(draw, wanted)
        given = given_of(draw, text, number)
        yield from case(f"tables-{number + 1:02}", ["table", text], given, *answer(text, given))


def numbered(value):
    """Whether a value has an order with a number."""
    return isinstance(value, int)


def queries():
    """Chosen records of drawn formats, where each operator is asked of each code."""
    draw = random.Random(58)
    number = 0
    for spelled, compare in OPERATORS.items():
        for wanted in "c?sp" + NUMBERS + NATIVE:
            if wanted in "csp" and spelled not in ("==", "!="):
                continue
            while True:
                text = format_of(draw, wanted)
                given = given_of(draw, text, number)
                rows = list(struct.iter_unpack(text, given[: len(given) - len(given) % struct.calcsize(text)]))
                fields = [
                    k
                    for k in range(len(rows[0]))
                    if numbered(rows[0][k]) == (wanted not in "csp") and isinstance(rows[0][k], bool) == (wanted == "?")
                ]
                if fields:
                    break
            field = draw.choice(fields)
            found = [row[field] for row in rows if numbered(row[field])]
            # (the number stands there, or is one more or one less, so that each operator tells some records apart)
            asked = int(draw.choice(found)) + draw.choice([-1, 0, 0, 1]) if found else 97
            words = ["table", text, str(field), spelled, str(asked)]
            written = answer(text, given, lambda row: compare(row[field], asked))
            yield from case(f"queries-{number + 1:02}", words, given, *written)
            number += 1


# Words behind `table` that are refused, by what is wrong with them. Python's `struct` says the same of their formats.
REFUSED = {
    "no-format": [],
    "a-code-that-is-none": ["k"],
    "a-count-without-a-code": ["B5"],
    "a-prefix-behind-a-code": ["B<H"],
    "two-prefixes": ["<>H"],
    "a-native-code-behind-a-prefix": ["<n"],
    "a-size-past-a-word": ["9223372036854775808B"],
    "a-count-past-128-bits": ["999999999999999999999999999999999999999999B"],
    "a-size-past-a-word-by-two-codes": ["9223372036854775807BB"],
    "a-sign-before-a-count": ["-1B"],
    "a-letter-past-ascii": ["\u00e9"],
}

# Words whose format has size 0. Python's `struct` makes no iterator of it either.
EMPTY = {
    "a-text-of-no-byte": ["0s"],
    "an-empty-word": [""],
    "a-prefix-alone": ["<"],
    "a-count-of-0": ["0B"],
    "pads-of-no-byte": ["0x"],
}

# Words that Python's `struct` can't judge, beyond the format that they begin with.
ASKED = {
    "a-field-that-is-not-there": ["<BH", "2", "==", "1"],
    "a-field-of-pads": ["4x", "0", "==", "1"],
    "the-last-number-of-a-word-as-a-field": ["<BH", str(WORD - 1), "==", "1"],
    "a-field-past-a-word": ["<BH", str(WORD), "==", "1"],
    "a-field-before-the-first": ["<BH", "-1", "==", "1"],
    "a-field-with-a-sign": ["<BH", "+1", "==", "1"],
    "a-field-that-is-no-number": ["<BH", "one", "==", "1"],
    "a-field-that-is-empty": ["<BH", "", "==", "1"],
    "an-operator-of-one-sign": ["<BH", "1", "=", "1"],
    "an-operator-the-wrong-way-round": ["<BH", "1", "=<", "1"],
    "an-operator-that-is-a-word": ["<BH", "1", "is", "1"],
    "an-operator-and-a-blank": ["<BH", "1", "== ", "1"],
    "an-operator-that-is-empty": ["<BH", "1", "", "1"],
    "a-number-that-is-a-truth-value": ["<BH", "1", "==", "True"],
    "a-number-that-is-bytes": ["<BH", "1", "==", "x01"],
    "a-number-that-is-a-text": ["<BH", "1", "==", "'a'"],
    "a-number-that-is-a-handle": ["<BH", "1", "==", "h1"],
    "a-number-with-a-plus": ["<BH", "1", "==", "+1"],
    "a-number-with-a-point": ["<BH", "1", "==", "1.0"],
    "a-number-that-is-a-sign": ["<BH", "1", "==", "-"],
    "a-number-that-is-empty": ["<BH", "1", "==", ""],
    "a-number-past-128-bits": ["<BH", "1", "==", str(LARGE)],
    "a-number-below-128-bits": ["<BH", "1", "==", str(-LARGE - 1)],
    "an-order-of-a-byte": ["<cH", "0", "<", "1"],
    "an-order-of-a-text": ["<2sH", "0", ">=", "1"],
    "an-order-of-a-pascal-string": ["<2pH", "0", "<=", "1"],
    "a-field-alone": ["<BH", "1"],
    "a-field-and-an-operator": ["<BH", "1", "=="],
    "a-further-word": ["<BH", "1", "==", "1", "1"],
}

# Formats on which Python's `struct` differs, with whether it takes them.
DIFFERENT = {
    "a-blank-between-codes": ("B B", True),
    "a-code-of-half-a-word-with-a-fraction": ("e", True),
    "a-code-of-a-word-with-a-fraction": ("f", True),
    "a-code-of-a-double-word-with-a-fraction": ("d", True),
    "a-code-of-a-pointer": ("P", True),
}

# What is taken and written otherwise than in words of its own.
TAKEN = {
    # zeros in front don't count, and numbers go to the ends of 128 bits
    "zeros-in-front": (["<BH", "0001", "==", "00262"], bytes([1, 2, 0, 5, 6, 1]), lambda row: row[1] == 262),
    "the-greatest-number": (["<BH", "1", "<=", str(LARGE - 1)], bytes([1, 2, 0, 5, 6, 1]), lambda row: True),
    "the-least-number": (["<BH", "1", "<", str(-LARGE)], bytes([1, 2, 0, 5, 6, 1]), lambda row: False),
    "a-negative-0": (["b", "0", "<", "-0"], bytes([255, 0, 1]), lambda row: row[0] < 0),
    "a-truth-value-is-a-number": (["?B", "0", "==", "1"], bytes([2, 7, 0, 8]), lambda row: row[0] == 1),
    "bytes-are-no-number": (["2s", "0", "!=", "24930"], b"abcd", lambda row: row[0] != 24930),
    "no-byte": (["<BH"], b"", lambda row: True),
    "no-byte-and-a-query": (["<BH", "1", ">", "100"], b"", lambda row: True),
    "the-greatest-size": (["9223372036854775807B"], b"", lambda row: True),
    "bytes-of-a-record-that-is-larger": (["9223372036854775807B"], b"abc", lambda row: True),
    "pads-alone": (["2x"], b"abcd", lambda row: True),
    "the-first-records": (["<BH"], bytes([1, 2, 0, 5, 6, 1]), lambda row: True),
    "a-record-that-is-chosen": (["<BH", "1", ">", "100"], bytes([1, 2, 0, 5, 6, 1]), lambda row: row[1] > 100),
    "a-byte-that-is-left-over": (["<BH"], bytes([1, 2, 0, 5]), lambda row: True),
    "a-record-of-one-value": (["B"], bytes([7]), lambda row: True),
}


def is_taken(text):
    """Whether Python's `struct` takes a format."""
    try:
        struct.calcsize(text)
    except struct.error:
        return False
    return True


def is_unpacked(text, given):
    """Whether Python's `struct` unpacks bytes by a format."""
    try:
        struct.unpack(text, given)
    except SystemError:
        return False
    return True


def refused(words):
    """Whether Python's `struct` refuses to read records of a format."""
    if not words or not words[0].isascii() or not is_taken(words[0]):
        return True
    try:
        struct.iter_unpack(words[0], b"")
    except struct.error:
        return True
    return False


def usage(name, words):
    return case(name, ["table", *words], b"abc", b"", USAGE)


def words():
    """Words that are refused, and tables that are written by hand."""
    for name, behind in (REFUSED | EMPTY).items():
        assert refused(behind), f"Python takes {behind}"
        yield from usage(name, behind)
    for name, behind in ASKED.items():
        assert not refused(behind), f"Python doesn't take {behind}"
        yield from usage(name, behind)
    for name, (text, taken) in DIFFERENT.items():
        assert is_taken(text) == taken, f"{text} is no difference"
        yield from usage(name, [text])
    for name, (behind, given, chooses) in TAKEN.items():
        yield from case(name, ["table", *behind], given, *answer(behind[0], given, chooses))
    # a code that Python's `struct` hasn't: a number of four bytes, as `i` is
    assert not is_taken("u")
    given = bytes([65, 0, 0, 0])
    yield from case("a-wide-character", ["table", "u"], given, row_line(struct.unpack("i", given)), 0)
    # a Pascal string of length 0, which Python's `struct` packs, but stops at when it unpacks one
    assert struct.pack("B0p", 7, b"a") == b"\7" and not is_unpacked("B0p", b"\7")
    yield from case("a-pascal-string-of-length-0", ["table", "B0p"], b"\7", row_line((7, b"")), 0)


if __name__ == "__main__":
    made = {path: content for part in (tables(), queries(), words()) for path, content in part}
    sys.exit(case_files.put(made, ROOT / "cases"))
