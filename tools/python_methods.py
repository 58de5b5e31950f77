#!/usr/bin/env python3
"""Writes what `golden_methods` must print, from the methods of Python's own `bytes`.

    python3 tools/python_methods.py > crates/golden_methods/stdout

A line is a method, its argument (a needle, as `x` and hexadecimal digits, or the name of the texts), the number
of answers, and the FNV-1a hash, of 64 bits, of the texts of the answers. Each text ends with a line
feed. A number is written in decimal digits, true and false as `1` and `0`, and bytes in hexadecimal
digits. Each part of a list has a comma behind it. A refusal is written as the name of the exception.
The middle part of a partition is written as whether there was a match.
"""
import itertools
import operator

BOUNDS = [None, *range(-7, 8)]
NUMBERS = range(-2, 5)
WIDTHS = range(-1, 9)
REPLACEMENTS = [b"", b"a", b"bb"]
# The bytes differ from each other: if one is repeated, our `maketrans` takes the first and Python's takes the last.
MAPPED = [b"", b"a", b"b", b"ab", b"ba"]
SWAPPED = bytes.maketrans(b"ab", b"ba")
BARE = "isalnum isalpha isascii isdigit islower isspace istitle isupper lower upper swapcase capitalize title strip lstrip rstrip".split()
BOUNDED = "find rfind count startswith endswith".split()


def texts(alphabet, longest):
    """All texts over an alphabet up to a length. The shorter ones come first."""
    return [bytes(letters) for length in range(longest + 1) for letters in itertools.product(alphabet, repeat=length)]


def single_bytes():
    """Each byte alone, before an `a`, after one, and between two."""
    return [text for it in range(256) for text in (bytes([it]), bytes([it]) + b"a", b"a" + bytes([it]), b"a" + bytes([it]) + b"a")]


def shown(answer):
    """The text of an answer."""
    if isinstance(answer, int):
        return str(int(answer))
    if isinstance(answer, bytes):
        return answer.hex()
    if isinstance(answer, tuple):
        first, middle, last = answer
        return f"{first.hex()},{int(middle != b'')},{last.hex()},"
    return "".join(part.hex() + "," for part in answer)


def line(method, argument, call, argument_lists):
    """The line of a method, made by its call and by the arguments of each answer."""
    count, fnv = 0, 0xCBF29CE484222325
    for arguments in argument_lists:
        try:
            text = shown(call(*arguments))
        except (ValueError, TypeError, OverflowError) as fault:
            text = type(fault).__name__
        for byte in text.encode() + b"\n":
            fnv = (fnv ^ byte) * 0x100000001B3 & 0xFFFFFFFFFFFFFFFF
        count += 1
    print(method, argument, count, f"{fnv:016x}")


def of_needle(words, needle):
    """The lines of a needle."""
    name = "x" + needle.hex()
    between = list(itertools.product(words, [needle], BOUNDS, BOUNDS))
    for method in BOUNDED:
        line(method, name, getattr(bytes, method), between)
    each = [(word, needle) for word in words]
    line("contains", name, bytes.__contains__, each)
    line("add", name, bytes.__add__, each)
    line("concat", name, operator.concat, each)
    line("join", name, lambda word, needle: needle.join([bytes([it]) for it in word]), each)
    for method in "strip lstrip rstrip removeprefix removesuffix partition rpartition".split():
        line(method, name, getattr(bytes, method), each)
    for method in ("split", "rsplit"):
        line(method, name, getattr(bytes, method), itertools.product(words, [needle], NUMBERS))
    line("replace", name, bytes.replace, itertools.product(words, [needle], REPLACEMENTS, NUMBERS))
    line("translate", name, bytes.translate, itertools.product(words, [None, SWAPPED, b"ab"], [needle]))


def of_texts(name, words):
    """The lines of the methods without an argument."""
    for method in BARE:
        line(method, name, getattr(bytes, method), [(word,) for word in words])
    line("splitlines", name, bytes.splitlines, [(word, False) for word in words])
    line("splitlines-keepends", name, bytes.splitlines, [(word, True) for word in words])
    for method in ("split", "rsplit"):
        line(method, name, getattr(bytes, method), itertools.product(words, [None], NUMBERS))
    line("mul", name, bytes.__mul__, itertools.product(words, NUMBERS))


def of_shapes(name, words):
    """The lines of the methods that pad, write or read texts."""
    for method in ("center", "ljust", "rjust"):
        line(method, name, getattr(bytes, method), itertools.product(words, WIDTHS, [b" ", b"*"]))
    # each width twice, since no fill byte is given
    line("zfill", name, lambda word, width, _: word.zfill(width), itertools.product(words, WIDTHS, range(2)))
    line("expandtabs", name, bytes.expandtabs, itertools.product(words, NUMBERS))
    groups = [(), *((":", number) for number in NUMBERS)]
    line("hex", name, lambda word, group: word.hex(*group).encode(), itertools.product(words, groups))
    line("fromhex", name, lambda word: bytes.fromhex(word.decode("ascii")), [(word,) for word in words])


def main():
    words = texts(b"ab", 6)
    for needle in texts(b"ab", 3):
        of_needle(words, needle)
    of_texts("letters", texts(b"aB1 ", 5))
    of_texts("blanks", texts(b"a \x0b\x1c", 5))
    of_texts("breaks", texts(b"a\n\r", 6))
    of_texts("bytes", single_bytes())
    of_shapes("signs", texts(b"+-1a", 4))
    of_shapes("tabs", texts(b"a\t\n\r", 5))
    of_shapes("digits", texts(b"1aF g", 5))
    line("maketrans", "ab", bytes.maketrans, itertools.product(MAPPED, MAPPED))


main()
