"""What the program has to write on standard error, by its input and words. This is for `tools/run_cases.py` and `tools/hostile.py`.

If a case has a file `NAME.stderr`, this is the file's text. For every other case it is told here by Python's own means: which line is shown,
which record is cut, and that behind a wrong form of words all forms stand.
"""

import re
import struct

NO_MEMORY, USAGE, TOO_LONG, BAD_LINE, BAD_DATA = 3, 6, 7, 2, 9
FIXED = {
    NO_MEMORY: b"pybuf: no memory\n",
    TOO_LONG: b"pybuf: the input has more than 1,048,576 bytes\n",
}
FORMS = b"""usage: pybuf [run] < input
       pybuf share < input
       pybuf make N
       pybuf array CODE < input
       pybuf table FORMAT [K OP N] < input
       pybuf nd SHAPE KEY [T] < input
"""
# How many bytes of a line or a word are shown.
SHOWN = 60


def quoted(text):
    """A text as the program shows it. It is written as Python writes bytes, with dots where it is cut."""
    return repr(text[:SHOWN])[1:].encode() + (b".." if len(text) > SHOWN else b"")


def counted(number, what):
    return b"%d %s%s" % (number, what, b"" if number == 1 else b"s")


def fault_of_line(given, written, told):
    """What is wrong with what the program said of a line that is no command."""
    found = re.fullmatch(rb"line ([0-9]+) is not a command\n", written)
    if not found:
        return None
    lines = given.split(b"\n")
    if lines[-1] == b"":
        lines.pop()
    number = int(found[1])
    line = lines[number - 1] if number <= len(lines) else b""
    head = b"pybuf: line %d is %s: " % (number, quoted(line))
    if not told.startswith(head) or not told.endswith(b"\n") or told.count(b"\n") != 1 or len(told) == len(head) + 1:
        return f"it has to begin with {head!r}, say more and be one line"
    return None


def told_of_data(words, given):
    """What the program has to say of data that don't fit."""
    if words[0] == b"table":
        size = struct.calcsize(words[1].decode())
        number, left = divmod(len(given), size)
        shown = (number, number * size, counted(left, b"byte"), quoted(words[1]), size)
        return b"pybuf: record %d, from byte %d on, has %s, and a record of %s has %d (records and bytes are counted from 0)\n" % shown
    due = 1
    for entry in words[1].strip(b"[]").split(b","):
        due *= {b"True": 1}.get(entry) or int(entry)
    which = b"missing" if len(given) < due else b"too many"
    shown = (counted(len(given), b"byte"), quoted(words[1]), due, which, min(len(given), due))
    return b"pybuf: the input has %s, and the shape %s takes %d: the first that is %s is byte %d (bytes are counted from 0)\n" % shown


def fault_of(status, words, given, written, told):
    """What is wrong with what came on standard error, as a text, or None."""
    if status == 0:
        return None if told == b"" else f"standard error has to be empty, and it has {told!r}"
    if status in FIXED:
        return None if told == FIXED[status] else f"standard error has to have {FIXED[status]!r}, and it has {told!r}"
    if status == USAGE:
        first, _, forms = told.partition(b"\n")
        is_so = first.startswith(b"pybuf: ") and len(first) > len(b"pybuf: ") and forms == FORMS
        return None if is_so else f"standard error has to say what is wrong with the words and list all forms, and it has {told!r}"
    if status == BAD_LINE:
        fault = fault_of_line(given, written, told)
        return fault and f"standard error has {told!r}, and {fault}"
    if status == BAD_DATA:
        wanted = told_of_data(list(words), given)
        return None if told == wanted else f"standard error has to have {wanted!r}, and it has {told!r}"
    return None
