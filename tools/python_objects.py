"""Carries out lines of commands on Python's own objects, and gives the reply texts.

A `World` keeps a list of objects, the first of which is `h0`. They are `bytes`, `bytearray`,
`memoryview`, and the iterators of these.

What a command finds is written as Python's `repr` writes it. What has no value in Python is written
as this program writes it: `ok`, `stop` for `StopIteration`, a handle for an object that has a name,
and `!` with a refusal.
"""
import ctypes
import operator
import re

# The codes to which a `memoryview` is cast: those of whole numbers, of truth values and of bytes.
NATIVE_CODES = "bBcHhiIlLqQnN?"

# `PyMemoryView_GetContiguous` of Python's C API, which no call of Python reaches.
CONTIGUOUS = ctypes.pythonapi.PyMemoryView_GetContiguous
CONTIGUOUS.restype = ctypes.py_object
CONTIGUOUS.argtypes = [ctypes.py_object, ctypes.c_int, ctypes.c_char]
TO_READ = 0x100

# The methods of bytes that are operators.
SUMS = {"add": operator.add, "concat": operator.concat, "mul": operator.mul}

OPERATORS = {"==": operator.eq, "!=": operator.ne, "<": operator.lt, "<=": operator.le, ">": operator.gt, ">=": operator.ge}


# The exceptions that Python refuses with. It raises `SystemError` if it finds a refusal that it hasn't looked at.
FAULTS = (IndexError, LookupError, ValueError, TypeError, BufferError, OverflowError, NotImplementedError, AttributeError, MemoryError, SystemError)


class NoCommand(Exception):
    """The line isn't a command."""


class NoName(NameError):
    """The handle was never given."""


class World:
    """The objects that the lines made so far."""

    def __init__(self):
        self.objects = []
        # the handle of the exporter of each view, by the view's handle
        self.exporters = {}
        self.released = set()
        # the bytes of each subject that had a hash
        self.hashed = {}

    def run(self, lines):
        """The replies to the lines, which are all commands."""
        return [self.reply(line) for line in lines]

    def reply(self, line):
        """The reply to one line."""
        try:
            return self.answer(line.split(" "))
        except NoName:
            return "! NameError"
        except FAULTS as fault:
            # the reply names the kind that the exception falls under: a `UnicodeEncodeError` is a `ValueError`
            return f"! {next(kind for kind in FAULTS if isinstance(fault, kind)).__name__}"

    def answer(self, words):
        if words[0] == "new":
            make = {"bytes": bytes, "bytearray": bytearray}[words[1]]
            return self.named(make(*(value_of(word, self) for word in words[2:])))
        handle = handle_of(words[1])
        subject = self.object(handle)
        arguments = words[2:]
        if words[0] == "prop":
            return written(self.property(handle, subject, *arguments))
        if words[0] == "compare":
            return written(self.do_compare(handle, subject, OPERATORS[arguments[0]], value_of(arguments[1], self)))
        if words[0] == "call":
            return written(self.do_call(handle, subject, arguments[0], *(value_of(word, self) for word in arguments[1:])))
        values = [value_of(word, self) for word in arguments]
        done = getattr(self, f"do_{words[0]}")(handle, subject, *values)
        return written(done)

    def object(self, handle):
        if handle >= len(self.objects):
            raise NoName(handle)
        return self.objects[handle]

    def named(self, made, exporter=None):
        """The reply with the handle of what was made."""
        self.objects.append(made)
        number = len(self.objects) - 1
        if exporter is not None:
            assert made.obj is self.objects[exporter]
            self.exporters[number] = exporter
        return Reply(f"h{number}")

    def exporter_of(self, handle):
        return self.exporters.get(handle, handle)

    def do_view(self, handle, subject):
        return self.named(memoryview(subject), self.exporter_of(handle))

    def do_get(self, handle, subject, key):
        found = subject[key]
        if found is subject and handle in self.exporters:
            return Reply(f"h{handle}")
        if isinstance(found, memoryview):
            return self.named(found, self.exporter_of(handle))
        return found

    def do_range(self, handle, subject, start, stop):
        """A slice of a view of all bytes, with both places in bounds."""
        if handle in self.exporters:
            raise NoName(handle)
        start, stop = operator.index(start), operator.index(stop)
        if not 0 <= start <= stop <= len(subject):
            raise IndexError("outside of the bytes")
        return self.named(memoryview(subject)[start:stop], handle)

    def do_enter(self, handle, subject):
        assert subject.__enter__() is subject
        return Reply(f"h{handle}")

    def do_exit(self, handle, subject):
        subject.__exit__(None, None, None)
        self.released.add(handle)
        return Reply("ok")

    def do_contig(self, handle, subject):
        """The call of C gives a view of a copy. For a contiguous view it gives another view of the same
        bytes."""
        len(subject.shape)
        made = CONTIGUOUS(subject, TO_READ, b"C")
        if subject.contiguous:
            return self.named(made, self.exporter_of(handle))
        exporter = self.named(made.obj)
        return Reply(f"{exporter} {self.named(made, len(self.objects) - 1)}")

    def do_tolist(self, handle, subject):
        return subject.tolist()

    def do_set(self, handle, subject, key, value):
        subject[key] = value
        return Reply("ok")

    def do_del(self, handle, subject, key):
        del subject[key]
        return Reply("ok")

    def do_append(self, handle, subject, value):
        subject.append(value)
        return Reply("ok")

    def do_extend(self, handle, subject, value):
        subject.extend(value)
        return Reply("ok")

    def do_insert(self, handle, subject, index, value):
        subject.insert(index, value)
        return Reply("ok")

    def do_pop(self, handle, subject, *index):
        return subject.pop(*index)

    def do_remove(self, handle, subject, value):
        subject.remove(value)
        return Reply("ok")

    def do_clear(self, handle, subject):
        subject.clear()
        return Reply("ok")

    def do_reverse(self, handle, subject):
        subject.reverse()
        return Reply("ok")

    def do_iadd(self, handle, subject, value):
        self.in_place(handle, subject, operator.iadd, value)
        return Reply("ok")

    def do_imul(self, handle, subject, count):
        self.in_place(handle, subject, operator.imul, count)
        return Reply("ok")

    def in_place(self, handle, subject, change, value):
        """An operator that changes a bytearray, and would make another object of `bytes`."""
        if not isinstance(subject, bytearray):
            raise AttributeError(change)
        assert change(subject, value) is subject

    def do_init(self, handle, subject, *options):
        if not isinstance(subject, bytearray):
            raise AttributeError("__init__")
        subject.__init__(*options)
        return Reply("ok")

    def do_copy(self, handle, subject):
        return self.named(subject.copy())

    def do_len(self, handle, subject):
        return len(subject)

    def do_bytes(self, handle, subject, *order):
        return subject.tobytes(*order) if isinstance(subject, memoryview) else bytes(subject, *order)

    def do_release(self, handle, subject):
        subject.release()
        self.released.add(handle)
        return Reply("ok")

    def do_cast(self, handle, subject, text, *shape):
        return self.named(subject.cast(text, *shape), self.exporter_of(handle))

    def do_toreadonly(self, handle, subject):
        return self.named(subject.toreadonly(), self.exporter_of(handle))

    def do_compare(self, handle, subject, answer, other):
        return answer(subject, other)

    def do_hash(self, handle, subject):
        """The bytes that are hashed, if there is a hash. Of the hash all that can be said is that those
        of equal bytes are equal, which is compared."""
        found = hash(subject)
        if handle not in self.hashed:
            self.hashed[handle] = self.do_bytes(handle, subject)
        assert found == hash(self.hashed[handle])
        return self.hashed[handle]

    def do_repr(self, handle, subject):
        shown = repr(subject)
        if isinstance(subject, (bytes, bytearray)):
            return Reply(shown)
        assert re.fullmatch("<((released )?memory|[a-z]+_iterator object) at 0x[0-9a-f]+>", shown)
        return Reply(without_address(shown))

    def do_iter(self, handle, subject):
        # called so, a refusal that CPython 3.11 doesn't look at is always found: that of a released view
        made = operator.call(iter, subject)
        return Reply(f"h{handle}") if made is subject else self.named(made)

    def do_next(self, handle, subject):
        try:
            return next(subject)
        except StopIteration:
            return Reply("stop")

    def do_hint(self, handle, subject):
        return subject.__length_hint__()

    def do_setstate(self, handle, subject, place):
        subject.__setstate__(place)
        return Reply("ok")

    def do_contains(self, handle, subject, value):
        return value in subject

    def do_hex(self, handle, subject, *groups):
        return subject.hex(*groups)

    def do_call(self, handle, subject, method, *arguments):
        """Calls a method by its name, or an operator by the name of the function that does the same."""
        return SUMS[method](subject, *arguments) if method in SUMS else getattr(subject, method)(*arguments)

    def property(self, handle, subject, name):
        if name == "obj":
            assert subject.obj is self.objects[self.exporters[handle]]
            return Reply(f"h{self.exporters[handle]}")
        if name == "exports":
            return self.exports(handle, subject)
        return getattr(subject, name)

    def exports(self, handle, subject):
        """The number of unreleased views. Python has no such number, but refuses to resize a
        bytearray exactly where it isn't 0, which is compared."""
        if not isinstance(subject, (bytes, bytearray)):
            raise NoName(handle)
        views = [it for it, at in self.exporters.items() if at == handle and it not in self.released]
        if isinstance(subject, bytearray):
            try:
                subject.append(0)
                subject.pop()
                assert not views
            except BufferError:
                assert views
        return len(views)


class AsWritten(World):
    """Python's objects, except for three differences in what is written, which `docs/reference/differences.md` names: a
    slice of a bytearray, and what a method of one gives, is `bytes`; the parts of a partition are a list of
    such; and a view is shown by its number among those of its exporter."""

    def do_get(self, handle, subject, key):
        found = super().do_get(handle, subject, key)
        return as_bytes(found) if handle not in self.exporters else found

    def do_call(self, handle, subject, method, *arguments):
        found = super().do_call(handle, subject, method, *arguments)
        return [as_bytes(part) for part in found] if isinstance(found, (list, tuple)) else as_bytes(found)

    def do_repr(self, handle, subject):
        shown = super().do_repr(handle, subject)
        if handle not in self.exporters:
            return shown
        number = sum(at < handle and of == self.exporters[handle] for at, of in self.exporters.items())
        return Reply(shown.replace("at ..", str(number)))


def as_bytes(found):
    """A bytearray or a view as bytes, and any other value as it is. So a view that separates two parts stands for its bytes."""
    return bytes(found) if isinstance(found, (bytearray, memoryview)) else found


class Reply(str):
    """A reply text that stands for no object."""


def written(found):
    """The reply text of what was found."""
    if isinstance(found, tuple) and any(isinstance(part, memoryview) for part in found):
        return without_address(repr(found))
    return found if isinstance(found, Reply) else repr(found)


def without_address(shown):
    """A text with `..` in place of an address, which is another one in each run."""
    return re.sub("(?<= at )0x[0-9a-f]+", "..", shown)


def handle_of(word):
    found = re.fullmatch(r"h([0-9]+)", word)
    if not found:
        raise NoCommand(word)
    return int(found[1])


def value_of(word, world):
    """The value that a word spells, as Python's own."""
    named = {"None": None, "True": True, "False": False, "...": ...}
    if word in named:
        return named[word]
    if re.fullmatch(r"-?[0-9]+", word):
        return int(word)
    if re.fullmatch(r"x([0-9A-Fa-f]{2})*", word):
        return bytes.fromhex(word[1:])
    if re.fullmatch(r"h[0-9]+", word):
        return world.object(handle_of(word))
    if re.fullmatch(r"'[!-&(-~]+'", word):
        return word[1:-1]
    parts = word.split(":")
    if len(parts) == 3 and word[0] not in "([" and "'" not in word:
        return slice(*(value_of(part, world) for part in parts))
    if word[0] + word[-1] in ("()", "[]"):
        inside = re.findall(r"(?:'[^']*'|[^,'])+", word[1:-1])
        parts = [value_of(part, world) for part in inside]
        return tuple(parts) if word[0] == "(" else parts
    raise NoCommand(word)
