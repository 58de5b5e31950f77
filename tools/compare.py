#!/usr/bin/env python3
"""Makes drawn inputs with the replies that they should get, to try the program on.

    python3 tools/compare.py FOLDER [SEED [COUNT]]
    cd crates/pybuf_program && rt try --cases FOLDER

The replies are those of Python's own objects, except for the differences that `docs/reference/differences.md`
names. `Ours` has each of these in one place. None of this is a part of the tests.
"""
import operator
import pathlib
import random
import re
import struct
import sys

sys.dont_write_bytecode = True

from python_objects import NATIVE_CODES, OPERATORS, AsWritten, Reply, value_of

WORD = 2**63
ABSENT = object()
BYTE_CODES = ("b", "B", "c")
CODECS = ("utf-8", "utf8", "ascii")
EDITS = "append extend iadd insert pop remove clear reverse imul init copy".split()
ITERATING = "iter next hint setstate".split()
# What each method reads its arguments as. Those behind the bar may be left out.
ARGUMENTS = {
    **dict.fromkeys("isalnum isalpha isascii isdigit islower isspace istitle isupper lower upper swapcase capitalize title".split(), ""),
    **dict.fromkeys("find rfind index rindex count".split(), "needle | bound bound"),
    **dict.fromkeys("startswith endswith".split(), "affix | bound bound"),
    **dict.fromkeys("center ljust rjust".split(), "size | fill"),
    **dict.fromkeys("strip lstrip rstrip".split(), "| set"),
    **dict.fromkeys("removeprefix removesuffix partition rpartition".split(), "bytes"),
    **dict.fromkeys("split rsplit".split(), "| set count"),
    "add": "like",
    "concat": "operand",
    "mul": "size",
    "hex": "| separator count",
    "fromhex": "text",
    "join": "list",
    "maketrans": "bytes bytes",
    "translate": "table | bytes",
    "expandtabs": "| size",
    "splitlines": "| flag",
    "zfill": "size",
    "replace": "bytes bytes | count",
    "decode": "| name name",
}


class Vector(bytearray):
    """A vector."""


class ReadOnlyVector(bytes):
    """A vector whose bytes are never written."""


class Ours(AsWritten):
    """Python's objects, with our replies wherever we differ by choice."""

    def __init__(self):
        super().__init__()
        # the strides of each view
        self.strides = {}
        # the handles of vectors
        self.vectors = set()
        # the handle of what each iterator goes over, by the iterator's handle, and the iterators that are exhausted
        self.iterators = {}
        self.exhausted = set()

    def reply(self, line):
        words = line.split(" ")
        handles = [int(it) for word in words[1:] for it in re.findall(r"\bh([0-9]+)", re.sub("'[^']*'", "", word))]
        if any(it >= len(self.objects) for it in handles) or self.is_unknown(words):
            return "! UnknownName"
        return super().reply(line)

    def is_unknown(self, words):
        """Whether a command is unknown, since its subject or its property is of another kind."""
        if words[0] == "new":
            return False
        handle = int(words[1][1:])
        if handle >= len(self.objects):
            return True
        if handle in self.iterators:
            return words[0] not in (("iter", "next") if self.iterators[handle] in self.exporters else ITERATING)
        is_view, is_vector = handle in self.exporters, handle in self.vectors
        is_byte_array = not is_view and not is_vector and isinstance(self.objects[handle], bytearray)
        if words[0] in EDITS:
            return not is_byte_array
        kinds = {
            "prop": is_view != (words[-1] == "exports"),
            "range": not is_view,
            "get": not is_vector,
            "set": is_view or is_byte_array,
            "del": is_view or is_byte_array,
            "take": is_vector,
            **dict.fromkeys(("contains", "call"), not is_view and not is_vector),
            **dict.fromkeys(("compare", "hash", "repr", "iter"), not is_vector),
            **dict.fromkeys(("next", "hint", "setstate"), False),
        }
        return not kinds.get(words[0], is_view or words[0] in ("view", "bytes", "len"))

    def answer(self, words):
        if words[0] != "new":
            return super().answer(words)
        content = self.content(*(value_of(word, self) for word in words[2:]))
        made = self.named({"bytes": bytes, "bytearray": bytearray, "vector": Vector, "rovector": ReadOnlyVector}[words[1]](content))
        if words[1].endswith("vector"):
            self.vectors.add(len(self.objects) - 1)
        return made

    def content(self, *options):
        """The bytes that something new is made from."""
        source, encoding, errors = (*options, *[ABSENT] * (3 - len(options)))
        if not all(it is ABSENT or isinstance(it, str) for it in (encoding, errors)):
            raise TypeError("no text")
        if encoding is ABSENT:
            return b"" if source is ABSENT else bytes(source) if isinstance(source, int) else self.read(source)
        if not isinstance(source, str):
            raise TypeError("no text")
        self.codec(encoding, errors)
        return source.encode(encoding)

    def codec(self, encoding, errors):
        if encoding not in CODECS or errors not in (ABSENT, "strict"):
            raise ValueError("another codec")

    def read(self, value):
        """The bytes that a value is read as, which an iterator never is."""
        if isinstance(value, (int, str)) or hasattr(value, "__next__"):
            raise TypeError("no bytes")
        return value.tobytes() if isinstance(value, memoryview) else bytes(value)

    def byte(self, value):
        return bytes([value])

    def count(self, value):
        if not -WORD <= operator.index(value) < WORD:
            raise OverflowError("past a word")
        return operator.index(value)

    def is_live(self, handle):
        return any(at == handle and view not in self.released for view, at in self.exporters.items())

    def resizable(self, handle):
        """Refuses what asks for another length, after its values were checked."""
        if self.is_live(handle):
            raise BufferError("a view is unreleased")

    def do_append(self, handle, subject, value):
        self.byte(value)
        self.resizable(handle)
        return super().do_append(handle, subject, value)

    def do_extend(self, handle, subject, value):
        if value is subject and not subject:
            return Reply("ok")
        content = self.read(value)
        self.resizable(handle)
        return super().do_extend(handle, subject, content)

    def do_iadd(self, handle, subject, value):
        content = self.as_like(value)
        if value is subject:
            raise BufferError("itself")
        self.resizable(handle)
        return super().do_iadd(handle, subject, content)

    def do_insert(self, handle, subject, index, value):
        self.count(index)
        self.byte(value)
        self.resizable(handle)
        return super().do_insert(handle, subject, index, value)

    def do_pop(self, handle, subject, *index):
        for it in index:
            self.count(it)
        self.resizable(handle)
        return super().do_pop(handle, subject, *index)

    def do_remove(self, handle, subject, value):
        self.byte(value)
        self.resizable(handle)
        return super().do_remove(handle, subject, value)

    def do_clear(self, handle, subject):
        self.resizable(handle)
        return super().do_clear(handle, subject)

    def do_imul(self, handle, subject, count):
        times = self.count(count)
        if times == 1 or not subject:
            return Reply("ok")
        self.resizable(handle)
        if len(subject) * times >= WORD:
            raise OverflowError("too many bytes")
        return super().do_imul(handle, subject, count)

    def do_init(self, handle, subject, *options):
        content = self.content(*options)
        self.resizable(handle)
        subject[:] = content
        return Reply("ok")

    def do_copy(self, handle, subject):
        return self.named(bytearray(subject))

    def do_take(self, handle, subject):
        self.resizable(handle)
        self.objects[handle] = type(subject)()
        return bytes(subject)

    def do_del(self, handle, subject, key):
        if handle in self.exporters:
            subject.nbytes
            raise TypeError("nothing is taken out of a view")
        if isinstance(key, slice):
            b""[key]
        if isinstance(key, slice) or -WORD <= operator.index(key) < WORD:
            self.resizable(handle)
        return super().do_del(handle, subject, key)

    def set_slice(self, handle, subject, key, value):
        """Sets a slice of a bytearray. If the number of bytes stays the same, they are written even while a view is unreleased."""
        places = range(*key.indices(len(subject)))
        content = self.read(value)
        if len(content) != len(places):
            self.resizable(handle)
            if places.step != 1:
                raise ValueError("another number of bytes")
            subject[key] = content
            return Reply("ok")
        for place, byte in zip(places, content):
            subject[place] = byte
        return Reply("ok")

    def view_made(self, made, of, strides):
        reply = self.named(made, self.exporter_of(of))
        self.strides[int(reply[1:])] = tuple(strides)
        return reply

    def is_contiguous(self, handle, order=None):
        view = self.objects[handle]
        kept = (order or row_major)(view)
        return not view.nbytes or all(entries < 2 or stride == wanted for entries, stride, wanted in zip(view.shape, self.strides[handle], kept))

    def do_view(self, handle, subject):
        return self.view_made(memoryview(subject), handle, self.strides.get(handle, (1,)))

    def do_range(self, handle, subject, start, stop):
        reply = super().do_range(handle, subject, start, stop)
        self.strides[int(reply[1:])] = (1,)
        return reply

    def do_toreadonly(self, handle, subject):
        return self.view_made(subject.toreadonly(), handle, self.strides[handle])

    def do_bytes(self, handle, subject, *order):
        """A released view is refused before its order is checked."""
        if isinstance(subject, memoryview):
            subject.nbytes
        return super().do_bytes(handle, subject, *order)

    def do_len(self, handle, subject):
        if handle in self.exporters and not subject.shape:
            raise TypeError("no dimension")
        return super().do_len(handle, subject)

    def do_tolist(self, handle, subject):
        return subject.tolist() if subject.shape else [subject[()]]

    def do_contig(self, handle, subject):
        size, content = subject.nbytes, subject.tobytes()
        copy = ReadOnlyVector(content) if subject.readonly else Vector(content)
        if len(subject.shape) == 1:
            made = memoryview(copy).cast(subject.format)
        else:
            assert size
            made = memoryview(copy).cast(subject.format, subject.shape)
        exporter = self.named(copy)
        number = len(self.objects) - 1
        self.vectors.add(number)
        return Reply(f"{exporter} {self.view_made(made, number, row_major(subject))}")

    def check_key(self, subject, key):
        """Checks the key of a view before anything else."""
        if not subject.shape and key is not ... and key != ():
            raise TypeError("no key of a view without dimensions")
        numbers = key if isinstance(key, tuple) else (key,)
        if all(isinstance(it, int) for it in numbers) and not all(-WORD <= it < WORD for it in numbers):
            raise IndexError("past a word")

    def do_get(self, handle, subject, key):
        if handle not in self.exporters:
            return super().do_get(handle, subject, key)
        subject.nbytes
        self.check_key(subject, key)
        if isinstance(key, slice):
            found = subject[key]
            clamped = lambda stride: max(-WORD, min(WORD - 1, stride))
            first, *others = self.strides[handle]
            return self.view_made(found, handle, [clamped(first * clamped(1 if key.step is None else int(key.step))), *others])
        return super().do_get(handle, subject, key)

    def do_set(self, handle, subject, key, value):
        if handle not in self.exporters and isinstance(key, slice):
            return self.set_slice(handle, subject, key, value)
        if handle not in self.exporters:
            return super().do_set(handle, subject, key, value)
        subject.nbytes
        if subject.readonly or value is None:
            raise TypeError("read-only, or None")
        self.check_key(subject, key)
        if isinstance(key, slice):
            return self.assign(subject, key, value)
        subject[key]
        text = subject.format.removeprefix("@")
        if text == "c" and isinstance(value, ReadOnlyVector):
            raise TypeError("no bytes of their own")
        if text == "?" and not isinstance(value, int):
            raise TypeError("no truth value")
        if isinstance(value, bytearray) and text != "c":
            value = bytes(value)
        try:
            return super().do_set(handle, subject, key, value)
        except ValueError:
            raise TypeError("no value of the format")

    def assign(self, subject, key, source):
        """Assigns to a slice of a view the bytes of the source, as they were before."""
        if len(subject.shape) != 1:
            raise NotImplementedError("several dimensions")
        target = subject[key]
        if not isinstance(source, (bytes, bytearray, memoryview)):
            raise TypeError("no bytes")
        if isinstance(source, (bytes, bytearray)):
            source = memoryview(source)
        if (source.format, source.itemsize, source.shape) != (target.format, target.itemsize, target.shape):
            raise ValueError("other items, or another number of them")
        target[:] = memoryview(source.tobytes()).cast(target.format)
        return Reply("ok")

    def do_compare(self, handle, subject, answer, other):
        is_order = answer not in (operator.eq, operator.ne)
        is_view = isinstance(other, memoryview)
        if handle in self.exporters:
            if is_order:
                raise TypeError("a view has no order")
            return answer(self.items_of(subject), self.items_of(other)) if other is not subject else answer is operator.eq
        if is_order and is_view and isinstance(subject, bytes):
            raise TypeError("bytes have no order with a view")
        if is_view and (self.place_of(other) in self.released or not self.is_contiguous(self.place_of(other))) or not is_view and not isinstance(other, (bytes, bytearray)):
            return NotImplemented
        return answer(bytes(subject), self.read(other))

    def items_of(self, subject):
        """The shape and the items of a view, and of bytes as of a view of them; of what has none an
        object that is equal to no other."""
        if isinstance(subject, (bytes, bytearray)):
            subject = memoryview(subject)
        if not isinstance(subject, memoryview) or any(subject is self.objects[at] for at in self.released):
            return object()
        shape = subject.shape[: subject.shape.index(0) + 1] if 0 in subject.shape else subject.shape
        return len(subject.shape), shape, subject.tolist()

    def do_hash(self, handle, subject):
        if handle in self.exporters and not subject.readonly:
            raise ValueError("it may be written")
        if handle not in self.exporters and isinstance(subject, bytearray):
            raise TypeError("it may change")
        return subject.tobytes() if handle in self.exporters else subject

    def do_repr(self, handle, subject):
        if handle in self.exporters or isinstance(subject, bytes):
            return super().do_repr(handle, subject)
        return Reply(f"bytearray({bytes(subject)!r})")

    def do_iter(self, handle, subject):
        if handle in self.iterators:
            return super().do_iter(handle, subject)
        # Python has no iterator over a view of several dimensions; the items of this one are never asked for
        is_line = handle not in self.exporters or len(subject.shape) == 1
        made = super().do_iter(handle, subject if is_line else b"")
        self.iterators[int(made[1:])] = handle
        return made

    def do_next(self, handle, subject):
        of = self.iterators[handle]
        if of in self.exporters and handle not in self.exhausted:
            # where the view was released there is none, also behind the last item
            shape = self.objects[of].shape
            if len(shape) != 1 and 0 not in shape[:1]:
                raise NotImplementedError("not one dimension")
        found = super().do_next(handle, subject)
        if isinstance(found, Reply):
            self.exhausted.add(handle)
        return found

    def do_setstate(self, handle, subject, place):
        if handle in self.exhausted:
            return Reply("ok")
        return super().do_setstate(handle, subject, max(-WORD, min(WORD - 1, operator.index(place))))

    def do_contains(self, handle, subject, value):
        return self.as_needle(value) in subject

    def do_hex(self, handle, subject, *arguments):
        return self.digits(subject.tobytes(), *self.read_as("hex", arguments))

    def do_call(self, handle, subject, method, *arguments):
        """A method of Python's `bytes`, with the arguments as they are read here."""
        content = bytes(subject)
        if method in ("startswith", "endswith"):
            return self.has_affix(content, method, *arguments)
        found = self.read_as(method, arguments)
        if method == "hex":
            return self.digits(content, *found)
        if method == "maketrans":
            # of repeated bytes the last one counts here, and it was the first one
            return bytes.maketrans(*(part[::-1] for part in found))
        if method == "expandtabs":
            # a size that there is room for is never too great, and a size below 0 counts as 0
            found = [max(0, size) for size in found if b"\t" in content]
        if method == "decode":
            encoding, errors = (*found, *[None] * (2 - len(found)))
            self.codec(encoding or "utf-8", errors or "strict")
            return self.text(content.decode(encoding or "utf-8"))
        return super().do_call(handle, content, method, *found)

    def has_affix(self, content, method, affix, *bounds):
        bounds = self.read_as(method, (b"", *bounds))[1:]
        # if the start passes the end, not even an empty needle is found, and no affix is read
        if not content.startswith(b"", *bounds):
            return False
        return any(getattr(content, method)(self.read(it), *bounds) for it in (affix if isinstance(affix, tuple) else (affix,)))

    def digits(self, content, separator=None, group=1):
        if separator is None or not group or not content:
            return content.hex()
        return content.hex(separator, max(-(2**31) + 1, min(2**31 - 1, group)))

    def text(self, found):
        """A text is written by its bytes."""
        return Reply(repr(found.encode())[1:])

    def read_as(self, method, arguments):
        """The arguments of a method, each read as its kind."""
        return [getattr(self, f"as_{kind}")(value) for kind, value in zip(ARGUMENTS[method].replace("|", "").split(), arguments)]

    def as_like(self, value):
        content = self.as_operand(value)
        if isinstance(value, memoryview) and not self.is_contiguous(self.place_of(value)):
            raise TypeError("not contiguous")
        return content

    def as_operand(self, value):
        if isinstance(value, (list, tuple)):
            raise TypeError("no bytes")
        return self.read(value)

    def as_bytes(self, value):
        return self.read(value)

    as_affix = as_bytes

    def as_needle(self, value):
        return self.byte(value) if isinstance(value, int) else self.read(value)

    def as_set(self, value):
        return value if value is None else self.read(value)

    def as_list(self, value):
        if not isinstance(value, (list, tuple)):
            raise TypeError("neither a list nor a tuple")
        return [self.read(part) for part in value]

    def as_table(self, value):
        try:
            table = self.as_set(value)
        except TypeError:
            raise ValueError("no table")
        if table is not None and len(table) != 256:
            raise ValueError("no table")
        return table

    def as_fill(self, value):
        if not isinstance(value, (bytes, bytearray)) or isinstance(value, (Vector, ReadOnlyVector)) or len(value) != 1:
            raise TypeError("not one byte")
        return bytes(value)

    def as_separator(self, value):
        if isinstance(value, str):
            return value.encode()
        if not isinstance(value, bytes) or isinstance(value, ReadOnlyVector):
            raise TypeError("no bytes of their own")
        return value

    def as_text(self, value):
        if not isinstance(value, str):
            raise TypeError("no text")
        return value

    def as_name(self, value):
        return value if value is None else self.as_text(value)

    def as_count(self, value):
        return self.count(value)

    as_size = as_count

    def as_bound(self, value):
        return value if value is None else operator.index(value)

    def as_flag(self, value):
        return operator.index(value) != 0

    def place_of(self, view):
        return next(at for at, it in enumerate(self.objects) if it is view)

    def do_cast(self, handle, subject, text, *shape):
        subject.nbytes
        if not self.is_contiguous(handle) or not isinstance(text, str):
            raise TypeError("not contiguous, or no text")
        if shape and (not isinstance(shape[0], (list, tuple)) or any(isinstance(it, slice) for it in shape[0])):
            raise TypeError("no shape")
        if (shape or len(subject.shape) != 1) and 0 in subject.shape:
            raise TypeError("no items")
        if shape and len(subject.shape) != 1 and len(shape[0]) != 1:
            raise TypeError("several dimensions on both sides")
        if shape and len(shape[0]) > 64:
            raise ValueError("too many dimensions")
        code = text.removeprefix("@")
        if len(code) != 1 or code not in NATIVE_CODES:
            raise ValueError("not one native code")
        if code not in BYTE_CODES and subject.format.removeprefix("@") not in BYTE_CODES:
            raise TypeError("items of several bytes on both sides")
        if subject.nbytes:
            memory = subject.cast("B")
        else:
            empty = memoryview(subject.obj)[0:0]
            memory = empty.toreadonly() if subject.readonly else empty
        made = memory.cast(text, *shape)
        return self.view_made(made, handle, row_major(made))

    def property(self, handle, subject, name):
        if handle in self.exporters:
            subject.nbytes
        if name == "suboffsets":
            return (0,) * len(subject.shape)
        if name == "strides":
            return self.strides[handle]
        if name.endswith("contiguous"):
            return not name.startswith("f_") and self.is_contiguous(handle) or not name.startswith("c_") and self.is_contiguous(handle, column_major)
        return super().property(handle, subject, name)


def row_major(view):
    """The strides of items one after the other."""
    strides, size = [], view.itemsize
    for entries in reversed(view.shape):
        strides.insert(0, size)
        size *= entries
    return tuple(strides)


def column_major(view):
    """The strides of items one after the other in column order."""
    strides, size = [], view.itemsize
    for entries in view.shape:
        strides.append(size)
        size *= entries
    return tuple(strides)


NUMBERS = [sign * it + more for it in (0, 1, 2**7, 2**8, 2**15, 2**16, 2**31, 2**32, 2**63, 2**64, 2**126) for sign in (1, -1) for more in (-1, 0, 1)]
# Texts that no view is cast to. `u` isn't drawn, since it is a code only here.
FORMATS = ["4s", "2H", "BH", "<Bb2x", "4p", "xH", "<u", "2c", "8x", "0s", "0H", "3", "@", "@@B", "B@", "d", "@d", "f", "e", "P", "s", "p", "x", "<n", "y", "B2", "=B", "99999999999999999999B"]
# How often each command is drawn.
VERBS = [verb for verb, often in {"get": 10, "set": 10, "cast": 8, "prop": 4, "bytes": 3, "tolist": 3, "view": 2, "release": 2, "toreadonly": 2, "len": 1, "range": 1, "contig": 1, "enter": 1, "exit": 1, "del": 3, "take": 1, "compare": 6, "hash": 1, "repr": 1, "iter": 3, "next": 8, "hint": 2, "setstate": 2, "contains": 2, "hex": 2, "call": 14, **dict.fromkeys(EDITS, 1)}.items() for _ in range(often)]
PROPERTIES = "exports obj nbytes readonly itemsize ndim shape strides suboffsets format contiguous c_contiguous f_contiguous".split()


class Drawn:
    """Draws lines, each with its reply."""

    def __init__(self, seed):
        self.draw = random.Random(seed)
        self.world = Ours()

    def one(self, choices):
        return self.draw.choice(choices)

    def handle(self):
        made = len(self.world.objects)
        if self.draw.random() < 0.01 or not made:
            return f"h{made + self.draw.randrange(3)}"
        return f"h{self.draw.randrange(max(0, made - 12) if self.draw.random() < 0.7 else 0, made)}"

    def number(self):
        return str(self.draw.randrange(-9, 10) if self.draw.random() < 0.7 else self.one(NUMBERS))

    def bytes(self):
        return "x" + self.draw.randbytes(self.draw.randrange(9)).hex()

    def scalar(self):
        return self.one([self.number, self.number, self.number, self.bytes, self.handle, lambda: self.one(["None", "True", "False", "...", "'B'", "'a,b'"])])()

    def subject(self, handle):
        """What a handle names, or nothing if that is unknown, released or an iterator."""
        at = int(handle[1:])
        return None if at >= len(self.world.objects) or not self.has_items(at) else self.world.objects[at]

    def has_items(self, at):
        return at not in self.world.released and at not in self.world.iterators

    def place(self, subject):
        """An index or a tuple, which mostly names an item."""
        if subject is None or self.draw.random() < 0.1:
            return self.number()
        shape = getattr(subject, "shape", (len(subject),))
        parts = [str(self.draw.randrange(-entries, entries + 1)) for entries in shape]
        if len(parts) == 1 and self.draw.random() < 0.9:
            return parts[0]
        odd = self.draw.random()
        if odd < 0.1:
            parts.append(self.scalar())
        elif odd < 0.2:
            parts = parts[1:]
        elif odd < 0.25:
            return "..."
        return f"({','.join(parts)})"

    def content(self, subject):
        """A value that an item might take."""
        if getattr(subject, "format", "B")[-1] == "c":
            return f"x{self.draw.randbytes(1).hex()}"
        bits = 8 * min(8, getattr(subject, "itemsize", 1))
        return str(self.draw.choice([self.draw.randrange(2**bits), self.draw.randrange(2**bits) - 2 ** (bits - 1), self.draw.randrange(100)]))

    def slice(self):
        part = lambda: "None" if self.draw.random() < 0.5 else self.number()
        odd = lambda: self.one([self.bytes, self.handle])() if self.draw.random() < 0.02 else part()
        step = self.one(["None", "1", "-1", "2", "-2", "3", odd()])
        return f"{odd()}:{odd()}:{step}"

    def assigned(self, subject):
        """A slice, and what might be assigned to it."""
        sources = [at for at, it in enumerate(self.world.objects) if self.has_items(at) and getattr(it, "format", "B") == getattr(subject, "format", "B")]
        if subject is None or not sources or self.draw.random() < 0.2:
            return f"{self.slice()} {self.value()}"
        source = self.one(sources[-8:])
        found = self.world.objects[source]
        count, room = len(found) if getattr(found, "shape", "1") else 1, len(subject) if getattr(subject, "shape", "1") else 1
        step = self.one([-3, -2, -1, -1, 1, 1, 2, 3])
        span = max(0, count - 1) * abs(step)
        if span >= room:
            return f"{self.slice()} h{source}"
        start = self.draw.randrange(room - span) + (span if step < 0 else 0)
        stop = start + count * step
        return f"{start}:{stop if stop >= 0 else None}:{step} h{source}"

    def value(self):
        kind = self.draw.random()
        if kind < 0.9:
            return self.scalar()
        parts = [self.scalar() for _ in range(self.draw.randrange(3))]
        return self.slice() if kind < 0.93 else f"({','.join(parts)})" if kind < 0.97 else f"[{','.join(parts)}]"

    def format(self):
        kind = self.draw.random()
        if kind < 0.9:
            return f"'{self.one(['', '', '@', '@', self.one('<>=!')])}{self.one([self.one(NATIVE_CODES), self.one(BYTE_CODES)])}'"
        if kind < 0.97:
            return f"'{self.one(FORMATS)}'"
        return self.value()

    def shape(self, subject, text):
        """A shape, which mostly has as many items as there are."""
        if subject is None or self.draw.random() < 0.1:
            return self.value()
        try:
            size = max(1, struct.calcsize(text.strip("'")))
        except struct.error:
            size = 1
        parts, left = [], subject.nbytes // size if hasattr(subject, "nbytes") else 1
        while left > 1 and self.draw.random() < 0.8:
            part = self.one([it for it in (1, 2, 3, 4, left) if left % it == 0])
            parts.append(str(part))
            left //= part
        if left != 1:
            parts.append(str(left))
        if self.draw.random() < 0.1:
            parts.append(self.scalar())
        return f"[{','.join(parts)}]" if self.draw.random() < 0.8 else f"({','.join(parts)})"

    def source(self):
        """What is read as bytes, mostly."""
        size = self.one([0, 1, 2, 4, 8, 8, 12, 16, 16, 24])
        parts = [str(self.draw.randrange(-1, 257) if self.draw.random() < 0.1 else self.draw.randrange(256)) for _ in range(self.draw.randrange(4))]
        return self.one([lambda: f"x{self.draw.randbytes(size).hex()}", self.handle, lambda: f"[{','.join(parts)}]", lambda: f"({','.join(parts)})", self.value])()

    def size(self):
        """A size: of few bytes, or one that no bytes could have."""
        return str(self.one([0, 1, 2, 5, 16, -1, -(2**63), 2**63, 2**126]))

    def options(self):
        kind = self.draw.random()
        if kind < 0.6:
            return f" x{self.draw.randbytes(self.one([0, 1, 2, 4, 8, 8, 12, 16, 16, 24])).hex()}"
        text = lambda: self.one(["'ab'", "'utf-8'", "'utf8'", "'ascii'", "'strict'", self.value()])
        if kind < 0.7:
            return f" {self.one([text(), text(), self.size()])} {text()}{self.one(['', ' ' + text()])}"
        if kind < 0.8:
            return f" {self.size()}"
        if kind < 0.83:
            return ""
        source = self.source()
        return f" {source}" if not re.fullmatch("-?[0-9]+", source) else f" {self.size()}"

    def edit(self, verb, subject):
        """The arguments of an edit."""
        room = 0 if subject is None else len(subject) if not hasattr(subject, "shape") else 1
        index = lambda: str(self.draw.randrange(-room - 1, room + 2)) if self.draw.random() < 0.9 else self.value()
        byte = lambda: str(self.draw.randrange(256)) if self.draw.random() < 0.9 else self.value()
        if verb in ("append", "remove"):
            return f" {self.draw.choice([*subject]) if verb == 'remove' and isinstance(subject, bytearray) and subject and self.draw.random() < 0.7 else byte()}"
        if verb in ("extend", "iadd"):
            return f" {self.source()}" if room < 200 else " x"
        if verb == "insert":
            return f" {index()} {byte()}"
        if verb == "pop":
            return self.one(["", f" {index()}"])
        if verb == "imul":
            # a single byte so many times would fit, but there is no memory for it
            most = str(2**63 - 1) if room > 1 else "2"
            return f" {self.one(['1', '2', '3', '0', '-1', 'True', 'None', str(2**63), most]) if room < 100 else 0}"
        return self.options() if verb == "init" else ""

    def compared(self, subject):
        """What a subject might be equal to. Mostly it has as many items, or is the subject's bytes."""
        shape_of = lambda it: it.shape if hasattr(it, "shape") else (len(it),)
        alike = [at for at, it in enumerate(self.world.objects) if self.has_items(at) and subject is not None and shape_of(it) == shape_of(subject)]
        if alike and self.draw.random() < 0.5:
            return f"h{self.one(alike)}"
        if subject is not None and self.draw.random() < 0.3:
            content = self.world.read(subject)
            return f"x{content.hex()}" if self.draw.random() < 0.7 else f"x{content[: self.draw.randrange(9)].hex()}"
        return self.one([self.handle, self.handle, self.value])()

    def arguments(self, method, subject):
        """Arguments of a method, mostly of the kinds that it reads."""
        must, _, may = ARGUMENTS[method].partition("|")
        may = may.split()
        return "".join(f" {self.argument(kind, subject)}" for kind in must.split() + may[: self.draw.randrange(len(may) + 1)])

    def argument(self, kind, subject):
        content = b"" if subject is None else self.world.read(subject)
        start = self.draw.randrange(len(content) + 1)
        part = lambda: f"x{content[start : start + self.draw.randrange(4)].hex()}"
        parts = lambda marks: f"{marks[0]}{','.join(self.one([part, part, self.handle, self.scalar])() for _ in range(self.draw.randrange(4)))}{marks[1]}"
        if kind == "size":
            # there is no memory for a great size that still fits a word
            return self.one([str(self.draw.randrange(-3, 40)), str(self.draw.randrange(-3, 40)), str(-WORD), str(WORD), "True", "None", "'B'", self.handle()])
        if self.draw.random() < 0.1:
            return self.value()
        if kind in ("count", "bound", "flag"):
            return self.one([self.number, self.number, lambda: self.one(["None", "True", "False"])])()
        if kind in ("text", "name"):
            texts = [f"'{content[:8].hex() or '0'}'", "'4aFf'", "'0'"] if kind == "text" else ["'utf-8'", "'utf8'", "'ascii'", "'strict'", "'latin-1'", "None"]
            return self.one(texts)
        if kind == "separator":
            return self.one(["':'", "'-'", "x2d", "xff", "x", "'::'", self.handle()])
        if kind == "fill":
            return self.one(["x2a", "x2a", "x", self.handle()])
        if kind == "table":
            return self.one(["None", f"x{self.draw.randbytes(256).hex()}", self.handle()])
        if kind == "list" or kind == "affix" and self.draw.random() < 0.4:
            return parts("()" if kind == "affix" else self.one(["()", "[]"]))
        byte = lambda: str(content[start]) if start < len(content) else str(self.draw.randrange(-1, 257))
        return self.one([part, part, part, self.handle, self.source, *([byte] if kind == "needle" else []), *([lambda: "None"] if kind == "set" else [])])()

    def line(self):
        kind = self.draw.random()
        if kind < 0.06 or not self.world.objects:
            return f"new {self.one(['bytes', 'bytearray', 'bytearray', 'bytearray', 'vector', 'rovector'])}{self.options()}"
        verb = self.one(VERBS)
        if verb in ("release", "exit") and self.draw.random() < 0.7 or kind < 0.05:
            verb = "view"
        handles = [self.handle() for _ in range(4)]
        if verb in ("next", "hint", "setstate"):
            handles = [f"h{at}" for at in self.draw.sample([*self.world.iterators][-9:], min(4, len(self.world.iterators)))] + handles
        if verb in ("contains", "call"):
            strings = [f"h{at}" for at in range(len(self.world.objects)) if not self.world.is_unknown([verb, f"h{at}"])]
            handles = self.draw.sample(strings[-9:], min(4, len(strings))) + handles
        # mostly a subject that has the command
        handle = next((it for it in handles if self.draw.random() < 0.1 or not self.world.is_unknown([verb, it, "0", "0"])), handles[0])
        subject = self.subject(handle)
        if verb == "get":
            return f"get {handle} {self.one([lambda: self.place(subject), self.slice, self.slice, self.value])()}"
        if verb == "set":
            if self.draw.random() < 0.3:
                return f"set {handle} {self.assigned(subject)}"
            key = self.place(subject) if self.draw.random() < 0.9 else self.value()
            return f"set {handle} {key} {self.content(subject) if self.draw.random() < 0.8 else self.value()}"
        if verb == "del":
            return f"del {handle} {self.one([lambda: self.place(subject), self.slice, self.value])()}"
        if verb == "compare":
            is_view = hasattr(subject, "shape") and self.draw.random() < 0.8
            return f"compare {handle} {self.one(['==', '!='] if is_view else [*OPERATORS])} {self.compared(subject)}"
        if verb == "contains":
            return f"contains {handle} {self.argument('needle', subject)}"
        if verb == "hex":
            return f"hex {handle}{self.arguments('hex', subject)}"
        if verb == "call":
            method = self.one([*ARGUMENTS])
            return f"call {handle} {method}{self.arguments(method, subject)}"
        if verb == "setstate":
            return f"setstate {handle} {self.draw.randrange(-3, 12) if self.draw.random() < 0.8 else self.value()}"
        if verb in EDITS:
            return f"{verb} {handle}{self.edit(verb, subject)}"
        if verb == "cast":
            text = self.format()
            if self.draw.random() < 0.4:
                return f"cast {handle} {text} {self.shape(subject, text)}"
            return f"cast {handle} {text}"
        if verb == "range":
            return f"range {handle} {self.place(subject)} {self.place(subject)}" if self.draw.random() < 0.9 else f"range {handle} {self.scalar()} {self.scalar()}"
        if verb == "contig" and subject is not None and len(getattr(subject, "shape", "1")) != 1 and not subject.nbytes:
            # no call of Python gives a shape to no bytes
            verb = "tolist"
        if verb == "bytes" and self.draw.random() < 0.4:
            order = self.one(["'C'", "'F'", "'F'", "'A'", "None", "'X'", self.value()])
            return f"bytes {handle} {order}"
        return f"prop {handle} {self.one(PROPERTIES)}" if verb == "prop" else f"{verb} {handle}"

    def input(self, count):
        """So many lines, and their replies."""
        lines, replies = [], []
        for _ in range(count):
            lines.append(self.line())
            replies.append(self.world.reply(lines[-1]))
        return lines, replies


def main():
    if len(sys.argv) < 2 or sys.argv[1].startswith("-"):
        sys.exit(__doc__)
    folder = pathlib.Path(sys.argv[1])
    seed = int(sys.argv[2]) if len(sys.argv) > 2 else 1
    count = int(sys.argv[3]) if len(sys.argv) > 3 else 100
    folder.mkdir(parents=True, exist_ok=True)
    for at in range(seed, seed + count):
        lines, replies = Drawn(at).input(300)
        (folder / f"drawn-{at}").write_text("".join(f"{it}\n" for it in lines))
        (folder / f"drawn-{at}.stdout").write_text("".join(f"{it}\n" for it in replies))


if __name__ == "__main__":
    main()
