"""Does by Python's own calls what crates/bench_kernels does, on the same bytes and with the same words (`measuring.py`).

The kernel `copy` copies so many bytes from one place to another, and does nothing else. A kernel behind `numpy-` is done
by numpy, and the word `numpy-names` prints which of these there are.
"""
import ctypes
import pathlib
import struct
import sys
import zlib

sys.path.insert(0, str(pathlib.Path(__file__).resolve().parent))

import measuring
from measuring import MASK, Kernel, as_number, count_of, drawn, mark_of_bytes, no_answer

PLANE = 4_096
RECORD = struct.Struct("<4sHHII")


def letter_of(byte):
    """The byte of a text that a drawn byte stands for."""
    if byte < 200:
        return 97 + byte % 23
    if byte < 216:
        return 65 + byte - 200
    return ord(" " if byte < 240 else "," if byte < 252 else "\n")


def drawn_text(plan):
    """A drawn text, in which `z` and `cba` stand nowhere."""
    return drawn(plan, plan.size).translate(bytes(map(letter_of, range(256)))).replace(b"cba", b"cbd")


def mark_of_parts(parts):
    """The number of parts, and the check sum of all of them with a bar behind each."""
    return (len(parts) << 32) + zlib.adler32(b"".join([part + b"|" for part in parts]))


def in_planes(view):
    return view.cast("B", (len(view) // PLANE, 256, 16))


# copies


def to_bytes(view):
    return Kernel(view.tobytes, mark_of_bytes)


def of_contiguous(plan):
    return to_bytes(memoryview(bytearray(drawn(plan, plan.size))))


def in_rows(plan, code, size):
    """As many numbers of a code as the plan has bytes, in rows of 1,024."""
    return memoryview(bytearray(drawn(plan, plan.size * size))).cast(code, (plan.size // 1_024, 1_024))


def of_columns(code, size):
    def kernel(plan):
        view = in_rows(plan, code, size)
        return Kernel(lambda: view.tobytes("F"), mark_of_bytes)

    return kernel


def of_stepped(code):
    return lambda plan: to_bytes(memoryview(bytearray(drawn(plan, 2 * plan.size))).cast(code)[::2])


def of_reversed(code):
    return lambda plan: to_bytes(memoryview(bytearray(drawn(plan, plan.size))).cast(code)[::-1])


def of_planes(plan):
    return to_bytes(in_planes(memoryview(bytearray(drawn(plan, 2 * plan.size))))[::2])


# assignments of slices


def assigned(object, target, key, source):
    def call():
        target[key] = source

    return Kernel(call, no_answer, object)


def set_contiguous(plan):
    object = bytearray(plan.size)
    return assigned(object, memoryview(object), slice(None, None, 1), memoryview(bytearray(drawn(plan, plan.size))))


def set_stepped(code):
    def kernel(plan):
        object = bytearray(2 * plan.size)
        source = memoryview(bytearray(drawn(plan, 2 * plan.size))).cast(code)[::2]
        return assigned(object, memoryview(object).cast(code), slice(None, None, 2), source)

    return kernel


def set_reversed(code):
    def kernel(plan):
        object = bytearray(plan.size)
        source = memoryview(bytearray(drawn(plan, plan.size))).cast(code)[::-1]
        return assigned(object, memoryview(object).cast(code), slice(None, None, 1), source)

    return kernel


def set_planes(plan):
    object = bytearray(plan.size)
    source = in_planes(memoryview(bytearray(drawn(plan, 2 * plan.size))))[::2]
    return assigned(object, object, slice(0, plan.size), source)


def set_overlapping(plan):
    object = bytearray(drawn(plan, plan.size))
    view = memoryview(object)
    return assigned(object, view, slice(1, None), view[:-1])


def set_itself(plan):
    object = bytearray(drawn(plan, plan.size))
    view = memoryview(object)
    return assigned(object, view, slice(None, None, -1), view)


# Rows in which items lie apart or backwards. No slice of a memoryview makes them, but a slice of an array from Python's
# own tests does.

CODES = {"B": 1, "H": 2, "i": 4, "q": 8}
ROW, STEPPED_ROW = 256, 520
# for each order: how many items a row has, and which of them are taken
ORDERS = {"stepped": (STEPPED_ROW, slice(0, 2 * ROW, 2)), "reversed": (ROW, slice(None, None, -1))}


def rows_kernel(order, code, doing):
    """A kernel on rows of numbers, which lie behind as much room as is asked for."""
    width, taken = ORDERS[order]

    def kernel(plan):
        import _testbuffer

        count = plan.size // (ROW * CODES[code])
        room = plan.size if doing == "set" else 0
        object = bytearray(room) + drawn(plan, count * width * CODES[code])
        numbers = memoryview(object)[room:].cast(code, (count, width))
        view = memoryview(_testbuffer.ndarray(numbers, getbuf=_testbuffer.PyBUF_FULL_RO)[:, taken])
        return assigned(object, object, slice(0, plan.size), view) if doing == "set" else to_bytes(view)

    return kernel


def kernels_of_rows(doing):
    return {f"{doing}-{order}-rows-{code}": rows_kernel(order, code, doing) for order in ORDERS for code in CODES}


def by_code(name, kernel):
    """A kernel on bytes, and the same on numbers that have more bytes each."""
    return {name: kernel("B"), **{f"{name}-{code}": kernel(code) for code in "Hiq"}}


# views that are made and released


def views(plan):
    object = bytearray(drawn(plan, PLANE))

    def call():
        for _ in range(plan.count):
            memoryview(object).release()
        return plan.count

    return Kernel(call, as_number)


def sliced(plan, view):
    def call():
        for _ in range(plan.count):
            view[1:].release()
        return plan.count

    return Kernel(call, as_number)


def slices(plan):
    return sliced(plan, memoryview(bytearray(drawn(plan, 2 * PLANE))))


def slices_planes(plan):
    return sliced(plan, in_planes(memoryview(bytearray(drawn(plan, 2 * PLANE)))))


def casts(plan):
    view = memoryview(bytearray(drawn(plan, PLANE)))

    def call():
        for _ in range(plan.count):
            view.cast("H").release()
        return plan.count

    return Kernel(call, as_number)


# items


def got(plan, format, size):
    view = memoryview(bytearray(drawn(plan, size * plan.count))).cast(format)

    def call():
        for place in range(plan.count):
            view[place]

    return Kernel(call, lambda answer: sum([view[place] for place in range(plan.count)]))


def unpacked(plan, is_marked):
    view = memoryview(bytearray(drawn(plan, 16 * plan.count)))
    unpack_from = RECORD.unpack_from

    def call():
        for place in range(plan.count):
            unpack_from(view, 16 * place)

    mark = lambda answer: sum([count_of(unpack_from(view, 16 * place)) for place in range(plan.count)])
    return Kernel(call, mark, view if is_marked else None)


def put(plan, format, size, limit):
    object = bytearray(drawn(plan, size * plan.count))
    view = memoryview(object).cast(format)

    def call():
        for place in range(plan.count):
            view[place] = place % limit

    return Kernel(call, no_answer, object)


def packed(plan):
    object = bytearray(drawn(plan, 16 * plan.count))
    view = memoryview(object)
    pack_into = RECORD.pack_into

    def call():
        for place in range(plan.count):
            pack_into(view, 16 * place, b"tags", place % 65_536, 7, place % 1_000_003, 4_000_000_000)

    return Kernel(call, no_answer, object)


def append_pop(plan):
    def call():
        object = bytearray()
        for place in range(plan.count):
            object.append(place % 251)
        for _ in range(plan.count):
            object.pop()

    def mark(answer):
        object = bytearray([place % 251 for place in range(plan.count)])
        return sum([object.pop() for _ in range(plan.count)])

    return Kernel(call, mark)


def queue(size):
    def kernel(plan):
        object = bytearray(drawn(plan, size))

        def call():
            for place in range(plan.count):
                object.append(place % 251)
                # `pop(0)` moves all other bytes
                del object[:1]

        return Kernel(call, no_answer, object)

    return kernel


COMMANDS = 10_000


def queue_drawn(plan):
    """Drawn commands on a queue, with their replies and the bytes after each."""
    bytes_drawn = drawn(plan, 4 * COMMANDS)

    def carry_out(object, live, kind, byte, count, rare):
        """The queue after a command, its view, and what stands for the reply."""
        if kind < 5:
            object.append(byte)
        elif kind == 5:
            object.extend(bytes([byte]) * (count % 40 + 1))
        elif kind == 6:
            object.insert(0, byte)
        elif kind < 11:
            return object, live, object.pop(0) + 2
        elif kind == 11:
            del object[: count % 12 + 1]
        elif kind == 12:
            del object[count % 12 :: -1]
        elif kind == 13:
            object.remove(object[0] if object else byte)
        elif kind == 14 and live:
            live.release()
            live = None
        elif kind == 14 and object:
            return object, memoryview(object), 300
        elif kind == 15 and rare == 0:
            object.__init__(bytes([byte]) * count)
        elif kind == 15 and rare == 1 and not live:
            object = object.copy()
        elif kind == 15 and rare == 2:
            object.clear()
        elif kind == 15 and rare == 3:
            object[0 : count % 9] = bytes([byte]) * (count % 7)
        elif kind == 15 and rare == 4:
            del object[0]
        elif kind == 15 and rare > 4:
            return object, live, object.pop() + 2
        return object, live, 1

    def call():
        object, live, mark = bytearray(), None, 0
        for place in range(0, 4 * COMMANDS, 4):
            kind, byte, count, rare = bytes_drawn[place : place + 4]
            try:
                object, live, reply = carry_out(object, live, kind % 16, byte, count, rare % 8)
            except BufferError:
                reply = 302
            except ValueError:
                reply = 303
            except IndexError:
                reply = 304
            mark = mark * 31 + reply & MASK
            mark = mark * 31 + mark_of_bytes(object) & MASK
        return mark

    return Kernel(call, as_number)


# comparisons


def compare(plan):
    object = bytearray(2 * drawn(plan, plan.size))
    first, second = memoryview(object)[: plan.size], memoryview(object)[plan.size :]
    return Kernel(lambda: first == second, as_number, object)


def twins(plan):
    content = drawn_text(plan)
    return bytearray(content), bytearray(content)


def compare_beside(plan):
    first, second = twins(plan)
    view, other = memoryview(first), memoryview(second)
    return Kernel(lambda: view == other, as_number, first)


def compare_reversed(plan):
    first, second = twins(plan)
    view, other = memoryview(first)[::-1], memoryview(second)[::-1]
    return Kernel(lambda: view == other, as_number, first)


def narrow_and_wide(plan):
    """Drawn numbers of two bytes each, and the same numbers of four bytes each."""
    narrow, wide = bytearray(drawn(plan, plan.size // 2)), bytearray(plan.size)
    wide[::4], wide[1::4] = narrow[::2], narrow[1::2]
    return narrow, wide


def compare_codes(plan):
    first, second = narrow_and_wide(plan)
    view, other = memoryview(first).cast("H"), memoryview(second).cast("i")
    return Kernel(lambda: view == other, as_number, first)


# strings of bytes


def find_view(plan):
    first, second = twins(plan)
    other = memoryview(second)
    return Kernel(lambda: first.find(other), as_number, first)


def add_view(plan):
    first, second = twins(plan)
    other = memoryview(second)
    return Kernel(lambda: first + other, mark_of_bytes, first)


def contains_byte(plan):
    first = twins(plan)[0]
    return Kernel(lambda: 122 in first, as_number, first)


def of_text(mark, method, *arguments):
    """A method of a drawn text."""

    def kernel(plan):
        call = getattr(drawn_text(plan), method)
        return Kernel(lambda: call(*arguments), mark)

    return kernel


def find_end(plan):
    text = drawn_text(plan)
    needle = text[-1_000:]
    return Kernel(lambda: text.find(needle), as_number)


def join(plan):
    parts = drawn_text(plan).split(b",")
    return Kernel(lambda: b", ".join(parts), mark_of_bytes)


def strip(plan):
    edge = b" " * (plan.size // 4)
    padded = edge + b"x" * (plan.size - 2 * len(edge)) + edge
    return Kernel(padded.strip, mark_of_bytes)


def hex(plan):
    return Kernel(drawn(plan, plan.size).hex, lambda answer: mark_of_bytes(answer.encode()))


def from_hex(plan):
    digits = drawn(plan, plan.size).hex()
    return Kernel(lambda: bytes.fromhex(digits), mark_of_bytes)


def copy(plan):
    source, target = (ctypes.create_string_buffer(plan.size) for _ in range(2))
    move, size = ctypes.memmove, plan.size
    return Kernel(lambda: move(target, source, size), lambda answer: 0)


KERNELS = {
    "tobytes-contiguous": of_contiguous,
    **by_code("tobytes-stepped", of_stepped),
    **by_code("tobytes-reversed", of_reversed),
    "tobytes-planes": of_planes,
    **kernels_of_rows("tobytes"),
    "set-contiguous": set_contiguous,
    **by_code("set-stepped", set_stepped),
    **by_code("set-reversed", set_reversed),
    "set-planes": set_planes,
    **kernels_of_rows("set"),
    "set-overlapping": set_overlapping,
    "set-itself": set_itself,
    "tobytes-columns": of_columns("B", 1),
    "tobytes-columns-i": of_columns("i", 4),
    "tobytes-columns-q": of_columns("q", 8),
    "views": views,
    "slices": slices,
    "slices-planes": slices_planes,
    "casts": casts,
    "get-B": lambda plan: got(plan, "B", 1),
    "get-i": lambda plan: got(plan, "i", 4),
    # Python's views can't read or write such items, so `struct` does
    "get-record": lambda plan: unpacked(plan, False),
    "set-B": lambda plan: put(plan, "B", 1, 251),
    "set-i": lambda plan: put(plan, "i", 4, 1_000_003),
    "plain-views": views,
    "plain-slices": slices,
    "plain-slices-planes": slices_planes,
    "plain-casts": casts,
    "plain-get-B": lambda plan: got(plan, "B", 1),
    "plain-get-i": lambda plan: got(plan, "i", 4),
    "plain-get-record": lambda plan: unpacked(plan, False),
    "plain-set-B": lambda plan: put(plan, "B", 1, 251),
    "plain-set-i": lambda plan: put(plan, "i", 4, 1_000_003),
    "scoped-views": views,
    "scoped-slices": slices,
    "scoped-slices-planes": slices_planes,
    "scoped-casts": casts,
    "scoped-get-B": lambda plan: got(plan, "B", 1),
    "scoped-get-i": lambda plan: got(plan, "i", 4),
    "scoped-set-B": lambda plan: put(plan, "B", 1, 251),
    "scoped-set-i": lambda plan: put(plan, "i", 4, 1_000_003),
    "set-record": packed,
    "unpack": lambda plan: unpacked(plan, True),
    "pack-into": packed,
    "append-pop": append_pop,
    "queue-long": queue(100_000),
    "queue-short": queue(10),
    # ten thousand commands, whatever the number for other kernels is
    "queue-drawn": queue_drawn,
    "compare": compare,
    "compare-beside": compare_beside,
    "compare-reversed": compare_reversed,
    "compare-codes": compare_codes,
    "find-byte": of_text(as_number, "find", b"z"),
    "find-three": of_text(as_number, "find", b"cba"),
    "find-end": find_end,
    "find-view": find_view,
    "contains-byte": contains_byte,
    "count-byte": of_text(as_number, "count", b"a"),
    "count-three": of_text(as_number, "count", b"abc"),
    "split-comma": of_text(mark_of_parts, "split", b","),
    "split-blanks": of_text(mark_of_parts, "split"),
    "splitlines": of_text(mark_of_parts, "splitlines"),
    "join": join,
    "add-view": add_view,
    "replace-same": of_text(mark_of_bytes, "replace", b"ab", b"xy"),
    "replace-longer": of_text(mark_of_bytes, "replace", b"ab", b"wxyz"),
    "translate": of_text(mark_of_bytes, "translate", bytes(range(255, -1, -1))),
    "upper": of_text(mark_of_bytes, "upper"),
    "strip": strip,
    "hex": hex,
    "fromhex": from_hex,
}


# the same by numpy, if it is installed: `tobytes` of its arrays, their assignments and their copies


def numpy_kernels():
    try:
        import numpy
    except ImportError:
        return {}

    def array(plan, size, code="B"):
        return numpy.frombuffer(bytearray(drawn(plan, size)), dtype=code)

    def rows(plan, order, code):
        width, taken = ORDERS[order]
        count = plan.size // (ROW * CODES[code])
        return array(plan, count * width * CODES[code], code).reshape(count, width)[:, taken]

    def told_rows(order, code):
        return lambda plan: told(rows(plan, order, code))

    def set_rows(order, code):
        return lambda plan: put_in(array(plan, plan.size, code).reshape(-1, ROW), rows(plan, order, code))

    def told_stepped(code):
        return lambda plan: told(array(plan, 2 * plan.size, code)[::2])

    def told_reversed(code):
        return lambda plan: told(array(plan, plan.size, code)[::-1])

    def told_columns(code):
        def kernel(plan):
            view = array(plan, plan.size * CODES[code], code).reshape(-1, 1_024)
            return Kernel(lambda: view.tobytes("F"), mark_of_bytes)

        return kernel

    def put_stepped(code):
        return lambda plan: put_in(array(plan, 2 * plan.size, code)[::2], array(plan, 2 * plan.size, code)[::2])

    def put_reversed(code):
        return lambda plan: put_in(array(plan, plan.size, code), array(plan, plan.size, code)[::-1])

    def in_numpy_planes(array):
        return array.reshape(len(array) // PLANE, 256, 16)

    def told(array):
        return Kernel(array.tobytes, mark_of_bytes)

    def put_in(target, source):
        def call():
            target[...] = source

        return Kernel(call, no_answer)

    def copied(view):
        # `copy` takes a tenth of the time of `tobytes` here
        return Kernel(lambda: view.copy(order="C"), lambda answer: mark_of_bytes(answer.tobytes()))

    def in_rows(plan):
        return array(plan, plan.size).reshape(-1, 1_024)

    def permuted(plan):
        return array(plan, plan.size).reshape(-1, 64, 64).transpose(2, 0, 1)

    def equal(plan):
        one = array(plan, plan.size)
        other = one.copy()
        return Kernel(lambda: numpy.array_equal(one, other), as_number)

    def equal_reversed(plan):
        one = array(plan, plan.size)
        other = one.copy()
        return Kernel(lambda: numpy.array_equal(one[::-1], other[::-1]), as_number)

    def equal_codes(plan):
        narrow, wide = narrow_and_wide(plan)
        one, other = numpy.frombuffer(narrow, dtype=numpy.uint16), numpy.frombuffer(wide, dtype=numpy.int32)
        return Kernel(lambda: numpy.array_equal(one, other), as_number)

    def overlapping(plan):
        whole = array(plan, plan.size)
        return put_in(whole[1:], whole[:-1])

    def itself(plan):
        whole = array(plan, plan.size)
        return put_in(whole[::-1], whole)

    return {
        "tobytes-contiguous": lambda plan: told(array(plan, plan.size)),
        **by_code("tobytes-stepped", told_stepped),
        **by_code("tobytes-reversed", told_reversed),
        **{f"tobytes-{order}-rows-{code}": told_rows(order, code) for order in ORDERS for code in CODES},
        **{f"set-{order}-rows-{code}": set_rows(order, code) for order in ORDERS for code in CODES},
        "tobytes-planes": lambda plan: told(in_numpy_planes(array(plan, 2 * plan.size))[::2]),
        "set-contiguous": lambda plan: put_in(array(plan, plan.size), array(plan, plan.size)),
        **by_code("set-stepped", put_stepped),
        **by_code("set-reversed", put_reversed),
        "set-planes": lambda plan: put_in(array(plan, plan.size).reshape(-1, 256, 16), in_numpy_planes(array(plan, 2 * plan.size))[::2]),
        "set-overlapping": overlapping,
        "set-itself": itself,
        "tobytes-columns": told_columns("B"),
        "tobytes-columns-i": told_columns("i"),
        "tobytes-columns-q": told_columns("q"),
        "compare-beside": equal,
        "compare-reversed": equal_reversed,
        "compare-codes": equal_codes,
        "nd-flipped": lambda plan: copied(in_rows(plan)[::2, ::-1]),
        "nd-transposed": lambda plan: copied(in_rows(plan).T),
        "nd-inner": lambda plan: copied(in_rows(plan)[1:-1, 1:-1]),
        "nd-permuted": lambda plan: copied(permuted(plan)),
    }


def main():
    if sys.argv[1] == "numpy-names":
        print(*numpy_kernels())
    elif sys.argv[1].startswith("numpy-"):
        measuring.run({f"numpy-{name}": kernel for name, kernel in numpy_kernels().items()})
    else:
        measuring.run(KERNELS, {"copy": copy})


if __name__ == "__main__":
    main()
