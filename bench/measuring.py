"""What the scripts of kernels share: drawn bytes, check sums, how a kernel is measured, and the words of a run.

The words are a kernel or `all`, how often it is called, the bytes of a kernel over bytes, the items of a
kernel over items, the seed of the bytes, and `time` if the time is wanted. For each kernel its name and a
check sum are printed, and with `time` the nanoseconds of processor time that all calls took.
"""
import itertools
import operator
import struct
import sys
import time
import zlib

MASK = 2**64 - 1


def drawn(plan, size):
    """So many drawn bytes, made by the shifts of Marsaglia's xorshift."""
    state = plan.seed * 0x9E3779B97F4A7C15 & MASK | 1
    numbers = []
    for _ in range(size // 8):
        state ^= state << 13 & MASK
        state ^= state >> 7
        state ^= state << 17 & MASK
        numbers.append(state)
    return struct.pack(f"<{len(numbers)}Q", *numbers) + bytes(size % 8)


def mark_of_bytes(made):
    """The length of bytes, and Adler's check sum of them."""
    return (len(made) << 32) + zlib.adler32(made)


def mark_of_numbers(numbers):
    """The sum of numbers, where the first counts once, the second twice, and so on."""
    return sum(map(operator.mul, numbers, itertools.count(1)))


def count_of(item):
    """What an item counts. A number counts itself, and a record counts each of its values as often as the value's place says."""
    if isinstance(item, int):
        return item
    return mark_of_numbers([value if isinstance(value, int) else sum(value) for value in item])


def as_number(answer):
    return int(answer)


class Kernel:
    """A kernel: what is called, how its last answer is marked, and what the calls write to or how that is marked."""

    def __init__(self, call, mark, written=None):
        self.call, self.mark, self.written = call, mark, written

    def measure(self, calls):
        """The check sum, and the nanoseconds of processor time that so many calls take after a first one."""
        call = self.call
        answer = call()
        start = time.process_time_ns()
        for _ in range(calls):
            answer = call()
        taken = time.process_time_ns() - start
        return self.mark(answer) + self.mark_of_written(), taken

    def mark_of_written(self):
        if self.written is None:
            return 0
        return self.written() if callable(self.written) else mark_of_bytes(self.written)


def no_answer(answer):
    assert answer is None
    return 0


class Plan:
    """The sizes of the kernels."""

    def __init__(self, size, count, seed):
        self.size, self.count, self.seed = size, count, seed


def run(kernels, others={}):
    """Measures the kernel that the words name. `all` stands for the kernels of the first table."""
    name, calls, size, count, seed = sys.argv[1], *map(int, sys.argv[2:6])
    plan = Plan(size, count, seed)
    for each, kernel in {**kernels, **others}.items():
        if name == each or name == "all" and each in kernels:
            mark, taken = kernel(plan).measure(calls)
            print(each, mark, *[taken for word in sys.argv[6:] if word == "time"])
