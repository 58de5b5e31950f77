"""Does by Python's `array` what crates/bench_kernels does with typed arrays, on the same bytes and with the same words (`measuring.py`)."""
import pathlib
import sys
from array import array

sys.path.insert(0, str(pathlib.Path(__file__).resolve().parent))

import measuring
from measuring import Kernel, drawn, mark_of_bytes, mark_of_numbers, no_answer


def mark_of_array(numbers):
    return mark_of_bytes(numbers.tobytes())


def append(plan):
    made = [None]

    def call():
        numbers = array("i")
        for place in range(plan.count):
            numbers.append(place)
        made[0] = numbers

    return Kernel(call, no_answer, lambda: mark_of_array(made[0]))


def get(plan):
    numbers = array("i", drawn(plan, 4 * plan.count))

    def call():
        for place in range(plan.count):
            numbers[place]

    return Kernel(call, lambda answer: sum(numbers), lambda: mark_of_array(numbers))


def put(plan):
    numbers = array("i", drawn(plan, 4 * plan.count))

    def call():
        for place in range(plan.count):
            numbers[place] = place

    return Kernel(call, no_answer, lambda: mark_of_array(numbers))


def from_bytes(plan):
    content = drawn(plan, plan.size)
    made = [None]

    def call():
        numbers = array("i")
        numbers.frombytes(content)
        made[0] = numbers

    return Kernel(call, no_answer, lambda: mark_of_array(made[0]))


def of_all(method, code, mark):
    """A method that takes all numbers at once."""

    def kernel(plan):
        numbers = array(code, drawn(plan, plan.size))
        return Kernel(getattr(numbers, method), mark, lambda: mark_of_array(numbers))

    return kernel


KERNELS = {
    "array-append": append,
    "array-get": get,
    "array-set": put,
    "array-plain-append": append,
    "array-plain-get": get,
    "array-plain-set": put,
    "array-frombytes": from_bytes,
    "array-tobytes": of_all("tobytes", "i", mark_of_bytes),
    **{f"array-tolist-{code}": of_all("tolist", code, mark_of_numbers) for code in "Hiq"},
    **{f"array-byteswap-{code}": of_all("byteswap", code, no_answer) for code in "Hiq"},
}

if __name__ == "__main__":
    measuring.run(KERNELS)
