"""Does by Python's `struct` what crates/bench_kernels does with tables of records, on the same bytes and with the same words (`measuring.py`)."""
import pathlib
import struct
import sys

sys.path.insert(0, str(pathlib.Path(__file__).resolve().parent))

import measuring
from measuring import Kernel, as_number, count_of, drawn

RECORD = struct.Struct("<4sHHII")
# one in a hundred values of a field of two bytes is below this number
LIMIT = 656


def records(plan):
    return drawn(plan, RECORD.size * plan.count)


def iter_unpack(plan):
    content = records(plan)

    def call():
        for row in RECORD.iter_unpack(content):
            pass
        return plan.count

    return Kernel(call, as_number, lambda: sum(map(count_of, RECORD.iter_unpack(content))))


def select(plan):
    content = records(plan)

    def call():
        return [row for row in RECORD.iter_unpack(content) if row[1] < LIMIT]

    return Kernel(call, len, lambda: mark_of_chosen(content, lambda number: number < LIMIT))


def select_equal(plan):
    content = records(plan)

    def call():
        return [row for row in RECORD.iter_unpack(content) if row[1] == LIMIT]

    return Kernel(call, len, lambda: mark_of_chosen(content, lambda number: number == LIMIT))


def mark_of_chosen(content, is_chosen):
    """What the chosen records count, and their numbers."""
    rows = enumerate(RECORD.iter_unpack(content))
    return sum(number + count_of(row) for number, row in rows if is_chosen(row[1]))


KERNELS = {
    "table-iter-unpack": iter_unpack,
    "table-select": select,
    "table-select-equal": select_equal,
}

if __name__ == "__main__":
    measuring.run(KERNELS)
