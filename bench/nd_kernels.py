"""Does by Python's memoryviews what crates/bench_kernels does with views in several dimensions, on the same bytes and with the same words
(`measuring.py`).

No call of a memoryview makes such views, but an array from Python's own tests takes any strides.
"""
import pathlib
import sys

sys.path.insert(0, str(pathlib.Path(__file__).resolve().parent))

import measuring
from measuring import Kernel, drawn, mark_of_bytes

ROW, SIDE = 1_024, 64
PLANE = SIDE * SIDE


def of_view(shape_of, strides, start=lambda rows: 0):
    """The bytes of the items in a shape that depends on how many rows or planes there are."""

    def kernel(plan):
        import _testbuffer

        content = drawn(plan, plan.size)
        items = _testbuffer.ndarray(list(content), shape=shape_of(plan.size), strides=strides, offset=start(plan.size))
        return Kernel(memoryview(items).tobytes, mark_of_bytes)

    return kernel


KERNELS = {
    "nd-flipped": of_view(lambda size: ((size // ROW + 1) // 2, ROW), (2 * ROW, -1), lambda size: ROW - 1),
    "nd-transposed": of_view(lambda size: (ROW, size // ROW), (1, ROW)),
    "nd-inner": of_view(lambda size: (size // ROW - 2, ROW - 2), (ROW, 1), lambda size: ROW + 1),
    "nd-permuted": of_view(lambda size: (SIDE, size // PLANE, SIDE), (1, PLANE, SIDE)),
}

if __name__ == "__main__":
    measuring.run(KERNELS)
