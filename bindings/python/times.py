"""Times a million calls of each kind, in nanoseconds of the processor for one call. The calls are append, set and get on a bytearray, get and
set through a view, views that are made and dropped, and pack and unpack by a format of two numbers. Each is timed on our types and on
Python's."""
import struct
import time

from pybuf import ByteArray, MemoryView, Struct

CALLS = 1_000_000


def timed(name, call, calls=CALLS):
    start = time.process_time_ns()
    for i in range(calls):
        call(i)
    print(f'{name} {(time.process_time_ns() - start) / calls:.1f}')


for kind, lent in (ByteArray, MemoryView), (bytearray, memoryview):
    array = kind()
    timed(f'{kind.__name__} append', lambda i: array.append(i & 255))
    timed(f'{kind.__name__} set', lambda i: array.__setitem__(i, 7))
    timed(f'{kind.__name__} get', array.__getitem__)
    view = lent(array)
    timed(f'{lent.__name__} set', lambda i: view.__setitem__(i, 7))
    timed(f'{lent.__name__} get', view.__getitem__)
    # a world keeps what it made, so fewer of these are made
    timed(f'{lent.__name__} made and dropped', lambda i: lent(array) is None, CALLS // 10)
for kind in (Struct, struct.Struct):
    format = kind('<HI')
    timed(f'{kind.__module__} pack', lambda i: format.pack(i & 255, i))
    timed(f'{kind.__module__} unpack', lambda i: format.unpack(b'\x01\0\x02\0\0\0'))
