"""Times calls on our types and on Python's own in turns, and prints nanoseconds of the processor for one call of each, the ratio, and its median.

    ratios.py [WORD]     the rows whose names have the word
"""
import io
import statistics
import struct
import sys
import time

from pybuf import ByteArray, MemoryView, Struct

SHORT, TEXT, LONG = b'abcdefgh', b'The quick brown fox, jumps over the lazy dog. ' * 4, bytes(range(256)) * 4096


def rows(A, M, S):
    """Each call, by its name. A pair has what is made before the call."""
    a, t, g, m, n, f = A(SHORT), A(TEXT), A(LONG), M(A(SHORT)), M(A(LONG)).cast('H'), S('<HI')
    big, packed = M(A(LONG)), struct.pack('<HI', 1, 2)
    grown, popped, doubles = A(), A(bytes(300_000)), M(A(bytes(80))).cast('d')
    return {
        'append': lambda: grown.append(7), 'get': lambda: a[3], 'set': lambda: a.__setitem__(3, 7), 'len': lambda: len(a), 'pop': lambda: popped.pop(),
        'slice a[1:5]': lambda: a[1:5], 'slice a[::2]': lambda: a[::2], 'set slice': lambda: a.__setitem__(slice(1, 3), b'xy'), 'copy': lambda: a.copy(),
        'make of bytes': lambda: A(SHORT), 'make of a number': lambda: A(8), 'bytes()': lambda: bytes(a), '+ bytes': lambda: a + SHORT, '* 3': lambda: a * 3,
        'extend': lambda: grown.extend(b'x'), '==': lambda: a == SHORT, '<': lambda: a < SHORT, 'in, a byte': lambda: 104 in a, 'in, bytes': lambda: b'gh' in a,
        'iterate 8': lambda: list(a), 'repr': lambda: repr(a), 'hex': lambda: a.hex(), 'decode': lambda: t.decode(),
        'find': lambda: t.find(b'lazy'), 'count': lambda: t.count(b'o'), 'index': lambda: t.index(b'dog'), 'startswith': lambda: t.startswith(b'The'),
        'replace': lambda: t.replace(b'fox', b'cat'), 'split': lambda: t.split(b','), 'strip': lambda: t.strip(), 'upper': lambda: t.upper(),
        'title': lambda: t.title(), 'isalpha': lambda: a.isalpha(), 'partition': lambda: t.partition(b','), 'join': lambda: a.join([SHORT, SHORT]),
        'view': lambda: M(a), 'view get': lambda: m[3], 'view set': lambda: m.__setitem__(3, 7), 'view slice': lambda: m[1:5], 'view cast': lambda: m.cast('H'),
        'view tolist': lambda: m.tolist(), 'view tobytes': lambda: m.tobytes(), 'view == bytes': lambda: m == SHORT, 'view shape': lambda: m.shape,
        'view get H': lambda: n[5], 'view set H': lambda: n.__setitem__(5, 7), 'view get d': lambda: doubles[3], 'view set d': lambda: doubles.__setitem__(3, 2.5),
        'view iterate 8': lambda: list(m), 'pack': lambda: f.pack(1, 2), 'unpack': lambda: f.unpack(packed), 'unpack_from': lambda: f.unpack_from(packed, 0),
        'make a format': lambda: S('<HI'), 'memoryview()': lambda: memoryview(a), 'readinto': lambda: io.BytesIO(b'ab').readinto(a),
        'MiB bytes()': lambda: bytes(g), 'MiB find': lambda: g.find(b'\xff\xff'), 'MiB count': lambda: g.count(b'\x07'), 'MiB upper': lambda: g.upper(),
        'MiB tobytes of a view': lambda: big.tobytes(), 'MiB a view ==': lambda: big == big, 'MiB reverse': lambda: g.reverse(), 'MiB tolist H': lambda: n.tolist(),
        'MiB stepped slice': lambda: g[::3],
    }


def once(call, calls):
    each = range(calls)
    start = time.process_time_ns()
    for _ in each:
        call()
    return (time.process_time_ns() - start) / calls


def main(words):
    theirs, ours = rows(bytearray, memoryview, struct.Struct), rows(ByteArray, MemoryView, Struct)
    ratios = []
    for name in theirs:
        if not all(word in name for word in words):
            continue
        calls = max(1, min(20_000, int(20_000_000 / max(1, once(ours[name], 3)))))
        turns = [(once(ours[name], calls), once(theirs[name], calls)) for _ in range(5)]
        own, other = (min(side) for side in zip(*turns))
        ratios.append(own / other)
        print(f'{name:22} {own:12.0f} {other:12.0f} {own / other:8.2f}')
    print(f'{len(ratios)} rows: median {statistics.median(ratios):.2f}, {sum(it <= 2 for it in ratios)} at most 2.0')


main(sys.argv[1:])
