"""Calls for which memory runs out: each request of Python's allocator fails in turn, and then the address space of the process is limited. What
comes is MemoryError or an answer, and no call ends the process; afterwards the objects are as before or as after the call.

    refused.py     the last line counts the calls
"""
import os
import pathlib
import resource
import subprocess
import sys

HERE = pathlib.Path(__file__).resolve()
sys.path.insert(0, str(HERE.parent.parent))
from pybuf import ByteArray, MemoryView, Struct, World  # noqa: E402

try:
    from _testcapi import remove_mem_hooks, set_nomemory
except ImportError as fault:
    print(f'skipped: refused memory in Python: this interpreter comes without its tests ({fault})')
    sys.exit(0)

LONG = b'a, b, ' * 300


def calls():
    """Each call is made on objects of its own, which `make` gives."""
    def arrays():
        return ByteArray(LONG), ByteArray(b'abcdefgh')

    def views():
        a = ByteArray(bytes(range(64)))
        return MemoryView(a), MemoryView(a).cast('H')

    def formats():
        return Struct('<3H5s2d'), Struct('<3H5s2d').pack(1, 2, 3, b'abcde', 1.5, -2.5)

    several = Struct('40H')
    return {arrays: [lambda a, b: a.upper(), lambda a, b: a.split(b', '), lambda a, b: a.partition(b','), lambda a, b: a.find(b'zz'), lambda a, b: a[1:900],
                     lambda a, b: a + b, lambda a, b: b * 700, lambda a, b: a.replace(b'a', LONG), lambda a, b: b.join([a, b, LONG]), lambda a, b: a == b,
                     lambda a, b: a.tobytes(), lambda a, b: bytes(a), lambda a, b: repr(a), lambda a, b: list(b), lambda a, b: a.hex(), lambda a, b: a.hex(':'),
                     lambda a, b: ByteArray(a), lambda a, b: ByteArray(range(50)), lambda a, b: ByteArray(5000), lambda a, b: a.decode(), lambda a, b: a.copy(),
                     lambda a, b: b.extend(a), lambda a, b: b.extend([1, 2, 3]), lambda a, b: b.__setitem__(slice(1, 2), a), lambda a, b: a in b,
                     lambda a, b: b.append(1), lambda a, b: b.insert(0, 1), lambda a, b: b.pop(), lambda a, b: a.index(b'zz'), lambda a, b: b[99],
                     lambda a, b: MemoryView(b), lambda a, b: a.center(3000), lambda a, b: iter(b), lambda a, b: a.startswith((b'x', b'a')),
                     lambda a, b: b.ljust(70000), lambda a, b: ByteArray.fromhex('00' * 400), lambda a, b: a.translate(bytes(256), delete=b'a')],
            views: [lambda m, h: m[1:5], lambda m, h: m[::-1], lambda m, h: m.cast('I'), lambda m, h: m.cast('B', [4, 16]).tolist(), lambda m, h: h.tolist(),
                    lambda m, h: m.tolist(), lambda m, h: m.toreadonly(), lambda m, h: m.tobytes(), lambda m, h: m == h, lambda m, h: m == LONG,
                    lambda m, h: h.__setitem__(slice(0, 2), h[2:4]), lambda m, h: MemoryView(LONG), lambda m, h: MemoryView(memoryview(LONG)[::2]),
                    lambda m, h: m.shape, lambda m, h: m.format, lambda m, h: h[3], lambda m, h: h.__setitem__(3, 5), lambda m, h: repr(m),
                    lambda m, h: m.hex(':'), lambda m, h: list(m), lambda m, h: h == memoryview(bytes(64)).cast('H'), lambda m, h: m.cast('f').tolist()],
            formats: [lambda f, b: f.pack(1, 2, 3, b'abcde', 1.5, -2.5), lambda f, b: f.unpack(b), lambda f, b: Struct('<4I'), lambda f, b: list(f.iter_unpack(b * 3)),
                      lambda f, b: f.pack_into(ByteArray(50), 3, 1, 2, 3, b'abcde', 1.5, -2.5), lambda f, b: several.pack(*range(40)),
                      lambda f, b: several.unpack(bytes(80)), lambda f, b: f.unpack_from(b, -len(b)), lambda f, b: f.pack(1, 2, 70000, b'', 1.0, 1.0)],
            lambda: (World(), 'new bytearray x616263\nview h0\nbytes h1\n'): [lambda w, t: w.run(t), lambda w, t: World(), lambda w, t: w.run('no line')]}


def ends(call, objects):
    try:
        call(*objects)
    except SystemError as fault:
        # CPython 3.11 loses a MemoryError where there is no memory for its traceback; calls of its own bytearray end so too
        return MemoryError if 'without' in str(fault) and 'exception' in str(fault) else SystemError
    except Exception as fault:
        return type(fault)
    return None


def in_turn():
    made = wrong = 0
    for make, each in calls().items():
        for place, call in enumerate(each):
            usual = ends(call, make())
            for request in range(200):
                objects = make()
                set_nomemory(request, request + 1)
                fault = ends(call, objects)
                remove_mem_hooks()
                made += 1
                if fault not in (usual, MemoryError):
                    wrong += 1
                    print(f'{make.__name__} {place}: {fault} where request {request} fails, {usual} else')
                if fault is usual and request > 60:
                    break
    return made, wrong


def limited():
    """Runs in a process of its own, whose address space is limited."""
    resource.setrlimit(resource.RLIMIT_AS, (1 << 28, 1 << 28))
    array, kept = ByteArray(b'x' * (1 << 20)), []
    told = {}
    for name, call in {'repeat': lambda: array * 1000, 'extend': lambda: [array.extend(array) for _ in range(20)], 'upper': lambda: array.upper(),
                       'copies': lambda: [kept.append(array.copy()) for _ in range(1000)], 'split': lambda: ByteArray(b'a ' * (1 << 23)).split(),
                       'views': lambda: MemoryView(bytes(1 << 27)), 'list': lambda: MemoryView(array).tolist() * 100}.items():
        try:
            call()
            told[name] = 'an answer'
        except MemoryError:
            told[name] = 'MemoryError'
        kept.clear()
        array = ByteArray(b'x' * (1 << 20))
        assert array.count(b'x') == 1 << 20 and len(array) == 1 << 20
    print(', '.join(f'{name}: {end}' for name, end in told.items()))
    return 0


def main():
    if sys.argv[1:] == ['limited']:
        return limited()
    made, wrong = in_turn()
    ended = subprocess.run([sys.executable, str(HERE), 'limited'], capture_output=True, text=True)
    if 'ASAN_OPTIONS' in os.environ:  # a sanitizer itself needs a large address space
        pass
    elif ended.returncode or 'MemoryError' not in ended.stdout:
        wrong += 1
        print(f'a process of little memory ends with {ended.returncode}: {ended.stdout}{ended.stderr}')
    if wrong:
        return 1
    print(f'{made} calls for which a request fails, and some of little memory, answer or raise MemoryError')
    return 0


sys.exit(main())
