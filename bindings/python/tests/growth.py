"""Makes and drops a million views, and other objects, and looks at the memory of the process: it must not grow by what was dropped."""
import gc
import pathlib
import sys
import weakref

sys.path.insert(0, str(pathlib.Path(__file__).resolve().parent.parent))
from pybuf import ByteArray, MemoryView, Struct  # noqa: E402

# kilobytes; a million views that stay are a hundred times as many
ROOM = 2000


def resident():
    with open('/proc/self/status') as lines:
        return next(int(line.split()[1]) for line in lines if line.startswith('VmRSS'))


def refused(array):
    for wrong in (lambda: array[99], lambda: array.append(300), lambda: MemoryView(array)[99]):
        try:
            wrong()
        except (IndexError, ValueError):
            continue
        raise AssertionError('not refused')


def cycle(array):
    class View(MemoryView):
        pass
    view = View(array)
    view.itself = view
    return weakref.ref(view)


def main():
    array, letters = ByteArray(b'abcdef'), Struct('>H3s')
    stays, numbers = MemoryView(ByteArray(bytes(60))), MemoryView(bytes(60)).cast('H')
    works = {
        'views': (1_000_000, lambda: MemoryView(array)),
        'views that are released': (100_000, lambda: MemoryView(array).release()),
        'slices': (100_000, lambda: MemoryView(array)[1:]),
        'slices of a view that stays': (300_000, lambda: stays[1:]),
        'casts of a view that stays': (100_000, lambda: stays.cast('H')[::2]),
        'slices of a copy that stays': (100_000, lambda: numbers[2:]),
        'methods': (100_000, lambda: array.find(b'de')),
        'methods that give arrays': (50_000, lambda: array.split(b'c')),
        'casts': (100_000, lambda: MemoryView(array).cast('H')),
        'views of bytes': (100_000, lambda: MemoryView(b'abc')[1:]),
        'arrays': (100_000, lambda: ByteArray(b'abc')),
        'items': (300_000, lambda: array[1]),
        'formats': (50_000, lambda: letters.unpack(letters.pack(1, b'abc'))),
        'refusals': (50_000, lambda: refused(array)),
    }
    for name, (times, work) in works.items():
        for _ in range(5000):
            work()
        before = resident()
        for _ in range(times):
            work()
        if resident() - before > ROOM:
            print(f'{name}: {resident() - before} KB more after {times}')
            return 1
    gone = cycle(array)
    gc.collect()
    if gone() is not None:
        print('a view in a cycle stays')
        return 1
    array.append(103)  # it would be refused if a view were there
    if bytes(array) != b'abcdefg':
        print('the bytes differ')
        return 1
    print(f'{len(works)} kinds of objects leave no memory behind, and a view in a cycle is released')
    return 0


sys.exit(main())
