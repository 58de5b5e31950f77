"""Lets two threads work on the same objects, and checks each answer.

    threads.py [SECONDS]     so many seconds in all, 5 if left out; the first wrong answer ends it with 1
"""
import faulthandler
import pathlib
import sys
import threading
import time

sys.path.insert(0, str(pathlib.Path(__file__).resolve().parent.parent))
from pybuf import ByteArray, MemoryView, Struct, World  # noqa: E402

CONTENT = bytes(range(65, 91)) * 8


def same(answer, wanted):
    if answer != wanted:
        raise AssertionError(f'{answer!r} in place of {wanted!r}')


def reads_of_an_array():
    array = ByteArray(CONTENT)

    def step(n):
        place = n % len(CONTENT)
        same(array[place], CONTENT[place])
        same(array.find(b'YZ', place), CONTENT.find(b'YZ', place))
        same(bytes(array[place:place + 99]), CONTENT[place:place + 99])
        same(array == CONTENT, True)
        same(len(array), len(CONTENT))
    return step, step, lambda: same(bytes(array), CONTENT)


def edits_of_an_array():
    array = ByteArray()

    def step(byte):
        array.append(byte)
        same(byte in array, True)
        array.remove(byte)
        array.extend(bytes((byte,)) * 3)
        array.insert(0, byte)
        for _ in range(4):
            array.remove(byte)
        for item in array:
            same(item in (1, 2), True)
    return (lambda n: step(1)), (lambda n: step(2)), lambda: same(bytes(array), b'')


def reads_of_a_view():
    view = MemoryView(ByteArray(CONTENT)).cast('H')
    letters = view.cast('B').cast('c', [8, 26])
    numbers = memoryview(CONTENT).cast('H').tolist()

    def step(n):
        place = n % len(numbers)
        same(view[place], numbers[place])
        same(letters[n % 8, n % 26], bytes((65 + n % 26,)))
        same(view[place:].tolist(), numbers[place:])
        same(view.shape, (len(numbers),))
        same(view.format, 'H')
        view[place] = numbers[place]
    return step, step, lambda: same(view.tolist(), numbers)


def views_come_and_go():
    array = ByteArray(CONTENT)

    def step(n):
        same(MemoryView(array)[n % 26:][0], CONTENT[n % 26])
        with MemoryView(array) as view:
            same(view == CONTENT, True)
            same(view.cast('c')[n % 26], CONTENT[n % 26:][:1])

    def end():
        array.append(1)
        same(bytes(array), CONTENT + b'\1')
    return step, step, end


def two_arrays():
    arrays = ByteArray(CONTENT), ByteArray(CONTENT)
    views = [MemoryView(array).cast('H') for array in arrays]

    def step(a, b):
        same(a == b, True)
        a[:] = b
        same(a.cast('B') == b, False)
        same(arrays[0] == arrays[1], True)
    return (lambda n: step(*views)), (lambda n: step(*views[::-1])), lambda: same(bytes(arrays[0]), CONTENT)


def formats():
    letters = Struct('>H5sI')

    def step(n):
        values = n % 65536, b'%05d' % (n % 100000), n
        same(letters.unpack(letters.pack(*values)), values)
    return (lambda n: step(n)), (lambda n: step(n + 7000)), lambda: None


def lines_of_a_world():
    world = World()
    world.run("new bytearray x616263")

    def step(n):
        same(world.run(f'get h0 {n % 3}\nlen h0\nbytes h0'), [str(97 + n % 3), '3', "b'abc'"])
    return step, step, world.close


KINDS = reads_of_an_array, edits_of_an_array, reads_of_a_view, views_come_and_go, two_arrays, formats, lines_of_a_world


def both(kind, seconds):
    """How many steps two threads took in this time."""
    *steps, end = kind()
    until = time.monotonic() + seconds
    made, faults = [0, 0], []

    def work(index):
        try:
            while time.monotonic() < until and not faults:
                steps[index](made[index])
                made[index] += 1
        except BaseException as fault:
            faults.append(fault)
    threads = [threading.Thread(target=work, args=(index,)) for index in range(2)]
    for thread in threads:
        thread.start()
    for thread in threads:
        thread.join()
    if not faults:
        try:
            end()
        except Exception as fault:
            faults.append(fault)
    if faults:
        print(f'{kind.__name__}: {faults[0]!r}')
        sys.exit(1)
    return sum(made)


def main():
    faulthandler.enable()
    sys.setswitchinterval(1e-5)
    seconds = float(sys.argv[1]) if len(sys.argv) > 1 else 5
    steps = sum(both(kind, seconds / len(KINDS)) for kind in KINDS)
    same(steps > len(KINDS), True)
    print(f'two threads each at {len(KINDS)} kinds of work on the same objects get right answers')


main()
