"""Calls with arguments that don't fit: wrong types, huge numbers, released views, and objects whose `__index__`, `__bool__`, `__buffer__` or
`__iter__` changes the array that is being called. Each raises one of Python's exceptions or answers, and no call ends the process. An
answer of Python's own type where ours raises, or the other way round, is counted; `-v` shows each.

    bad.py     the last line counts the calls
"""
import pathlib
import struct
import sys

sys.path.insert(0, str(pathlib.Path(__file__).resolve().parent.parent))
from pybuf import ByteArray, MemoryView, Struct, World  # noqa: E402

OWN, OURS = (bytearray, memoryview, struct.Struct), (ByteArray, MemoryView, Struct)

# what no call raises: these would be faults of the package
NOT_MEANT = (SystemError, RuntimeError, AttributeError, UnboundLocalError, KeyError, NameError)


class Index:
    """A number that does something when it is read."""

    def __init__(self, act, number=1):
        self.act, self.number = act, number

    def __index__(self):
        self.act()
        return self.number


class Iterates:
    """Numbers that do something when they are read."""

    def __init__(self, act):
        self.act = act

    def __iter__(self):
        self.act()
        return iter([1, 2, 3])


WRONG = [None, 1.5, 'a', [], (), {}, object(), -1, 256, 1 << 31, 1 << 62, 1 << 63, -1 << 63, 1 << 200, -1 << 200, [256], [None], ['a'], b'', b'ab', slice(None),
         slice(0, 1 << 200), slice('a', 'b'), slice(None, None, 0), True, int, ..., float('nan'), 'é', memoryview(b'ab'), bytearray(b'x')]

ARRAY = ['append', 'extend', 'insert', 'pop', 'remove', 'find', 'rfind', 'index', 'rindex', 'count', 'split', 'rsplit', 'splitlines', 'partition',
         'rpartition', 'replace', 'strip', 'lstrip', 'rstrip', 'startswith', 'endswith', 'join', 'translate', 'expandtabs', 'removeprefix',
         'removesuffix', 'hex', 'decode', 'upper', 'title', 'isalnum', 'copy', 'clear', 'reverse', '__getitem__', '__delitem__', '__setitem__',
         '__contains__', '__add__', '__iadd__', '__mul__', '__imul__', '__eq__', '__lt__', '__init__', '__mod__', 'fromhex', 'maketrans']
VIEW = ['__getitem__', '__setitem__', '__delitem__', '__contains__', '__eq__', '__lt__', 'cast', 'tobytes', 'tolist', 'toreadonly', 'hex', 'release',
        '__enter__', '__len__', '__hash__', '__init__']
FORMAT = ['pack', 'unpack', 'unpack_from', 'pack_into', 'iter_unpack', '__init__']
# a number that makes a gigabyte isn't tried
HUGE = [it for it in WRONG if isinstance(it, int) and 1 << 20 < it < 1 << 63]


def outcome(call):
    try:
        call()
    except Exception as fault:  # each kind of exception
        return type(fault)
    return None


def called(make, name, arguments):
    subject = make()
    method = getattr(subject, name, None)
    return outcome(lambda: method(*arguments)) if method else None


def wrong_arguments(sides):
    """Each method with none, one or two arguments out of WRONG."""
    count = 0
    for kind, names in (0, ARRAY), (1, VIEW), (2, FORMAT):
        for name in names:
            few = [()] + [(one,) for one in WRONG]
            few += [(one, other) for one in WRONG[::2] for other in WRONG[::3]] + [(1, 2, 3, 4, 5)]
            for arguments in few:
                if any(it is big for it in arguments for big in HUGE) and name in ('__init__', '__mul__', '__imul__', 'expandtabs', 'join', '__mod__'):
                    continue
                makes = [lambda A=A: A(b'ab1') for A, M, S in sides], [lambda A=A, M=M: M(A(b'ab1')) for A, M, S in sides], \
                    [lambda S=S: S('<Bh') for A, M, S in sides]
                yield f'{name}{arguments}'[:60], [called(make, name, arguments) for make in makes[kind]]
                count += 1


def changed_meanwhile(A, M, S):
    """Calls whose arguments change what they are called on."""
    def cleared(a):
        return Index(a.clear)

    def grown(a):
        return Index(lambda: a.extend(b'x' * 5000))

    def lent(a, kept):
        return Index(lambda: kept.append(M(a)))

    def released(m):
        return Index(m.release)

    def renewed(a):
        return Index(lambda: [M(a) for _ in range(3000)])

    for act in cleared, grown, renewed, lambda a: lent(a, KEPT):
        for call in (lambda a, i: a[i], lambda a, i: a[i:], lambda a, i: a[:i], lambda a, i: a[::i], lambda a, i: a.__setitem__(i, 5),
                     lambda a, i: a.__setitem__(0, i), lambda a, i: a.__setitem__(slice(i, None), b'zz'), lambda a, i: a.__delitem__(i),
                     lambda a, i: a.__delitem__(slice(i, 3)), lambda a, i: a.append(i), lambda a, i: a.insert(i, 5), lambda a, i: a.insert(0, i),
                     lambda a, i: a.pop(i), lambda a, i: a.remove(i), lambda a, i: i in a, lambda a, i: a.find(i), lambda a, i: a.find(b'a', i),
                     lambda a, i: a.count(b'a', 0, i), lambda a, i: a.split(b'a', i), lambda a, i: a.replace(b'a', b'b', i), lambda a, i: a * i,
                     lambda a, i: a.__imul__(i), lambda a, i: a.ljust(i), lambda a, i: a.expandtabs(i), lambda a, i: a.extend([i]),
                     lambda a, i: a.startswith(b'a', i), lambda a, i: a.hex(':', i), lambda a, i: a.__init__(i), lambda a, i: a.__init__([i])):
            yield call, act
    for act in released, lambda m: lent(m.obj, KEPT), lambda m: renewed(m.obj):
        for call in (lambda m, i: m[i], lambda m, i: m[i:], lambda m, i: m[::i], lambda m, i: m.__setitem__(i, 5), lambda m, i: m.__setitem__(0, i),
                     lambda m, i: m.__setitem__(slice(i, None), b'z'), lambda m, i: m.cast('B', [i]), lambda m, i: i in m,
                     lambda m, i: m[i, 0], lambda m, i: m.hex(':', i), lambda m, i: m.__setitem__(slice(0, 1), Iterates(i.act))):
            yield lambda a, i, call=call: call(i.view, i), lambda a, act=act: seen(M(a), act)


KEPT = []


def seen(view, act):
    made = act(view)
    made.view = view
    return made


def main():
    count = wrong = loose = 0
    for words, (theirs, ours) in wrong_arguments((OWN, OURS)):
        count += 1
        if theirs != ours:
            loose += 1
            if ours in NOT_MEANT and theirs not in NOT_MEANT:
                wrong += 1
                print(f'{words}: Python {theirs}, ours {ours}')
            elif '-v' in sys.argv:
                print(f'{words}: Python {theirs}, ours {ours}')
    changes = 0
    for call, act in changed_meanwhile(*OURS):  # some of these end an interpreter where they are made of Python's own bytearray
        array = ByteArray(b'abcabc')
        fault = outcome(lambda: call(array, act(array)))
        KEPT.clear()
        changes += 1
        if fault in NOT_MEANT:
            wrong += 1
            print(f'change {changes}: {fault}')
    for call in (lambda: ByteArray.__new__(ByteArray).append(1), lambda: bytes(ByteArray.__new__(ByteArray)), lambda: MemoryView.__new__(MemoryView)[0],
                 lambda: MemoryView.__new__(MemoryView)[0:1], lambda: hash(MemoryView.__new__(MemoryView)), lambda: Struct.__new__(Struct).pack(),
                 lambda: MemoryView.__new__(MemoryView) == b'', lambda: ByteArray(ByteArray.__new__(ByteArray)), lambda: World().run(5),
                 lambda: MemoryView(MemoryView.__new__(MemoryView)), lambda: ByteArray.__new__(ByteArray).upper(), lambda: list(ByteArray.__new__(ByteArray))):
        count += 1
        fault = outcome(call)
        if not (fault and issubclass(fault, (ValueError, TypeError))):
            wrong += 1
            print(f'what was never made: {fault}')
    if wrong:
        return 1
    print(f'{count} calls with wrong arguments, and {changes} whose arguments change what they are called on, raise or answer; {loose} otherwise '
          'than Python\'s own types')
    return 0


sys.exit(main())
