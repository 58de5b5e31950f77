"""Tells small stories of several objects to Python's own types and to ours, and compares what each answers or raises.

    objects.py [WORD]     the stories whose names have the word; the last line counts them
"""
import copy
import enum
import gc
import pathlib
import pickle
import struct
import subprocess
import sys
from array import array

sys.path.insert(0, str(pathlib.Path(__file__).resolve().parent.parent))
from pybuf import ByteArray, MemoryView, Struct, World  # noqa: E402

OWN = bytearray, memoryview, struct.Struct
OURS = ByteArray, MemoryView, Struct


class Number(enum.IntEnum):
    TWO = 2
    A = 97


class Index:
    def __init__(self, number):
        self.number = number

    def __index__(self):
        return self.number


class Spelled:
    def __bytes__(self):
        return b'ab'


def raises(kind):
    """Says how a story ends, if it doesn't end well."""
    def said(story):
        story.kind = kind
        return story
    return said


# ---- numbers that don't fit ----

def a_number_that_does_not_fit_changes_nothing(A, M, S):
    a = A(b'abcdefgh')
    m = M(a)
    return told(lambda: m.__setitem__(0, 1 << 70), lambda: m.__setitem__(0, -1 << 70), lambda: m.__setitem__(9, 1 << 70),
                lambda: m.cast('Q').__setitem__(0, 1 << 64), lambda: m.cast('B', (2, 4)).__setitem__((0, 1), 1 << 99),
                lambda: m.toreadonly().__setitem__(0, 1 << 70), lambda: m.__setitem__(1, 256), lambda: a)


# ---- floats ----

def told(*calls):
    """What calls answer, or the exceptions that they raise."""
    answers = []
    for call in calls:
        try:
            answers.append(plain(call()))
        except Exception as fault:
            answers.append((type(fault).__name__, str(fault)))
    return answers


def items_that_are_floats(A, M, S):
    a = A(bytes(16))
    m = M(a)
    f = m.cast('f')
    return told(lambda: f.__setitem__(1, 1.5), lambda: f.__setitem__(-1, 3), lambda: f.__setitem__(0, 'x'), lambda: f.__setitem__(9, 1.0),
                lambda: f[9], lambda: f[1], f.tolist, lambda: a, lambda: (f.format, f.itemsize, f.shape, f.nbytes), lambda: f[::-1].tolist(),
                lambda: f[1:3].format, lambda: f.cast('B').tolist(), lambda: m.cast('d').tolist(), lambda: m.cast('@f', (2, 2)).tolist(),
                lambda: m.cast('f', (2, 2))[0, 1], lambda: list(f), lambda: 1.5 in f, lambda: f.toreadonly().__setitem__(0, 1.0),
                lambda: hash(f.toreadonly()), lambda: f.__setitem__(0, 1e300), lambda: f.__setitem__(2, -1e300), lambda: f.tolist())


def floats_are_equal_by_value(A, M, S):
    f = M(A(bytes(16))).cast('f')
    f[1] = 1.0
    other = M(array('i', [0, 1, 0, 0]))
    same = [f == f, f == other, other == f, f != other, f == M(array('d', f)), f == f.cast('B'), f == 5, f == b'']
    f[0] = float('nan')
    return same, f == f, f != f, f[1:] == f[1:]


def floats_are_assigned_to_floats(A, M, S):
    m = M(A(bytes(16)))
    f, whole = m.cast('f'), m.cast('I')
    return told(lambda: f.__setitem__(slice(0, 2), array('f', [7.0, 8.0])), lambda: f.__setitem__(slice(2, 4), f[0:2]),
                lambda: f.__setitem__(slice(0, 2), whole[0:2]), lambda: whole.__setitem__(slice(0, 2), f[0:2]),
                lambda: f.__setitem__(slice(0, 2), array('i', [1, 2])), f.tolist)


def views_of_floats_that_are_no_bytearray(A, M, S):
    m = M(array('d', [1.0, 2.5]))
    return m.tolist(), m[1], m[::-1].tolist(), m.format, m.cast('B')[7], m[:0].tolist()


def a_released_view_of_floats_is_itself(A, M, S):
    f = M(A(bytes(8))).cast('d')
    f.release()
    return f == f, f != f


def formats_with_floats(A, M, S):
    return told(lambda: S('<efd').pack(1.5, -2.5, 1e300), lambda: S('>2e').unpack(b'\x3c\x00\xc0\x00'), lambda: S('f').pack('x'),
                lambda: S('<f').pack(1e300), lambda: S('e').pack(1e10), lambda: S('d').unpack(S('d').pack(float('nan')))[0] != 0,
                lambda: S(' <h f\t2x ').size, lambda: S('2 h'), lambda: S('@P').size, lambda: S('<P'), lambda: S('u'),
                lambda: S('bd').size, lambda: S('<bd').size, lambda: S('e').pack(2), lambda: S('0f').pack())


# ---- views that nobody names ----

def a_view_on_the_way_is_released(A, M, S):
    a = A(b'abcd')
    m = M(a)[1:]
    del m
    a.append(1)
    return a


def a_with_over_a_slice_releases_both(A, M, S):
    a = A(b'abcd')
    with M(a)[1:] as m:
        first = m[0]
    a.append(first)
    return a


def a_list_of_a_view_releases_it(A, M, S):
    a = A(b'abcd')
    answers = M(a).tolist(), list(M(a)), M(a).hex(), M(a).hex(':'), bytes(M(a)[::2]), M(a).cast('H').shape, 98 in M(a)
    a.append(1)
    return answers, a


def a_view_as_an_argument_is_released(A, M, S):
    a, b = A(b'abcd'), A(b'x')
    b.extend(M(a))
    b += M(a)
    b[1:2] = M(a)[1:3]
    answers = b + M(a), A(M(a)), M(a) in b, b.find(M(a)), b.join([M(a), M(a)]), M(a) == b, b < M(a), M(a) != M(a)
    a.append(1)
    b.append(1)
    return answers, a, b


def a_format_releases_its_views(A, M, S):
    a = A(b'abcd')
    f = S('<2H')
    answers = f.unpack(M(a)), f.unpack_from(M(a), 0), list(f.iter_unpack(M(a)))
    f.pack_into(a, 0, 1, 2)
    f.pack_into(M(a), 0, 3, 4)
    a.append(1)
    return answers, a


def an_iterator_that_is_left_releases_its_view(A, M, S):
    a = A(b'abcd')
    for byte in M(a):
        if byte == 98:
            break
    pairs = list(zip(M(a), M(a)[1:]))
    a.append(1)
    return pairs, a


def a_view_in_a_cycle_is_released_by_the_collector(A, M, S):
    a = A(b'abcd')
    cycle = [M(a)[1:]]
    cycle.append(cycle)
    del cycle
    gc.collect()
    a.append(1)
    return a


@raises(BufferError)
def a_view_of_a_view_outlives_it(A, M, S):
    a = A(b'abcd')
    m = M(a)
    n = m[1:]
    del m
    n[0] = 65
    a.append(1)


@raises(BufferError)
def a_view_that_was_released_and_dropped_is_released_once(A, M, S):
    a = A(b'abcd')
    m, n = M(a), M(a)
    m.release()
    m.release()
    del m
    n[0] = 65
    a.append(1)


def a_view_without_its_array_keeps_the_bytes(A, M, S):
    m = M(A(b'abcd'))[1:]
    gc.collect()
    m[0] = 65
    return m.tolist(), m.obj


# ---- two arrays ----

def two_arrays_are_compared_by_items(A, M, S):
    a, b = A(b'\1\0\2\0'), A(b'\1\0\2\0')
    m, n = M(a), M(b)
    kinds = [lambda v: v, lambda v: v.cast('H'), lambda v: v.cast('h'), lambda v: v.cast('B', [2, 2]), lambda v: v.cast('c'),
             lambda v: v.cast('I'), lambda v: v[::2], lambda v: v[::-1], lambda v: v[:0], lambda v: v.cast('H')[:0],
             lambda v: v.cast('?'), lambda v: v.cast('H', [1, 2]), lambda v: v.cast('B', [1, 4]), lambda v: v.cast('I', []),
             lambda v: v.toreadonly(), lambda v: v.cast('b')[::2]]
    views = [kind(v) for v in (m, n) for kind in kinds] + [a, b, bytes(a), memoryview(bytes(a)), bytearray(a), b'', 7]
    return [[(v == w, v != w) for w in views] for v in views[:-5]]


def items_of_two_arrays_are_compared_by_value(A, M, S):
    a, b = A(b'\1\0\2\0'), A(b'\1\2')
    return M(a).cast('H') == M(b), M(a).cast('h') == M(b), M(b) == M(a).cast('H'), M(a)[::2] == M(b), M(a)[::2] == b, b == M(a)[::2]


def arrays_are_ordered_by_bytes_of_a_view(A, M, S):
    a, b = A(b'\1\0\2\0'), A(b'\1\0\2\1')
    return a < M(b), M(a) < b, a < M(b).cast('H'), a >= M(b).cast('B', [2, 2]), a == M(a).cast('H'), a == M(b).cast('H')


@raises(TypeError)
def an_array_has_no_order_with_items_that_lie_apart(A, M, S):
    return A(b'a') < M(A(b'abc'))[::2]


def a_view_is_assigned_what_has_its_structure(A, M, S):
    a, b = A(b'abcdefgh'), A(b'ABCDEFGH')
    M(a)[0:4] = M(b)[4:]
    M(a).cast('H')[1:3] = M(b).cast('H')[:2]
    M(a).cast('H')[::2] = M(b).cast('H')[1::2]
    M(a).cast('I')[::-1] = M(b).cast('I')
    M(a)[:0] = M(b)[3:3]
    M(a).cast('H')[:0] = M(b).cast('H')[:0]
    M(a).cast('c')[:] = M(b).cast('c')[::-1]
    a.append(1)
    b.append(1)
    return a, b


@raises(ValueError)
def a_view_is_not_assigned_another_format(A, M, S):
    M(A(b'abcdefgh'))[0:4] = M(A(b'ABCDEFGH')).cast('H')[2:4]


@raises(ValueError)
def a_view_is_not_assigned_another_shape(A, M, S):
    M(A(b'abcdefgh'))[0:4] = M(A(b'ABCD')).cast('B', [2, 2])


@raises(ValueError)
def a_view_is_not_assigned_another_length(A, M, S):
    M(A(b'abcdefgh')).cast('H')[0:2] = M(A(b'ABCD')).cast('H')[:1]


@raises(ValueError)
def a_view_of_numbers_is_not_assigned_bytes(A, M, S):
    M(A(b'abcdefgh')).cast('H')[0:2] = b'abcd'


def a_view_is_assigned_numbers_of_an_array(A, M, S):
    a = A(b'abcdefgh')
    M(a).cast('H')[1:3] = array('H', [1, 2])
    M(a)[0:2] = array('B', [3, 4])
    M(a)[:] = memoryview(b'01234567')[::-1]
    return a


@raises(ValueError)
def a_view_is_not_assigned_numbers_of_another_code(A, M, S):
    M(A(b'abcdefgh')).cast('H')[0:4] = array('h', [1, 2, 3, 4])


@raises(ValueError)
def a_view_is_not_assigned_floats(A, M, S):
    M(A(b'abcdefgh')).cast('Q')[:] = array('d', [1])


def a_refused_assignment_changes_nothing(A, M, S):
    a, b = A(b'abcdefgh'), A(b'ABCDEFGH')
    try:
        M(a)[0:4] = M(b).cast('H')[2:4]
    except ValueError:
        pass
    a.append(1)
    return a, b


@raises(TypeError)
def what_may_only_be_read_comes_before_what_is_assigned(A, M, S):
    n = M(A(b'ab'))
    n.release()
    M(A(b'ab')).toreadonly()[:] = n


@raises(ValueError)
def a_released_view_comes_before_what_is_assigned(A, M, S):
    m = M(A(b'ab'))
    m.release()
    m[:] = 7


@raises(ValueError)
def a_released_view_isnt_assigned(A, M, S):
    n = M(A(b'ab'))
    n.release()
    M(A(b'ab'))[:] = n


def a_released_view_is_equal_to_itself_alone(A, M, S):
    a, b = A(b'ab'), A(b'ab')
    m, n, gone = M(a), M(b), memoryview(b'ab')
    k, c = M(b), M(b).cast('H')
    for view in (n, c, gone):
        view.release()
    views = [m, n, k, c, a, b, gone, b'ab']
    return [[(v == w, v != w) for w in views] for v in views[:-2]]


def a_view_is_equal_to_numbers_of_an_array(A, M, S):
    m = M(A(b'\1\0\2\0')).cast('H')
    return (m == array('H', [1, 2]), m == array('h', [1, 2]), m == array('q', [1, 2]), m == array('H', [1, 3]), m == array('H'),
            array('H', [1, 2]) == m, m == memoryview(array('H', [1, 2])), m != memoryview(array('b', [1, 2])),
            M(A(b'\1\2')) == memoryview(array('I', [1, 2])), m == 'ab', m == None)  # noqa: E711


def a_view_of_an_array_has_its_items(A, M, S):
    answers = []
    for code in 'BbHhIiLlQq':
        m = M(array(code, [1, 2, 3]))
        answers.append((m.format, m.itemsize, m.shape, m.strides, m.nbytes, m.tolist(), m[1], m[::2].tolist(), m.readonly))
    for view in memoryview(b'abcdef').cast('B', [2, 3]), memoryview(b'abcd').cast('I', []), memoryview(b'abc')[::2], memoryview(b'ab')[:0]:
        m = M(view)
        answers.append((m.format, m.shape, m.readonly, bytes(m)))
    return answers


def the_same_bytes_are_read_and_written(A, M, S):
    a = A(b'abcdefgh')
    m = M(a)
    m[1:4] = m[0:3]
    m[::-1] = m
    n = m.cast('H')
    n[:2] = n[2:]
    return a, m == m[:], n == m, n == m.cast('H'), a == m, a == n


@raises(BufferError)
def an_array_isnt_extended_by_a_view_of_itself(A, M, S):
    a = A(b'ab')
    a.extend(M(a))


def an_array_takes_of_itself(A, M, S):
    a = A(b'ab')
    a.extend(a)
    a[1:2] = a
    a[::2] = a[::2]
    return a, a == a, a in a, a.find(a), a.join([a, a]), a.replace(a, a + a)


# ---- copies, and objects that are made once more ----

def a_copy_is_of_its_own(A, M, S):
    a = A(b'ab')
    for made in copy.copy(a), copy.deepcopy(a), pickle.loads(pickle.dumps(a)), a.copy(), a[:], a * 1, a + b'':
        made.append(1)
        assert made is not a
    return a, copy.copy(a)


def a_copy_has_what_a_class_of_ones_own_keeps(A, M, S):
    class Own(A):
        pass
    a = Own(b'ab')
    a.name = ['n']
    b, c = copy.copy(a), copy.deepcopy(a)
    return b.name is a.name, c.name is a.name, c.name, type(b) is Own, bytes(b), bytes(c)


@raises(TypeError)
def a_view_isnt_copied(A, M, S):
    copy.copy(M(A(b'ab')))


@raises(TypeError)
def a_view_isnt_pickled(A, M, S):
    pickle.dumps(M(A(b'ab')))


@raises(TypeError)
def a_format_isnt_copied(A, M, S):
    copy.copy(S('H'))


def a_view_is_made_once(A, M, S):
    a = A(b'ab')
    m = M(a)
    m.__init__(A(b'xyz'))
    answer = bytes(m)
    del m
    a.append(1)
    return answer, a


def an_array_is_made_once_more(A, M, S):
    a = A(b'abc')
    a.__init__(b'zz')
    a.append(1)
    first = bytes(a)
    a.__init__(3)
    a.__init__([*a, 4])
    second = bytes(a)
    a.__init__()
    return first, second, a


def an_array_isnt_made_once_more_under_a_view(A, M, S):
    a = A(b'abc')
    m = M(a)
    try:
        a.__init__(b'zz')
    except BufferError:
        return bytes(m), a
    return 'done'


def a_format_is_made_once_more(A, M, S):
    f = S('H')
    f.pack(1)
    f.__init__('<IcB')
    return f.pack(1, b'a', 2), f.size, f.format


# ---- numbers and arguments ----

def numbers_of_other_types_are_numbers(A, M, S):
    a = A(b'abcabc')
    answers = [a.find(Number.A), a.count(Number.A), a.find(b'b', Number.TWO), a.find(b'b', Index(2), Index(9)), a.rfind(Index(98)),
               a.split(b'b', Number.TWO), a.rsplit(b'b', Index(1)), a.replace(b'a', b'x', Number.TWO), a.ljust(Index(9)), a.zfill(Index(8)),
               a.startswith(b'c', Number.TWO), a.expandtabs(Number.TWO), a.splitlines(Number.TWO), a[Number.TWO], a[Index(-1)],
               a[Index(1):Number.TWO], Number.A in a, Index(98) in a, a * Number.TWO, Number.TWO * a, a.pop(Index(1)), a.index(Index(99)),
               a.find(True), a.hex('-', Index(2)), A(Index(3)), A(Number.TWO), A([Index(1), Number.A])]
    a.append(Number.A)
    a.insert(Index(0), Index(5))
    a.remove(Index(98))
    a[Index(1)] = Number.TWO
    a *= Index(2)
    m = M(a)
    m[Index(0)] = Number.A
    m.cast('c')[Index(1)] = b'z'
    m.cast('B', [Number.TWO, 6])[Index(1), Number.TWO] = Index(7)
    return answers, a, m.cast('B', [2, 6])[Index(1), Index(2)], m[Index(1):].tolist()


def places_past_a_word_are_the_ends(A, M, S):
    a = A(b'abcabc')
    wide = 2 ** 200
    return [a.find(b'b', -wide), a.find(b'b', wide), a.rfind(b'b', 0, wide), a.count(b'a', -wide, wide), a.startswith(b'a', -wide), a[-wide:wide],
            a.find(b'b', Index(-wide)), a[::wide], M(a)[-wide:wide:wide].tolist(), a.endswith(b'', wide)]


def counts_past_a_word_are_refused(A, M, S):
    a = A(b'abc')
    answers = []
    for call in (lambda: a.find(2 ** 200), lambda: a.find(-2 ** 200), lambda: a.find(b'a', 'x'), lambda: a.ljust(2 ** 200), lambda: a.split(b'b', 2 ** 200),
                 lambda: a.replace(b'a', b'b', -2 ** 200), lambda: a * 2 ** 200, lambda: a.__imul__(2 ** 200), lambda: a.pop(2 ** 200),
                 lambda: a.insert(2 ** 200, 1), lambda: a[2 ** 200], lambda: a.append(2 ** 200), lambda: 2 ** 200 in a, lambda: A(2 ** 200),
                 lambda: A(-1), lambda: a.find(1.5), lambda: a.find(None), lambda: a.find('b'), lambda: a.find("'"), lambda: a.find('\u00e9'),
                 lambda: a.split('\n'), lambda: a.join(['\u00e9']), lambda: a.ljust('x'), lambda: a.ljust(3, 'x'), lambda: a.ljust(1 << 20, b'xy'),
                 lambda: a.zfill(1 << 20, b'x'), lambda: a.center(1.5), lambda: M(a)[2 ** 200], lambda: M(a)[{}], lambda: a * 1.5,
                 lambda: a.extend(5), lambda: a.extend(Index(5)), lambda: a.__setitem__(slice(0, 1), Index(5)), lambda: a.__setitem__(slice(0, 1), 1.5),
                 lambda: M(A(b'abcd')).cast('B', [Index(2), 2]), lambda: M(A(b'abcd')).cast('B', [2.0, 2]), lambda: M(a).cast('B', 3),
                 lambda: M(a).cast('B', [2 ** 200]), lambda: M(a).cast(5), lambda: M(a).cast('\u00e9'), lambda: M(a).cast('BB'), lambda: a.pop(None),
                 lambda: M(A(b'abcd')).cast('B', [2, 2])[0:1, 0:1], lambda: M(A(b'abcd')).cast('B', [2, 2])[0:1, 0], lambda: A(b'x').join(b'ab'),
                 lambda: M(A(b'abcd')).cast('B', [2, 2]).__setitem__((slice(0, 1), slice(0, 1)), 1), lambda: a + 'x', lambda: a + [1],
                 lambda: a.__iadd__([1]), lambda: a.__iadd__(M(a)[::2]), lambda: a + M(a)[::2], lambda: S('H').pack_into(a, 2, 1),
                 lambda: S('').pack_into(A(), 0), lambda: S('').pack_into(bytearray(), 0), lambda: S('H').pack_into(b'ab', 0, 1), lambda: S('0s').unpack(A()),
                 lambda: S('H').pack_into(M(A(b'abcd'))[::2], 0, 1), lambda: S('H').pack(int), lambda: a.ljust(9, M(A(b'x'))), lambda: a.extend(''),
                 lambda: a.extend('a'), lambda: a.__setitem__(slice(0, 1), ''), lambda: a.hex(A(b'x')), lambda: a.hex(None), lambda: a.zfill(9, b'x'),
                 lambda: A.maketrans(A(b'a'), M(A(b'b')))[97], lambda: A.maketrans(b'a', 'b'), lambda: a.maketrans([1], [2]),
                 lambda: A(1.5), lambda: A(None), lambda: A(Spelled()), lambda: a.extend(Spelled()), lambda: a.extend(None), lambda: a[int]):
        try:
            answers.append(call())
        except Exception as fault:
            answers.append(type(fault))
    return answers, a


def long_results_are_those_of_short_ones(A, M, S):
    width, odd = 1 << 20, (1 << 20) + 1
    made = [A(content) for content in (b'', b'abc', b'-abc', b'+', b'a-b')]
    return [part for a in made for part in (a.ljust(width), a.rjust(width, b'*'), a.center(width), a.center(odd, bytearray(b'.')), a.zfill(odd),
                                            (a * 70000).upper(), a.ljust(odd).split())]


def an_iterator_goes_along_with_its_array(A, M, S):
    a = A(b'abcd')
    seen = []
    for byte in a:
        seen.append(byte)
        a.pop()
    walk = iter(a)
    seen.append(list(walk))
    a.append(1)
    seen.append(list(walk))
    return seen, a


@raises(BufferError)
def an_array_isnt_added_to_itself(A, M, S):
    a = A(b'ab')
    a += a


def a_negative_count_is_no_times(A, M, S):
    a = A(b'ab')
    answers = a * -1, a * 0, -3 * a
    a *= -1
    return answers, a


def plain(value):
    """A value in a form that is the same, whoever made it."""
    if isinstance(value, (ByteArray, bytearray)):
        return 'bytearray', bytes(value)
    if isinstance(value, (list, tuple)):
        return [plain(part) for part in value]
    return type(value), value


def outcome(story, types):
    try:
        return plain(story(*types))
    except Exception as fault:  # exceptions of each kind are compared
        return 'raises', type(fault)


def worlds_arent_copied():
    for made in World(), Struct('H'), MemoryView(b'a'):
        for how in copy.copy, copy.deepcopy, pickle.dumps:
            try:
                how(made)
            except TypeError:
                continue
            return f'{type(made).__name__} is copied by {how.__name__}'


LEFT = """
from pybuf import ByteArray, MemoryView, Struct, World
class Own(ByteArray):
    pass
array, world, format = Own(b'ab'), World(), Struct('H')
view = MemoryView(array)[1:]
views = [view, MemoryView(b'ab'), array, world, format]
views.append(views)
array.views = views
del array, views
"""


def an_interpreter_ends_quietly():
    """Objects that are left, in cycles too, are no trouble at the end."""
    path = str(pathlib.Path(__file__).resolve().parent.parent)
    ended = subprocess.run([sys.executable, '-c', f'import sys\nsys.path.insert(0, {path!r})\n{LEFT}'], capture_output=True, text=True)
    if ended.returncode or ended.stderr:
        return f'an interpreter ends with {ended.returncode}: {ended.stderr}'


def main():
    word = sys.argv[1] if len(sys.argv) > 1 else ''
    stories = [it for it in globals().values() if getattr(it, '__code__', None) and it.__code__.co_varnames[:3] == ('A', 'M', 'S')]
    failed = told = 0
    for story in stories:
        if word not in story.__name__:
            continue
        told += 1
        own, ours = outcome(story, OWN), outcome(story, OURS)
        kind = own[1] if own[0] == 'raises' else None
        if own != ours or kind is not getattr(story, 'kind', None):
            failed += 1
            print(f'{story.__name__}:\n  Python {own}\n  ours   {ours}'[:2000])
    for fault in worlds_arent_copied(), an_interpreter_ends_quietly():
        if fault:
            failed += 1
            print(fault)
    if failed:
        print(f'{failed} stories end otherwise than with Python\'s own objects')
        sys.exit(1)
    print(f'{told} stories of several objects end as with Python\'s own')


main()
