"""Draws operations, carries each out on Python's own object and on ours side by side, and compares values and exceptions.

    drawn.py [SEED [COUNT]]     COUNT operations for bytearrays, and as many for views, for formats, and for two bytearrays with views
                                that come and go; the first difference ends it with 1
"""
import pathlib
import random
import struct
import sys

sys.path.insert(0, str(pathlib.Path(__file__).resolve().parent.parent))
from pybuf import ByteArray, MemoryView, Struct  # noqa: E402


def plain(value):
    """A value in a form that is the same, whoever made it."""
    if isinstance(value, (ByteArray, bytearray)):
        return 'bytearray', bytes(value)
    if isinstance(value, (MemoryView, memoryview)):
        return 'memoryview', bytes(value), value.shape, value.strides, value.format, value.readonly
    if isinstance(value, (list, tuple)):
        return type(value), [plain(part) for part in value]
    return type(value), value


def outcome(operation, subject):
    try:
        return plain(operation(subject))
    except Exception as error:  # exceptions of each kind are compared
        return 'raises', type(error)


def assigned(key, value):
    def operation(subject):
        subject[key] = value
    return operation


def deleted(key):
    def operation(subject):
        del subject[key]
    return operation


def number(draw):
    return draw.choice([0, 1, 2, 3, 7, -1, -2, -8, 65, 127, 255, 256, -129, 1000, 70000, draw.randrange(256)])


def part(draw):
    return draw.choice([None, None, 0, 1, 2, 5, -1, -3, 100, -100, 1 << 70])


def key(draw):
    return slice(part(draw), part(draw), draw.choice([None, None, 1, 2, -1, -2, 0]))


def some_bytes(draw):
    return bytes(draw.choice(b'abcAB \n,x') for _ in range(draw.randrange(6)))


def array_operation(draw):
    """An operation for a bytearray, with the words that tell it."""
    n, k, index = number(draw), key(draw), draw.choice([0, 1, 2, -1, -2, 9, -9, 1 << 70])
    content, other = some_bytes(draw), some_bytes(draw)
    return draw.choice([
        (f'append {n}', lambda a: a.append(n)),
        (f'extend {content}', lambda a: a.extend(content)),
        (f'insert {index} {n}', lambda a: a.insert(index, n)),
        ('pop', lambda a: a.pop()),
        (f'pop {index}', lambda a: a.pop(index)),
        (f'remove {n}', lambda a: a.remove(n)),
        ('reverse', lambda a: a.reverse()),
        ('clear', lambda a: a.clear()),
        ('copy', lambda a: a.copy()),
        ('len', len),
        ('list', list),
        (f'get {index}', lambda a: a[index]),
        (f'get {k}', lambda a: a[k]),
        (f'set {index} {n}', assigned(index, n)),
        (f'set {k} {content}', assigned(whole(k), content)),
        (f'del {index}', deleted(index)),
        (f'del {k}', deleted(k)),
        (f'{n} in', lambda a: n in a),
        (f'{content} in', lambda a: content in a),
        (f'== {content}', lambda a: a == content),
        (f'< {content}', lambda a: a < content),
        (f'+ {content}', lambda a: a + content),
        (f'* {n % 4}', lambda a: a * (n % 4)),
        (f'find {content}', lambda a: a.find(content)),
        (f'count {content}', lambda a: a.count(content)),
        (f'index {content}', lambda a: a.index(content)),
        (f'replace {content} {other}', lambda a: a.replace(content, other)),
        (f'split {content}', lambda a: a.split(content)),
        ('split', lambda a: a.split()),
        ('upper', lambda a: a.upper()),
        ('title', lambda a: a.title()),
        (f'strip {content}', lambda a: a.strip(content)),
        (f'startswith {content}', lambda a: a.startswith(content)),
        (f'partition {content}', lambda a: a.partition(content)),
        (f'zfill {n % 20}', lambda a: a.zfill(n % 20)),
        ('splitlines', lambda a: a.splitlines()),
        (f'+= {content}', lambda a: a.__iadd__(content)),
        (f'*= {n % 3}', lambda a: a.__imul__(n % 3)),
        (f'hex {content[:1]} {n % 4 - 2}', lambda a: a.hex(content[:1] or b'-', n % 4 - 2)),
        ('hex', lambda a: a.hex()),
        ('decode', lambda a: a.decode('ascii')),
        (f'fromhex {n % 256:02x} 4a', lambda a: type(a).fromhex(f'{n % 256:02x} 4a')),
        (f'join {content}', lambda a: a.join([content, a, other])),
        (f'translate {content}', lambda a: a.translate(bytes(reversed(range(256))), delete=content)),
        (f'find {content} {n} {index}', lambda a: a.find(content, n, index)),
        (f'rfind {n}', lambda a: a.rfind(n)),
        (f'rindex {content}', lambda a: a.rindex(content, index)),
        (f'startswith {content, other}', lambda a: a.startswith((content, other), 0, n)),
        (f'endswith {content}', lambda a: a.endswith(content)),
        (f'rsplit {content} 1', lambda a: a.rsplit(content, maxsplit=1)),
        ('splitlines True', lambda a: a.splitlines(keepends=True)),
        (f'expandtabs {n % 9}', lambda a: a.expandtabs(tabsize=n % 9)),
        (f'center {n % 12}', lambda a: a.center(n % 12, b'*')),
        (f'removeprefix {content}', lambda a: a.removeprefix(content)),
        (f'rpartition {content}', lambda a: a.rpartition(content)),
        (f'replace {content} 1', lambda a: a.replace(content, other, 1)),
        ('isupper', lambda a: (a.isupper(), a.isspace(), a.isalnum(), a.istitle(), a.isascii())),
        ('swapcase', lambda a: (a.swapcase(), a.capitalize(), a.lower())),
        ('reversed', lambda a: list(reversed(a))),
        ('bool', bool),
        ('sorted', sorted),
        ('hash', hash),
        (f'{n} times', lambda a: a.count(n)),
        (f'!= text {content}', lambda a: (a != content.decode(), a == 7, a == None)),  # noqa: E711
        (f'>= {content}', lambda a: (a >= content, a <= bytearray(other), a > memoryview(content))),
        (f'extend numbers {n}', lambda a: a.extend([1, n, 2])),
        ('extend text', lambda a: a.extend('ab')),
        (f'new {n}', lambda a: type(a)(n) if -4 < n < 300 else None),
        (f'new {content}', lambda a: (type(a)(list(content)), type(a)(content.decode(), 'ascii'))),
        ('new text', lambda a: type(a)('ab')),
        ('no separator', lambda a: a.split(b'')),
        ('wrong name', lambda a: a.split(separator=b'a')),
        ('unordered', lambda a: a < 7),
        ('wrong kind', lambda a: a.append('x')),
        ('wrong key', lambda a: a['x']),
    ])


def whole(k):
    """A key with a step of 1. We differ if another length is assigned to an extended slice (docs/reference/differences.md)."""
    return slice(k.start, k.stop)


def view_operation(draw):
    n, k, index = number(draw), key(draw), draw.choice([0, 1, 2, -1, -2, 9, -9])
    content = some_bytes(draw)
    shape = draw.choice([[2, 2], [4], [1, 8], [2, 4], [8, 1], [3, 2]])
    code = draw.choice('BbHhIiLlQqc?')
    order = draw.choice([None, 'C', 'F', 'F', 'A', 'X', 5])
    return draw.choice([
        ('len', len),
        ('tolist', lambda m: m.tolist()),
        ('bytes', lambda m: bytes(m)),
        ('nbytes', lambda m: m.nbytes),
        ('itemsize', lambda m: m.itemsize),
        ('shape', lambda m: m.shape),
        ('strides', lambda m: m.strides),
        ('format', lambda m: m.format),
        ('readonly', lambda m: m.readonly),
        ('contiguous', lambda m: (m.contiguous, m.c_contiguous, m.f_contiguous)),
        (f'get {index}', lambda m: m[index]),
        (f'set {index} {n}', assigned(index, n)),
        (f'get {k}', lambda m: m[k]),
        (f'set {k} {content}', assigned(k, content)),
        (f'cast {code}', lambda m: m.cast(code)),
        (f'cast B {shape}', lambda m: m.cast('B', shape)),
        ('toreadonly', lambda m: m.toreadonly()),
        ('list', list),
        (f'== {content}', lambda m: m == content),
        ('hex', lambda m: m.hex()),
        ('wrong key', lambda m: m['x']),
        ('view', lambda m: m[k].tolist()),
        ('in', lambda m: n in m),
        (f'hex {content[:1]}', lambda m: m.hex(':', 2)),
        ('hash', hash),
        ('suboffsets', lambda m: m.suboffsets),
        ('tobytes', lambda m: m.tobytes()),
        (f'tobytes {order}', lambda m: m.tobytes(order)),
        ('reversed', lambda m: list(reversed(m))),
        (f'get {index % 3}, {n % 3}', lambda m: m[index % 3, n % 3]),
        (f'set {index % 3}, {n % 3}', assigned((index % 3, n % 3), n)),
        (f'bytes {content}', assigned(index, content[:1])),
        (f'del {index}', deleted(index)),
        ('with', within),
        ('release', lambda m: m.release()),
    ])


def within(subject):
    with subject as view:
        return view.nbytes


def a_format(draw):
    """The text of a format, with the code of each of its values."""
    text, codes = draw.choice(['', '@', '=', '<', '>', '!']), []
    for _ in range(draw.randrange(5)):
        code = draw.choice('xcbB?hHiIlLqQsp' + ('nN' if text in ('', '@') else ''))
        count = draw.choice(['', '', '0', '1', '2', '03', '5', '12'])
        if code == 'p' and count == '0':
            continue  # Python's own reads and writes a byte outside such a field
        text += count + code
        codes += [code] if code in 'sp' else [] if code == 'x' else [code] * int(count or 1)
    if draw.random() < 0.1:  # maybe none
        text = draw.choice([text + '3', text + 'y', 'z' + text, '99999999999999999999b'])
    return text, codes


def a_value(draw, code):
    if draw.random() < 0.1:
        return draw.choice([None, 'a', b'', b'xyz', bytearray(b'q'), 1 << 70, -1 << 70, 1.5, True, []])
    if code in 'csp':
        return bytes(draw.randrange(256) for _ in range(1 if code == 'c' else draw.randrange(14)))
    return draw.choice([0, 1, -1, 127, 128, -128, 255, 32767, 65535, 65536, -32768, 1 << 31, (1 << 32) - 1, 1 << 63, (1 << 64) - 1])


def put(f, offset, values):
    """What stands in a room after a pack that isn't refused. After a refusal, Python's own leaves the values before the refused one there."""
    room = bytearray(b'.' * 40)
    f.pack_into(room, offset, *values)
    return bytes(room)


def format_operations(draw, codes, size):
    """Operations for a format, with their words."""
    values = [a_value(draw, code) for code in codes][:draw.choice([99] * 9 + [1])]
    content = bytes(draw.choice([0, 1, 2, 3, 127, 128, 255]) for _ in range(size))
    offset = draw.choice([0, 1, 5, 39, 41, -1, -20, -41, 1 << 70])
    return [
        ('size', lambda f: (f.size, f.format)),
        (f'pack {values}', lambda f: f.pack(*values)),
        (f'unpack {content}', lambda f: f.unpack(content)),
        ('unpack other', lambda f: f.unpack(bytearray(content + b'a'))),
        ('unpack number', lambda f: f.unpack(7)),
        (f'iter {content}', lambda f: list(f.iter_unpack(memoryview(content * 3)))),
        ('iter other', lambda f: list(f.iter_unpack(content + b'ab'))),
        (f'from {offset}', lambda f: f.unpack_from(content * 2 + b'abc', offset)),
        ('from', lambda f: f.unpack_from(buffer=content + b'abc')),
        (f'into {offset} {values}', lambda f: put(f, offset, values)),
        ('into bytes', lambda f: f.pack_into(content, 0, *values)),
    ]


def differs(words, before, theirs, ours):
    print(f'{words} of {before}: Python {theirs}, ours {ours}')
    sys.exit(1)


def compare_arrays(draw, count):
    for _ in range(count):
        content = some_bytes(draw) + some_bytes(draw)
        theirs, ours = bytearray(content), ByteArray(content)
        lent = draw.random() < 0.2
        views = (memoryview(theirs), MemoryView(ours)) if lent else ()
        words, operation = array_operation(draw)
        answers = outcome(operation, theirs), outcome(operation, ours)
        if lent and answers[0] != answers[1] and answers[1] == ('raises', BufferError):
            continue  # a change of the length is refused before other faults are found (docs/reference/differences.md)
        if answers[0] != answers[1] or bytes(theirs) != bytes(ours):
            differs(words, content, (answers[0], bytes(theirs)), (answers[1], bytes(ours)))
        for view in views:
            view.release()


def compare_views(draw, count):
    for _ in range(count):
        content = bytes(draw.randrange(256) for _ in range(draw.choice([0, 4, 8, 8, 12])))
        theirs, ours = bytearray(content), ByteArray(content)
        pair = memoryview(theirs), MemoryView(ours)
        said = []
        for _ in range(draw.randrange(1, 5)):
            words, operation = view_operation(draw)
            said.append(words)
            answers = [outcome(operation, view) for view in pair]
            if answers == [('raises', NotImplementedError), ('raises', ValueError)] and {'release', 'with'} & set(said):
                continue  # Python counts the dimensions of a released view before it refuses to iterate over it
            if answers[0] != answers[1] or bytes(theirs) != bytes(ours):
                differs(said, content, (answers[0], bytes(theirs)), (answers[1], bytes(ours)))
            if answers[0][0] == 'memoryview':  # the next operations are on the view that was made
                pair = operation(pair[0]), operation(pair[1])
                if not pair[0].nbytes and not pair[0].contiguous:
                    break  # a view without bytes is contiguous here (docs/reference/differences.md)


class Side:
    """Two bytearrays and their views, which are all of Python's types or all of ours."""

    def __init__(self, array, view, contents):
        self.view, self.arrays, self.views = view, [array(content) for content in contents], []

    def object(self, at):
        return [*self.arrays, *self.views, b'\1\0', memoryview(b'\1\0\2\0').cast('H')][at]

    def whole(self, at):
        """An object, except for a view that is released or whose items lie apart. We refuse such a view otherwise than Python does."""
        value = self.object(at)
        try:
            return value if getattr(value, 'c_contiguous', True) else b''
        except ValueError:
            return b''

    def again(self, at, source):
        """Calls `__init__` of a bytearray once more. We differ if it is made of itself."""
        if source != at:
            self.arrays[at].__init__(self.whole(source))

    def keep(self, view):
        self.views.append(view)
        return view


def pair_operation(draw, count):
    """An operation for a side with so many views, with the words that tell it."""
    one, other = draw.randrange(count + 3), draw.randrange(count + 4)  # the last object is Python's own, and it asks nothing of ours
    array, k, n = draw.randrange(2), key(draw), draw.randrange(3)
    made = [
        (f'view of {one}', lambda s: s.keep(s.view(s.object(one)))),
        (f'{one} == {other}', lambda s: (s.object(one) == s.object(other), s.object(one) != s.object(other))),
        (f'{one} < {other}', lambda s: s.object(one) < s.object(other)),
        (f'append to {array}', lambda s: s.arrays[array].append(n)),
        (f'pop of {array}', lambda s: s.arrays[array].pop()),
        (f'extend {array} by {one}', lambda s: s.arrays[array].extend(s.whole(one))),
        (f'{array} += {one}', lambda s: s.arrays[array].__iadd__(s.object(one)) is s.arrays[array]),
        (f'{array} + {one}', lambda s: s.arrays[array] + s.object(one)),
        (f'set {array} {whole(k)} to {one}', lambda s: s.arrays[array].__setitem__(whole(k), s.object(one))),
        (f'{array} again of {one}', lambda s: s.again(array, one)),
        (f'list of a view of {one}', lambda s: s.view(s.object(one)).tolist()),
        (f'new of {one}', lambda s: type(s.arrays[0])(s.object(one))),
    ]
    if count:
        at = draw.randrange(count)
        code, shape = draw.choice('BbcHhIiQ'), draw.choice([[2, 2], [1, 4], [4, 1], [2, 4]])
        made += [
            (f'drop {at}', lambda s: s.views.pop(at).nbytes),
            (f'release {at}', lambda s: s.views[at].release()),
            (f'slice {at} {k}', lambda s: s.keep(s.views[at][k])),
            (f'cast {at} {code}', lambda s: s.keep(s.views[at].cast(code))),
            (f'cast {at} {shape}', lambda s: s.keep(s.views[at].cast('B', shape))),
            (f'read only {at}', lambda s: s.keep(s.views[at].toreadonly())),
            (f'set {at} {k} to {other}', lambda s: s.views[at].__setitem__(k, s.object(other))),
            (f'set {at} 0', lambda s: s.views[at].__setitem__(0, n)),
            (f'list {at}', lambda s: (s.views[at].tolist(), list(s.views[at]))),
        ] * 2
    return draw.choice(made)


def lies_apart(value):
    return isinstance(value, memoryview) and not value.c_contiguous


def compare_pairs(draw, count):
    while count > 0:
        contents = [bytes(draw.randrange(3) for _ in range(draw.choice([0, 2, 4, 4, 8]))) for _ in range(2)]
        theirs, ours = Side(bytearray, memoryview, contents), Side(ByteArray, MemoryView, contents)
        said = []
        for _ in range(draw.randrange(1, 20)):
            words, operation = pair_operation(draw, len(theirs.views))
            said.append(words)
            count -= 1
            answers = outcome(operation, theirs), outcome(operation, ours)
            if differs_as_said(answers):
                break
            after = [list(map(bytes, side.arrays)) for side in (theirs, ours)]
            if answers[0] != answers[1] or after[0] != after[1]:
                differs(said, contents, (answers[0], after[0]), (answers[1], after[1]))
            if answers[0][0] == 'memoryview' and lies_apart(theirs.views[-1]) and not theirs.views[-1].nbytes:
                break  # a view without bytes is contiguous here (docs/reference/differences.md)


def differs_as_said(answers):
    """Whether answers differ as docs/reference/differences.md says: a length that is asked for is refused before what is there."""
    return answers[0] != answers[1] and answers[1] == ('raises', BufferError)


def compare_formats(draw, count):
    while count > 0:
        text, codes = a_format(draw)
        made = outcome(struct.Struct, text), outcome(Struct, text)
        if made[0][0] == 'raises' or made[1][0] == 'raises':
            if made[0] != made[1]:
                differs('a format', text, *made)
            count -= 1
            continue
        theirs, ours = made[0][1], made[1][1]
        for words, operation in format_operations(draw, codes, min(theirs.size, 100)):
            answers = outcome(operation, theirs), outcome(operation, ours)
            if answers[0] != answers[1]:
                differs(words, text, *answers)
            count -= 1


def main():
    if sys.version_info < (3, 11):
        print('left out: before Python 3.11 an index is looked at before a value')
        return
    seed = int(sys.argv[1]) if len(sys.argv) > 1 else 1
    count = int(sys.argv[2]) if len(sys.argv) > 2 else 500
    draw = random.Random(seed)
    compare_arrays(draw, count)
    compare_views(draw, count)
    compare_formats(draw, count)
    compare_pairs(draw, count)
    print(f'{4 * count} drawn operations answer as Python\'s own objects do')


main()
