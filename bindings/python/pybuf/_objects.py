"""What `ByteArray` and `MemoryView` do where it is rare, by functions that are added to the types of `_native`.

Each `ByteArray` has a world of its own, which its views share and which is freed with the last of them. If two worlds do something
together, it is done by copies.
"""
import math
from operator import index

from . import _native
from ._calls import Uncopied, struct_error
from ._floats import BITS, bits_of, float_of

ByteArray, MemoryView = _native.ByteArray, _native.MemoryView

# from this width on, a method's result is made in a world, and isn't read from a reply
_LONG = 1 << 16
# the size of an index
_WORD = 1 << 63


def _has(value, *names):
    return any(hasattr(type(value), name) for name in names)


def _has_buffer(value):
    try:
        memoryview(value).release()
    except TypeError:
        return isinstance(value, (ByteArray, MemoryView))
    return True


def _word(value, refusal):
    """A number, which is refused if it doesn't fit a word."""
    number = index(value)
    if not -_WORD <= number < _WORD:
        raise refusal("cannot fit 'int' into an index-sized integer")
    return number


def _lent(value):
    """The bytes of an object that has a buffer."""
    return value.tobytes() if isinstance(value, (ByteArray, MemoryView)) else bytes(memoryview(value))


def _lent_view(value):
    """A view with the format, the shape and the bytes of an object with a buffer. It is a view of ours or one of Python's."""
    if isinstance(value, MemoryView):
        return value
    return memoryview(value.tobytes() if isinstance(value, ByteArray) else value)


def _read(source=b'', encoding=None, errors=None):
    """The bytes that an array is made of, or how many zeros."""
    if isinstance(source, str):
        if encoding is None:
            raise TypeError('string argument without an encoding')
        return source.encode(encoding, errors or 'strict')
    if encoding is not None or errors is not None:
        raise TypeError('encoding or errors without a string argument')
    if _has(source, '__index__'):
        try:
            return _word(source, OverflowError)
        except TypeError:  # as in Python, it may have a buffer
            pass
    return _lent(source) if _has_buffer(source) else bytes(iter(source))


def _reduce(self):
    """The bytes and the attributes, for pickle and for copies."""
    return type(self), (self.tobytes(),), getattr(self, '__dict__', None) or None


def _mod(self, values):
    """Python's own formatting of bytes, with the array as the format."""
    return ByteArray(self.tobytes() % values)


def _rmod(self, other):
    """Nothing is formatted by an array on the right."""
    return NotImplemented


def fromhex(cls, text, /):
    """The bytes that digits spell, read as Python reads them."""
    return cls(bytes.fromhex(text))


def maketrans(before, after, /):
    """The table by which `translate` puts bytes in the place of others."""
    return bytes.maketrans(_lent(before), _lent(after))


_LEFT_OUT = object()


def _hex(self, sep=_LEFT_OUT, bytes_per_sep=1):
    """The digits of the bytes, with a separator between groups."""
    if not isinstance(self, (ByteArray, MemoryView)):
        raise TypeError(f"descriptor 'hex' doesn't apply to {type(self).__name__!r} objects")
    if sep is _LEFT_OUT:
        return self.tobytes().hex()
    if isinstance(sep, str):
        sep = sep.encode()
    if not isinstance(sep, bytes):
        raise TypeError('sep must be str or bytes.')
    return (self if isinstance(self, ByteArray) else ByteArray(self))._hex(sep, index(bytes_per_sep))


def join(self, parts, /):
    """The parts, with these bytes between them."""
    return self._join(list(parts))


_PADDED = {'center': 'A copy in the middle of so many bytes.', 'ljust': 'A copy at the front of so many bytes.',
           'rjust': 'A copy at the end of so many bytes.', 'zfill': 'A copy with zeros in front, behind a sign.'}


def _padding(name):
    """A method that fills bytes up to a width. A long result is filled here, since a reply would take several times its bytes."""
    by_line = getattr(ByteArray, f'_{name}')

    def called(self, width, *fill):
        width = _word(width, OverflowError)
        if len(fill) > (name != 'zfill') or not all(isinstance(it, (bytes, bytearray, ByteArray)) and len(it) == 1 for it in fill):
            raise TypeError(f'{name}() takes a width, and to fill up to it one byte, which zfill() has')
        if width <= max(_LONG, len(self)):
            return by_line(self, width, *fill)
        content = self.tobytes()
        made = ByteArray(fill[0] if fill else b'0' if name == 'zfill' else b' ')
        made *= width
        if name == 'zfill' and content[:1] in (b'+', b'-'):
            made[0] = content[0]
            content = content[1:]
        more = width - len(content)
        start = {'ljust': 0, 'center': more // 2 + (more & width & 1)}.get(name, more)
        made[start:start + len(content)] = content
        return made
    called.__name__, called.__doc__ = name, _PADDED[name]
    return called


for _name in _PADDED:
    setattr(ByteArray, _name, _padding(_name))
ByteArray._read, ByteArray.__reduce__, ByteArray.__mod__, ByteArray.__rmod__ = staticmethod(_read), _reduce, _mod, _rmod
ByteArray.fromhex, ByteArray.maketrans, ByteArray.hex, ByteArray.join = classmethod(fromhex), staticmethod(maketrans), _hex, join

# the formats whose views have a hash, as in Python
_HASHED = ('B', 'b', 'c', '@B', '@b', '@c')
_EXCEPTIONS = {it.__name__: it for it in (IndexError, ValueError, TypeError, BufferError, OverflowError, NotImplementedError)}


def _held(made, view, source, beside=None):
    """Lets a new view be one of a copy of another view, of ours or of Python's. A format that `cast` doesn't take is its ValueError."""
    shape, code, content = list(view.shape), view.format.lstrip('@'), view.tobytes()
    nothing = shape[:1] == [0]
    if nothing:  # a cast can't make a view without items, but a slice can
        shape[0] = 1
        content = bytes(view.itemsize * math.prod(shape))
    plain = view.format == 'B' and view.ndim == 1
    made._hold(content, None if plain else BITS.get(code, view.format), shape, nothing, beside is None and view.readonly, source,
               view.format if code in BITS else None, beside)
    return made


def _beside(view, other):
    """A view of a copy in the world of a view."""
    return _held(MemoryView.__new__(MemoryView), other, None, view)


def _copy(self, source):
    """Makes this view of a copy of an object with a buffer."""
    with memoryview(source) as view:
        try:
            _held(self, view, source)
        except ValueError:  # the library has no such items, but it has their bytes
            with memoryview(view.tobytes()) as flat:
                _held(self, flat if view.readonly else memoryview(bytearray(flat)), source)


def _alive(self):
    """Raises Python's ValueError if the view was released."""
    return self.nbytes


def _item_of(self, key):
    """What stands at a key that is no index and no slice."""
    if isinstance(key, tuple):
        return self._get_at(_indices(self, key))
    _alive(self)
    raise TypeError('memoryview: invalid slice key')


def _indices(self, key):
    if key and all(isinstance(part, slice) for part in key):
        _alive(self)
        raise NotImplementedError('multi-dimensional slicing is not implemented')
    if len(key) > 64:
        raise TypeError(f'cannot index {self.ndim}-dimension view with {len(key)}-element tuple')
    return [_word(part, IndexError) for part in key]


def _code_of(view):
    return view.format.lstrip('@')


def _compare(self, other, equal):
    """Compares with an object of another world, or with one of Python's. Floats are equal by their values."""
    try:
        view = _lent_view(other)
    except (BufferError, TypeError, ValueError):
        return NotImplemented
    try:
        if _code_of(self) in BITS or _code_of(view) in BITS:
            return (self.shape == view.shape and self.tolist() == view.tolist()) == equal
        if view.format == 'B' and view.ndim == 1:
            return (self == view.tobytes()) == equal
        with _beside(self, view) as made:
            return (self == made) == equal
    except ValueError:  # one view was released, or the library has no such items; then each view is equal only to itself
        return (self is other) == equal


def _assign(self, key, value):
    """Assigns an object of another world, or one of Python's, to a slice."""
    if self.readonly:
        raise TypeError('cannot modify read-only memory')
    view = _lent_view(value)
    if self.format != 'B' and self.ndim == 1 and view.format != self.format and not (view.format == 'B' and view.ndim == 1):
        raise ValueError('memoryview assignment: lvalue and rvalue have different structures')
    if view.format == 'B' and view.ndim == 1:
        self._set_slice(key, view.tobytes())
        return
    if self.ndim == 1 and view.format != self.format:
        raise ValueError('memoryview assignment: lvalue and rvalue have different structures')
    with _beside(self, view) as made:
        self._set_slice(key, made)


def _set_item(self, key, value):
    """Writes at a key, unless `_native` did."""
    if isinstance(key, slice):
        _assign(self, key, value)
        return
    if isinstance(key, tuple):
        place = _indices(self, key)
    elif hasattr(key, '__index__'):
        place = _word(key, IndexError)
    else:
        _alive(self)
        raise TypeError('memoryview: invalid slice key')
    code = _code_of(self)
    if code == 'c':
        _set_byte(self, key, value)
        return
    if code == '?':
        value = bool(value)
    if code in BITS:
        try:
            value = bits_of(code, value)
        except OverflowError:  # as in Python, a view has infinity in place of a float that is too large
            value = bits_of(code, math.copysign(math.inf, value))
        except struct_error:
            value = None
    if not hasattr(value, '__index__'):
        if not self.readonly:
            self[key]
        raise TypeError(f'memoryview: invalid type for format {self.format!r}')
    number = index(value)
    try:
        self._set(place, number)
    except (OverflowError, TypeError):
        if self.readonly:
            raise TypeError('cannot modify read-only memory') from None
        self[key]  # a key is checked before a value
        # the kind was right, so the number doesn't fit, which is ValueError in Python
        raise ValueError(f'memoryview: invalid value for format {self.format!r}') from None


def _delete_item(self, key):
    """No item is deleted."""
    _alive(self)
    raise TypeError('cannot delete memory')


def _answer(reply):
    """The reply to a line, unless it is a refusal."""
    if reply[0].startswith('! '):
        raise _EXCEPTIONS.get(reply[0][2:], ValueError)(reply[0][2:])
    return reply[0]


def _spelled(place):
    return f'({",".join(map(str, place))}{"," if len(place) == 1 else ""})' if isinstance(place, list) else str(place)


def _set_byte(self, key, value):
    """Writes an item whose value is bytes, by a line."""
    if self.readonly:
        raise TypeError('cannot modify read-only memory')
    self[key]  # a key is checked before a value
    if not isinstance(value, bytes):
        raise TypeError("memoryview: invalid type for format 'c'")
    if len(value) != 1:
        raise ValueError("memoryview: invalid value for format 'c'")
    _answer(self._ask('set', f'{_spelled(_indices(self, key) if isinstance(key, tuple) else index(key))} x{value.hex()}'))


def _in_order(self, order):
    """A copy of the bytes in an order other than 'C', by the line `bytes`."""
    if not isinstance(order, str):
        raise TypeError(f"tobytes() argument 'order' must be str or None, not {type(order).__name__}")
    _alive(self)
    if order not in ('F', 'A'):
        raise ValueError("order must be 'C', 'F' or 'A'")
    from ast import literal_eval  # it takes long to import, and this is rare
    return literal_eval(_answer(self._ask('bytes', f"'{order}'")))


def _nested(self, items):
    """The items in lists that are nested as the shape says. Without items they are single bytes."""
    if items is None:
        items = [bytes((byte,)) for byte in self.tobytes()]
    for width in reversed(self.shape[1:]):
        items = [items[at:at + width] for at in range(0, len(items), width)]
    return items


def _hash(self):
    if not self.readonly:
        raise ValueError('cannot hash writable memoryview object')
    if self.format not in _HASHED:
        raise ValueError("memoryview: hashing is restricted to formats 'B', 'b' or 'c'")
    if not isinstance(self.obj, bytes):
        raise TypeError(f'unhashable type: {type(self.obj).__name__!r}')
    return hash(self.tobytes())


MemoryView.hex, MemoryView.__reduce__ = _hex, Uncopied.__reduce__
MemoryView._half = staticmethod(lambda bits: float_of('e', bits))
for _function in (_copy, _item_of, _compare, _set_item, _delete_item, _in_order, _nested, _hash):
    setattr(MemoryView, _function.__name__, _function)
