"""`Struct`, which behaves as Python's `struct.Struct`."""
from operator import index

from . import _native
from ._calls import Uncopied, struct_error
from ._floats import BITS, bits_of, float_of
from ._objects import ByteArray, MemoryView, _word

# this number stands for one that doesn't fit 64 bits; no code except '?' takes it
_PAST_ALL = -(1 << 64) + 1
# the names and the bounds that Python's messages have for some codes of whole numbers
_RANGES = {'b': ('byte', -1 << 7, (1 << 7) - 1), 'B': ('ubyte', 0, (1 << 8) - 1), 'h': ('short', -1 << 15, (1 << 15) - 1),
           'H': ('ushort', 0, (1 << 16) - 1)}
_DIGITS = '0123456789'


def _carried(format):
    """A format with whole numbers in place of floats, and without the blanks that may stand between codes; and the code of each value."""
    order = format[:1] if format[:1] in ('@', '=', '<', '>', '!') else ''
    # the code of a pointer is that of a size, and is native alone, as in Python
    instead = BITS if order in ('=', '<', '>', '!') else {**BITS, 'P': 'N'}
    written, codes, count = [order], [], ''
    for code in format[len(order):]:
        if code.isspace() and not count:
            continue
        if code == 'u' or code in ' \t\n\r\v\f@=<>!':  # a code of the library alone, or a blank or an order where Python has none
            raise struct_error('bad char in struct format')
        if code in _DIGITS:
            count += code
            continue
        written.append(count + instead.get(code, code))
        if code != 'x':
            codes.append((code, count))
        count = ''
    if count:
        raise struct_error('repeat count given without format specifier')
    return ''.join(written), codes


class Struct(_native.Format, Uncopied):
    """Struct(format)\n--\n\nA format of the module `struct`."""

    __slots__ = {'format': 'The text of the format.', '__weakref__': 'What refers to the format weakly.'}

    def __init__(self, format):
        if isinstance(format, bytes):
            format = format.decode('latin-1')
        elif not isinstance(format, str):
            raise TypeError(f'Struct() argument 1 must be a str or bytes object, not {type(format).__name__}')
        format.encode('ascii')  # UnicodeEncodeError, as in Python
        if '\0' in format:
            raise struct_error('embedded null character')
        carried, codes = _carried(format)
        try:  # the library reads the format first, so that no count is too large for what follows
            self._measure(carried.encode('ascii'))
        except struct_error:
            raise struct_error('bad char in struct format') from None
        self._parse(carried.encode('ascii'), ''.join(code if code in 'sp' else code * int(count or 1) for code, count in codes).encode('ascii'))
        self.format = format

    def __repr__(self):
        return f'Struct({self.format!r})'

    def _codes(self):
        """The code of each value."""
        return ''.join(code if code in 'sp' else code * int(count or 1) for code, count in _carried(self.format)[1])

    def _pack_slowly(self, values):
        """Packs values of which some isn't what `_native` reads."""
        packed = tuple(map(_packed_as, self._codes(), values))
        try:
            return self._packed(packed)
        except struct_error:  # the values are of their kinds, so one doesn't fit
            raise struct_error(self._misfit(values)) from None

    def _misfit(self, values):
        """Python's message for the first number that doesn't fit its code."""
        for code, value in zip(self._codes(), values):
            name, least, most = _RANGES.get(code, ('', 0, 0))
            if name and not least <= index(value) <= most:
                return f'{name} format requires {least} <= number <= {most}'
        return 'argument out of range'

    def _with_halves(self, values):
        """Values with floats in the place of the bits of those of two bytes."""
        return tuple(float_of(code, value) if code == 'e' else value for code, value in zip(self._codes(), values))

    def _place(self, name, offset, length):
        """The place of a format's bytes from an offset on. A negative offset counts from the end."""
        size, is_pack = self.size, name == 'pack_into'
        if offset < 0:
            if offset + size > 0:
                raise struct_error(f'{"no space to pack" if is_pack else "not enough data to unpack"} {size} bytes at offset {offset}')
            if offset + length < 0:
                raise struct_error(f'offset {offset} out of range for {length}-byte buffer')
            offset += length
        if length - offset < size:
            raise struct_error(f'{name} requires a buffer of at least {offset + size} bytes for {"" if is_pack else "un"}packing {size} bytes at '
                               f'offset {offset} (actual buffer size is {length})')
        return offset

    def pack_into(self, buffer, offset, /, *values):
        """Writes the bytes of the values into a buffer, from an offset on. A refusal changes nothing."""
        if len(values) != self._count:
            raise struct_error(f'pack_into expected {self._count} items for packing (got {len(values)})')
        ours = isinstance(buffer, (ByteArray, MemoryView))
        view = MemoryView(buffer) if ours else memoryview(buffer)
        with view:
            if view.readonly or not view.c_contiguous:
                raise TypeError('a read-write bytes-like object is required')
            offset = self._place('pack_into', _word(offset, IndexError), view.nbytes)
            packed = self.pack(*values)
            if packed:
                with view.cast('B') as room:
                    room[offset:offset + self.size] = packed

    def iter_unpack(self, buffer, /):
        """An iterator over the values of each piece of a buffer, where each piece has the size of the format."""
        if self.size == 0:
            raise struct_error('cannot iteratively unpack with a struct of length 0')
        if isinstance(buffer, MemoryView) and not buffer.c_contiguous:
            raise BufferError('memoryview: underlying buffer is not C-contiguous')
        if isinstance(buffer, (ByteArray, MemoryView)):
            content = buffer.tobytes()
        else:
            with memoryview(buffer) as view:
                if not view.c_contiguous:
                    raise BufferError('memoryview: underlying buffer is not C-contiguous')
                content = view.tobytes()
        if len(content) % self.size:
            raise struct_error(f'iterative unpacking requires a buffer of a multiple of {self.size} bytes')
        return _Values(self, content)


class _Values:
    """The iterator over the values of each piece of some bytes."""

    def __init__(self, struct, content):
        self._struct, self._content, self._at = struct, content, 0

    def __iter__(self):
        return self

    def __length_hint__(self):
        return (len(self._content) - self._at) // self._struct.size

    def __next__(self):
        at = self._at
        if at >= len(self._content):
            raise StopIteration
        self._at = at + self._struct.size
        return self._struct.unpack(self._content[at:self._at])


def _packed_as(code, value):
    """A value for a call. A value of a wrong kind is refused as Python refuses it."""
    if code == '?':
        return bool(value)
    if code == 'c':
        if not isinstance(value, bytes) or len(value) != 1:
            raise struct_error('char format requires a bytes object of length 1')
        return value
    if code in 'sp':
        if not isinstance(value, (bytes, bytearray, ByteArray)):
            raise struct_error(f"argument for '{code}' must be a bytes object")
        return bytes(value)
    if code in BITS:
        return bits_of(code, value)
    if not hasattr(type(value), '__index__'):
        raise struct_error('required argument is not an integer')
    number = index(value)
    if code == 'P' and -1 << 63 <= number < 0:  # as in Python, a pointer is counted from the end of the memory
        number += 1 << 64
    return number if abs(number) < 1 << 64 else _PAST_ALL


# As Python's module does, the functions below keep the formats that were used last.
_KEPT = {}


def _kept(format):
    made = _KEPT.get(format) if isinstance(format, (str, bytes)) else None
    if made is None:
        made = Struct(format)
        if len(_KEPT) >= 100:
            _KEPT.clear()
        _KEPT[format] = made
    return made


def calcsize(format, /):
    """The size of the bytes of a format."""
    return _kept(format).size


def pack(format, /, *values):
    """The bytes of the values in a format."""
    return _kept(format).pack(*values)


def pack_into(format, buffer, offset, /, *values):
    """Writes the bytes of the values into a buffer, from an offset on."""
    _kept(format).pack_into(buffer, offset, *values)


def unpack(format, buffer, /):
    """The values of the bytes of a buffer, which has the size of the format."""
    return _kept(format).unpack(buffer)


def unpack_from(format, /, buffer, offset=0):
    """The values of the bytes of a buffer from an offset on."""
    return _kept(format).unpack_from(buffer, offset)


def iter_unpack(format, buffer, /):
    """The values of each piece of a buffer, where each piece has the size of the format."""
    return _kept(format).iter_unpack(buffer)
