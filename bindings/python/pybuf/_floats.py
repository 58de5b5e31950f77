"""Floats. The library has no codes of them. Each is carried as a whole number of the same size, alignment and byte order, and Python's own `struct`
turns bits into floats and back, where `_native` doesn't."""
import struct

BITS = {'e': 'H', 'f': 'I', 'd': 'Q'}


def bits_of(code, value):
    """The bits of a float. What is no number is refused with `struct.error`, and a number that is too large with OverflowError."""
    try:
        return int.from_bytes(struct.pack(f'<{code}', value), 'little')
    except struct.error:
        raise struct.error('required argument is not a float') from None


def float_of(code, bits):
    """The float that has these bits."""
    return struct.unpack(f'<{code}', bits.to_bytes(struct.calcsize(f'<{code}'), 'little'))[0]
