"""Python's bytearray, memoryview and struct.Struct by the proved library pybuf, over its shared object.

A `ByteArray` behaves as `bytearray` does, a `MemoryView` as `memoryview` and a `Struct` as `struct.Struct`, and they raise
Python's own exceptions. `pack`, `unpack` and the others are the functions of the module `struct`.
A `World` runs lines, as the program does. The environment can name the shared library by PYBUF_LIBRARY. Else the package looks for it in its
own folder, in the prefix where `tools/install` put the package, and in bindings/out of the repository. At last the system's loader looks for
it.
`python3 -m pybuf` prints the versions of the package and of the library.
"""
from ._calls import library_version, struct_error
from ._formats import Struct, calcsize, iter_unpack, pack, pack_into, unpack, unpack_from
from ._objects import ByteArray, MemoryView
from ._version import __version__
from ._worlds import BadLine, World

# the name that the exception has in Python's module
error = struct_error

__all__ = ['BadLine', 'ByteArray', 'MemoryView', 'Status', 'Struct', 'World', '__version__', 'calcsize', 'error', 'iter_unpack',
           'library_version', 'pack', 'pack_into', 'struct_error', 'unpack', 'unpack_from']


def __getattr__(name):
    """`Status`, which is made when it is asked for, since the module `enum` takes long to import."""
    if name != 'Status':
        raise AttributeError(f'module {__name__!r} has no attribute {name!r}')
    from ._status import Status
    globals()[name] = Status
    return Status
