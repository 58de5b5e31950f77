"""The shared library, which is opened here, and what a call answers. The extension module `_native` makes the calls."""
import os
import sys
from struct import error as struct_error

from . import _native
from ._version import __version__

_NAME = f'libpybuf.so.{__version__.partition(".")[0]}'


def _places():
    """Where the shared library may lie: beside the modules as in a wheel, in lib/ of a prefix, in bindings/out."""
    here = os.path.dirname(os.path.realpath(__file__))
    above = os.path.dirname(here)
    yield os.path.join(here, _NAME)
    if above.endswith(os.path.join(os.sep, 'lib', 'pybuf', 'python')):
        yield os.path.join(os.path.dirname(os.path.dirname(above)), _NAME)
    yield os.path.join(os.path.dirname(above), 'out', 'libpybuf.so')


def _library():
    """Opens the shared library. It tells the version of it."""
    path = os.environ.get('PYBUF_LIBRARY') or next((it for it in _places() if os.path.isfile(it)), _NAME)
    try:
        return _native.load(path)
    except OSError as fault:
        raise ImportError(f'pybuf: {path} is no library of pybuf {__version__} ({fault}): let PYBUF_LIBRARY name it') from None


if not getattr(sys, '_is_gil_enabled', lambda: True)():
    raise ImportError('pybuf: an interpreter without its lock is not supported, since the lock keeps calls apart')
_VERSION = _library()


def library_version():
    """The version of the shared library that is loaded."""
    return _VERSION


class Uncopied:
    """An object that names something in the library, and so is neither copied nor pickled."""

    __slots__ = ()

    def __reduce__(self):
        """Refuses a copy."""
        raise TypeError(f'cannot pickle {type(self).__name__!r} object')
