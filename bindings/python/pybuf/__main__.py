"""Prints the versions of the package and of the library."""
from . import __version__, library_version

print(f'pybuf {__version__}, library {library_version()}')
