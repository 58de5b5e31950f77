"""Worlds, and the fault of a line."""
from . import _native
from ._calls import Uncopied

World = _native.World
World.__reduce__ = Uncopied.__reduce__


class BadLine(ValueError):
    """A line is no command. `line` is its number, counted from 1."""

    def __init__(self, line):
        super().__init__(f'line {line} is not a command')
        self.line = line
