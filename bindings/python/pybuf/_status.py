"""What the calls of the library answer, by name."""
import enum


class Status(enum.IntEnum):
    """What a call answers (pybuf_status of the header)."""
    OK = 0
    NO_MEMORY = 1
    NO_WORLD = 2
    TOO_SMALL = 3
    BAD_LINE = 4
    NOTHING = 5
    BAD_ARGUMENT = 6
    NULL_POINTER = 7
    TOO_LONG = 8
    NO_FORMAT = 9
    INDEX_ERROR = 16
    VALUE_ERROR = 17
    TYPE_ERROR = 18
    BUFFER_ERROR = 19
    STRUCT_ERROR = 20
    OVERFLOW_ERROR = 21
    NOT_IMPLEMENTED_ERROR = 22
    UNKNOWN_NAME = 23
