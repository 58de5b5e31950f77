"""Runs the tests that CPython has of its own types over ours: `test_bytes`, `test_memoryview` and `test_struct` of the interpreter at hand,
with our classes in the places of Python's.

    python3 bindings/python/tests/suites.py          the last line counts the tests
    python3 bindings/python/tests/suites.py WORD     those whose names have the word

A test that fails has a line in DIFFERENCES, which says why, or else the run fails. A line fails too if its test passes, so that the table
stays true.
"""
import pathlib
import sys
import unittest
import warnings

sys.dont_write_bytecode = True
sys.path.insert(0, str(pathlib.Path(__file__).resolve().parents[1]))

try:
    from test import test_bytes, test_memoryview, test_struct
except ImportError as fault:
    print(f"skipped: CPython's suites over our types: this interpreter comes without its tests ({fault})")
    sys.exit(0)

import pybuf

COPIED = 'a view of an object of Python\'s is a view of a copy, so no write goes through it'
NO_BUFFER = 'our types have no buffer for Python\'s C interface'
IN_PYTHON = 'our classes are written in Python, so their attributes can be set and they have another size'
BY_NAME = 'the test starts an interpreter in which our class has no name'

DIFFERENCES = {
    'ArrayTests.test_check_encoding_errors': BY_NAME,
    'ArrayTests.test_ord': '`ord` takes objects of Python\'s own types alone',
    'ArrayMemoryviewTest.test_array_assign': COPIED,
    'OtherTest.test_ctypes_cast': COPIED,
    'StructTest.test__sizeof__': IN_PYTHON,
    'StructTest.test__struct_types_immutable': IN_PYTHON,
}
try:  # where the library lends its bytes, our types have buffers
    memoryview(pybuf.ByteArray()).release()
    DIFFERENCES = {name: why for name, why in DIFFERENCES.items() if why != NO_BUFFER}
    LENDS = True
except TypeError:
    LENDS = False
for _name in ('Bytes', 'Array'):
    for _kind in ('MemoryviewTest', 'MemorySliceTest', 'MemorySliceSliceTest'):
        DIFFERENCES[f'{_name}{_kind}.test_setitem_writable'] = COPIED
        if _name == 'Bytes' and not LENDS:
            DIFFERENCES[f'{_name}{_kind}.test_getbuffer'] = NO_BUFFER


class ArrayTests(test_bytes.ByteArrayTest):
    type2test = pybuf.ByteArray


class ArrayAsTextTests(test_bytes.ByteArrayAsStringTest):
    type2test = pybuf.ByteArray


class Subclass(pybuf.ByteArray):
    pass


class SubclassTests(test_bytes.ByteArraySubclassTest):
    basetype, type2test = pybuf.ByteArray, Subclass


def suite():
    test_memoryview.memoryview = pybuf.MemoryView
    test_struct.struct = pybuf
    views = [f'{name}{kind}' for name in ('Bytes', 'Array') for kind in ('MemoryviewTest', 'MemorySliceTest', 'MemorySliceSliceTest')]
    classes = [ArrayTests, ArrayAsTextTests, SubclassTests, test_struct.StructTest, test_struct.UnpackIteratorTest]
    classes += [getattr(test_memoryview, name) for name in [*views, 'OtherTest']]
    return [test for it in classes for test in unittest.defaultTestLoader.loadTestsFromTestCase(it)]


def name_of(test):
    """The class and the name of a test, also where a part of it failed."""
    test = getattr(test, 'test_case', test)
    return f'{type(test).__name__}.{test._testMethodName}'


def main(words):
    warnings.simplefilter('ignore')
    tests = [test for test in suite() if all(word in name_of(test) for word in words)]
    result = unittest.TestResult()
    for test in tests:
        test.run(result)
    complaints = {name_of(test): said for test, said in result.failures + result.errors}
    wrong = 0
    for name in map(name_of, tests):
        if (name in complaints) == (name in DIFFERENCES):
            continue
        wrong += 1
        print(f'{name}: passes, but is listed as a difference' if name in DIFFERENCES else f'{name}: fails\n{complaints[name]}')
    known = len(set(complaints) & set(DIFFERENCES))
    print(f"{len(tests) - wrong} of {len(tests)} tests of CPython's as they should: {known} by a named difference, {len(result.skipped)} left out by "
          'CPython')
    return int(bool(wrong))


if __name__ == '__main__':
    sys.exit(main(sys.argv[1:]))
