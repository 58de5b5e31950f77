"""Compiles the extension module with AddressSanitizer and UndefinedBehaviorSanitizer in a copy of the package, and runs other tests over it.

    sanitized.py [TEST ..]     the tests by their files' names; the last line counts them
"""
import os
import pathlib
import runpy
import shutil
import subprocess
import sys
import tempfile

HERE = pathlib.Path(__file__).resolve().parent
PACKAGE = HERE.parent
TESTS = 'objects', 'bad', 'others', 'renewed', 'drawn'


def library(name):
    """A library of the compiler's, or None."""
    found = subprocess.run([os.environ.get('CC', 'gcc'), f'-print-file-name={name}'], capture_output=True, text=True).stdout.strip()
    return found if os.path.isabs(found) else None


def main(names):
    needed = [library('libasan.so'), library('libubsan.so')]
    if None in needed:
        print('skipped: the extension module under sanitizers: the compiler has no libasan and libubsan (Debian\'s package gcc has them)')
        return 0
    with tempfile.TemporaryDirectory() as room:
        copied = pathlib.Path(room, 'bindings/python')
        shutil.copytree(PACKAGE, copied, ignore=shutil.ignore_patterns('__pycache__', '*.so'))
        pathlib.Path(room, 'include').mkdir()
        shutil.copy(PACKAGE.parents[1] / 'include/pybuf.h', pathlib.Path(room, 'include/pybuf.h'))
        os.environ['CC'] = f'{os.environ.get("CC", "gcc")} -g -fsanitize=address,undefined -fno-sanitize-recover=undefined'
        runpy.run_path(str(copied / 'build_backend.py'))['compile_native'](copied / 'pybuf')
        told = {**os.environ, 'LD_PRELOAD': ' '.join(needed), 'PYTHONMALLOC': 'malloc', 'ASAN_OPTIONS': 'detect_leaks=0',
                'PYBUF_LIBRARY': os.environ.get('PYBUF_LIBRARY', str(PACKAGE.parent / 'out/libpybuf.so'))}
        for name in names or TESTS:
            ended = subprocess.run([sys.executable, str(copied / f'tests/{name}.py')], env=told, capture_output=True, text=True)
            if ended.returncode:
                print(f'{name} ends with {ended.returncode} under sanitizers:\n{ended.stdout}{ended.stderr}')
                return 1
    print(f'{len(names or TESTS)} tests pass with the extension module under sanitizers')
    return 0


sys.exit(main(sys.argv[1:]))
