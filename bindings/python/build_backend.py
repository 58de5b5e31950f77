"""Builds the wheel and the sdist of the package, for pip and for `tools/release`. It needs Python's standard library, a C compiler and
Python's headers.

    python3 build_backend.py     compiles the extension module into the package's folder, as `bindings/build` wants it

The extension module uses Python's stable interface, so one wheel is for Python 3.11 and all later ones, for Linux on this processor. If the
shared library lies in the package's folder, the wheel has it. Else the package looks for the library when it is imported. Files have the
time that SOURCE_DATE_EPOCH names.
"""
import base64
import gzip
import hashlib
import io
import os
import pathlib
import platform
import re
import shlex
import subprocess
import sysconfig
import tarfile
import tempfile
import time
import zipfile

HERE = pathlib.Path(__file__).resolve().parent
OWN = ('build_backend.py', 'pyproject.toml')
# the sources of the extension module
NATIVE = ('_native.c', '_lending.h', '_lines.h', '_packing.h', '_views.h')
SUMMARY = "Python's bytearray, memoryview and struct by the proved library pybuf"


def version():
    return re.search(r"'(.*)'", (HERE / 'pybuf/_version.py').read_text())[1]


def metadata():
    return f'''Metadata-Version: 2.1
Name: pybuf
Version: {version()}
Summary: {SUMMARY}
License: MIT
Requires-Python: >=3.11
Classifier: License :: OSI Approved :: MIT License
Classifier: Operating System :: POSIX :: Linux
Classifier: Programming Language :: Python :: 3
'''


def header():
    """The header of the library: beside the modules as in the sdist, or in the repository."""
    return next(it for it in (HERE / 'pybuf/pybuf.h', HERE.parents[1] / 'include/pybuf.h') if it.is_file())


def compile_native(folder):
    """Compiles the extension module into a folder."""
    made = pathlib.Path(folder, '_native.abi3.so')
    compiler = shlex.split(os.environ.get('CC', 'cc'))
    flags = ['-std=c11', '-Wall', '-Wextra', '-Wpedantic', '-Werror', '-O2', '-fPIC', '-shared']
    # strict C has complaints about Python's own headers, which `-isystem` leaves out
    folders = ['-isystem', sysconfig.get_path('include'), f'-I{header().parent}']
    subprocess.run([*compiler, *flags, *folders, '_native.c', '-o', made.absolute()], cwd=HERE / 'pybuf', check=True)
    return made


def modules():
    """The files of the package, by the names that they have in an archive."""
    kept = [it for it in (HERE / 'pybuf').iterdir() if it.suffix in ('.py', '.pyi', '.typed') or it.name.startswith('libpybuf.so.')]
    return {f'pybuf/{it.name}': it.read_bytes() for it in sorted(kept)}


def moment():
    # a zip file can't have an earlier time
    return max(int(os.environ.get('SOURCE_DATE_EPOCH', '0')), 315532800)


def beside():
    """The files beside the package that go along: the licence, and the file that says which commit was proved."""
    return {name: (HERE / name).read_bytes() for name in ('LICENSE', 'PROVED') if (HERE / name).is_file()}


def build_wheel(wheel_directory, config_settings=None, metadata_directory=None):
    files = modules()
    with tempfile.TemporaryDirectory() as room:
        files['pybuf/_native.abi3.so'] = compile_native(room).read_bytes()
    tag = f'cp311-abi3-linux_{platform.machine()}'
    info = f'pybuf-{version()}.dist-info'
    files[f'{info}/METADATA'] = metadata().encode()
    files[f'{info}/WHEEL'] = f'Wheel-Version: 1.0\nGenerator: pybuf\nRoot-Is-Purelib: false\nTag: {tag}\n'.encode()
    files.update({f'{info}/{name}': content for name, content in beside().items()})
    record = ''
    for name, content in sorted(files.items()):
        digest = base64.urlsafe_b64encode(hashlib.sha256(content).digest()).rstrip(b'=').decode()
        record += f'{name},sha256={digest},{len(content)}\n'
    files[f'{info}/RECORD'] = f'{record}{info}/RECORD,,\n'.encode()
    made = f'pybuf-{version()}-{tag}.whl'
    with zipfile.ZipFile(pathlib.Path(wheel_directory, made), 'w', zipfile.ZIP_DEFLATED) as wheel:
        for name, content in sorted(files.items()):
            entry = zipfile.ZipInfo(name, time.gmtime(moment())[:6])
            entry.compress_type, entry.external_attr, entry.create_system = zipfile.ZIP_DEFLATED, 0o644 << 16, 3
            wheel.writestr(entry, content)
    return made


def build_sdist(sdist_directory, config_settings=None):
    files = {name: content for name, content in modules().items() if '.so.' not in name}
    files.update({name: (HERE / name).read_bytes() for name in (*OWN, *(f'pybuf/{name}' for name in NATIVE))})
    files['pybuf/pybuf.h'] = header().read_bytes()
    files.update(beside())
    files['PKG-INFO'] = metadata().encode()
    sums = ''.join(f'{hashlib.sha256(content).hexdigest()}  {name}\n' for name, content in sorted(files.items()))
    files['SHA256SUMS'] = sums.encode()
    made = f'pybuf-{version()}.tar.gz'
    with open(pathlib.Path(sdist_directory, made), 'wb') as file:
        with gzip.GzipFile('', 'wb', 9, file, moment()) as packed, tarfile.open(fileobj=packed, mode='w', format=tarfile.GNU_FORMAT) as tar:
            for name, content in sorted(files.items()):
                entry = tarfile.TarInfo(f'pybuf-{version()}/{name}')
                entry.size, entry.mtime, entry.mode = len(content), moment(), 0o644
                tar.addfile(entry, io.BytesIO(content))
    return made


if __name__ == '__main__':
    compile_native(HERE / 'pybuf')
