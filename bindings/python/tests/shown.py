"""What `help()` and type checkers are shown: everything has a docstring and a signature, and the stubs name what is there and nothing else.

    shown.py     the last line counts the names
"""
import ast
import inspect
import pathlib
import sys

HERE = pathlib.Path(__file__).resolve().parent.parent
sys.path.insert(0, str(HERE))
import pybuf  # noqa: E402

KINDS = 'ByteArray', 'MemoryView', 'Struct', 'World', 'BadLine', 'Status'


def shown(kind):
    return {name for name in dir(kind) if not name.startswith('_') and name not in dir(object)}


def main():
    stubs = {it.name: it for it in ast.parse((HERE / 'pybuf/__init__.pyi').read_text()).body if isinstance(it, (ast.ClassDef, ast.FunctionDef))}
    count, wrong = 0, []
    for name in pybuf.__all__:
        value = getattr(pybuf, name)
        count += 1
        if callable(value) and not inspect.getdoc(value):
            wrong.append(f'{name} has no docstring')
        if inspect.isfunction(value) and name not in stubs:
            wrong.append(f'{name} has no stub')
    for name in KINDS:
        kind, inherited = getattr(pybuf, name), shown(int) if name == 'Status' else shown(ValueError) if name == 'BadLine' else set()
        stubbed = set()
        for it in stubs[name].body:
            if isinstance(it, ast.FunctionDef):
                stubbed.add(it.name)
            elif isinstance(it, (ast.Assign, ast.AnnAssign)):
                stubbed.add(it.targets[0].id if isinstance(it, ast.Assign) else it.target.id)
        for member in sorted(shown(kind) - inherited):
            count += 1
            value = inspect.getattr_static(kind, member)
            if not inspect.getdoc(getattr(kind, member)) and name != 'Status':
                wrong.append(f'{name}.{member} has no docstring')
            if callable(getattr(kind, member)) and name != 'Status':
                try:
                    inspect.signature(getattr(kind, member))
                except ValueError:
                    wrong.append(f'{name}.{member} has no signature ({value!r})')
            if member not in stubbed:
                wrong.append(f'{name}.{member} has no stub')
        wrong += [f'{name}.{member} is a stub alone' for member in stubbed if member not in ('line', '__hash__') and not hasattr(kind, member)]
    print('\n'.join(wrong) or f'{count} names have docstrings, signatures and stubs')
    return int(bool(wrong))


sys.exit(main())
