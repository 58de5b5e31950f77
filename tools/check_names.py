#!/usr/bin/env python3
"""Compares the names that the program's messages know with those of the grammar.

    python3 tools/check_names.py

`crates/pybuf_messages/src/names.rt` has a function for each kind of names. The grammar has a definition for each, which says what
is written for a command, an operation, a kind, a property, an operator or a method; the forms are those of `form_of`. A difference
is shown, and the status is 1 then.
"""
import pathlib
import re
import sys

CRATES = pathlib.Path(__file__).resolve().parent.parent / "crates"
NAMES = CRATES / "pybuf_messages/src/names.rt"
# Each kind of names: the file of the grammar, and its definition.
GRAMMAR = {
    "commands": ("pybuf_line/specs/Words.antt", "written_word"),
    "operations": ("pybuf_array_lines/specs/Words.antt", "written_word"),
    "kinds": ("pybuf_line/specs/Words.antt", "written_kind"),
    "properties": ("pybuf_line/specs/Words.antt", "written_name"),
    "operators": ("pybuf_line/specs/Words.antt", "written_operator"),
    "methods": ("pybuf_line/specs/Methods.antt", "written_method"),
    "forms": ("pybuf_cli/specs/Program.antt", "form_of"),
}


def known():
    """The names by their kinds, as the messages know them, each with how its line is written, where that is told."""
    names = {}
    for name, body in re.findall(r"^pub\(crate\) fn (\w+)\(\) -> \[.*?\] \{\n(.*?)^\}", NAMES.read_text(), re.MULTILINE | re.DOTALL):
        pairs = re.findall(r'\("([^"]+)", "([^"]+)"\)', body)
        names[name] = pairs or [(it, None) for it in re.findall(r'"([^"]+)"', body)]
    return names


def written(file, definition):
    """The texts that the equations of a definition write."""
    equations, inside = [], False
    for line in (CRATES / file).read_text().split("\n"):
        inside = line.startswith(f"{definition} ") or inside and line.startswith("    ")
        if inside:
            equations += re.findall(r'codes "([^"]+)"', line)
    return equations


def main():
    names, wrong = known(), []
    for kind, (file, definition) in GRAMMAR.items():
        told, due = names.get(kind, []), set(written(file, definition))
        if not due:
            wrong.append(f"{file}: no equation of {definition} was found")
        wrong += [f"{kind}: `{it}` is missing in {NAMES.name}" for it in sorted(due - {name for name, _ in told})]
        wrong += [f"{kind}: `{name}` is no name of {definition} in {file}" for name, _ in told if name not in due]
        wrong += [f"{kind}: `{name}` is written `{line}`" for name, line in told if line is not None and line.split()[0] != name]
        if len(told) != len({name for name, _ in told}):
            wrong.append(f"{kind}: a name stands twice in {NAMES.name}")
    wrong += [f"{kind}: no definition of the grammar is named for it in {pathlib.Path(__file__).name}" for kind in names if kind not in GRAMMAR]
    for line in wrong:
        print(line)
    print(f"{sum(map(len, names.values()))} names of {len(names)} kinds, {len(wrong)} differences")
    return 1 if wrong else 0


if __name__ == "__main__":
    sys.exit(main())
