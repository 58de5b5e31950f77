#!/usr/bin/env python3
"""Compares the C ABI with the stored one, and ends with status 1 if they differ.

    tools/check_abi.py [LIBRARY]          compares the header, and a shared library's symbols and name
    tools/check_abi.py --write            writes bindings/c/abi.txt anew
    tools/check_abi.py --symbols          prints the linker's list of what the shared library exports

The stored ABI is `bindings/c/abi.txt`. It has a line for each function, constant and structure of `include/pybuf.h`. Within a major version a
line may be added, but no line may change or go. `--write` refuses such a change, and names the line. So a program that was built with an older header then
runs with the newer library.
"""
import pathlib
import re
import subprocess
import sys

sys.dont_write_bytecode = True

from version import version

ROOT = pathlib.Path(__file__).resolve().parent.parent
HEADER, STORED = ROOT / "include/pybuf.h", ROOT / "bindings/c/abi.txt"


def major():
    return version().split(".")[0]


def declared():
    """A line for each function, constant and structure of the header."""
    text = re.sub(r"/\*.*?\*/", " ", HEADER.read_text(), flags=re.DOTALL)
    text = re.sub(r"^#.*$", "", text, flags=re.MULTILINE)
    text = re.sub(r"static inline [^{]*\{.*?\n\}", "", text, flags=re.DOTALL)
    one = re.sub(r"\s+", " ", text)
    lines = [f"soname libpybuf.so.{major()}"]
    for body, name in re.findall(r"typedef enum \w+ \{([^}]*)\} (\w+);", one):
        lines += [f"constant {name} {part.strip()}" for part in body.split(",")]
    for body, name in re.findall(r"typedef struct \w+ \{([^}]*)\} (\w+);", one):
        lines.append(f"structure {name} {{{body}}}")
    lines += [f"type {it}" for it in re.findall(r"typedef (struct \w+ \w+|\w+ \w+);", one)]
    lines += [f"function {it}" for it in re.findall(r"((?:pybuf_status|const char \*) ?pybuf_\w+\([^)]*\));", one)]
    return sorted(lines)


def stored():
    return STORED.read_text().splitlines() if STORED.is_file() else []


def functions(lines):
    return sorted(re.search(r"(pybuf_\w+)\(", line)[1] for line in lines if line.startswith("function "))


def changed(old, new):
    """The lines that went or changed within a major version."""
    same = next((line for line in old if line.startswith("soname ")), None) in new
    return [line for line in old if line not in new] if same else []


def exported(library):
    """The symbols that a shared library exports, and its name."""
    shown = subprocess.run(["nm", "-D", "--defined-only", library], capture_output=True, text=True, check=True).stdout
    names = sorted({line.split()[2].split("@")[0] for line in shown.splitlines() if line.split()[1] in "TWDBRVi"})
    head = subprocess.run(["objdump", "-p", library], capture_output=True, text=True, check=True).stdout
    found = re.search(r"^ +SONAME +(\S+)$", head, re.MULTILINE)
    return names, found and found[1]


def main(words):
    new, old = declared(), stored()
    if words == ["--symbols"]:
        print(f"PYBUF_{major()} {{\n    global:\n" + "".join(f"        {name};\n" for name in functions(new)) + "    local: *;\n};")
        return 0
    if words == ["--write"]:
        for line in changed(old, new):
            print(f"check_abi: within major version {major()} this may not change: {line}", file=sys.stderr)
        if changed(old, new):
            return 1
        STORED.write_text("".join(line + "\n" for line in new))
        return 0
    faults = [f"the header no longer has: {line}" for line in old if line not in new]
    faults += [f"this line is not stored, so run tools/check_abi.py --write: {line}" for line in new if line not in old]
    passed = 0 if faults else 1
    for library in words:
        try:
            names, soname = exported(library)
        except (OSError, subprocess.CalledProcessError) as fault:
            faults.append(f"{library} can't be read: {fault}")
            continue
        here = [f"{library} lacks {name}" for name in functions(old) if name not in names]
        here += [f"{library} exports {name}, which the header doesn't declare" for name in names if name not in functions(old)]
        if f"soname {soname}" not in old:
            here.append(f"the name that {library} has is {soname}, and another one is stored")
        passed, faults = passed + (0 if here else 1), faults + here
    for fault in faults:
        print(f"check_abi: {fault}")
    print(f"{passed} passed, {1 + len(words) - passed} failed")
    return 1 if faults else 0


if __name__ == "__main__":
    sys.exit(main(sys.argv[1:]))
