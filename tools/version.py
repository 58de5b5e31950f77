#!/usr/bin/env python3
"""Says the version, checks that every place has it, or writes it there.

    tools/version.py            prints the version, which the file VERSION has
    tools/version.py --check    compares each place with it, and names those that have another
    tools/version.py --write    writes it to each place

The places are the header, the crate, the Python package, CITATION.cff and the names of archives on all pages.
The newest heading of CHANGELOG.md is compared, and never written. The name of the shared library, the man pages and the archives
take the version when they are made. The status is 1 if a place has another version, and 2 if the arguments are wrong.
"""
import pathlib
import re
import sys

ROOT = pathlib.Path(__file__).resolve().parent.parent
NUMBER = r"\d+\.\d+\.\d+"
# For each file the patterns of what stands before the version. Each pattern has to be found.
PLACES = {
    "include/pybuf.h": [r'(?<=#define PYBUF_VERSION ")'],
    "bindings/rust/Cargo.toml": [r'(?<=\nname = "pybuf"\nversion = ")'],
    "bindings/rust/Cargo.lock": [r'(?<=\nname = "pybuf"\nversion = ")'],
    "bindings/python/pybuf/_version.py": [r"(?<=__version__ = ')"],
    "CITATION.cff": [r"(?<=\nversion: )"],
}
# The name of an archive, on any page.
ARCHIVE = re.compile(rf"(?<=\bpybuf-){NUMBER}(?=[-.\w])")
PARTS = ("MAJOR", "MINOR", "PATCH")


def version():
    text = (ROOT / "VERSION").read_text()
    if not re.fullmatch(NUMBER + "\n", text):
        sys.exit(f"version: the file VERSION has to be one line such as 1.0.0, and it is {text!r}")
    return text.strip()


def written(name, text, wanted):
    """The text of a place with the version in it. It is None if it has no place for a version."""
    for before in PLACES[name]:
        text, count = re.subn(before + NUMBER, wanted, text)
        if not count:
            return None
    if name == "include/pybuf.h":
        for part, number in zip(PARTS, wanted.split(".")):
            text = re.sub(rf"(?<=#define PYBUF_VERSION_{part} )\d+", number, text)
    return text


def main(words):
    if words not in ([], ["--check"], ["--write"]):
        print(__doc__, end="", file=sys.stderr)
        return 2
    wanted, faults = version(), []
    if not words:
        print(wanted)
        return 0
    for name in PLACES:
        text = (ROOT / name).read_text()
        came = written(name, text, wanted)
        if came is None:
            faults.append(f"{name} has no place for the version")
        elif came != text and words == ["--write"]:
            (ROOT / name).write_text(came)
            print(f"version: {name} has {wanted} now")
        elif came != text:
            faults.append(f"{name} has another version than {wanted}; tools/version.py --write writes it")
    newest = re.search(r"^## (.*)$", (ROOT / "CHANGELOG.md").read_text(), re.MULTILINE)
    if not newest or newest[1].split()[0] != wanted:
        faults.append(f"CHANGELOG.md begins with another version than {wanted}")
    for path in [ROOT / "README.md", *sorted((ROOT / "docs").rglob("*.md"))]:
        text = path.read_text()
        came, name = ARCHIVE.sub(wanted, text), path.relative_to(ROOT)
        if came != text and words == ["--write"]:
            path.write_text(came)
            print(f"version: {name} has {wanted} now")
        elif came != text:
            faults.append(f"{name} names an archive of another version than {wanted}; tools/version.py --write writes it")
    for fault in faults:
        print(f"version: {fault}", file=sys.stderr)
    return 1 if faults else 0


if __name__ == "__main__":
    sys.exit(main(sys.argv[1:]))
