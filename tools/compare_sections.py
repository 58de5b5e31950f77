#!/usr/bin/env python3
"""Compares what `example_elf` prints of the sections of programs with what `readelf -h -S` says, and ends with status 1 if
they differ.

    python3 tools/compare_sections.py            compares the programs that the gate built
    python3 tools/compare_sections.py FILE..     compares these files
    python3 tools/compare_sections.py --stored   compares its stored input with its stored output, which needs no program
    python3 tools/compare_sections.py --write    writes what `example_elf` has to print of its stored input

The last line counts the files. Files that aren't compared are skipped, as with `--stored` or if `readelf` isn't there.
"""
import pathlib
import re
import shutil
import subprocess
import sys

ROOT = pathlib.Path(__file__).resolve().parent.parent
READER = ROOT / "crates/example_elf"
PROGRAM = READER / "out/example_elf"
PROGRAMS = [ROOT / "crates/pybuf_program/out/pybuf_program", PROGRAM]

# The numbers of the types and the flags of sections, by the words that `readelf` writes for them.
TYPES = {
    "NULL": 0,
    "PROGBITS": 1,
    "SYMTAB": 2,
    "STRTAB": 3,
    "RELA": 4,
    "HASH": 5,
    "DYNAMIC": 6,
    "NOTE": 7,
    "NOBITS": 8,
    "REL": 9,
    "DYNSYM": 11,
    "INIT_ARRAY": 14,
    "FINI_ARRAY": 15,
    "PREINIT_ARRAY": 16,
    "GROUP": 17,
    "RELR": 19,
    "GNU_HASH": 0x6FFFFFF6,
    "VERDEF": 0x6FFFFFFD,
    "VERNEED": 0x6FFFFFFE,
    "VERSYM": 0x6FFFFFFF,
    "X86_64_UNWIND": 0x70000001,
}
FLAGS = {
    "W": 0x1,
    "A": 0x2,
    "X": 0x4,
    "M": 0x10,
    "S": 0x20,
    "I": 0x40,
    "L": 0x80,
    "O": 0x100,
    "G": 0x200,
    "T": 0x400,
    "C": 0x800,
    "R": 0x200000,
    "l": 0x10000000,
    "E": 0x80000000,
}
HEX = "[0-9a-f]+"
SECTION = re.compile(rf" *\[ *(\d+)\] (.*?) +({'|'.join(TYPES)}) +({HEX}) ({HEX}) ({HEX}) ({HEX}) +([A-Za-z]*) +(\d+) +(\d+) +(\d+)")


def told(path):
    """The lines that `readelf` gives for a file."""
    run = subprocess.run(["readelf", "-h", "-S", "-W", path], capture_output=True, text=True, check=True, env={"LC_ALL": "C", "PATH": "/usr/bin:/bin"})
    header = dict(re.findall(r"^ +([A-Z][^:]*): +(\d+)", run.stdout, re.MULTILINE))
    yield f"start {header['Start of section headers']}"
    yield f"sections {header['Number of section headers']}"
    yield f"names {header['Section header string table index']}"
    for line in run.stdout.split("\n"):
        found = SECTION.fullmatch(line)
        if found:
            number, name, kind, *sizes, flags, link, info, alignment = found.groups()
            address, start, size, entry = (int(it, 16) for it in sizes)
            values = [TYPES[kind], sum(FLAGS[it] for it in flags), address, start, size, link, info, alignment, entry]
            yield " ".join([number, name, *map(str, values)])


def printed(path):
    """The lines that `example_elf` prints of a file."""
    with open(path, "rb") as file:
        run = subprocess.run([PROGRAM], stdin=file, capture_output=True, check=True, env={})
    return run.stdout.decode().split("\n")[:-1]


def skipped(count, what, reason):
    print(f"skipped: the sections of {what}: {reason}")
    return count


def main(words):
    if shutil.which("readelf") is None:
        skipped(3, "two programs and of a stored input", "there is no readelf (Debian's package binutils has it)")
        print("0 passed, 0 failed, 3 skipped")
        return 0
    if words == ["--write"]:
        (READER / "stdout").write_text("".join(f"{line}\n" for line in told(READER / "stdin")))
        return 0
    stored = words == ["--stored"]
    files = [READER / "stdin"] if stored else [*map(pathlib.Path, words)] or [*PROGRAMS, READER / "stdin"]
    left = skipped(len(PROGRAMS), "two programs", "only proved ones are kept as files; `.ci/run` compares them") if stored else 0
    differing = 0
    if not stored and not PROGRAM.is_file():
        print(f"{PROGRAM} is not there: `rt ci` builds it\n0 passed, {len(files)} failed")
        return 1
    for path in files:
        wanted = list(told(path))
        came = (READER / "stdout").read_text().split("\n")[:-1] if stored else printed(path)
        if wanted != came:
            differing += 1
            print(f"{path}: example_elf and readelf print different lines")
            for line in sorted({*wanted} ^ {*came}):
                print(f"    {'readelf' if line in wanted else 'example_elf'}: {line}")
        else:
            print(f"{path}: all {len(wanted)} lines are as readelf has them")
    print(f"{len(files) - differing} passed, {differing} failed" + (f", {left} skipped" if left else ""))
    return 1 if differing else 0


if __name__ == "__main__":
    sys.exit(main(sys.argv[1:]))
