#!/usr/bin/env python3
"""Lists the public items of the library that have no doc comment, or a doc comment without a line of example. `./test items` calls this.

    python3 tools/check_items.py            all library crates
    python3 tools/check_items.py CRATE..    these crates

An item is what a user can reach, as `tools/write_reference.py` finds it: each function, type, trait, constant and law that a crate
exports, each method of such a type or trait, and each variant of such an enum. An item that a crate re-exports belongs to the crate
that it comes from.
An example is a line of the doc comment that begins with `Example`.

The status is 1 if an item is listed, 2 if a word names no crate, and else 0.
"""
import re
import sys

sys.dont_write_bytecode = True

from write_reference import ROOT, crates, public


def commented(crate):
    """The public items of a crate and the variants of its enums: the file, the full name, and the lines of the doc comment of each."""
    for item in public(crate):
        yield item.file, item.full(), item.docs
        docs = []
        for line in item.code[1:-1] if item.kind == "enum" else []:
            variant = re.match(r"    ([A-Z]\w*)", line)
            if line.startswith("    ///"):
                docs.append(line[7:].strip())
            elif variant:
                yield item.file, f"{item.name}::{variant[1]}", docs
                docs = []


def main(words):
    if "--help" in words or "-h" in words:
        print(__doc__, end="")
        return 0
    every = crates()
    for word in words:
        if word not in every:
            print(f"check_items: there is no library crate {word!r}", file=sys.stderr)
            return 2
    chosen = words or every
    items = [it for crate in chosen for it in commented(crate)]
    lacking = [(file, name, docs) for file, name, docs in items if not any(line.startswith("Example") for line in docs)]
    for file, name, docs in lacking:
        print(f"{file.relative_to(ROOT)}: {name} has no {'example' if docs else 'doc comment'}")
    print(f"{len(items)} public items of {len(chosen)} crates, {len(lacking)} of them without a doc comment or an example")
    return 1 if lacking else 0


if __name__ == "__main__":
    sys.exit(main(sys.argv[1:]))
