#!/usr/bin/env python3
"""Writes `docs/reference/api` from the sources: every public item with its doc comment and its contract, the laws, and the definitions.

    python3 tools/write_reference.py           writes the pages anew, and takes away pages whose sources are gone
    python3 tools/write_reference.py --lack    names each public item without a doc comment, and ends with status 1 if there is one

It reads the library crates: those that crates.txt lists with a name that begins with `pybuf`, except for the program. It needs no toolchain, and
takes a few seconds. `tools/check_documents.py` compares the stored pages with what it writes.

- `README.md` has the contents, `names.md` an index of all names, `laws.md` the laws, and `definitions.md` the files of definitions.
- Each crate has a page. An item stands there with its signature, its contract, and the laws that name it: those whose comment names it,
  or whose statement cites a definition that its contract cites. A definition that more than `COMMON` laws cite doesn't count.
"""
import pathlib
import re
import sys

ROOT = pathlib.Path(__file__).resolve().parent.parent
FOLDER = ROOT / "docs/reference/api"
COMMON = 8
ITEM = re.compile(r'( *)(pub )?((?:const |unsafe |extern "C" )*fn|struct|enum|trait|type|const) (\w+)')
WORD = re.compile(r"[^\W\d]\w*")
# A name of a definition in a clause. It is neither a field nor a module before a name.
CITED = re.compile(r"(?<![.\w])[^\W\d]\w*(?![.\w])")


def crates():
    """The library crates, in the order of `crates.txt`."""
    found = []
    for line in (ROOT / "crates.txt").read_text().split("\n"):
        name = line.partition(":")[0].split()
        if ":" in line and not line.startswith("#") and name[0].startswith("pybuf") and name[0] != "pybuf_program":
            found.append(name[0])
    return found


class Item:
    def __init__(self, crate, file, line, owner, kind, name, docs, code):
        self.crate, self.file, self.line, self.owner, self.kind, self.name, self.docs, self.code = crate, file, line, owner, kind, name, docs, code
        self.laws = []

    def full(self):
        return f"{self.owner}::{self.name}" if self.owner else self.name

    def is_law(self):
        return self.file.name == "laws.rt" and self.kind == "fn" and re.search(rf"fn {self.name}(?:<.*>)?\(\)", self.code[0]) is not None

    def contract(self):
        return "\n".join(line for line in self.code if re.match(r"\s*(requires|ensures)\b", line))


def block_of(lines, at, indent, kind):
    """The lines of an item. A function has them up to its body, and anything else has all of them."""
    taken, clauses = [], False
    for line in lines[at:]:
        bare = line.strip()
        if kind == "fn":
            if line.startswith(indent + "{") and taken:
                return taken
            clauses = clauses or re.match(r"\s*(requires|ensures|decreases)\b", line) is not None
            if not clauses and bare.endswith("{"):
                return [*taken, line.rstrip()[:-1].rstrip()]
            if not clauses and bare.endswith("{}"):
                return [*taken, line.rstrip()[:-2].rstrip()]
            taken.append(line)
            if bare.endswith(";"):
                return taken
        else:
            taken.append(line)
            if line == indent + "}" or bare.endswith((";", "{}")):
                return taken
    return taken


def own_part(code, kind):
    """The part of a type that is shown, which has no private field."""
    if kind != "struct":
        return code
    shown = [line for line in code[1:-1] if re.match(r"\s*(pub |///)", line) or line.strip() in ("", "}")]
    while shown and shown[-1].strip().startswith("///"):
        shown.pop()
    kept = []
    for number, line in enumerate(shown):
        # a comment of a field that isn't shown
        rest = [it for it in shown[number:] if not it.strip().startswith("///")]
        if line.strip().startswith("///") and not (rest and rest[0].strip().startswith("pub ")):
            continue
        kept.append(line)
    return [code[0], *kept, code[-1]] if len(code) > 1 else code


def items_of(crate):
    """All public items of a crate by file, whether their names are exported or not."""
    found = []
    for file in sorted((ROOT / "crates" / crate / "src").glob("**/*.rt")):
        lines = file.read_text().split("\n")
        owner, is_trait, docs, skip = None, False, [], False
        for at, line in enumerate(lines):
            if not line.startswith(" ") and line.strip():
                head = re.match(r"(?:unsafe )?impl(?:<.*?>)? (?:.* for )?(?:&(?:'\w+ )?(?:mut )?)?(\w+)", line)
                opened = re.match(r"(?:pub )?trait (\w+)", line)
                if head or opened:
                    owner = (opened or head)[1]
                    is_trait = opened is not None and line.startswith("pub ")
                    skip = head is not None and re.search(r" for ", line) is not None
                elif line.startswith("}"):
                    owner, is_trait, skip = None, False, False
            bare = line.strip()
            if bare.startswith("///"):
                docs.append(bare[3:].removeprefix(" "))
                continue
            if bare.startswith(("#[", "//")):
                continue
            item = ITEM.match(line)
            inside = line.startswith("    ") and not line.startswith("     ")
            if item and (item[2] or (is_trait and inside and item[3] == "fn")) and not skip and (inside or not line.startswith(" ")):
                kind = item[3].split()[-1]
                code = own_part(block_of(lines, at, item[1], kind), kind)
                indent = len(item[1])
                code = [it[indent:] if it[:indent].strip() == "" else it for it in code]
                if kind == "trait":
                    code = [code[0].rstrip("{ ").rstrip()]
                found.append(Item(crate, file, at + 1, owner if inside else None, kind, item[4], docs, code))
            docs = []
    return found


def exported(crate):
    """What a crate exports: the names that `pub use` and `pub mod` have in its root file, and files of public modules."""
    text = (ROOT / "crates" / crate / "src/lib.rt").read_text()
    names = set()
    for used in re.findall(r"^pub use ([^;]+);", text, re.MULTILINE):
        names.update(WORD.findall(used))
    return names, set(re.findall(r"^pub mod (\w+);", text, re.MULTILINE))


def public(crate):
    """The items of a crate that a caller can reach."""
    names, modules = exported(crate)
    kept = []
    every = items_of(crate)
    for item in every:
        top = item.owner or item.name
        module = item.file.relative_to(ROOT / "crates" / crate / "src").parts[0].removesuffix(".rt")
        if top in names or module in modules or item.file.name == "lib.rt":
            kept.append(item)
    return kept


def definitions_of(crate):
    """The files of definitions of a crate: the comment at the head of each, and the names that it defines with their texts."""
    found = []
    for file in sorted((ROOT / "crates" / crate / "specs").glob("*.antt")):
        if file.name == "Lib.antt":
            continue
        lines = file.read_text().split("\n")
        head = []
        for line in lines:
            if not line.startswith("--"):
                break
            head.append(line[2:].strip())
        names = {}
        name = None
        for line in lines:
            opened = re.match(r"(?:abbrev |unfoldable |record |data )*pub (?:record |data |abbrev )?([^\s:]+)", line)
            if opened and not line.startswith(" "):
                name = opened[1]
                names[name] = line
            elif name is not None and (line.startswith(" ") or line.startswith(name)):
                names[name] += "\n" + line
            elif not line.strip() or line.startswith("--"):
                name = None
        found.append((file, " ".join(head), names))
    return found


def imported(start):
    """A file of definitions, and those that it imports, directly or through others."""
    found, waiting = set(), [start]
    while waiting:
        path = waiting.pop()
        if path in found:
            continue
        found.add(path)
        for crate, name in re.findall(r"^use Rattle\.(\w+)\.specs\.(\w+)", path.read_text(), re.MULTILINE):
            other = ROOT / "crates" / crate / "specs" / f"{name}.antt"
            if other.exists():
                waiting.append(other)
    return found


def anchor(heading):
    """The name by which a heading is linked."""
    return re.sub(r"[^\w\- ]", "", heading.lower()).replace(" ", "-")


def sentence(docs):
    """The first sentence of a comment."""
    text = " ".join(docs).strip()
    found = re.match(r"(.*?[.:!?])(?: |$)", text)
    return (found[1] if found else text).rstrip(":")


def headings(items):
    """The heading of each item. No heading stands twice on a page."""
    seen, found = {}, {}
    for item in items:
        name = item.full()
        seen[name] = seen.get(name, 0) + 1
        found[item] = name if seen[name] == 1 else f"{name} ({item.file.stem})"
    return found


def link_laws(items, laws, texts):
    """Gives each item the laws that name it."""
    cited, used = {}, {}
    for law in laws:
        words, waiting = set(), set(CITED.findall(law.contract()))
        # the statement itself, and what it unfolds to one step further
        for word in waiting:
            words.add(word)
            words.update(CITED.findall(texts.get(word, "")))
        cited[law] = {word for word in words if word in texts}
        for word in cited[law]:
            used[word] = used.get(word, 0) + 1
    for item in items:
        if item.is_law() or item.kind != "fn":
            continue
        words = set(CITED.findall(item.contract()))
        for law in laws:
            told = set(re.findall(r"`([\w:]+)`", " ".join(law.docs)))
            named = item.full() in told or (item.name in told and len(item.name) > 6)
            if named or any(word in words and used[word] <= COMMON for word in cited[law]):
                item.laws.append(law)


def code_of(item):
    return ["```text", *[line.rstrip() for line in item.code], "```"]


def file_of(item):
    return str(item.file.relative_to(ROOT))


def page_of(crate, items, files, heads):
    """The page of a crate."""
    root = (ROOT / "crates" / crate / "src/lib.rt").read_text().split("\n")
    told = [line[3:].strip() for line in root if line.startswith("//!")]
    lines = [f"# `{crate}`", "", "For whoever calls this crate. `tools/write_reference.py` writes this page from its sources.", "", " ".join(told), ""]
    types = [it for it in items if it.owner is None and it.kind != "fn"]
    free = [it for it in items if it.owner is None and it.kind == "fn" and not it.is_law()]
    laws = [it for it in items if it.is_law()]
    groups = [("Types", types), ("Functions", free), ("Laws", laws)]
    methods = {}
    for item in items:
        if item.owner is not None:
            methods.setdefault(item.owner, []).append(item)
    lines += ["## Contents", ""]
    for title, group in groups:
        for item in group:
            lines.append(f"- [`{heads[item]}`](#{anchor(heads[item])}): {sentence(item.docs) or item.kind}")
            for method in methods.get(item.name, []) if title == "Types" else []:
                lines.append(f"  - [`{method.name}`](#{anchor(heads[method])}): {sentence(method.docs)}")
    strangers = [it for name, group in methods.items() for it in group if name not in {type.name for type in types}]
    for method in strangers:
        lines.append(f"- [`{heads[method]}`](#{anchor(heads[method])}): {sentence(method.docs)}")
    if not items:
        used = re.findall(r"^pub use (\w+)::(\w+);", "\n".join(root), re.MULTILINE)
        lines += ["It has no item of its own. A user imports this crate, and finds here what the crates below it have:", ""]
        for other in sorted({crate for crate, _ in used}, key=[crate for crate, _ in used].index):
            shared = ", ".join(f"`{name}`" for crate, name in used if crate == other)
            lines.append(f"- of [`{other}`]({other}.md): {shared}")
    lines.append("")

    def add(item, level):
        lines.extend([f"{level} `{heads[item]}`", ""])
        if item.docs:
            lines.extend([*item.docs, ""])
        lines.extend([*code_of(item), ""])
        if item.laws:
            names = ", ".join(f"[`{law.name}`](laws.md#{anchor(law.heading)})" for law in item.laws)
            lines.extend([f"Laws: {names}.", ""])

    for title, group in groups:
        if not group:
            continue
        lines.extend([f"## {title}", ""])
        for item in group:
            add(item, "###")
            if title == "Types":
                for method in methods.get(item.name, []):
                    add(method, "####")
    if strangers:
        lines.extend(["## Methods of types of other crates", ""])
        for item in strangers:
            add(item, "###")
    if files:
        lines.extend(["## Definitions", "", f"[definitions.md](definitions.md#{anchor(crate)}) says what each file defines.", ""])
        for file, _, _ in files:
            lines.append(f"- `{file.relative_to(ROOT)}`")
        lines.append("")
    return "\n".join(lines).rstrip("\n") + "\n"


def pages():
    """The pages by their names."""
    names = crates()
    items = {crate: public(crate) for crate in names}
    files = {crate: definitions_of(crate) for crate in names}
    texts = {name: text for crate in names for _, _, known in files[crate] for name, text in known.items()}
    every = [item for crate in names for item in items[crate]]
    laws = [item for item in every if item.is_law()]
    names_of_laws = [law.name for law in laws]
    for law in laws:
        law.heading = law.name if names_of_laws.count(law.name) == 1 else f"{law.name} ({law.crate})"
    link_laws(every, laws, texts)
    found = {}
    heads = {}
    for crate in names:
        heads[crate] = headings(items[crate])
        found[f"{crate}.md"] = page_of(crate, items[crate], files[crate], heads[crate])

    lines = ["# Reference of the library", "", "For whoever looks a name up. `tools/write_reference.py` writes these pages from the sources.", ""]
    lines += [
        f"They have {len(every) - len(laws)} public items with their contracts, and {len(laws)} laws. [names.md](names.md) is an index of all names,"
        " [laws.md](laws.md) has the laws, and [definitions.md](definitions.md) the files of definitions that contracts cite."
        " [How to read a clause](../../explain/proved.md#how-to-read-a-clause) explains the notation.",
        "",
        "| Crate | What it has |",
        "|---|---|",
    ]
    for crate in names:
        root = (ROOT / "crates" / crate / "src/lib.rt").read_text().split("\n")
        told = " ".join(line[3:].strip() for line in root if line.startswith("//!"))
        lines.append(f"| [`{crate}`]({crate}.md) | {sentence([told])} |")
    found["README.md"] = "\n".join(lines) + "\n"

    lines = ["# Index of names", "", "For whoever knows a name. Each public item of the library crates, with the crate that has it.", ""]
    letter = None
    for item in sorted(every, key=lambda it: (it.name.lower(), it.full(), it.crate)):
        if item.name[0].upper() != letter:
            letter = item.name[0].upper()
            lines += ["", f"## {letter}", ""]
        lines.append(f"- [`{item.full()}`]({item.crate}.md#{anchor(heads[item.crate][item])}), `{item.crate}`")
    found["names.md"] = re.sub(r"\n{3,}", "\n\n", "\n".join(lines)) + "\n"

    lines = [
        "# Laws",
        "",
        "For whoever wants to rely on a fact. A law is a public function that takes nothing and does nothing: its contract states the fact.",
        "A body that calls it may use the fact. Each law stands with its statement, as its crate defines it.",
        "",
        "## Contents",
        "",
    ]
    for crate in names:
        own = [it for it in items[crate] if it.is_law()]
        if own:
            lines.append(f"- `{crate}`: " + ", ".join(f"[`{it.name}`](#{anchor(it.heading)})" for it in own))
    lines.append("")
    for crate in names:
        own = [it for it in items[crate] if it.is_law()]
        if not own:
            continue
        lines += [f"## Laws of `{crate}`", ""]
        for law in own:
            head = f"`{law.name}`" + (f" ({law.crate})" if law.heading != law.name else "")
            lines += [f"### {head}", "", *law.docs, ""]
            stated = [texts[word] for word in WORD.findall(law.contract().partition("ensures")[2]) if word in texts]
            lines += ["```text", *law.code, ""]
            for text in stated:
                lines += [line.rstrip() for line in text.split("\n")]
            lines += ["```", ""]
    found["laws.md"] = "\n".join(lines).rstrip("\n") + "\n"

    cited = imported(ROOT / "crates/pybuf_cli/specs/Serving.antt")
    lines = [
        "# Definitions",
        "",
        "For whoever wants to know what a contract cites. Each file of definitions stands with the comment at its head, and the names that it defines.",
        "A file with a star is cited by the contract of `serve`, the one call that the program makes, itself or through others:"
        f" there are {len(cited)} of these, and they are what you have to believe of the program. [Which definitions you have to believe](../../explain/proved.md#which-definitions-you-have-to-believe) says in which order to read them.",
        "",
    ]
    for crate in names:
        if files[crate]:
            lines += [f"## `{crate}`", ""]
            for file, head, known in files[crate]:
                star = " \\*" if file in cited else ""
                lines.append(f"- `{file.relative_to(ROOT)}`{star}: {head} Defines " + (", ".join(f"`{name}`" for name in known) or "nothing public") + ".")
            lines.append("")
    found["definitions.md"] = "\n".join(lines).rstrip("\n") + "\n"
    return found


def main(words):
    if words == ["--lack"]:
        lacking = [item for crate in crates() for item in public(crate) if not item.docs]
        for item in lacking:
            print(f"{file_of(item)}:{item.line}: {item.full()} has no doc comment")
        return 1 if lacking else 0
    written = pages()
    FOLDER.mkdir(parents=True, exist_ok=True)
    for path in FOLDER.glob("*.md"):
        if path.name not in written:
            path.unlink()
    for name, text in written.items():
        (FOLDER / name).write_text(text)
    print(f"{len(written)} pages in docs/reference/api")
    return 0


if __name__ == "__main__":
    sys.exit(main(sys.argv[1:]))
